/* The plain implementation that the library is measured against: the reading of the papers with the quick
 * rules of rules.c, as one piece, so that the compiler sees all of it, as it does of a program written for
 * speed in one file. */
#define READING_PART static
#include "../reading/user.c"
#include "../reading/control.c"
#include "../reading/messages.c"
#include "../reading/table.c"
#include "rules.c"
#include "../reading/store.c"
#include "../reading/calls.c"
#include "../reading/down.c"
