/* The IMSI of a Create: every pair of its sixteen half octets with every pair of values, the others as in a
 * good one. Each call is compared with the reading. Besides, and without the reading, it is counted how many
 * are accepted: those whose pair is two digits, or a digit and the filler. */
#include "trial.h"
#include <stdio.h>

/* HALVES: half octets, of which the last is the filler F; VALUES of each; AT: where the IMSI stands */
enum { HALVES = 16, VALUES = 16, AT = 16, WRONG = 69 };

/* the low half of each octet first */
static void put_half(int half, unsigned value) {
  uint8_t *both = &lent.datagram[AT + half / 2];
  *both = (uint8_t)(half % 2 ? (*both & 15) | value << 4 : (*both & 240) | value);
}

int imsi_pairs(void) {
  unsigned long accepted = 0, wrong = 0;
  message_to_fresh(create_hex, GRUGAVORN_PLACES);
  static arena table;
  table = lent;
  for (int a = 0; a < HALVES; a++)
    for (int b = a + 1; b < HALVES; b++)
      for (unsigned pair = 0; pair < VALUES * VALUES; pair++) {
        snprintf(about, sizeof about, " (half %d is %X, half %d is %X)", a + 1, pair / VALUES, b + 1,
                 pair % VALUES);
        lent = table;
        put_half(a, pair / VALUES);
        put_half(b, pair % VALUES);
        unsigned number = control_compared().number;
        accepted += number == 0;
        wrong += number == WRONG;
      }
  unsigned long two_digits = (HALVES - 1) * (HALVES - 2) / 2 * 10 * 10, with_filler = (HALVES - 1) * 10;
  if (accepted != two_digits + with_filler || accepted + wrong != turn) {
    printf("imsi: of %lu Creates %lu are accepted and %lu wrong; not %lu and all the others\n", turn,
           accepted, wrong, two_digits + with_filler);
    return 1;
  }
  printf("imsi: all pairs of half octets with all their values, %lu Creates: %lu accepted, %lu wrong, all as "
         "the reading has them\n",
         turn, accepted, wrong);
  return 0;
}
