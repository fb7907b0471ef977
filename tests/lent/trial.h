/* What the parts of the trial share: the library's calls on stacks of their own (stacks.c), a call on both
 * sides (sides.c) and what has to be equal after it (compare.c), all pairs of Recovery values (recovery.c)
 * and of the half octets of an IMSI (imsi.c, both with pairs.c), the store by hand (rows.c, kept.c), and
 * calls for counting instructions (cost.c). */
#ifndef TRIAL_H
#define TRIAL_H
#include "made.h"

/* the calls */
enum { FRESH, CONTROL, USER, TICK, SEND, CLOSE, LINE, DOWN, CALLS };

extern const char *const names[CALLS];

/* ---- stacks.c: one call of the library, its arguments and what it answered */
typedef struct {
  grugavorn_plan plan;
  grugavorn_session *records;
  grugavorn_kept *store;
  size_t count, rows, length, room, place;
  const uint8_t *datagram;
  uint8_t *reply;
  grugavorn_left left;
  grugavorn_handed handed;
  grugavorn_written written;
} job_t;

extern job_t job;

void set_stacks(void);

/* makes a call on `lent`, `node` and, for downlink, `ends_lent` */
grugavorn_left run_on(int call, size_t count, size_t rows, size_t room, size_t place);

/* the most that a call had of its stack, in octets; of a call that does nothing for CALLS */
long deepest(int call);

/* ---- sides.c: the same, on the reading's side too, and compared; `node` is as before, the answer has the
 * one to keep */
grugavorn_left both(int call, size_t count, size_t rows, size_t room, size_t place);

/* ---- compare.c: the arena and the ends as they were before the call, and those of the reading's side */
extern arena before, read_;
extern ends ends_before, ends_read;

/* how many calls were made, and how often each number came */
extern unsigned long turn, met[CALLS][256];

/* how many packets were written down to a session in that state */
extern unsigned long written_to[GRUGAVORN_CLOSING + 1];

/* how often a request was answered from the store, a reply was kept, one was lost for it, a tick dropped one,
 * a restart emptied the store */
enum { ANSWERED, KEPT, LOST, DROPPED, EMPTIED, EVENTS };

extern unsigned long store_met[EVENTS];

/* what a call is about, where its number does not tell */
extern char about[100];

int same_node(const grugavorn_node *a, const grugavorn_node *b);
int same_record(const grugavorn_session *a, const grugavorn_session *b);

/* Prints what differs, and ends the trial. */
_Noreturn void differ(const char *what, int call, unsigned number, unsigned other);

/* Compares the library's answer with the reading's, and all that the two were lent; `kept` says that no
 * record and no row may change. */
void compare(int call, const grugavorn_left *a, const grugavorn_left *b, size_t count, size_t rows, int kept);
void compare_down(const grugavorn_written *a, const grugavorn_written *b, size_t count, size_t rows);

/* ---- pairs.c: a Create for the access point "data", with a Recovery of 0 at its end; puts a message in hex
 * into `lent`, and makes the unit that it comes to, fresh and with that access point alone; makes the first
 * places live, place k in its use k + 1, with EBI 5 and a peer whose TEIDs are 0x100 + k; and takes what is
 * in `lent`, on both sides, with what has to be equal compared */
extern const char create_hex[];

void put_message(const char *hex);
void message_to_fresh(const char *hex, unsigned ceiling);
void live_sessions(int count);
grugavorn_left control_compared(void);

/* ---- recovery.c: all pairs of a stored and a received Recovery; 0 where all is as the paper has it */
int recovery_pairs(void);

/* ---- imsi.c: all pairs of the half octets of an IMSI with all their values; 0 likewise */
int imsi_pairs(void);

/* ---- rows.c, kept.c: the store's rules, octet by octet and pair by pair; requests that are asked again; 0
 * where all is as the paper has it */
int store_rules(void);
int asked_again(void);

/* ---- cost.c: makes a table of all places live and then so many calls of one kind */
int cost(const char *call, int count);
#endif
