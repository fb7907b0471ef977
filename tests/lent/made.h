/* What the trial makes up: plans and tables (made.c), stores (stores.c), datagrams (datagrams.c) and packets
 * from the carrier's side (packets.c), sound and broken, for the calls of stress.c. */
#ifndef MADE_H
#define MADE_H
#include "../reading/reading.h"

/* records, rows and octets that a side has, and the octets of no meaning around each buffer */
enum { ROOM = GRUGAVORN_PLACES + 16, ROWS = GRUGAVORN_KEPT + 8, MOST = 640, BUFFER = 256, AROUND = 64 };

/* what one side works on */
typedef struct {
  uint8_t a[AROUND];
  grugavorn_session records[ROOM];
  uint8_t b[AROUND];
  uint8_t datagram[MOST];
  uint8_t c[AROUND];
  uint8_t reply[BUFFER];
  uint8_t d[AROUND];
  grugavorn_kept store[ROWS];
  uint8_t e[AROUND];
} arena;

/* the library's side, and the node and the length of the datagram, which both sides have */
extern arena lent;
extern grugavorn_node node;
extern size_t length;

/* chance, from a seed: 32 bits of it, a number below n, once in n */
extern uint64_t seed;
uint32_t chance(void);
uint32_t below(uint32_t n);
int one_in(uint32_t n);

/* a plan within its limits; one that may break one */
grugavorn_plan some_plan(void);
void break_plan(grugavorn_plan *p);

/* a place whose record is in that state, taken at all, or awaits a reply; any where there is none */
enum { TAKEN = GRUGAVORN_CLOSING + 1, AWAITED };

int some_place(int kind);

/* A control datagram of a type (0: octets of no meaning; AGAIN: an earlier Modify or Delete, or one that a
 * row of the store was kept for) and a user datagram, into `lent`; and damage to what stands there, `less`
 * being what its length leaves out. */
enum { AGAIN = 256 };

void control_datagram(unsigned type);
void user_datagram(void);
void damage(unsigned less);

/* how many Recovery values were made: with none stored, the stored one, ones ahead of it, ones behind it */
enum { FIRST, STORED, AHEAD, BEHIND };

extern unsigned long values_made[BEHIND + 1];

/* A packet from the carrier's side and the output buffer for it, of one side, each with octets of no meaning
 * before and behind it; of the arrays only what lies before packet_end and out_end is looked at. */
enum { LONGEST = 70000, SPAN = LONGEST + 512 };

typedef struct {
  uint8_t in[SPAN];
  uint8_t out[SPAN];
} ends;

/* the library's side, and the sizes of packet and output buffer, which both sides have */
extern ends ends_lent;
extern size_t packet_size, out_size;

/* makes them up */
void some_packet(void);

uint8_t *packet_of(ends *e);
uint8_t *out_of(ends *e);
size_t packet_end(void);
size_t out_end(void);
void copy_ends(ends *to, const ends *from);
int same_ends(const ends *a, const ends *b);

/* a table that breaks a rule, or may; places that were used before, and numbers about to go round */
void break_table(void);
void age(void);

/* a store that keeps its rules, with used rows anywhere; one that breaks one, or may; a used row, or any
 * where there is none */
void some_store(void);
void break_store(void);
grugavorn_kept *some_row(void);
#endif
