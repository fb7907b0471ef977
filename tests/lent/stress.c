/* The library against the reading, call by call, on made-up tables, plans, counts, datagrams and buffers,
 * sound and broken.
 *   stress SEED CALLS       compares that many calls; the first difference ends it
 *   stress SEED CALLS down  makes packets from the carrier's side of most calls, and counts these alone
 *   stress recovery         compares all pairs of a stored and a received Recovery instead (recovery.c)
 *   stress imsi             all pairs of the half octets of an IMSI, likewise (imsi.c)
 *   stress store            the store's rules, each octet and each pair of rows, and requests that are asked
 *                           again, likewise (rows.c, kept.c)
 *   stress cost CALL COUNT  makes a table of all places live and then COUNT calls of one kind, for
 *                           counting instructions
 * Each side works in an arena of its own, with octets of no meaning around every buffer; a packet from the
 * carrier's side and its output buffer, which may be long, lie beside the arena, likewise. After a call
 * answer and node are compared field by field, the places that may have changed too (and outside them no
 * octet of a record may differ from before), reply, datagram, store and what stands around them octet by
 * octet, and the records field by field; a silent refusal has to leave records and store as they were, and
 * no record and no row past the count may change, octet by octet, what is between the fields included. A call
 * with the right counts of records and rows is made once more on a unit, by the header's calls for it, and
 * has to come to the same. The library runs on stacks of its own, one a call, so that the deepest use of each
 * is known at the end. */
#include "trial.h"
#include <stdio.h>
#include <stdlib.h>
#include <string.h>

/* whether most calls are to be packets from the carrier's side */
static int mostly_down;

/* whether most ticks of this run are left out, so that the store fills up */
static int few_ticks;

/* how often the library took a Recovery for that of an exchange that restarted */
static unsigned long restarts;

static void fresh(size_t count, size_t rows) {
  grugavorn_plan p = some_plan();
  if (one_in(4))
    break_plan(&p);
  job.plan = p;
  node = both(FRESH, count, rows, 0, 0).node;
}

/* A table, a store or a buffer that is not as it should be, or may not be. */
static void disturb(size_t *count, size_t *rows, size_t *room) {
  if (!one_in(3))
    for (unsigned n = 1 + below(2); n > 0; n--)
      break_table();
  if (one_in(4))
    *count = below(ROOM + 1);
  if (one_in(4))
    *rows = below(ROWS + 1);
  if (one_in(4))
    *room = below(BUFFER + 1);
  for (size_t i = 0; i < sizeof lent.reply; i++)
    lent.reply[i] = (uint8_t)chance();
}

/* The call that a number below 112 stands for, and what comes to it. */
static int some_call(unsigned pick) {
  static const unsigned kinds[] = { 32, 32,  32,  32,  32, 32, 34,    34,    36,    1,     2,
                                    2,  100, 100, 100, 3,  0,  AGAIN, AGAIN, AGAIN, AGAIN, AGAIN };
  int call = pick < 58    ? CONTROL
             : pick < 72  ? USER
             : pick < 78  ? TICK
             : pick < 89  ? SEND
             : pick < 95  ? LINE
             : pick < 100 ? CLOSE
                          : DOWN;
  if (call == CONTROL)
    control_datagram(kinds[below(sizeof kinds / sizeof *kinds)]);
  else if (call == USER)
    user_datagram();
  else if (call == DOWN)
    some_packet();
  return call;
}

static void step(void) {
  arena was = lent;
  grugavorn_node node_was = node;
  int disturbed = one_in(7), other_store = one_in(7);
  size_t count = GRUGAVORN_PLACES, rows = GRUGAVORN_KEPT;
  size_t room = GRUGAVORN_REPLY + (one_in(2) ? 0 : below(BUFFER - GRUGAVORN_REPLY + 1));
  unsigned pick = mostly_down && !one_in(10) ? 100 : below(112);
  unsigned place = one_in(9) ? chance() >> below(32)
                             : (unsigned)some_place(one_in(3) ? GRUGAVORN_CLOSING : GRUGAVORN_LIVE);
  if (other_store)
    some_store();
  if (few_ticks && pick >= 72 && pick < 78 && !one_in(6))
    pick = below(58);
  int call = some_call(pick);
  if (one_in(6))
    damage(call == CONTROL ? 4 : 8);
  if (other_store && one_in(2))
    break_store();
  if (disturbed)
    disturb(&count, &rows, &room);
  grugavorn_left a = both(call, count, rows, room, place);
  restarts += node.heard != 0 && a.node.recovery != node.recovery;
  node = a.node;
  if (disturbed || other_store) {
    lent = was;
    node = node_was;
  }
}

/* the calls that are counted: all, or the packets from the carrier's side */
static unsigned long counted(int down) {
  unsigned long all = 0;
  for (int i = 0; down && i < 256; i++)
    all += met[DOWN][i];
  return down ? all : turn;
}

/* Runs of calls, each from a fresh table on. Where packets from the carrier's side count, the first calls of
 * a run open sessions for them. */
static void run_all(unsigned long calls, int down) {
  enum { OPENING = 150 };

  while (counted(down) < calls) {
    mostly_down = 0;
    few_ticks = one_in(2);
    fresh(one_in(9) ? below(ROOM + 1) : GRUGAVORN_PLACES, one_in(9) ? below(ROWS + 1) : GRUGAVORN_KEPT);
    turn++;
    if (one_in(3))
      age();
    if (one_in(3))
      some_store();
    unsigned long run = node.plan.count == 0 ? below(5) : one_in(3) ? below(40) : below(3000);
    if (down && run > 4)
      run += OPENING;
    for (unsigned long i = 0; i < run && counted(down) < calls; i++, turn++) {
      mostly_down = down && i >= OPENING;
      step();
    }
  }
}

static void print_met(void) {
  for (int c = 0; c < CALLS; c++) {
    printf("%-8s", names[c]);
    for (int i = 0; i < 256; i++)
      if (met[c][i])
        printf(" %d:%lu", i, met[c][i]);
    puts("");
  }
  printf("written down to live sessions %lu, to closing ones %lu\n", written_to[GRUGAVORN_LIVE],
         written_to[GRUGAVORN_CLOSING]);
  printf("Recovery values made: %lu first, %lu stored, %lu ahead, %lu late; %lu restarts\n",
         values_made[FIRST], values_made[STORED], values_made[AHEAD], values_made[BEHIND], restarts);
  printf("store: %lu answered from it, %lu replies kept, %lu lost for another; dropped in %lu ticks, emptied "
         "by %lu restarts\n",
         store_met[ANSWERED], store_met[KEPT], store_met[LOST], store_met[DROPPED], store_met[EMPTIED]);
  printf("stack   ");
  for (int c = 0; c < CALLS; c++)
    printf(" %s:%ld", names[c], deepest(c) - deepest(CALLS));
  puts("");
}

/* a number that never came, or -1 */
static int never_met(void) {
  static const uint8_t numbers[] = { 0,  1,  2,  3,  4,  5,  6,  7,  8,  9,  10, 12, 13, 14,
                                     15, 16, 17, 18, 19, 20, 64, 67, 69, 70, 73, 78, 83 };
  for (size_t i = 0; i < sizeof numbers; i++) {
    unsigned long all = 0;
    for (int c = 0; c < CALLS; c++)
      all += met[c][numbers[i]];
    if (all == 0)
      return numbers[i];
  }
  return -1;
}

static int store_by_hand(void) {
  return store_rules() || asked_again();
}

int main(int argc, char **argv) {
  if (argc == 4 && strcmp(argv[1], "cost") == 0)
    return cost(argv[2], atoi(argv[3]));
  int (*pairs)(void) = argc != 2                          ? NULL
                       : strcmp(argv[1], "recovery") == 0 ? recovery_pairs
                       : strcmp(argv[1], "imsi") == 0     ? imsi_pairs
                       : strcmp(argv[1], "store") == 0    ? store_by_hand
                                                          : NULL;
  seed = argc > 1 ? strtoull(argv[1], 0, 10) * 2 + 1 : 1;
  unsigned long calls = argc > 2 ? strtoul(argv[2], 0, 10) : 1000000;
  int down = argc > 3 && strcmp(argv[3], "down") == 0;
  for (size_t i = 0; i < sizeof lent; i++)
    ((uint8_t *)&lent)[i] = (uint8_t)chance();
  set_stacks();
  if (pairs != NULL)
    return pairs();
  run_all(calls, down);
  print_met();
  if (calls >= 100000 && never_met() >= 0) {
    printf("lent: number %d was never met: the trial says too little\n", never_met());
    return 1;
  }
  if (calls >= 100000 && (written_to[GRUGAVORN_LIVE] == 0 || written_to[GRUGAVORN_CLOSING] == 0)) {
    puts("lent: no packet went down to a live or to a closing session: the trial says too little");
    return 1;
  }
  if (calls >= 100000 && (restarts == 0 || values_made[BEHIND] == 0)) {
    puts("lent: no Recovery was late, or none was a restart: the trial says too little");
    return 1;
  }
  for (int i = 0; i < EVENTS; i++)
    if (calls >= 100000 && store_met[i] == 0) {
      puts("lent: no reply was answered from the store, kept, lost, dropped or emptied: the trial says too "
           "little");
      return 1;
    }
  printf("lent: %lu calls, %lu packets from the carrier's side among them, all as the reading has them\n",
         turn, counted(1));
  return 0;
}
