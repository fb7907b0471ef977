/* Requests that are asked again, by hand: each call is compared with the reading, and what has to come of it
 * is also said here, as document 02 has it (4/14). The rules of the store have rows.c. */
#include "trial.h"
#include <stdio.h>
#include <stdlib.h>
#include <string.h>

typedef grugavorn_kept kept;

enum { MODIFY = 34, DELETE = 36, PLACES = GRUGAVORN_PLACES, HEAD = 12 };

static void must(int holds, const char *what, unsigned a, unsigned b) {
  if (holds)
    return;
  printf("store: %s (%u, %u)\n", what, a, b);
  exit(1);
}

/* a unit with so many live sessions and no kept reply */
static void start(int sessions) {
  message_to_fresh(create_hex, PLACES);
  live_sessions(sessions);
}

/* the control TEID of a live session */
static uint32_t teid_of(int place) {
  return lent.records[place].usage * 256 + (unsigned)place;
}

/* A Modify or Delete with these fields, in hex; then the call, whose node is kept. */
static grugavorn_left taken(void) {
  grugavorn_left a = control_compared();
  node = a.node;
  return a;
}

static void request(unsigned type, uint32_t teid, uint32_t sequence, const char *fields) {
  char hex[200];
  unsigned size = 8 + (unsigned)strlen(fields) / 2;
  snprintf(hex, sizeof hex, "48%02X%04X%08X%06X00%s", type, size, (unsigned)teid, (unsigned)sequence, fields);
  put_message(hex);
}

static grugavorn_left ask(unsigned type, uint32_t teid, uint32_t sequence, const char *fields) {
  request(type, teid, sequence, fields);
  return taken();
}

static void tick(void) {
  node = both(TICK, PLACES, GRUGAVORN_KEPT, 0, 0).node;
  turn++;
}

/* whether the last call was answered from the store: nothing changed, not even a life */
static int from_store(const grugavorn_left *a) {
  return a->from == 0 && a->to == 0 && memcmp(lent.store, before.store, sizeof lent.store) == 0
         && memcmp(lent.records, before.records, sizeof lent.records) == 0;
}

/* ---- asked again after so many ticks: there after nine, not after ten */
typedef struct {
  unsigned type, number, size, afresh; /* afresh: the number when it is answered from the table once more */
  int live;
  const char *fields;
} asking;

static const asking askings[] = {
  { MODIFY, 0, 18, 0, 1, "" },
  { MODIFY, 0, 18, 0, 1, "5700090086000033330A010077" },
  { MODIFY, 0, 33, 0, 1, "5D0005004900010005" },
  { MODIFY, 64, 18, 64, 0, "" },
  { MODIFY, 67, 18, 67, 1, "5700FF00" },
  { MODIFY, 67, 22, 67, 1, "5700010086" },
  { MODIFY, 69, 22, 69, 1, "5D0005004900010006" },
  { MODIFY, 70, 22, 70, 1, "5D000000" },
  { DELETE, 0, 18, 64, 1, "" },
  { DELETE, 0, 18, 64, 1, "4900010005" },
  { DELETE, 64, 18, 64, 0, "" },
  { DELETE, 64, 18, 64, 1, "4900010006" },
  { DELETE, 67, 18, 67, 1, "49000200" },
  { DELETE, 67, 22, 67, 1, "49000000" },
};

/* the same request with other fields; they are not looked at, nor is what overruns */
static const char *const others[] = { NULL, "", "5700FF00", "49000100" };

static void after_ticks(const asking *q, int ticks, const char *other) {
  uint8_t said[GRUGAVORN_REPLY];
  start(3);
  uint32_t teid = q->live ? teid_of(1) : 0x999;
  grugavorn_left a = ask(q->type, teid, 0x010203, q->fields);
  must(a.number == q->number && a.size == q->size, "another answer", a.number, (unsigned)a.size);
  memcpy(said, lent.reply, a.size);
  for (int i = 0; i < ticks; i++)
    tick();
  must(lent.store[0].life == (ticks < 10 ? 10 - ticks : 0), "another life", lent.store[0].life,
       (unsigned)ticks);
  memset(lent.reply, 0xEE, sizeof lent.reply);
  grugavorn_left b = ask(q->type, teid, 0x010203, other == NULL ? q->fields : other);
  if (ticks < 10) {
    must(from_store(&b) && b.number == a.number && b.size == a.size && memcmp(lent.reply, said, a.size) == 0,
         "not the kept reply", b.number, (unsigned)ticks);
    return;
  }
  must(!from_store(&b) && lent.store[0].life == 10, "a dropped reply", b.number, (unsigned)ticks);
  if (other == NULL)
    must(b.number == q->afresh, "another answer afresh", b.number, q->afresh);
}

static void each_asking(void) {
  for (size_t q = 0; q < sizeof askings / sizeof *askings; q++)
    for (int ticks = 0; ticks <= 12; ticks++)
      for (size_t o = 0; o < sizeof others / sizeof *others; o++)
        after_ticks(&askings[q], ticks, others[o]);
}

/* ---- each bit of type, sequence number and TEID counts */
static void another_request(void) {
  for (unsigned bit = 0; bit < 57; bit++) {
    start(3);
    uint32_t teid = teid_of(1), sequence = 0x010203;
    ask(MODIFY, teid, sequence, "");
    unsigned type = bit == 56 ? DELETE : MODIFY;
    teid ^= bit < 32 ? 1u << bit : 0;
    sequence ^= bit >= 32 && bit < 56 ? 1u << (bit - 32) : 0;
    grugavorn_left b = ask(type, teid, sequence, "");
    must(!from_store(&b) && lent.store[1].life == 10 && lent.store[2].life == 0, "taken for another", bit, 0);
  }
}

/* ---- the header comes first: nothing of it is answered from the store */
static void header_first(void) {
  static const struct {
    const char *hex;
    unsigned number;
  } heads[] = {
    { "48240008000002", 3 },           { "282400080000020101020300", 5 }, { "582400080000020101020300", 4 },
    { "402400080000020101020300", 8 }, { "482400090000020101020300", 6 }, { "4824000700000201010203", 6 },
    { "482500080000020101020300", 7 },
  };

  start(3);
  ask(DELETE, teid_of(1), 0x010203, "");
  for (size_t i = 0; i < sizeof heads / sizeof *heads; i++) {
    put_message(heads[i].hex);
    grugavorn_left a = taken();
    must(a.number == heads[i].number, "not the header's number", a.number, heads[i].number);
  }
  put_message("482400080000020101020300");
  must(both(CONTROL, PLACES, GRUGAVORN_KEPT, GRUGAVORN_REPLY - 1, 0).number == 1, "a short buffer", 0, 0);
  grugavorn_left a = taken();
  must(from_store(&a) && a.number == 0 && a.size == 18, "not the kept reply", a.number, (unsigned)a.size);
}

/* ---- what the table became meanwhile does not matter */
static void meanwhile(void) {
  start(0);
  must(ask(DELETE, 256, 1, "").number == 64, "a number that is not live yet", 0, 0);
  put_message(create_hex);
  must(taken().number == 0 && teid_of(0) == 256, "a Create", 0, 0);
  grugavorn_left a = ask(DELETE, 256, 1, "");
  must(from_store(&a) && a.number == 64, "64 is not repeated", a.number, 0);
  must(ask(MODIFY, 256, 2, "").number == 0, "a Modify", 0, 0);
  must(ask(DELETE, 256, 3, "").number == 0, "a Delete", 0, 0);
  a = ask(MODIFY, 256, 2, "");
  must(from_store(&a) && a.number == 0, "a Modify after the Delete", a.number, 0);
  must(ask(MODIFY, 256, 4, "").number == 64, "a new Modify after the Delete", 0, 0);
}

/* ---- the oldest makes room: 33 Deletes in one tick */
static void thirty_three(void) {
  start(33);
  uint32_t teids[33];
  for (int i = 0; i < 33; i++)
    teids[i] = teid_of(i);
  for (unsigned i = 0; i < 33; i++)
    must(ask(DELETE, teids[i], i, "").number == 0, "one of 33 Deletes", i, 0);
  for (unsigned i = 1; i < 33; i++) {
    grugavorn_left a = ask(DELETE, teids[i], i, "");
    must(from_store(&a) && a.number == 0, "one of the last 32", i, a.number);
  }
  for (unsigned i = 0; i < 33; i++) {
    grugavorn_left a = ask(DELETE, teids[i], i, "");
    must(!from_store(&a) && a.number == 64, "the oldest, which made room", i, a.number);
  }
}

/* ---- stores with gaps, lives in any order: where the new row goes, and which is lost */
static void gaps(unsigned long stores) {
  static kept want[GRUGAVORN_KEPT];
  seed = 3;
  for (unsigned long i = 0; i < stores; i++) {
    start(3);
    some_store();
    if (i <= GRUGAVORN_KEPT) /* the first unused row in each place, and none */
      for (unsigned k = 0; k < GRUGAVORN_KEPT; k++) {
        lent.store[k].life = k == i ? 0 : (uint8_t)(1 + below(GRUGAVORN_LIFE));
        lent.store[k].number = 0;
        lent.store[k].size = 18;
        lent.store[k].type = MODIFY;
        lent.store[k].teid[3] = (uint8_t)k;
      }
    unsigned moved = 0;
    while (moved < GRUGAVORN_KEPT && lent.store[moved].life != 0)
      moved++;
    memcpy(want, lent.store, sizeof want);
    for (unsigned k = 1; k < GRUGAVORN_KEPT && k <= moved; k++)
      want[k] = lent.store[k - 1];
    grugavorn_left a = ask(DELETE, teid_of(2), 0xABCDEF, "");
    kept front = { DELETE, { 0xAB, 0xCD, 0xEF }, { 0, 0, 3, 2 }, 10, 0, 18, { 0 } };
    memcpy(front.reply, lent.reply, 18);
    want[0] = front;
    must(a.number == 0 && memcmp(lent.store, want, sizeof want) == 0, "rows that moved otherwise", moved,
         a.number);
    for (unsigned k = 0; k < GRUGAVORN_KEPT; k++)
      want[k].life -= want[k].life != 0;
    tick();
    must(memcmp(lent.store, want, sizeof want) == 0, "rows that aged otherwise", moved, 0);
  }
}

/* ---- a row that is lent answers with its octets: each number, each size */
static void each_size(void) {
  static const uint8_t numbers[] = { 0, 64, 67, 69, 70 };
  for (unsigned size = 0; size <= GRUGAVORN_REPLY; size++)
    for (int n = 0; n < 5; n++)
      for (unsigned at = 0; at < GRUGAVORN_KEPT; at += 31) {
        start(1);
        kept *k = &lent.store[at];
        *k = (kept){ MODIFY, { 9, 8, 7 }, { 6, 5, 4, 3 }, 1, numbers[n], (uint8_t)size, { 0 } };
        for (int i = 0; i < GRUGAVORN_REPLY; i++)
          k->reply[i] = (uint8_t)chance();
        grugavorn_left a = ask(MODIFY, 0x06050403, 0x090807, "");
        must(from_store(&a) && a.number == numbers[n] && a.size == size
                 && memcmp(lent.reply, lent.store[at].reply, size) == 0,
             "not the octets of the row", size, a.number);
      }
}

/* ---- an echo that is given up frees all places, but is a tick to the store and no more */
static void echo_given_up(void) {
  start(3);
  ask(DELETE, teid_of(1), 7, "");
  node.echo.timer = 1;
  node.echo.sends = node.plan.sends;
  uint32_t gone = teid_of(1);
  tick();
  must(lent.records[0].state == GRUGAVORN_FREE && lent.records[2].state == GRUGAVORN_FREE, "places that stay",
       0, 0);
  must(lent.store[0].life == 9, "another life after an echo", lent.store[0].life, 9);
  lent.records[1].usage = gone / 256;
  grugavorn_left a = ask(DELETE, gone, 7, "");
  must(from_store(&a) && a.number == 0, "not the kept reply after an echo", a.number, 0);
}

/* ---- a restart empties it (recovery.c has all values): then the same Delete is 64 */
static void restarted(void) {
  start(3);
  node.heard = 1;
  node.recovery = 5;
  uint32_t teid = teid_of(1);
  ask(DELETE, teid, 7, "");
  put_message("40010009000040000300010004");
  must(taken().number == 0 && lent.store[0].life == 10, "a late value", lent.store[0].life, 0);
  put_message("40010009000041000300010006");
  must(taken().number == 0 && lent.store[0].life == 0 && lent.store[0].type == DELETE, "a restart",
       lent.store[0].life, 0);
  must(ask(DELETE, teid, 7, "").number == 64, "a Delete after the restart", 0, 0);
}

int asked_again(void) {
  enum { STORES = 2000 };

  unsigned long from = turn;
  each_asking();
  another_request();
  header_first();
  meanwhile();
  thirty_three();
  gaps(STORES);
  each_size();
  echo_given_up();
  restarted();
  printf(
      "store: requests that are asked again, after 0 to 12 ticks, of 33, with gaps: %lu calls, %lu answered "
      "from it, all as the reading has them\n",
      turn - from, store_met[ANSWERED]);
  return 0;
}
