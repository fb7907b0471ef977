/* The store's rules by hand, in every call: of a row each value of each octet that a rule looks at, every
 * pair of rows that are equal in type, sequence number and TEID, or all but equal, every count of rows. Each
 * call is compared with the reading. Besides, and without the reading: 2 comes where it is said below,
 * nowhere else, and then nothing is written. */
#include "trial.h"
#include <stdio.h>
#include <stdlib.h>
#include <string.h>

typedef grugavorn_kept kept;

/* octets of a row in front of its life: type, sequence number and TEID; ALL calls but fresh */
enum { THREE = 8, SESSIONS = 3, ALL = CALLS - 1 };

static const int calls[ALL] = { CONTROL, USER, TICK, SEND, CLOSE, LINE, DOWN };

/* the table that every call is made on, and how many calls were answered how */
static arena table;
static unsigned long sound, broken;

/* One call on the table, with so many rows. A Delete of the session of place 0 asks the store; a packet of
 * the same session goes up, and one from the carrier's side down. */
static unsigned call_with(int call, size_t rows, size_t room) {
  lent = table;
  put_message(call == USER ? "30FF00040000018045000000" : "482400080000010000000100");
  unsigned number = both(call, GRUGAVORN_PLACES, rows, room, 0).number;
  turn++;
  return number;
}

static void expect(int call, size_t rows, int breaks) {
  unsigned number = call_with(call, rows, GRUGAVORN_REPLY);
  if ((number == 2) != breaks) {
    printf("store: %s with%s: %s answers %u\n", breaks ? "broken" : "sound", about, names[call], number);
    exit(1);
  }
  *(breaks ? &broken : &sound) += 1;
}

static void expect_all(int breaks) {
  for (int i = 0; i < ALL; i++)
    expect(calls[i], GRUGAVORN_KEPT, breaks);
}

/* a sound row: no two have the same sequence number, nor the same TEID */
static kept row(int k) {
  static const uint8_t numbers[] = { 0, 64, 67, 69, 70 };
  kept r;
  memset(&r, 0xC0 + k, sizeof r);
  r.type = k % 2 ? 34 : 36;
  r.sequence[0] = (uint8_t)(k % 3);
  r.sequence[1] = (uint8_t)(k % 5);
  r.sequence[2] = (uint8_t)(k % 7);
  r.teid[0] = (uint8_t)(k / 4);
  r.life = (uint8_t)(1 + k % GRUGAVORN_LIFE);
  r.number = numbers[k % 5];
  r.size = (uint8_t)(4 * k);
  return r;
}

/* A store of 32 such rows; or of 32 Deletes with one sequence number, of 32 sessions. */
static int one_sequence;

static void full_store(void) {
  for (int k = 0; k < GRUGAVORN_KEPT; k++) {
    table.store[k] = row(k);
    if (one_sequence) {
      table.store[k].type = 36;
      memset(table.store[k].sequence, 5, sizeof table.store[k].sequence);
    }
  }
}

/* A store with this row alone. All others are unused, and would break every rule if they were not. */
static void lone_store(int k) {
  for (int i = 0; i < GRUGAVORN_KEPT; i++) {
    memset(&table.store[i], 255, sizeof(kept));
    if (i % 2)
      table.store[i] = row(k);
    table.store[i].life = 0;
  }
  table.store[k] = row(k);
}

/* ---- one octet of one row */
static int life_breaks(unsigned v) {
  return v > 10;
}

static int size_breaks(unsigned v) {
  return v > 128;
}

static int type_breaks(unsigned v) {
  return v != 34 && v != 36;
}

static int number_breaks(unsigned v) {
  return v != 0 && v != 64 && v != 67 && v != 69 && v != 70;
}

static void each_value(const char *what, size_t offset, int (*breaks)(unsigned)) {
  static const int places[] = { 0, 13, 31 };
  for (int lone = 0; lone < 2; lone++)
    for (int p = 0; p < 3; p++)
      for (unsigned v = 0; v < 256; v++) {
        if (lone)
          lone_store(places[p]);
        else
          full_store();
        snprintf(about, sizeof about, " %s %u in row %d, %s", what, v, places[p], lone ? "alone" : "of 32");
        ((uint8_t *)&table.store[places[p]])[offset] = (uint8_t)v;
        expect_all(breaks(v));
      }
}

/* Lives are any in number: sums that come round to 0 in an octet do not make a store empty. */
static void sums(void) {
  static const struct {
    unsigned used, life, breaks;
  } lives[] = { { 32, 8, 0 }, { 26, 10, 0 }, { 32, 10, 0 }, { 2, 128, 1 }, { 32, 255, 1 }, { 16, 16, 1 } };

  for (size_t i = 0; i < sizeof lives / sizeof *lives; i++)
    for (int wrong = 0; wrong < 2; wrong++) {
      full_store();
      for (unsigned k = 0; k < GRUGAVORN_KEPT; k++)
        table.store[k].life = k < lives[i].used ? (uint8_t)lives[i].life : 0;
      if (wrong)
        table.store[lives[i].used - 1].number = 99;
      snprintf(about, sizeof about, " %u lives of %u%s", lives[i].used, lives[i].life,
               wrong ? ", the last with number 99" : "");
      expect_all(wrong || lives[i].breaks);
    }
}

/* ---- two rows: equal in the three; but one of them unused; but one bit */
static void equal(int i, int j, const char *what) {
  full_store();
  memcpy(&table.store[j], &table.store[i], THREE);
  snprintf(about, sizeof about, " rows %d and %d equal%s", i, j, what);
}

static void each_pair(void) {
  int next = 0;
  for (int i = 0; i < GRUGAVORN_KEPT; i++)
    for (int j = i + 1; j < GRUGAVORN_KEPT; j++) {
      equal(i, j, "");
      expect_all(1);
      equal(i, j, ", the first unused");
      table.store[i].life = 0;
      expect_all(0);
      equal(i, j, ", the second unused");
      table.store[j].life = 0;
      expect_all(0);
      equal(i, j, " but for the type");
      table.store[j].type ^= 34 ^ 36;
      expect_all(0);
      for (int bit = 8; bit < 8 * THREE; bit++) {
        equal(i, j, " but for a bit");
        ((uint8_t *)&table.store[j])[bit / 8] ^= (uint8_t)(1 << bit % 8);
        expect(calls[next++ % ALL], GRUGAVORN_KEPT, 0);
      }
    }
}

/* ---- counts of rows; and 1 comes before 2 where there is a reply buffer */
static void each_count(void) {
  for (size_t rows = 0; rows <= ROWS; rows++)
    for (int full = 0; full < 2; full++) {
      full_store();
      if (!full)
        memset(table.store, 0, sizeof table.store);
      snprintf(about, sizeof about, " %zu rows%s", rows, full ? "" : ", none of them used");
      for (int i = 0; i < ALL; i++)
        expect(calls[i], rows, rows != GRUGAVORN_KEPT);
      job.plan = node.plan;
      expect(FRESH, rows, rows != GRUGAVORN_KEPT);
    }
}

static void short_buffer(void) {
  full_store();
  table.store[31].number = 99;
  snprintf(about, sizeof about, " number 99 and a reply buffer of 127");
  for (int i = 0; i < ALL; i++) {
    int replies = calls[i] == CONTROL || calls[i] == USER || calls[i] == SEND || calls[i] == LINE;
    unsigned number = call_with(calls[i], GRUGAVORN_KEPT, GRUGAVORN_REPLY - 1);
    if (number != (replies ? 1 : 2)) {
      printf("store: broken with%s: %s answers %u\n", about, names[calls[i]], number);
      exit(1);
    }
  }
}

int store_rules(void) {
  message_to_fresh(create_hex, GRUGAVORN_PLACES);
  live_sessions(SESSIONS);
  some_packet();
  table = lent;
  each_value("life", offsetof(kept, life), life_breaks);
  each_value("size", offsetof(kept, size), size_breaks);
  each_value("type", offsetof(kept, type), type_breaks);
  each_value("number", offsetof(kept, number), number_breaks);
  sums();
  each_pair();
  one_sequence = 1;
  each_pair();
  one_sequence = 0;
  each_count();
  short_buffer();
  printf("store: its rules, each octet of a row, each pair of rows, each count: %lu calls on sound ones, %lu "
         "on broken ones, which are 2; all as the reading has them\n",
         sound, broken);
  return 0;
}
