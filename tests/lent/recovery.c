/* Recovery with its turn: every pair of a stored and a received value, in each message that carries one, on a
 * table with sessions and kept replies. Each call is compared with the reading. Besides, and without the
 * reading, what became of the value is told by the sessions, the store and the node that the library left,
 * and counted; and where it was late, all has to be as after the same message without Recovery. */
#include "trial.h"
#include <stdio.h>
#include <string.h>

/* SESSIONS: taken places, of which CLOSED is closing, and PERSON that of the person whose Create comes; OWN:
 * the number of the unit's echo; SEQUENCE: that of the Create; FIELD: the octets of Recovery, which stands
 * last in each message, its value the very last octet */
enum { SESSIONS = 5, CLOSED = 1, PERSON = 3, OWN = 9, SEQUENCE = 0x51, FIELD = 5, VALUES = 256 };

/* The echo of the exchange; its reply to the unit's own; the Create of a new session, of one that is there (a
 * repeat), in the place of one, and where the sharing rule has no room. */
enum { ECHO, REPLY, NEW, REPEAT, REPLACING, NO_ROOM, MESSAGES };

static const char *const called[MESSAGES] = { "type 1",     "awaited type 2",    "Create",
                                              "its repeat", "Create, replacing", "Create, no room" };

static const char *const octets[MESSAGES] = {
  "40010009000040000300010000", "40020009000009000300010000", create_hex, create_hex, create_hex, create_hex
};

/* the message, the table and the node that it comes to, but for the Recovery that is stored */
static void prepare(int message) {
  message_to_fresh(octets[message], message == NO_ROOM ? SESSIONS : GRUGAVORN_PLACES);
  node.echo.timer = 2;
  node.echo.sends = 1;
  node.echo.number = OWN;
  node.next = OWN + 1;
  live_sessions(SESSIONS);
  lent.records[CLOSED].state = GRUGAVORN_CLOSING;
  lent.records[CLOSED].own.timer = 1;
  lent.records[CLOSED].own.sends = 2;
  lent.records[CLOSED].own.number = OWN - 1;
  if (message == REPEAT || message == REPLACING)
    lent.records[PERSON].imsi = 440101000000000ull;
  if (message == REPEAT)
    lent.records[PERSON].created = SEQUENCE;
  seed = 1 + (unsigned)message;
  do
    some_store();
  while (some_row()->life == 0);
}

/* the sessions that the library left; and of those before it, the ones that are there still, as they were */
static int taken(void) {
  int all = 0;
  for (int i = 0; i < GRUGAVORN_PLACES; i++)
    all += lent.records[i].state != GRUGAVORN_FREE;
  return all;
}

static int stayed(void) {
  int all = 0;
  for (int i = 0; i < GRUGAVORN_PLACES; i++)
    all += before.records[i].state != GRUGAVORN_FREE && same_record(&before.records[i], &lent.records[i]);
  return all;
}

/* whether the store is as it was, and whether it is but for the lives of all rows, which are 0 */
static int store_stayed(void) {
  return memcmp(lent.store, before.store, sizeof lent.store) == 0;
}

static int store_emptied(void) {
  static grugavorn_kept lifeless[GRUGAVORN_KEPT];
  memcpy(lifeless, before.store, sizeof lifeless);
  for (int i = 0; i < GRUGAVORN_KEPT; i++)
    lifeless[i].life = 0;
  return memcmp(lent.store, lifeless, sizeof lifeless) == 0;
}

/* What became of a value: it was stored and the sessions and kept replies stayed, it was stored and they went
 * (and a Create had its place), it was not stored and they stayed; or something else. */
enum { SAME, RESTARTED, LATE, ELSE };

static int became(int message, const grugavorn_node *left, unsigned received) {
  int stored = left->heard == 1 && left->recovery == received;
  int kept = left->heard == node.heard && left->recovery == node.recovery;
  if (stayed() == SESSIONS - (message == REPLACING) && taken() == SESSIONS + (message == NEW)
      && store_stayed())
    return stored ? SAME : kept ? LATE : ELSE;
  return stored && stayed() == 0 && taken() == (message >= NEW) && store_emptied() ? RESTARTED : ELSE;
}

/* what the message comes to without Recovery */
typedef struct {
  grugavorn_left left;
  arena side;
} outcome;

static void without(outcome *o, const arena *table) {
  o->side = *table;
  o->side.datagram[3] -= FIELD;
  o->left = grugavorn_control(node, o->side.records, GRUGAVORN_PLACES, o->side.store, GRUGAVORN_KEPT,
                              o->side.datagram, length - FIELD, o->side.reply, GRUGAVORN_REPLY);
}

static int as_without(const outcome *o, const grugavorn_left *a) {
  for (int i = 0; i < GRUGAVORN_PLACES; i++)
    if (!same_record(&o->side.records[i], &lent.records[i]))
      return 0;
  return a->number == o->left.number && a->size == o->left.size && a->from == o->left.from
         && a->to == o->left.to && same_node(&a->node, &o->left.node)
         && memcmp(o->side.reply, lent.reply, BUFFER) == 0
         && memcmp(o->side.store, lent.store, sizeof lent.store) == 0;
}

/* A stored value (`heard` 0: none is) and each that may be received; counts what became of them. */
static void against(int message, const arena *table, unsigned heard, unsigned stored, unsigned long *count) {
  static outcome bare;
  node.heard = (uint8_t)heard;
  node.recovery = (uint8_t)stored;
  without(&bare, table);
  for (unsigned received = 0; received < VALUES; received++) {
    snprintf(about, sizeof about, " (%s, heard %u, stored %u, received %u)", called[message], heard, stored,
             received);
    lent = *table;
    lent.datagram[length - 1] = (uint8_t)received;
    grugavorn_left a = control_compared();
    int what = became(message, &a.node, received);
    if (what == LATE && !as_without(&bare, &a))
      differ("a late value from none", CONTROL, a.number, bare.left.number);
    count[what]++;
  }
}

int recovery_pairs(void) {
  /* `heard` may be any number but 0 in a table that is lent; where it is 0, any value may stand beside it */
  static const uint8_t heards[] = { 1, 2 }, beside[] = { 0, 100, 255 };
  unsigned long pairs = 0, first = 0;
  for (int message = 0; message < MESSAGES; message++) {
    prepare(message);
    static arena table;
    table = lent;
    for (size_t h = 0; h < sizeof heards; h++) {
      unsigned long count[ELSE + 1] = { 0 };
      for (unsigned stored = 0; stored < VALUES; stored++)
        against(message, &table, heards[h], stored, count);
      if (count[SAME] != 256 || count[RESTARTED] != 32512 || count[LATE] != 32768) {
        printf("recovery: %s, heard %u: %lu same, %lu restarted, %lu late, %lu else; not 256, 32512, 32768\n",
               called[message], heards[h], count[SAME], count[RESTARTED], count[LATE], count[ELSE]);
        return 1;
      }
      pairs += VALUES * VALUES;
    }
    unsigned long count[ELSE + 1] = { 0 };
    for (size_t k = 0; k < sizeof beside; k++)
      against(message, &table, 0, beside[k], count);
    if (count[SAME] != VALUES * sizeof beside) {
      printf("recovery: %s: of %zu first values %lu were stored and freed nothing\n", called[message],
             VALUES * sizeof beside, count[SAME]);
      return 1;
    }
    first += count[SAME];
  }
  printf("recovery: all 65536 pairs of stored and received, in %d messages: 256 same, 32512 restarted, 32768 "
         "late in each; %lu calls, and %lu with a first value, all as the reading has them\n",
         MESSAGES, pairs, first);
  return 0;
}
