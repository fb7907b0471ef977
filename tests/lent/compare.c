/* What has to be equal after a call: the library's side, the reading's, and what was there before. */
#include "trial.h"
#include <stdio.h>
#include <stdlib.h>
#include <string.h>

typedef grugavorn_session session;
arena before, read_;
ends ends_before, ends_read;
unsigned long turn, met[CALLS][256], written_to[GRUGAVORN_CLOSING + 1], store_met[EVENTS];
char about[100];

static int same_request(const grugavorn_request *a, const grugavorn_request *b) {
  return a->timer == b->timer && a->sends == b->sends && a->number == b->number;
}

static int same_plan(const grugavorn_plan *a, const grugavorn_plan *b) {
  if (a->control != b->control || a->user != b->user || a->pool != b->pool || a->recovery != b->recovery
      || a->resend != b->resend || a->sends != b->sends || a->interval != b->interval || a->count != b->count)
    return 0;
  for (int i = 0; i < GRUGAVORN_POINTS; i++)
    if (memcmp(a->points[i].name, b->points[i].name, GRUGAVORN_NAME) != 0
        || a->points[i].size != b->points[i].size || a->points[i].guarantee != b->points[i].guarantee
        || a->points[i].ceiling != b->points[i].ceiling)
      return 0;
  return 1;
}

int same_node(const grugavorn_node *a, const grugavorn_node *b) {
  return same_plan(&a->plan, &b->plan) && same_request(&a->echo, &b->echo) && a->next == b->next
         && a->heard == b->heard && a->recovery == b->recovery;
}

int same_record(const session *a, const session *b) {
  return a->imsi == b->imsi && a->usage == b->usage && a->control == b->control
         && a->controladdr == b->controladdr && a->user == b->user && a->useraddr == b->useraddr
         && a->created == b->created && same_request(&a->own, &b->own) && a->state == b->state
         && a->point == b->point && a->ebi == b->ebi;
}

void differ(const char *what, int call, unsigned number, unsigned other) {
  printf("lent: %s differs in call %lu, %s%s: the library answers %u, the reading %u\n", what, turn,
         names[call], about, number, other);
  const uint8_t *octets = call == DOWN ? packet_of(&ends_before) : before.datagram;
  for (size_t i = 0; i < (call == DOWN ? packet_size : length); i++)
    printf("%02X", octets[i]);
  puts("");
  exit(1);
}

/* the same call on a unit of its own, as a host makes it: it has to come to the same, node, records and store
 * too */
static void compare_unit(int call, const grugavorn_left *a) {
  static grugavorn_unit unit;
  static uint8_t reply[BUFFER];
  grugavorn_answer u = { 0, 0, 0, 0 };
  unit.node = node;
  memcpy(unit.records, before.records, sizeof unit.records);
  memcpy(unit.store, before.store, sizeof unit.store);
  memcpy(reply, before.reply, sizeof reply);
  switch (call) {
  case FRESH:
    u = grugavorn_unit_fresh(&unit, &job.plan);
    break;
  case CONTROL:
    u = grugavorn_unit_control(&unit, before.datagram, length, reply, job.room);
    break;
  case USER: {
    grugavorn_handed h = grugavorn_unit_user(&unit, before.datagram, length, reply, job.room);
    if (h.place != job.handed.place || h.start != job.handed.start || h.octets != job.handed.octets)
      differ("the payload on a unit", call, a->number, h.number);
    u.number = h.number;
    u.size = h.size;
    break;
  }
  case TICK:
    u = grugavorn_unit_tick(&unit);
    break;
  case SEND:
    u = grugavorn_unit_send(&unit, reply, job.room);
    break;
  case CLOSE:
    u = grugavorn_unit_close(&unit, job.place);
    break;
  case LINE:
    u = grugavorn_unit_line(&unit, job.place, reply, job.room);
    break;
  case DOWN: {
    static ends own;
    copy_ends(&own, &ends_before);
    grugavorn_written w = grugavorn_unit_down(&unit, packet_of(&own), packet_size, out_of(&own), out_size);
    if (w.place != job.written.place || w.size != job.written.size || w.peer != job.written.peer
        || !same_ends(&own, &ends_lent))
      differ("the G-PDU on a unit", call, a->number, w.number);
    u.number = w.number;
    break;
  }
  }
  if (u.number != a->number || u.size != a->size || u.from != a->from || u.to != a->to
      || !same_node(&unit.node, &a->node) || memcmp(reply, lent.reply, BUFFER) != 0)
    differ("the call on a unit", call, a->number, u.number);
  for (int i = 0; i < GRUGAVORN_PLACES; i++)
    if (!same_record(&unit.records[i], &lent.records[i]))
      differ("a record of a unit", call, a->number, u.number);
  if (memcmp(unit.store, lent.store, sizeof unit.store) != 0)
    differ("the store of a unit", call, a->number, u.number);
}

/* where the session of the call's place is, of the records as they are left: any count, any place */
static void compare_where(int call, const grugavorn_left *a, size_t count) {
  size_t place = call == CLOSE || call == LINE ? job.place : a->from;
  int there = place < count && lent.records[place].state != GRUGAVORN_FREE;
  if (grugavorn_peer(lent.records, count, place) != (there ? lent.records[place].controladdr : 0))
    differ("the peer's address", call, a->number, a->number);
  if (grugavorn_address(node, place) != (place < GRUGAVORN_PLACES ? node.plan.pool + 1 + (uint32_t)place : 0))
    differ("the address", call, a->number, a->number);
}

static int used(const arena *side) {
  int all = 0;
  for (int i = 0; i < GRUGAVORN_KEPT; i++)
    all += side->store[i].life != 0;
  return all;
}

/* the row that a taken Modify or Delete asks for, told by its octets as they came; null where there is
 * none */
static const grugavorn_kept *row_asked(void) {
  const uint8_t *d = before.datagram;
  for (int i = 0; i < GRUGAVORN_KEPT; i++) {
    const grugavorn_kept *k = &before.store[i];
    if (k->life != 0 && k->type == d[1] && memcmp(k->teid, d + 4, 4) == 0
        && memcmp(k->sequence, d + 8, 3) == 0)
      return k;
  }
  return NULL;
}

/* "A request equal in those three gets the kept reply octet for octet, with its number, and changes nothing":
 * told without the reading. Any other Modify or Delete has its reply in front of the store. */
static void compare_asked(const grugavorn_left *a) {
  const grugavorn_kept *k = row_asked();
  if (k == NULL) {
    if (lent.store[0].life != GRUGAVORN_LIFE || lent.store[0].number != a->number
        || lent.store[0].size != a->size || memcmp(lent.store[0].reply, lent.reply, a->size) != 0)
      differ("the reply that is kept", CONTROL, a->number, lent.store[0].number);
    store_met[KEPT]++;
    store_met[LOST] += used(&before) == GRUGAVORN_KEPT;
    return;
  }
  if (a->number != k->number || a->size != k->size || memcmp(lent.reply, k->reply, k->size) != 0)
    differ("the kept reply", CONTROL, a->number, k->number);
  if (a->from != 0 || a->to != 0 || !same_node(&a->node, &node)
      || memcmp(lent.records, before.records, sizeof lent.records) != 0
      || memcmp(lent.store, before.store, sizeof lent.store) != 0)
    differ("what a kept reply leaves", CONTROL, a->number, k->number);
  store_met[ANSWERED]++;
}

/* the store, octet for octet; only fresh, control and tick write to it, and nothing behind its rows */
static void compare_store(int call, const grugavorn_left *a, const grugavorn_left *b, size_t rows, int kept) {
  int writes = call == FRESH || call == CONTROL || call == TICK;
  if (memcmp(lent.store, read_.store, sizeof lent.store) != 0)
    differ("a row of the store", call, a->number, b->number);
  if ((kept || !writes) && memcmp(lent.store, before.store, sizeof lent.store) != 0)
    differ("a row that is kept", call, a->number, b->number);
  size_t past = rows < ROWS ? rows : ROWS;
  if (memcmp(lent.store + past, before.store + past, (ROWS - past) * sizeof(grugavorn_kept)) != 0)
    differ("a row past the store", call, a->number, b->number);
  if (memcmp(lent.e, before.e, AROUND) != 0)
    differ("what is around the store", call, a->number, b->number);
  int taken = call == CONTROL && !kept;
  if (taken && (before.datagram[1] == 34 || before.datagram[1] == 36))
    compare_asked(a);
  else if (taken)
    store_met[EMPTIED] += used(&before) > 0 && used(&lent) == 0;
  else if (call == TICK)
    store_met[DROPPED] += used(&before) > used(&lent);
}

void compare(int call, const grugavorn_left *a, const grugavorn_left *b, size_t count, size_t rows,
             int kept) {
  if (a->number != b->number || a->size != b->size)
    differ("the answer", call, a->number, b->number);
  if (a->from != b->from || a->to != b->to || a->from > a->to || a->to > GRUGAVORN_PLACES)
    differ("where records changed", call, a->number, b->number);
  if (!same_node(&a->node, &b->node))
    differ("the node", call, a->number, b->number);
  for (int i = 0; i < ROOM; i++)
    if (!same_record(&lent.records[i], &read_.records[i]))
      differ("a record", call, a->number, b->number);
  size_t past = count < ROOM ? count : ROOM;
  if (memcmp(lent.records + past, before.records + past, (ROOM - past) * sizeof(session)) != 0)
    differ("a record past the count", call, a->number, b->number);
  for (size_t i = 0; i < ROOM; i++)
    if ((i < a->from || i >= a->to) && memcmp(&lent.records[i], &before.records[i], sizeof(session)) != 0)
      differ("a record of another place", call, a->number, b->number);
  if (kept && memcmp(lent.records, before.records, sizeof lent.records) != 0)
    differ("a record that is kept", call, a->number, b->number);
  if (memcmp(lent.a, before.a, AROUND) != 0
      || memcmp(lent.b, before.b, (size_t)((uint8_t *)lent.reply - lent.b)) != 0
      || memcmp(lent.d, before.d, AROUND) != 0)
    differ("what is around", call, a->number, b->number);
  if (memcmp(lent.reply, read_.reply, BUFFER) != 0)
    differ("the reply buffer", call, a->number, b->number);
  if (memcmp(lent.reply + a->size, before.reply + a->size, BUFFER - a->size) != 0)
    differ("the buffer past the reply", call, a->number, b->number);
  if (call == LINE && a->size > GRUGAVORN_LINE)
    differ("the most that a line has", call, a->number, b->number);
  compare_store(call, a, b, rows, kept);
  compare_where(call, a, count);
  if (count == GRUGAVORN_PLACES && rows == GRUGAVORN_KEPT)
    compare_unit(call, a);
  met[call][a->number]++;
}

/* "Reading such a G-PDU by our own header rules shows the peer's number and the packet again." */
static int reads_back(const uint8_t *gpdu, size_t size, uint32_t teid, const uint8_t *packet, size_t length) {
  uint8_t number, type;
  uint32_t shown;
  uint16_t sequence;
  size_t octets = reading_packet(gpdu, size, &number, &type, &shown, &sequence);
  return number == 0 && type == 255 && shown == teid && octets == length
         && memcmp(gpdu + size - octets, packet, octets) == 0;
}

void compare_down(const grugavorn_written *a, const grugavorn_written *b, size_t count, size_t rows) {
  const uint8_t *was = out_of(&ends_before), *is = out_of(&ends_lent);
  if (a->number != b->number || a->place != b->place || a->size != b->size || a->peer != b->peer)
    differ("the answer", DOWN, a->number, b->number);
  if (!same_ends(&ends_lent, &ends_read))
    differ("packet or output buffer", DOWN, a->number, b->number);
  if (memcmp(ends_lent.in, ends_before.in, packet_end()) != 0)
    differ("the packet", DOWN, a->number, b->number);
  size_t past = (size_t)(is - ends_lent.out) + a->size;
  if (memcmp(ends_lent.out, ends_before.out, (size_t)(is - ends_lent.out)) != 0
      || memcmp(is + a->size, was + a->size, out_end() - past) != 0)
    differ("what is around the G-PDU", DOWN, a->number, b->number);
  if (a->number == 0) {
    const session *s = &lent.records[a->place];
    if (a->size != packet_size + 8 || a->size > out_size
        || !reads_back(is, a->size, s->user, packet_of(&ends_lent), packet_size))
      differ("what the G-PDU reads back as", DOWN, a->number, b->number);
    written_to[s->state]++;
  } else if (a->place != 0 || a->size != 0 || a->peer != 0) {
    differ("what a refusal answers", DOWN, a->number, b->number);
  }
  grugavorn_left x = { a->number, 0, node, 0, 0 }, y = { b->number, 0, node, 0, 0 };
  compare(DOWN, &x, &y, count, rows, 1);
}
