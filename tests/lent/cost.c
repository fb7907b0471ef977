/* Calls of one kind with all places live, for counting instructions; the store is empty, but where a Delete
 * is asked again. */
#include "trial.h"
#include <stdio.h>
#include <string.h>

/* DOWNLINK: octets of the packet from the carrier's side */
enum { PLACES = GRUGAVORN_PLACES, LAST = PLACES - 1, DOWNLINK = 128 };

typedef grugavorn_session session;

static void fill(void) {
  grugavorn_plan p = some_plan();
  p.count = 1;
  p.points[0].guarantee = 1;
  p.points[0].ceiling = PLACES;
  p.resend = 200;
  p.interval = 200;
  node = grugavorn_fresh(p, lent.records, PLACES, lent.store, GRUGAVORN_KEPT).node;
  for (int i = 0; i < PLACES; i++) {
    session *s = &lent.records[i];
    s->imsi = 440101000000000ull + 7919u * (unsigned)i;
    s->usage = 1;
    s->control = 1 + (unsigned)i;
    s->user = 1 + (unsigned)i;
    s->created = 9;
    s->ebi = 5;
    s->state = GRUGAVORN_LIVE;
  }
}

static size_t control(const uint8_t *d, size_t size) {
  return grugavorn_control(node, lent.records, PLACES, lent.store, GRUGAVORN_KEPT, d, size, lent.reply,
                           GRUGAVORN_REPLY)
      .size;
}

int cost(const char *call, int count) {
  static uint8_t packet[] = { 0x30, 0xFF, 0, 4, 0, 0, 1, 0x80 + LAST, 0x45, 0, 0, 0 },
                 echo[] = { 0x40, 1, 0, 4, 0, 0, 1, 0 },
                 bye[] = { 0x48, 36, 0, 8, 0, 0, 1, LAST, 0, 0, 1, 0 },
                 whole[DOWNLINK] = { 0x45, 0, 0, DOWNLINK }, out[DOWNLINK + 8];
  grugavorn_session *t = lent.records;
  grugavorn_kept *s = lent.store;
  size_t rows = GRUGAVORN_KEPT, room = GRUGAVORN_REPLY, sum = 0;
  seed = 1;
  fill();
  for (int i = 0; i < 4; i++)
    whole[16 + i] = (uint8_t)(grugavorn_address(node, LAST) >> 8 * (3 - i));
  if (strcmp(call, "again") == 0)
    sum += control(bye, sizeof bye);
  for (int i = 0; i < count; i++) {
    if (strcmp(call, "user") == 0)
      sum += grugavorn_user(node, t, PLACES, s, rows, packet, sizeof packet, lent.reply, room).octets;
    else if (strcmp(call, "echo") == 0)
      sum += control(echo, sizeof echo);
    else if (strcmp(call, "delete") == 0) {
      session last = t[LAST];
      sum += control(bye, sizeof bye);
      t[LAST] = last;
      s[0].life = 0;
    } else if (strcmp(call, "again") == 0)
      sum += control(bye, sizeof bye);
    else if (strcmp(call, "tick") == 0)
      sum += grugavorn_tick(node, t, PLACES, s, rows).number;
    else if (strcmp(call, "send") == 0)
      sum += grugavorn_send(node, t, PLACES, s, rows, lent.reply, room).number;
    else if (strcmp(call, "close") == 0) {
      sum += grugavorn_close(node, t, PLACES, s, rows, 5).number;
      t[5].state = GRUGAVORN_LIVE;
    } else if (strcmp(call, "line") == 0)
      sum += grugavorn_line(node, t, PLACES, s, rows, LAST, lent.reply, room).size;
    else if (strcmp(call, "down") == 0)
      sum += grugavorn_down(node, t, PLACES, s, rows, whole, sizeof whole, out, sizeof out).size;
    else if (strcmp(call, "wrong") == 0)
      sum += grugavorn_tick(node, t, LAST, s, rows).number;
    else
      return 2;
  }
  printf("%zu\n", sum);
  return 0;
}
