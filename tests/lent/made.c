/* Chance, and the made-up plans and tables. */
#include "made.h"
#include <string.h>

typedef grugavorn_session session;
arena lent;
grugavorn_node node;
size_t length;

uint64_t seed;

uint32_t chance(void) {
  seed ^= seed >> 12;
  seed ^= seed << 25;
  seed ^= seed >> 27;
  return (uint32_t)(seed * 2685821657736338717ull >> 32);
}

uint32_t below(uint32_t n) {
  return (uint32_t)((uint64_t)chance() * n >> 32);
}

int one_in(uint32_t n) {
  return below(n) == 0;
}

static int is_of(const session *s, int kind) {
  if (kind == AWAITED)
    return s->own.sends != 0;
  return kind == TAKEN ? s->state != GRUGAVORN_FREE : s->state == kind;
}

int some_place(int kind) {
  int from = (int)below(GRUGAVORN_PLACES);
  for (int i = 0; i < GRUGAVORN_PLACES; i++) {
    int k = (from + i) % GRUGAVORN_PLACES;
    if (is_of(&lent.records[k], kind))
      return k;
  }
  return from;
}

/* ---- plans */
grugavorn_plan some_plan(void) {
  grugavorn_plan p;
  memset(&p, 0, sizeof p);
  p.control = chance();
  p.user = chance();
  p.pool = chance() & ~255u;
  p.recovery = (uint8_t)chance();
  p.resend = 1 + below(one_in(4) ? 255 : 4);
  p.sends = 1 + below(one_in(3) ? 10 : 2);
  p.interval = 1 + below(one_in(3) ? 255 : 12);
  p.count = 1 + below(GRUGAVORN_POINTS);
  unsigned left = GRUGAVORN_PLACES;
  for (int i = 0; i < GRUGAVORN_POINTS; i++) {
    grugavorn_point *a = &p.points[i];
    a->size = 1 + below(one_in(8) ? GRUGAVORN_NAME : 6);
    for (int k = 0; k < GRUGAVORN_NAME; k++)
      a->name[k] = (uint8_t)('a' + below(3));
    a->name[0] = (uint8_t)('p' + i);
    a->guarantee = (uint16_t)below(left / 2 + 1);
    a->ceiling = (uint16_t)(a->guarantee + below(GRUGAVORN_PLACES + 1u - a->guarantee));
    if (a->ceiling == 0)
      a->ceiling = 1;
    if (one_in(3))
      a->ceiling = GRUGAVORN_PLACES;
    left -= a->guarantee;
  }
  return p;
}

void break_plan(grugavorn_plan *p) {
  grugavorn_point *a = &p->points[below(GRUGAVORN_POINTS)];
  switch (below(11)) {
  case 0:
    p->count = one_in(2) ? 0 : GRUGAVORN_POINTS + 1 + below(255 - GRUGAVORN_POINTS);
    break;
  case 1:
    p->resend = 0;
    break;
  case 2:
    p->sends = one_in(2) ? 0 : 11 + below(245);
    break;
  case 3:
    p->interval = 0;
    break;
  case 4:
    p->pool |= 1u << below(8);
    break;
  case 5:
    a->size = one_in(2) ? 0 : GRUGAVORN_NAME + 1 + below(255 - GRUGAVORN_NAME);
    break;
  case 6:
    a->guarantee = a->ceiling + 1;
    break;
  case 7:
    a->ceiling = one_in(2) ? 0 : GRUGAVORN_PLACES + 1 + below(1000);
    break;
  case 8:
    a->guarantee = GRUGAVORN_PLACES;
    a->ceiling = GRUGAVORN_PLACES;
    break;
  case 9:
    p->points[1] = p->points[0];
    break;
  case 10:
    ((uint8_t *)p)[below(sizeof *p)] ^= 1u << below(8);
    break;
  }
}

/* ---- tables that break a rule, or may */
void break_table(void) {
  session *s = &lent.records[some_place(TAKEN)], *o = &lent.records[some_place(TAKEN)],
          *f = &lent.records[below(GRUGAVORN_PLACES)];
  switch (below(22)) {
  case 0:
    f->state = (uint8_t)below(4);
    break;
  case 1:
    s->usage = one_in(2) ? 0 : READING_LAST_USE + below(3);
    break;
  case 2:
    s->point = (uint8_t)below(GRUGAVORN_POINTS + 2);
    break;
  case 3:
    s->imsi = one_in(2) ? 1000000000000000ull - below(2) : o->imsi;
    break;
  case 4:
    s->ebi = (uint8_t)below(18);
    break;
  case 5:
    s->control = 0;
    break;
  case 6:
    s->user = 0;
    break;
  case 7:
    s->created = READING_LAST_CREATED + below(2);
    break;
  case 8:
    s->own.timer = (uint8_t)chance();
    break;
  case 9:
    s->own.sends = (uint8_t)below(12);
    break;
  case 10:
    s->own.number = one_in(2) ? READING_LAST_OWN + below(2) : o->own.number;
    break;
  case 11:
    s->own.number = node.echo.number;
    s->own.sends = 1;
    s->own.timer = 1;
    s->state = GRUGAVORN_CLOSING;
    break;
  case 12:
    node.echo.timer = (uint8_t)chance();
    break;
  case 13:
    node.echo.sends = (uint8_t)below(12);
    break;
  case 14:
    node.echo.number = one_in(2) ? READING_LAST_OWN + below(2) : s->own.number;
    break;
  case 15:
    node.next = READING_LAST_OWN + below(2);
    break;
  case 16:
    break_plan(&node.plan);
    break;
  case 17:
    *s = *o;
    break;
  case 18:
    memset(s, 0, sizeof *s);
    break;
  case 19:
    ((uint8_t *)f)[below(sizeof *f)] ^= 1u << below(8);
    break;
  case 20:
    ((uint8_t *)&node)[below(sizeof node)] ^= 1u << below(8);
    break;
  case 21:
    for (int i = 0; i < GRUGAVORN_PLACES; i++)
      if (lent.records[i].state != GRUGAVORN_FREE)
        lent.records[i].point = s->point;
    break;
  }
}

void age(void) {
  for (int i = 0; i < GRUGAVORN_PLACES; i++)
    if (lent.records[i].state == GRUGAVORN_FREE && one_in(2))
      lent.records[i].usage = one_in(2) ? READING_LAST_USE - below(2) : below(READING_LAST_USE + 1);
  if (one_in(2))
    node.next = READING_LAST_OWN - below(3);
}
