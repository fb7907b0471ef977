/* The plan's limits, what a request and a record are held to, and the counts of the sharing rule, as document
 * 01 says ("Numbers", "Sharing rule", "Table rules"). */
#include "reading.h"
#include <string.h>

static int same_name(const grugavorn_point *a, const grugavorn_point *b) {
  return a->size == b->size && memcmp(a->name, b->name, a->size) == 0;
}

READING_PART int reading_plan_fits(const grugavorn_plan *p) {
  unsigned promised = 0;
  if (p->count < 1 || p->count > GRUGAVORN_POINTS || p->resend < 1 || p->sends < 1 || p->sends > 10
      || p->interval < 1 || p->pool % 256 != 0)
    return 0;
  for (int i = 0; i < p->count; i++) {
    const grugavorn_point *a = &p->points[i];
    if (a->size < 1 || a->size > GRUGAVORN_NAME || a->guarantee > a->ceiling || a->ceiling < 1
        || a->ceiling > GRUGAVORN_PLACES)
      return 0;
    promised += a->guarantee;
    for (int j = 0; j < i; j++)
      if (same_name(a, &p->points[j]))
        return 0;
  }
  return promised <= GRUGAVORN_PLACES;
}

READING_PART int reading_request_fits(const grugavorn_request *r, unsigned before, const grugavorn_plan *p) {
  if (r->number > READING_LAST_OWN)
    return 0;
  if (r->sends == 0)
    return r->timer <= before;
  return r->timer <= p->resend && r->sends <= p->sends && !(r->sends == p->sends && r->timer == 0);
}

READING_PART int reading_record_fits(const grugavorn_session *s, const grugavorn_plan *p) {
  if (s->usage > READING_LAST_USE)
    return 0;
  if (s->state == GRUGAVORN_FREE)
    return s->imsi == 0 && s->control == 0 && s->controladdr == 0 && s->user == 0 && s->useraddr == 0
           && s->created == 0 && s->own.timer == 0 && s->own.sends == 0 && s->own.number == 0 && s->point == 0
           && s->ebi == 0;
  if (s->state != GRUGAVORN_LIVE && s->state != GRUGAVORN_CLOSING)
    return 0;
  if (s->usage < 1 || s->point >= p->count || s->imsi >= 1000000000000000ull || s->ebi < 5 || s->ebi > 15)
    return 0;
  if (s->control == 0 || s->user == 0 || s->created > READING_LAST_CREATED)
    return 0;
  if (s->state == GRUGAVORN_LIVE && (s->own.timer != 0 || s->own.sends != 0))
    return 0;
  return reading_request_fits(&s->own, 0, p);
}

READING_PART unsigned reading_sessions(const grugavorn_session *t, unsigned point) {
  unsigned u = 0;
  for (int i = 0; i < GRUGAVORN_PLACES; i++)
    if (t[i].state != GRUGAVORN_FREE && t[i].point == point)
      u++;
  return u;
}

READING_PART unsigned reading_shared(const grugavorn_session *t, const grugavorn_plan *p) {
  unsigned s = 0;
  for (unsigned a = 0; a < p->count; a++) {
    unsigned u = reading_sessions(t, a), g = p->points[a].guarantee;
    s += u > g ? u : g;
  }
  return s;
}
