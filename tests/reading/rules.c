/* The rules of table and store one after the other, each looking at all records or rows anew: slow on
 * purpose. */
#include "reading.h"
#include <string.h>

static int taken(const grugavorn_session *s) {
  return s->state != GRUGAVORN_FREE;
}

static int same_key(const grugavorn_session *a, const grugavorn_session *b) {
  return a->imsi == b->imsi && a->ebi == b->ebi;
}

/* "lives 1 to 10", "each kept reply at most 128 octets"; and it is a reply to a Modify or a Delete, with one
 * of the numbers that these are answered with */
static int row_fits(const grugavorn_kept *k) {
  int type_fits = k->type == 34 || k->type == 36;
  int number_fits =
      k->number == 0 || k->number == 64 || k->number == 67 || k->number == 69 || k->number == 70;
  return k->life <= 10 && k->size <= 128 && type_fits && number_fits;
}

static int same_three(const grugavorn_kept *a, const grugavorn_kept *b) {
  return a->type == b->type && memcmp(a->sequence, b->sequence, 3) == 0 && memcmp(a->teid, b->teid, 4) == 0;
}

/* "The store counts as table, with rules of its own"; of an unused row nothing is looked at */
static int store_fits(const grugavorn_kept *store, size_t rows) {
  if (rows != GRUGAVORN_KEPT)
    return 0;
  for (int i = 0; i < GRUGAVORN_KEPT; i++)
    if (store[i].life != 0 && !row_fits(&store[i]))
      return 0;
  for (int i = 0; i < GRUGAVORN_KEPT; i++)
    for (int j = 0; j < i; j++)
      if (store[i].life != 0 && store[j].life != 0 && same_three(&store[i], &store[j]))
        return 0;
  return 1;
}

READING_PART int reading_rules_kept(const grugavorn_node *n, const grugavorn_session *t, size_t count,
                                    const grugavorn_kept *store, size_t rows) {
  if (!reading_plan_fits(&n->plan) || count != GRUGAVORN_PLACES || !store_fits(store, rows))
    return 0;
  for (int i = 0; i < GRUGAVORN_PLACES; i++)
    if (!reading_record_fits(&t[i], &n->plan))
      return 0;
  for (int i = 0; i < GRUGAVORN_PLACES; i++)
    for (int j = 0; j < i; j++)
      if (taken(&t[i]) && taken(&t[j]) && same_key(&t[i], &t[j]))
        return 0;
  for (unsigned a = 0; a < n->plan.count; a++)
    if (reading_sessions(t, a) > n->plan.points[a].ceiling)
      return 0;
  if (reading_shared(t, &n->plan) > GRUGAVORN_PLACES)
    return 0;
  if (!reading_request_fits(&n->echo, n->plan.interval, &n->plan) || n->next > READING_LAST_OWN)
    return 0;
  for (int i = 0; i < GRUGAVORN_PLACES; i++) {
    if (t[i].own.sends == 0)
      continue;
    if (n->echo.sends != 0 && n->echo.number == t[i].own.number)
      return 0;
    for (int j = 0; j < i; j++)
      if (t[j].own.sends != 0 && t[j].own.number == t[i].own.number)
        return 0;
  }
  return 1;
}
