/* The table rules as one would write them in C for speed: one pass over the records, each test left at
 * once, counts by access point, and keys that were met marked by a hash, so that keys are compared only
 * where a mark was met before. Of the store the lives are added up first, since it is mostly empty; rows are
 * read as far as lives are left, type, sequence number and TEID as the one number that their octets are, and
 * rows that share a hash are chained. In place of tests/reading/rules.c. */
#include "../reading/reading.h"
#include <string.h>

static int key_met(const uint64_t *keys, unsigned count, uint64_t key) {
  for (unsigned i = 0; i < count; i++)
    if (keys[i] == key)
      return 1;
  return 0;
}

static uint64_t three_of(const grugavorn_kept *k) {
  uint64_t three;
  memcpy(&three, k, sizeof three);
  return three;
}

static int store_fits(const grugavorn_kept *store, size_t rows) {
  static const uint8_t numbers[256] = { [0] = 1, [64] = 1, [67] = 1, [69] = 1, [70] = 1 };
  if (rows != GRUGAVORN_KEPT)
    return 0;
  unsigned left = 0;
#pragma GCC unroll 32
  for (int i = 0; i < GRUGAVORN_KEPT; i++)
    left += store[i].life;
  if (left == 0)
    return 1;
  uint64_t met[GRUGAVORN_KEPT + 1];
  uint8_t heads[256] = { 0 }, links[GRUGAVORN_KEPT + 1];
  size_t count = 0;
  for (const grugavorn_kept *k = store; left != 0; k++) {
    unsigned life = k->life;
    if (life == 0)
      continue;
    if (life > GRUGAVORN_LIFE || k->size > GRUGAVORN_REPLY || (k->type != 34 && k->type != 36)
        || !numbers[k->number])
      return 0;
    left -= life;
    uint64_t three = three_of(k);
    uint8_t *head = &heads[three * 0x9E3779B97F4A7C15u >> 56];
    for (size_t i = *head; i != 0; i = links[i])
      if (met[i] == three)
        return 0;
    met[++count] = three;
    links[count] = *head;
    *head = (uint8_t)count;
  }
  return 1;
}

READING_PART int reading_rules_kept(const grugavorn_node *n, const grugavorn_session *t, size_t count,
                                    const grugavorn_kept *store, size_t rows) {
  const grugavorn_plan *p = &n->plan;
  if (count != GRUGAVORN_PLACES || !reading_plan_fits(p) || !store_fits(store, rows))
    return 0;
  if (!reading_request_fits(&n->echo, p->interval, p) || n->next > READING_LAST_OWN)
    return 0;
  uint64_t keys[GRUGAVORN_PLACES], waits[GRUGAVORN_PLACES + 1];
  uint8_t marks[1024] = { 0 };
  unsigned live = 0, waiting = 0, u[GRUGAVORN_POINTS] = { 0 };
  if (n->echo.sends != 0)
    waits[waiting++] = n->echo.number;
  for (int i = 0; i < GRUGAVORN_PLACES; i++) {
    const grugavorn_session *s = &t[i];
    if (!reading_record_fits(s, p))
      return 0;
    if (s->state == GRUGAVORN_FREE)
      continue;
    uint64_t key = s->imsi << 4 | s->ebi;
    unsigned slot = (unsigned)(key * 0x9E3779B97F4A7C15u >> 54);
    if (marks[slot] && key_met(keys, live, key))
      return 0;
    marks[slot] = 1;
    keys[live++] = key;
    u[s->point]++;
    if (s->own.sends != 0) {
      if (key_met(waits, waiting, s->own.number))
        return 0;
      waits[waiting++] = s->own.number;
    }
  }
  unsigned sum = 0;
  for (int a = 0; a < p->count; a++) {
    if (u[a] > p->points[a].ceiling)
      return 0;
    sum += u[a] > p->points[a].guarantee ? u[a] : p->points[a].guarantee;
  }
  return sum <= GRUGAVORN_PLACES;
}
