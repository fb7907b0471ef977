/* The made-up stores: used rows anywhere among unused ones, lives in any order. */
#include "made.h"
#include <string.h>

typedef grugavorn_kept kept;

static int same_three(const kept *a, const kept *b) {
  return memcmp(a, b, 8) == 0;
}

grugavorn_kept *some_row(void) {
  int from = (int)below(GRUGAVORN_KEPT);
  for (int i = 0; i < GRUGAVORN_KEPT; i++) {
    kept *k = &lent.store[(from + i) % GRUGAVORN_KEPT];
    if (k->life != 0)
      return k;
  }
  return &lent.store[from];
}

static void put_number(uint8_t *to, uint32_t v, int octets) {
  while (octets-- > 0)
    *to++ = (uint8_t)(v >> 8 * octets);
}

/* The three of a request that may come: few sequence numbers, tunnel numbers of places that are there. Now
 * and then all rows have one of either. */
static void fill_three(kept *k, int one_sequence, int one_teid) {
  static const uint32_t ends[] = { 0, 0xFF, 0x100, 0xFFFF, 0x10000, 0xFFFFFF };
  int place = some_place(TAKEN);
  uint32_t teid = lent.records[place].usage * 256 + (unsigned)place;
  k->type = one_in(2) ? 34 : 36;
  put_number(k->sequence,
             one_sequence ? 5
             : one_in(4)  ? ends[below(6)]
                          : below(one_in(3) ? 0x1000000 : 6),
             3);
  put_number(k->teid, one_teid ? 0x100 : one_in(4) ? chance() >> below(32) : teid, 4);
}

/* Every octet of a row by chance first: those of an unused row, and those behind a reply, have no meaning. */
void some_store(void) {
  static const uint8_t numbers[] = { 0, 64, 67, 69, 70 };
  int one_sequence = one_in(8), one_teid = one_in(8);
  unsigned shares[] = { 0, 1, 8, 24, 31, 32 }, share = shares[below(6)];
  for (int i = 0; i < GRUGAVORN_KEPT; i++) {
    kept *k = &lent.store[i];
    for (size_t o = 0; o < sizeof *k; o++)
      ((uint8_t *)k)[o] = (uint8_t)chance();
    fill_three(k, one_sequence, one_teid);
    k->life = below(GRUGAVORN_KEPT) < share ? (uint8_t)(1 + below(GRUGAVORN_LIFE)) : 0;
    k->number = numbers[below(5)];
    k->size = (uint8_t)(one_in(3) ? below(GRUGAVORN_REPLY + 1) : one_in(2) ? 18 : 33);
    for (int j = 0; j < i; j++)
      if (lent.store[j].life != 0 && same_three(&lent.store[j], k))
        k->life = 0;
    if (k->life != 0)
      continue;
    if (one_in(2))
      k->number = k->size = 255;
    if (one_in(4))
      k->type = (uint8_t)chance();
  }
}

void break_store(void) {
  kept *k = some_row(), *o = some_row(), *any = &lent.store[below(GRUGAVORN_KEPT)];
  switch (below(8)) {
  case 0:
    k->life = (uint8_t)(GRUGAVORN_LIFE + below(one_in(2) ? 3 : 246));
    break;
  case 1:
    k->size = (uint8_t)(GRUGAVORN_REPLY + below(one_in(2) ? 3 : 128));
    break;
  case 2:
    k->type = (uint8_t)(one_in(2) ? 33 + below(5) : chance());
    break;
  case 3:
    k->number = (uint8_t)(one_in(2) ? 62 + below(10) : chance());
    break;
  case 4:
    memcpy(any, o, 8);
    break;
  case 5:
    memcpy(any, o, 8);
    ((uint8_t *)any)[below(8)] ^= (uint8_t)(1u << below(8));
    break;
  case 6:
    any->life = (uint8_t)(1 + below(GRUGAVORN_LIFE));
    break;
  case 7:
    ((uint8_t *)any)[below(11)] ^= (uint8_t)(1u << below(8));
    break;
  }
}
