/* The store of kept replies as document 02 says (4/14): "Keep the last 32 replies to types 34 and 36, each
 * with its type, sequence number, header TEID and a life of 10 ticks (the tenth drops it)." The newest stands
 * first; a row whose life is 0 is unused. */
#include "reading.h"
#include <string.h>

/* the three that a request is known by, as they stand in front of a row */
enum { THREE = 8 };

static void write_number(uint8_t *to, uint32_t v, int octets) {
  while (octets-- > 0)
    *to++ = (uint8_t)(v >> 8 * octets);
}

static void write_three(uint8_t *to, const reading_head *h) {
  write_number(to, h->kind, 1);
  write_number(to + 1, h->sequence, 3);
  write_number(to + 4, h->teid, 4);
}

/* "A request equal in those three gets the kept reply" */
READING_PART const grugavorn_kept *reading_asked(const grugavorn_kept *store, const reading_head *h) {
  uint8_t three[THREE];
  write_three(three, h);
  for (int i = 0; i < GRUGAVORN_KEPT; i++)
    if (store[i].life != 0 && memcmp(&store[i], three, THREE) == 0)
      return &store[i];
  return NULL;
}

/* "The oldest makes room when full": the new one goes in front, and those before the first unused row go one
 * back; where there is none the last is lost */
READING_PART void reading_keep(grugavorn_kept *store, const reading_head *h, unsigned number, size_t size,
                               const uint8_t *reply) {
  int moved = 0;
  while (moved < GRUGAVORN_KEPT - 1 && store[moved].life != 0)
    moved++;
  memmove(store + 1, store, (size_t)moved * sizeof *store);
  memset(&store[0], 0, sizeof store[0]);
  write_three((uint8_t *)&store[0], h);
  store[0].life = 10;
  store[0].number = (uint8_t)number;
  store[0].size = (uint8_t)size;
  memcpy(store[0].reply, reply, size);
}

/* a tick */
READING_PART void reading_age(grugavorn_kept *store) {
  for (int i = 0; i < GRUGAVORN_KEPT; i++)
    if (store[i].life != 0)
      store[i].life--;
}

/* "A Recovery that frees everything empties the store." */
READING_PART void reading_empty(grugavorn_kept *store) {
  for (int i = 0; i < GRUGAVORN_KEPT; i++)
    store[i].life = 0;
}
