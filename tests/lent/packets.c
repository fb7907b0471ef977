/* The made-up packets from the carrier's side, each with an output buffer: whole IPv4 packets for sessions
 * that are there, and others of every kind. */
#include "made.h"
#include <string.h>

ends ends_lent;
size_t packet_size, out_size;

/* where packet and output buffer begin: any alignment */
static size_t packet_at = AROUND, out_at = AROUND;

uint8_t *packet_of(ends *e) {
  return e->in + packet_at;
}

uint8_t *out_of(ends *e) {
  return e->out + out_at;
}

size_t packet_end(void) {
  return packet_at + packet_size + AROUND;
}

size_t out_end(void) {
  size_t most = packet_size + 8;
  return out_at + (most < out_size ? out_size : most) + AROUND;
}

void copy_ends(ends *to, const ends *from) {
  memcpy(to->in, from->in, packet_end());
  memcpy(to->out, from->out, out_end());
}

int same_ends(const ends *a, const ends *b) {
  return memcmp(a->in, b->in, packet_end()) == 0 && memcmp(a->out, b->out, out_end()) == 0;
}

/* mostly the size of real ones; sizes around the least header, and around what a total length can say */
static size_t some_size(void) {
  if (one_in(3))
    return below(61);
  if (one_in(100))
    return one_in(2) ? 65533 + below(6) : one_in(2) ? LONGEST : below(LONGEST + 1);
  return 20 + below(1481);
}

/* an address of a session that is live, or closing, or none; around the pool; far from it */
static uint32_t some_address(void) {
  uint32_t base = node.plan.pool;
  switch (below(16)) {
  case 0:
    return base + below(3);
  case 1:
    return base + GRUGAVORN_PLACES - 1 + below(4);
  case 2:
    return base - 2 + below(260);
  case 3:
    return chance();
  case 4:
    return one_in(2) ? 0 : 0xFFFFFFFF;
  case 5:
    return (base + 1 + (uint32_t)some_place(TAKEN)) ^ 1u << below(32);
  case 6:
    return base + 1 + (uint32_t)some_place(GRUGAVORN_FREE);
  case 7:
  case 8:
  case 9:
    return base + 1 + (uint32_t)some_place(GRUGAVORN_CLOSING);
  default:
    return base + 1 + (uint32_t)some_place(GRUGAVORN_LIVE);
  }
}

static size_t some_total(void) {
  if (!one_in(10))
    return packet_size;
  switch (below(4)) {
  case 0:
    return packet_size - 1;
  case 1:
    return packet_size + 1;
  case 2:
    return packet_size + 8;
  default:
    return chance();
  }
}

static size_t some_room(void) {
  size_t least = packet_size + 8;
  switch (below(10)) {
  case 0:
    return least - 1;
  case 1:
    return one_in(2) ? packet_size : 0;
  case 2:
    return below((uint32_t)least);
  case 3:
  case 4:
    return least + 1 + below(200);
  default:
    return least;
  }
}

void some_packet(void) {
  packet_size = some_size();
  out_size = some_room();
  packet_at = AROUND + below(16);
  out_at = AROUND + below(16);
  for (size_t i = 0; i < packet_end(); i++)
    ends_lent.in[i] = (uint8_t)chance();
  for (size_t i = 0; i < out_end(); i++)
    ends_lent.out[i] = (uint8_t)chance();
  size_t total = some_total();
  uint32_t address = some_address();
  uint8_t head[20], *p = packet_of(&ends_lent);
  memcpy(head, p, sizeof head);
  head[0] = 0x45;
  if (one_in(5))
    head[0] = (uint8_t)(0x40 | below(16));
  if (one_in(20))
    head[0] = (uint8_t)(below(16) << 4 | (head[0] & 15));
  head[2] = (uint8_t)(total >> 8);
  head[3] = (uint8_t)total;
  for (int i = 0; i < 4; i++)
    head[16 + i] = (uint8_t)(address >> 8 * (3 - i));
  memcpy(p, head, packet_size < sizeof head ? packet_size : sizeof head);
}
