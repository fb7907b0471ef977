/* Downlink as document 02 says (1/14): a packet from the carrier's side is matched by destination address to
 * a live session and written into a lent buffer as a G-PDU. */
#include "reading.h"
#include <string.h>

/* "18 for a packet under 20 octets, of a version other than 4, with a header length under 20 octets or over
 * the total, or with a total length other than what was given" */
static int whole(const uint8_t *p, size_t length) {
  if (length < 20)
    return 0;
  uint32_t version = p[0] >> 4, header = (p[0] & 15u) * 4, total = reading_number(p + 2, 2);
  return version == 4 && header >= 20 && header <= total && total == length;
}

/* the place of the live session with this address ("pool base + 1 + place"; a closing one is live), or -1 */
static int addressee(const grugavorn_plan *p, const grugavorn_session *t, uint32_t address) {
  if (address <= p->pool || address - p->pool > GRUGAVORN_PLACES)
    return -1;
  uint32_t place = address - p->pool - 1;
  return t[place].state != GRUGAVORN_FREE ? (int)place : -1;
}

/* ---- downlink: 2, 18, 19, 20 */
grugavorn_written reading_down(grugavorn_node n, const grugavorn_session *t, size_t count,
                               const grugavorn_kept *store, size_t rows, const uint8_t *packet, size_t length,
                               uint8_t *out, size_t room) {
  grugavorn_written w;
  memset(&w, 0, sizeof w);
  if (!reading_rules_kept(&n, t, count, store, rows)) {
    w.number = 2;
    return w;
  }
  if (!whole(packet, length)) {
    w.number = 18;
    return w;
  }
  int place = addressee(&n.plan, t, reading_number(packet + 16, 4));
  if (place < 0) {
    w.number = 19;
    return w;
  }
  if (room < length + 8) {
    w.number = 20;
    return w;
  }
  w.place = (size_t)place;
  w.size = reading_write_packet(out, t[place].user, packet, length);
  w.peer = t[place].useraddr;
  return w;
}
