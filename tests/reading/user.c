/* A user datagram read as document 01 says ("User header", "The numbers that come back"). */
#include "reading.h"

READING_PART size_t reading_packet(const uint8_t *d, size_t n, uint8_t *number, uint8_t *type, uint32_t *teid,
                                   uint16_t *sequence) {
  const uint8_t *p, *end = d + n;
  uint8_t why = 0;

  *type = 0;
  *teid = 0;
  *sequence = 0;
  if (n < 8)
    why = 3;
  else if ((d[0] & 0xF0) != 0x30) /* version 001, PT 1 */
    why = 12;
  else if (((size_t)d[2] << 8 | d[3]) != n - 8)
    why = 6;
  else if (d[1] != 1 && d[1] != 255)
    why = 7;
  else if ((d[0] & 0x07) && n < 12) /* E, S or PN, and no room for the 4 octets */
    why = 13;
  *number = why;
  if (why)
    return 0;

  p = d + 8;
  if (d[0] & 0x07) {
    uint8_t next = p[3];
    p += 4;
    if (d[0] & 0x04)
      while (next) {
        size_t whole;
        if (next & 0x80) {
          *number = 14;
          return 0;
        }
        whole = p == end ? 0 : (size_t)p[0] * 4;
        if (whole == 0 || whole > (size_t)(end - p)) {
          *number = 13;
          return 0;
        }
        p += whole;
        next = p[-1];
      }
  }

  *type = d[1];
  if (d[1] == 255)
    *teid = (uint32_t)d[4] << 24 | (uint32_t)d[5] << 16 | (uint32_t)d[6] << 8 | d[7];
  else if (d[0] & 0x02)
    *sequence = (uint16_t)(d[8] << 8 | d[9]);
  return (size_t)(end - p);
}
