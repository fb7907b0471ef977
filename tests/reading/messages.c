/* The messages that the unit writes, octet by octet, as document 01 says; of document 02 the G-PDU. */
#include "reading.h"
#include <string.h>

/* octets are written one after the other */
typedef struct {
  uint8_t *to;
  size_t size;
} writer;

static void put(writer *w, uint32_t v, int octets) {
  while (octets-- > 0)
    w->to[w->size++] = (uint8_t)(v >> 8 * octets);
}

/* type, length and instance of a field */
static inline void put_head(writer *w, unsigned type, unsigned size, unsigned instance) {
  put(w, type, 1);
  put(w, size, 2);
  put(w, instance, 1);
}

static inline void put_octet(writer *w, unsigned type, unsigned value) {
  put_head(w, type, 1, 0);
  put(w, value, 1);
}

static void put_cause(writer *w, unsigned cause) {
  put_head(w, 2, 2, 0);
  put(w, cause, 1);
  put(w, 0, 1);
}

static void put_fteid(writer *w, unsigned instance, unsigned first, uint32_t teid, uint32_t address) {
  put_head(w, 87, 9, instance);
  put(w, first, 1);
  put(w, teid, 4);
  put(w, address, 4);
}

/* a header with T set, of a message of `size` octets in all */
static writer start(uint8_t *reply, unsigned type, unsigned size, uint32_t teid, uint32_t sequence) {
  writer w = { reply, 0 };
  put(&w, 0x48, 1);
  put(&w, type, 1);
  put(&w, size - 4, 2);
  put(&w, teid, 4);
  put(&w, sequence, 3);
  put(&w, 0, 1);
  return w;
}

/* ---- control */
READING_PART size_t reading_write_unsupported(uint8_t *reply) {
  writer w = { reply, 0 };
  put(&w, 0x40030004, 4);
  put(&w, 0, 4);
  return w.size;
}

READING_PART size_t reading_write_echo(uint8_t *reply, unsigned type, uint32_t sequence, unsigned recovery) {
  writer w = { reply, 0 };
  put(&w, 0x40, 1);
  put(&w, type, 1);
  put(&w, 9, 2);
  put(&w, sequence, 3);
  put(&w, 0, 1);
  put_octet(&w, 3, recovery);
  return w.size;
}

READING_PART size_t reading_write_refused(uint8_t *reply, reading_fault f, unsigned type, uint32_t teid,
                                          uint32_t sequence) {
  writer w = start(reply, type, f.named ? 22 : 18, teid, sequence);
  put_head(&w, 2, f.named ? 6 : 2, 0);
  put(&w, f.cause, 1);
  put(&w, 0, 1);
  if (f.named)
    put_head(&w, f.type, 0, f.instance);
  return w.size;
}

READING_PART size_t reading_write_created(uint8_t *reply, const grugavorn_plan *plan,
                                          const grugavorn_session *s, unsigned place, uint32_t sequence) {
  writer w = start(reply, 33, 78, s->control, sequence);
  put_cause(&w, 16);
  put_fteid(&w, 1, 0x87, s->usage * 256 + place, plan->control);
  put_head(&w, 79, 5, 0);
  put(&w, 1, 1);
  put(&w, plan->pool + 1 + place, 4);
  put_octet(&w, 127, 0);
  put_head(&w, 93, 24, 0);
  put_octet(&w, 73, s->ebi);
  put_cause(&w, 16);
  put_fteid(&w, 2, 0x85, s->usage * 256 + 128 + place, plan->user);
  put_octet(&w, 3, plan->recovery);
  return w.size;
}

READING_PART size_t reading_write_modified(uint8_t *reply, const grugavorn_session *s, int context,
                                           uint32_t sequence) {
  writer w = start(reply, 35, context ? 33 : 18, s->control, sequence);
  put_cause(&w, 16);
  if (context) {
    put_head(&w, 93, 11, 0);
    put_octet(&w, 73, s->ebi);
    put_cause(&w, 16);
  }
  return w.size;
}

READING_PART size_t reading_write_deleted(uint8_t *reply, uint32_t teid, uint32_t sequence) {
  writer w = start(reply, 37, 18, teid, sequence);
  put_cause(&w, 16);
  return w.size;
}

READING_PART size_t reading_write_delete_bearer(uint8_t *reply, const grugavorn_session *s) {
  writer w = start(reply, 99, 17, s->control, s->own.number);
  put_octet(&w, 73, s->ebi);
  return w.size;
}

/* ---- user */
READING_PART size_t reading_write_user_echo(uint8_t *reply, unsigned sequence) {
  writer w = { reply, 0 };
  put(&w, 0x32020006, 4);
  put(&w, 0, 4);
  put(&w, sequence, 2);
  put(&w, 0, 2);
  put(&w, 0x0E00, 2);
  return w.size;
}

READING_PART size_t reading_write_error(uint8_t *reply, uint32_t teid, uint32_t address) {
  writer w = { reply, 0 };
  put(&w, 0x321A0010, 4);
  put(&w, 0, 4);
  put(&w, 0, 4);
  put(&w, 16, 1);
  put(&w, teid, 4);
  put(&w, 0x850004, 3);
  put(&w, address, 4);
  return w.size;
}

/* "octet 1 30, type 255, the peer's user TEID, no optional part": a G-PDU's length is that of its packet */
READING_PART size_t reading_write_packet(uint8_t *out, uint32_t teid, const uint8_t *packet, size_t length) {
  writer w = { out, 0 };
  put(&w, 0x30FF, 2);
  put(&w, (uint32_t)length, 2);
  put(&w, teid, 4);
  memcpy(out + w.size, packet, length);
  return w.size + length;
}
