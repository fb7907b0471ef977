/* A control datagram read as document 01 says ("Control header and fields"). */
#include "reading.h"
#include <string.h>

/* ---- the header: 3, 5, 4, 7, 8 (T), 6, 8 (TEID) */
READING_PART reading_head reading_control_head(const uint8_t *d, size_t length) {
  uint8_t padded[12];
  if (length < 8 || (length < 12 && d[0] & 8)) {
    memset(padded, 0, sizeof padded);
    memcpy(padded, d, length);
    d = padded;
  }
  int t = d[0] >> 3 & 1, kind = d[1];
  int wants_teid = kind == 32 || kind == 34 || kind == 36 || kind == 100;
  reading_head h = { 0, (uint32_t)kind, 0, 0, 8 };
  if (t) {
    h.teid = reading_number(d + 4, 4);
    h.sequence = reading_number(d + 8, 3);
    h.fields = 12;
  } else {
    h.sequence = reading_number(d + 4, 3);
  }
  if (length < 8)
    h.number = 3;
  else if (d[0] >> 5 != 2)
    h.number = 5;
  else if (d[0] & 0x10)
    h.number = 4;
  else if (!wants_teid && kind != 1 && kind != 2 && kind != 3)
    h.number = 7;
  else if (t != wants_teid)
    h.number = 8;
  else if (reading_number(d + 2, 2) != length - 4 || length < h.fields)
    h.number = 6;
  else if (kind == 32 && h.teid != 0)
    h.number = 8;
  return h;
}

/* ---- fields */
typedef struct {
  int there;
  reading_octets value;
} field;

READING_PART int reading_overruns(reading_octets m) {
  while (m.size > 0) {
    if (m.size < 4)
      return 1;
    size_t n = reading_number(m.at + 1, 2) + 4;
    if (n > m.size)
      return 1;
    m.at += n;
    m.size -= n;
  }
  return 0;
}

/* the first of that type and instance, in a message that does not overrun */
static field look(reading_octets m, unsigned type, unsigned instance) {
  field none = { 0, { 0, 0 } };
  while (m.size >= 4) {
    size_t n = reading_number(m.at + 1, 2);
    if (n + 4 > m.size)
      return none;
    if (m.at[0] == type && (m.at[3] & 15) == instance)
      return (field){ 1, { m.at + 4, n } };
    m.at += n + 4;
    m.size -= n + 4;
  }
  return none;
}

/* in the message or its first Bearer Context */
static int any_overrun(reading_octets m) {
  if (reading_overruns(m))
    return 1;
  field context = look(m, 93, 0);
  return context.there && reading_overruns(context.value);
}

static reading_fault of(unsigned cause, unsigned type, unsigned instance) {
  return (reading_fault){ cause, 1, type, instance };
}

static reading_fault bare(unsigned cause) {
  return (reading_fault){ cause, 0, 0, 0 };
}

static int good_fteid(reading_octets v, unsigned interface) {
  return (v.at[0] & 0x80) && (v.at[0] & 63) == interface && reading_number(v.at + 1, 4) != 0;
}

static int read_imsi(const uint8_t *v, uint64_t *imsi) {
  *imsi = 0;
  for (int i = 0; i < 15; i++) {
    unsigned digit = i % 2 == 0 ? v[i / 2] & 15 : v[i / 2] >> 4;
    if (digit > 9)
      return 0;
    *imsi = *imsi * 10 + digit;
  }
  return v[7] >> 4 == 15;
}

READING_PART unsigned reading_recovery(reading_octets m) {
  field f = look(m, 3, 0);
  return f.there && f.value.size >= 1 ? f.value.at[0] : READING_NO_RECOVERY;
}

READING_PART int reading_cause(reading_octets m) {
  field cause = look(m, 2, 0);
  if (reading_overruns(m) || !cause.there || cause.value.size < 2)
    return -1;
  return cause.value.at[0];
}

/* ---- Create */

/* the first fault of the list, or cause 0 and what was read */
static reading_fault read_create(reading_octets m, const grugavorn_plan *p, grugavorn_session *s) {
  field imsi = look(m, 1, 0), rat = look(m, 82, 0), sender = look(m, 87, 0);
  field apn = look(m, 71, 0), paa = look(m, 79, 0), context = look(m, 93, 0);
  if (!imsi.there)
    return of(70, 1, 0);
  if (imsi.value.size < 8)
    return of(67, 1, 0);
  if (!read_imsi(imsi.value.at, &s->imsi))
    return of(69, 1, 0);
  if (!rat.there)
    return of(70, 82, 0);
  if (rat.value.size < 1)
    return of(67, 82, 0);
  if (rat.value.at[0] != 1 && rat.value.at[0] != 6)
    return of(69, 82, 0);
  if (!sender.there)
    return of(70, 87, 0);
  if (sender.value.size < 9)
    return of(67, 87, 0);
  if (!good_fteid(sender.value, 6))
    return of(69, 87, 0);
  if (!apn.there)
    return of(70, 71, 0);
  if (!paa.there)
    return of(70, 79, 0);
  if (paa.value.size < 5)
    return of(67, 79, 0);
  if (!context.there)
    return of(70, 93, 0);
  field ebi = look(context.value, 73, 0), user = look(context.value, 87, 2), qos = look(context.value, 80, 0);
  if (!ebi.there)
    return of(70, 73, 0);
  if (ebi.value.size < 1)
    return of(67, 73, 0);
  s->ebi = ebi.value.at[0] & 15;
  if (s->ebi < 5)
    return of(69, 73, 0);
  if (!user.there)
    return of(70, 87, 2);
  if (user.value.size < 9)
    return of(67, 87, 2);
  if (!good_fteid(user.value, 4))
    return of(69, 87, 2);
  if (!qos.there)
    return of(70, 80, 0);
  if (qos.value.size < 22)
    return of(67, 80, 0);
  int point = -1;
  for (int a = 0; a < p->count; a++)
    if (p->points[a].size == apn.value.size && memcmp(p->points[a].name, apn.value.at, apn.value.size) == 0)
      point = a;
  if (point < 0)
    return bare(78);
  if ((paa.value.at[0] & 7) != 1)
    return bare(83);
  s->point = (uint8_t)point;
  s->control = reading_number(sender.value.at + 1, 4);
  s->controladdr = reading_number(sender.value.at + 5, 4);
  s->user = reading_number(user.value.at + 1, 4);
  s->useraddr = reading_number(user.value.at + 5, 4);
  return bare(0);
}

READING_PART reading_fault reading_create(reading_octets m, const grugavorn_plan *plan, grugavorn_session *s,
                                          uint32_t *reply_to) {
  *reply_to = 0;
  if (any_overrun(m))
    return bare(67);
  field sender = look(m, 87, 0);
  if (sender.there && sender.value.size >= 9 && good_fteid(sender.value, 6))
    *reply_to = reading_number(sender.value.at + 1, 4);
  return read_create(m, plan, s);
}

/* ---- Modify and Delete */
READING_PART reading_fault reading_modify(reading_octets m, unsigned ebi_held, reading_moves *moves) {
  memset(moves, 0, sizeof *moves);
  if (any_overrun(m))
    return bare(67);
  field sender = look(m, 87, 0), context = look(m, 93, 0);
  moves->control_came = sender.there;
  moves->context_came = context.there;
  if (sender.there) {
    if (sender.value.size < 9)
      return of(67, 87, 0);
    if (!good_fteid(sender.value, 6))
      return of(69, 87, 0);
    moves->control = reading_number(sender.value.at + 1, 4);
    moves->controladdr = reading_number(sender.value.at + 5, 4);
  }
  if (context.there) {
    field ebi = look(context.value, 73, 0), user = look(context.value, 87, 1);
    if (!ebi.there)
      return of(70, 73, 0);
    if (ebi.value.size < 1)
      return of(67, 73, 0);
    if ((ebi.value.at[0] & 15u) != ebi_held)
      return of(69, 73, 0);
    if (user.there) {
      if (user.value.size < 9)
        return of(67, 87, 1);
      if (!good_fteid(user.value, 4))
        return of(69, 87, 1);
      moves->user_came = 1;
      moves->user = reading_number(user.value.at + 1, 4);
      moves->useraddr = reading_number(user.value.at + 5, 4);
    }
  }
  return bare(0);
}

READING_PART reading_fault reading_delete(reading_octets m, unsigned ebi_held) {
  if (any_overrun(m))
    return bare(67);
  field ebi = look(m, 73, 0);
  if (ebi.there && ebi.value.size < 1)
    return of(67, 73, 0);
  if (ebi.there && (ebi.value.at[0] & 15u) != ebi_held)
    return bare(64);
  return bare(0);
}
