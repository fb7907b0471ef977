/* The seven calls of document 01 as it says, each with its numbers in the paper's order; Recovery and the
 * kept replies as document 02 has them. */
#include "reading.h"
#include <stdio.h>
#include <string.h>

typedef grugavorn_session session;
typedef grugavorn_node node_t;
typedef grugavorn_kept kept;

/* ---- small things */
static grugavorn_left answer(unsigned number, size_t size, node_t n) {
  grugavorn_left a;
  memset(&a, 0, sizeof a);
  a.number = (uint8_t)number;
  a.size = size;
  a.node = n;
  return a;
}

/* the places whose records may have changed: of all, of one, of two with what lies between */
static grugavorn_left over(grugavorn_left a, size_t from, size_t to) {
  a.from = from;
  a.to = to;
  return a;
}

static grugavorn_left over_all(grugavorn_left a) {
  return over(a, 0, GRUGAVORN_PLACES);
}

static grugavorn_left over_one(grugavorn_left a, int place) {
  return over(a, (size_t)place, (size_t)place + 1);
}

static grugavorn_left over_two(grugavorn_left a, int i, int j) {
  return over(a, (size_t)(i < j ? i : j), (size_t)(i < j ? j : i) + 1);
}

static void free_place(session *s) {
  uint32_t usage = s->usage;
  memset(s, 0, sizeof *s);
  s->usage = usage;
}

static void free_all(session *t) {
  for (int i = 0; i < GRUGAVORN_PLACES; i++)
    free_place(&t[i]);
}

/* who has a number: its place, or -1 */
static int holder(const session *t, uint32_t teid, unsigned offset) {
  unsigned low = teid & 255;
  if (low < offset || low - offset >= GRUGAVORN_PLACES)
    return -1;
  const session *s = &t[low - offset];
  return s->state != GRUGAVORN_FREE && s->usage != 0 && s->usage == teid >> 8 ? (int)(low - offset) : -1;
}

/* Recovery of the exchange; answers whether it restarted. "Let d be received minus stored, modulo 256.
 * 0: same. 1 to 127: restarted. 128 to 255: late, the value is thrown away and the sessions stay." The first
 * value seen is stored and frees nothing, as if it were the same. What frees everything empties the store. */
static int hear(node_t *n, session *t, kept *store, unsigned value) {
  if (value == READING_NO_RECOVERY)
    return 0;
  unsigned d = n->heard == 0 ? 0 : (value - n->recovery) % 256;
  if (d >= 128)
    return 0;
  if (d >= 1) {
    free_all(t);
    reading_empty(store);
  }
  n->heard = 1;
  n->recovery = (uint8_t)value;
  return d >= 1;
}

static grugavorn_left refuse(reading_fault f, unsigned type, uint32_t teid, uint32_t sequence, node_t n,
                             uint8_t *reply) {
  return answer(f.cause, reading_write_refused(reply, f, type, teid, sequence), n);
}

static grugavorn_left refuse_bare(unsigned cause, unsigned type, uint32_t teid, uint32_t sequence, node_t n,
                                  uint8_t *reply) {
  reading_fault f = { cause, 0, 0, 0 };
  return refuse(f, type, teid, sequence, n, reply);
}

/* ---- Create */
static grugavorn_left accepted(node_t n, const session *t, int place, uint32_t sequence, uint8_t *reply) {
  return answer(0, reading_write_created(reply, &n.plan, &t[place], (unsigned)place, sequence), n);
}

static grugavorn_left create(node_t n, session *t, kept *store, reading_octets m, uint32_t sequence,
                             uint8_t *reply) {
  session s;
  uint32_t to;
  memset(&s, 0, sizeof s);
  reading_fault f = reading_create(m, &n.plan, &s, &to);
  if (f.cause != 0)
    return refuse(f, 33, to, sequence, n, reply);
  int again = hear(&n, t, store, reading_recovery(m)), replaced = -1;
  for (int i = 0; i < GRUGAVORN_PLACES; i++)
    if (t[i].state != GRUGAVORN_FREE && t[i].imsi == s.imsi && t[i].ebi == s.ebi) {
      if (t[i].point == s.point && t[i].created == sequence)
        return accepted(n, t, i, sequence, reply);
      free_place(&t[i]);
      replaced = i;
    }
  unsigned u = reading_sessions(t, s.point);
  unsigned g = n.plan.points[s.point].guarantee, c = n.plan.points[s.point].ceiling;
  if (!(u < c && (u < g || reading_shared(t, &n.plan) < GRUGAVORN_PLACES))) {
    grugavorn_left full = refuse_bare(73, 33, to, sequence, n, reply);
    return again ? over_all(full) : replaced < 0 ? full : over_one(full, replaced);
  }
  int place = 0;
  while (place < GRUGAVORN_PLACES && t[place].state != GRUGAVORN_FREE)
    place++;
  if (place == GRUGAVORN_PLACES)
    return answer(11, 0, n);
  s.usage = t[place].usage == READING_LAST_USE ? 1 : t[place].usage + 1;
  s.created = sequence;
  s.state = GRUGAVORN_LIVE;
  t[place] = s;
  grugavorn_left opened = accepted(n, t, place, sequence, reply);
  return again ? over_all(opened) : over_two(opened, replaced < 0 ? place : replaced, place);
}

/* ---- Modify and Delete */
static grugavorn_left modify(node_t n, session *t, reading_octets m, uint32_t teid, uint32_t sequence,
                             uint8_t *reply) {
  int place = holder(t, teid, 0);
  if (place < 0)
    return refuse_bare(64, 35, 0, sequence, n, reply);
  session *s = &t[place];
  reading_moves moves;
  reading_fault f = reading_modify(m, s->ebi, &moves);
  if (f.cause != 0)
    return over_one(refuse(f, 35, s->control, sequence, n, reply), place);
  if (moves.control_came) {
    s->control = moves.control;
    s->controladdr = moves.controladdr;
  }
  if (moves.user_came) {
    s->user = moves.user;
    s->useraddr = moves.useraddr;
  }
  return over_one(answer(0, reading_write_modified(reply, s, moves.context_came, sequence), n), place);
}

static grugavorn_left delete_session(node_t n, session *t, reading_octets m, uint32_t teid, uint32_t sequence,
                                     uint8_t *reply) {
  int place = holder(t, teid, 0);
  if (place < 0)
    return refuse_bare(64, 37, 0, sequence, n, reply);
  uint32_t peer = t[place].control;
  reading_fault f = reading_delete(m, t[place].ebi);
  if (f.cause != 0)
    return over_one(refuse(f, 37, peer, sequence, n, reply), place);
  free_place(&t[place]);
  return over_one(answer(0, reading_write_deleted(reply, peer, sequence), n), place);
}

/* "The store is asked after check 8 (TEID), before 64." A request that is there "gets the kept reply octet
 * for octet, with its number, and changes nothing"; the reply to another is kept, whatever its number. */
static grugavorn_left modify_or_delete(node_t n, session *t, kept *store, const reading_head *h,
                                       reading_octets m, uint8_t *reply) {
  const kept *k = reading_asked(store, h);
  if (k != NULL) {
    memcpy(reply, k->reply, k->size);
    return answer(k->number, k->size, n);
  }
  grugavorn_left a = h->kind == 34 ? modify(n, t, m, h->teid, h->sequence, reply)
                                   : delete_session(n, t, m, h->teid, h->sequence, reply);
  reading_keep(store, h, a.number, a.size, reply);
  return a;
}

/* ---- the reply to a Delete Bearer */
static grugavorn_left bearer_answered(node_t n, session *t, reading_octets m, uint32_t teid,
                                      uint32_t sequence) {
  for (int i = 0; i < GRUGAVORN_PLACES; i++)
    if (t[i].own.sends != 0 && t[i].own.number == sequence) {
      if (teid != t[i].usage * 256 + (unsigned)i || reading_cause(m) < 0)
        return answer(9, 0, n);
      free_place(&t[i]);
      return answer(0, 0, n);
    }
  return answer(9, 0, n);
}

static grugavorn_left bearer_deleted(node_t n, session *t, reading_octets m, uint32_t teid,
                                     uint32_t sequence) {
  int place = holder(t, teid, 0);
  grugavorn_left a = bearer_answered(n, t, m, teid, sequence);
  return place < 0 ? a : over_one(a, place);
}

/* ---- take control datagram: 1, 2, those of the header, then by type */
grugavorn_left reading_control(node_t n, session *t, size_t count, kept *store, size_t rows, const uint8_t *d,
                               size_t length, uint8_t *reply, size_t room) {
  if (room < GRUGAVORN_REPLY)
    return answer(1, 0, n);
  if (!reading_rules_kept(&n, t, count, store, rows))
    return answer(2, 0, n);
  reading_head h = reading_control_head(d, length);
  if (h.number == 5)
    return answer(5, reading_write_unsupported(reply), n);
  if (h.number != 0)
    return answer(h.number, 0, n);
  reading_octets m = { d + h.fields, length - h.fields };
  switch (h.kind) {
  case 1: {
    int again = !reading_overruns(m) && hear(&n, t, store, reading_recovery(m));
    grugavorn_left a = answer(0, reading_write_echo(reply, 2, h.sequence, n.plan.recovery), n);
    return again ? over_all(a) : a;
  }
  case 2: {
    if (n.echo.sends == 0 || n.echo.number != h.sequence || reading_overruns(m))
      return answer(9, 0, n);
    int again = hear(&n, t, store, reading_recovery(m));
    n.echo.timer = n.plan.interval;
    n.echo.sends = 0;
    return again ? over_all(answer(0, 0, n)) : answer(0, 0, n);
  }
  case 32:
    return create(n, t, store, m, h.sequence, reply);
  case 34:
  case 36:
    return modify_or_delete(n, t, store, &h, m, reply);
  case 100:
    return bearer_deleted(n, t, m, h.teid, h.sequence);
  default:
    return answer(0, 0, n);
  }
}

/* ---- take user datagram: 1, 2, those of the header, 15 */
grugavorn_handed reading_user(node_t n, const session *t, size_t count, const kept *store, size_t rows,
                              const uint8_t *d, size_t length, uint8_t *reply, size_t room) {
  grugavorn_handed h;
  memset(&h, 0, sizeof h);
  h.start = length;
  if (room < GRUGAVORN_REPLY) {
    h.number = 1;
    return h;
  }
  if (!reading_rules_kept(&n, t, count, store, rows)) {
    h.number = 2;
    return h;
  }
  uint8_t type;
  uint32_t teid;
  uint16_t sequence;
  size_t size = reading_packet(d, length, &h.number, &type, &teid, &sequence);
  if (h.number != 0)
    return h;
  if (type == 1) {
    h.size = reading_write_user_echo(reply, sequence);
    return h;
  }
  int place = holder(t, teid, 128);
  if (place < 0) {
    h.number = 15;
    h.size = reading_write_error(reply, teid, n.plan.user);
    return h;
  }
  h.place = (size_t)place;
  h.start = length - size;
  h.octets = size;
  return h;
}

/* ---- fresh: 2, 16 */
grugavorn_left reading_fresh(grugavorn_plan plan, session *t, size_t count, kept *store, size_t rows) {
  node_t n;
  memset(&n, 0, sizeof n);
  if (count != GRUGAVORN_PLACES || rows != GRUGAVORN_KEPT)
    return answer(2, 0, n);
  memset(t, 0, GRUGAVORN_PLACES * sizeof *t);
  memset(store, 0, GRUGAVORN_KEPT * sizeof *store);
  if (!reading_plan_fits(&plan))
    return over_all(answer(16, 0, n));
  n.plan = plan;
  n.echo.timer = plan.interval;
  return over_all(answer(0, 0, n));
}

/* ---- tick: 2. What is due and unsent is not counted; kept replies grow older, whatever else it does */
static int given_up(const grugavorn_request *r, const grugavorn_plan *p) {
  return r->timer == 1 && r->sends >= p->sends;
}

grugavorn_left reading_tick(node_t n, session *t, size_t count, kept *store, size_t rows) {
  if (!reading_rules_kept(&n, t, count, store, rows))
    return answer(2, 0, n);
  reading_age(store);
  if (given_up(&n.echo, &n.plan)) {
    n.echo.timer = n.plan.interval;
    n.echo.sends = 0;
    free_all(t);
    return over_all(answer(0, 0, n));
  }
  int awaiting = 0;
  if (n.echo.timer > 0)
    n.echo.timer--;
  for (int i = 0; i < GRUGAVORN_PLACES; i++) {
    awaiting |= t[i].own.sends != 0;
    if (given_up(&t[i].own, &n.plan))
      free_place(&t[i]);
    else if (t[i].own.timer > 0)
      t[i].own.timer--;
  }
  return awaiting ? over_all(answer(0, 0, n)) : answer(0, 0, n);
}

/* ---- send next due: 1, 2, 17 */
static int is_awaited(const node_t *n, const session *t, uint32_t number) {
  if (n->echo.sends != 0 && n->echo.number == number)
    return 1;
  for (int i = 0; i < GRUGAVORN_PLACES; i++)
    if (t[i].own.sends != 0 && t[i].own.number == number)
      return 1;
  return 0;
}

static uint32_t after(uint32_t number) {
  return number == READING_LAST_OWN ? 0 : number + 1;
}

static void sent(node_t *n, session *t, grugavorn_request *r) {
  if (r->sends == 0) {
    uint32_t k = n->next;
    while (is_awaited(n, t, k))
      k = after(k);
    r->number = k;
    n->next = after(k);
  }
  r->sends++;
  r->timer = n->plan.resend;
}

grugavorn_left reading_send(node_t n, session *t, size_t count, const kept *store, size_t rows,
                            uint8_t *reply, size_t room) {
  if (room < GRUGAVORN_REPLY)
    return answer(1, 0, n);
  if (!reading_rules_kept(&n, t, count, store, rows))
    return answer(2, 0, n);
  if (n.echo.timer == 0) {
    sent(&n, t, &n.echo);
    return answer(0, reading_write_echo(reply, 1, n.echo.number, n.plan.recovery), n);
  }
  for (int i = 0; i < GRUGAVORN_PLACES; i++)
    if (t[i].state == GRUGAVORN_CLOSING && t[i].own.timer == 0) {
      sent(&n, t, &t[i].own);
      return over_one(answer(0, reading_write_delete_bearer(reply, &t[i]), n), i);
    }
  return answer(17, 0, n);
}

/* ---- close: 2, 10 */
grugavorn_left reading_close(node_t n, session *t, size_t count, const kept *store, size_t rows,
                             size_t place) {
  if (!reading_rules_kept(&n, t, count, store, rows))
    return answer(2, 0, n);
  if (place >= GRUGAVORN_PLACES || t[place].state == GRUGAVORN_FREE)
    return answer(10, 0, n);
  t[place].state = GRUGAVORN_CLOSING;
  return over(answer(0, 0, n), place, place + 1);
}

/* ---- line: 1, 2, 10 */
grugavorn_left reading_line(node_t n, const session *t, size_t count, const kept *store, size_t rows,
                            size_t place, uint8_t *reply, size_t room) {
  if (room < GRUGAVORN_REPLY)
    return answer(1, 0, n);
  if (!reading_rules_kept(&n, t, count, store, rows))
    return answer(2, 0, n);
  if (place >= GRUGAVORN_PLACES)
    return answer(10, 0, n);
  const session *s = &t[place];
  char text[GRUGAVORN_REPLY];
  int size = snprintf(text, sizeof text, "%u\t%u\t%c", (unsigned)place, s->usage, "FLX"[s->state]);
  if (s->state == GRUGAVORN_FREE)
    size += snprintf(text + size, sizeof text - (size_t)size, "\t-\t-\t-\t-\t-\t-\t-\t-");
  else
    size += snprintf(text + size, sizeof text - (size_t)size, "\t%u\t%015llu\t%u\t%u\t%08X\t%u\t%08X\t%u",
                     s->point, (unsigned long long)s->imsi, s->ebi, s->control, s->controladdr, s->user,
                     s->useraddr, s->created);
  memcpy(reply, text, (size_t)size);
  return answer(0, (size_t)size, n);
}
