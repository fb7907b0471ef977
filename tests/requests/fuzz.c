/* Random and damaged control datagrams through the compiled decoder, held against the reading of document 01
 * (tests/reading/control.c). The two share no code and no tables.
 * Arguments: how many datagrams, and a seed. Exit status 1 on the first twenty differences. */
#include "../reading/reading.h"
#include <stdio.h>
#include <stdlib.h>
#include <string.h>

typedef struct {
  uint32_t number, kind, teid, sequence, fields;
} Head;

typedef struct {
  uint64_t imsi, number, named, field, instance, kind, ebi, control, controladdr, user, useraddr, point,
      recovery;
  uint64_t moved, context, usermoved, replyto;
} Answer;

typedef struct {
  uint32_t echo, echounread, echoreply, bearerunread, cause;
} Carried;

/* the decoder (crate trial_readers) */
Head requests_head(const uint8_t *d, size_t n);
Answer requests_create(const uint8_t *s, size_t n);
Answer requests_modify(const uint8_t *s, size_t n, uint8_t ebi);
Answer requests_delete(const uint8_t *s, size_t n, uint8_t ebi);
Carried requests_carried(const uint8_t *s, size_t n);

/* ---- the reading, as the host has it */
enum { NAMES = 3 };

/* the trial plan of trial_readers: three names, the last as long as a name may be */
static void long_name(uint8_t *name) {
  name[0] = GRUGAVORN_NAME - 1;
  for (int i = 1; i < GRUGAVORN_NAME; i++)
    name[i] = (uint8_t)('a' + (i - 1) % 26);
}

static grugavorn_plan trial_plan(void) {
  grugavorn_plan p;
  memset(&p, 0, sizeof p);
  p.count = NAMES;
  memcpy(p.points[0].name, "\4data", 5);
  p.points[0].size = 5;
  memcpy(p.points[1].name, "\3net", 4);
  p.points[1].size = 4;
  long_name(p.points[2].name);
  p.points[2].size = GRUGAVORN_NAME;
  return p;
}

static Answer answer(unsigned kind, reading_fault f) {
  Answer a;
  memset(&a, 0, sizeof a);
  a.number = f.cause;
  a.kind = f.cause == 0 ? kind : 0;
  if (f.named) {
    a.named = 1;
    a.field = f.type;
    a.instance = f.instance;
  }
  return a;
}

static Answer create(reading_octets m) {
  static grugavorn_plan plan;
  grugavorn_session s;
  uint32_t to;
  if (plan.count == 0)
    plan = trial_plan();
  memset(&s, 0, sizeof s);
  Answer a = answer(32, reading_create(m, &plan, &s, &to));
  a.replyto = to;
  if (a.number == 0) {
    a.imsi = s.imsi;
    a.ebi = s.ebi;
    a.control = s.control;
    a.controladdr = s.controladdr;
    a.user = s.user;
    a.useraddr = s.useraddr;
    a.point = s.point;
    a.recovery = reading_recovery(m);
  }
  return a;
}

static Answer modify(reading_octets m, unsigned ebi) {
  reading_moves moves;
  Answer a = answer(34, reading_modify(m, ebi, &moves));
  if (a.number == 0) {
    a.moved = (uint64_t)moves.control_came;
    a.control = moves.control;
    a.controladdr = moves.controladdr;
    a.context = (uint64_t)moves.context_came;
    a.usermoved = (uint64_t)moves.user_came;
    a.user = moves.user;
    a.useraddr = moves.useraddr;
  }
  return a;
}

static Answer delete_session(reading_octets m, unsigned ebi) {
  Answer a = answer(36, reading_delete(m, ebi));
  if (a.number == 0)
    a.ebi = ebi;
  return a;
}

static Carried carried(reading_octets m) {
  Carried c = { READING_NO_RECOVERY, 0, 0, 0, 0 };
  int cause = reading_cause(m);
  if (reading_overruns(m)) {
    c.echounread = 1;
  } else {
    c.echo = reading_recovery(m);
    c.echoreply = c.echo;
  }
  if (cause < 0)
    c.bearerunread = 1;
  else
    c.cause = (uint32_t)cause;
  return c;
}

static Head head(const uint8_t *d, size_t n) {
  reading_head h = reading_control_head(d, n);
  return (Head){ h.number, h.kind, h.teid, h.sequence, h.fields };
}

/* ---- datagrams */
static uint64_t state;

static uint32_t rnd(uint32_t below) {
  state ^= state << 13;
  state ^= state >> 7;
  state ^= state << 17;
  return (uint32_t)((state >> 16) % below);
}

static int chance(int percent) {
  return (int)rnd(100) < percent;
}

/* the longest datagram, and more than a length can say */
enum { LONGEST = 200000 };

static uint8_t buffer[LONGEST];

/* one field, with what may be wrong with it */
static size_t put(uint8_t *out, int type, int instance, const uint8_t *value, size_t size, int damage) {
  uint8_t v[300];
  size_t n = size, stated;
  memset(v, 0, sizeof v);
  memcpy(v, value, size);
  if (damage) {
    switch (rnd(8)) {
    case 0:
      return 0;
    case 1:
      n = n ? rnd((uint32_t)n) : 0;
      break;
    case 2:
      n += rnd(20);
      break;
    case 3:
      if (n)
        v[rnd((uint32_t)n)] ^= (uint8_t)(1 << rnd(8));
      break;
    case 4:
      instance = (int)rnd(16);
      break;
    case 5:
      type = (int)rnd(256);
      break;
    case 6:
      if (n)
        v[rnd((uint32_t)(n < 5 ? n : 5))] = (uint8_t)rnd(256);
      break;
    default:
      break;
    }
  }
  stated = n;
  if (damage && chance(4))
    stated = n + rnd(3) - 1;
  out[0] = (uint8_t)type;
  out[1] = (uint8_t)(stated >> 8);
  out[2] = (uint8_t)stated;
  out[3] = (uint8_t)(instance | (chance(20) ? rnd(16) << 4 : 0));
  memcpy(out + 4, v, n);
  return n + 4;
}

static size_t tunnel_value(uint8_t *v, int interface) {
  v[0] = (uint8_t)(0x80 | (chance(20) ? 0x40 : 0) | interface);
  for (int i = 1; i < 9; i++)
    v[i] = (uint8_t)rnd(256);
  if (chance(5))
    memset(v + 1, 0, 4);
  if (chance(5))
    memset(v + 1, 255, 4);
  return 9;
}

static size_t imsi_value(uint8_t *v) {
  for (int i = 0; i < 8; i++)
    v[i] = (uint8_t)(rnd(10) | rnd(10) << 4);
  v[7] = (uint8_t)(v[7] | 0xF0);
  if (chance(3))
    v[rnd(8)] = (uint8_t)rnd(256);
  return 8;
}

static size_t name_value(uint8_t *v) {
  switch (rnd(6)) {
  case 0:
    memcpy(v, "\3net", 4);
    return 4;
  case 1:
    long_name(v);
    return GRUGAVORN_NAME;
  case 2:
    if (chance(50)) {
      memcpy(v, "\4DATA", 5);
      return 5;
    }
    return rnd(4);
  default:
    memcpy(v, "\4data", 5);
    return 5;
  }
}

static size_t bearer_value(uint8_t *v, int user, int percent) {
  uint8_t w[64] = { 0 };
  size_t n = 0;
  int order = chance(15);
  for (int k = 0; k < 3; k++) {
    int which = order ? (int)rnd(3) : k;
    if (which == 0) {
      w[0] = (uint8_t)(5 + rnd(11));
      if (chance(40))
        w[0] = 5;
      if (chance(20))
        w[0] |= 0x30;
      n += put(v + n, 73, 0, w, 1, chance(percent));
    }
    if (which == 1)
      n += put(v + n, 87, user, w, tunnel_value(w, 4), chance(percent));
    if (which == 2) {
      memset(w, 0, sizeof w);
      n += put(v + n, 80, 0, w, 22, chance(percent));
    }
    if (chance(5))
      n += put(v + n, (int)rnd(256), (int)rnd(4), w, rnd(12), 0);
    if (chance(1))
      v[n++] = (uint8_t)rnd(256);
  }
  return n;
}

static size_t fields(uint8_t *out, int type) {
  static const int order[8] = { 1, 82, 87, 71, 79, 93, 3, 0 };
  uint8_t v[1024];
  size_t n = 0;
  int percent = chance(40) ? 0 : (int)rnd(30), mixed = chance(15);
  for (int k = 0; k < 8; k++) {
    int t = mixed ? order[rnd(7)] : order[k];
    if (type == 34 && (t == 1 || t == 82 || t == 71 || t == 79) && chance(90))
      continue;
    if (type == 34 && (t == 87 || t == 93) && chance(20))
      continue;
    if (type == 36 && t != 0 && chance(80))
      continue;
    switch (t) {
    case 1:
      n += put(out + n, 1, 0, v, imsi_value(v), chance(percent));
      break;
    case 82:
      v[0] = chance(90) ? 6 : chance(60) ? 1 : (uint8_t)rnd(8);
      n += put(out + n, 82, 0, v, 1, chance(percent));
      break;
    case 87:
      n += put(out + n, 87, 0, v, tunnel_value(v, 6), chance(percent));
      break;
    case 71:
      n += put(out + n, 71, 0, v, name_value(v), chance(percent));
      break;
    case 79:
      memset(v, 0, 5);
      v[0] = chance(85) ? 1 : (uint8_t)rnd(256);
      n += put(out + n, 79, 0, v, 5, chance(percent));
      break;
    case 93: {
      size_t b = bearer_value(v, type == 34 ? 1 : 2, percent);
      if (b > 250)
        b = 250;
      n += put(out + n, 93, 0, v, b, chance(percent));
      break;
    }
    case 3:
      if (chance(60)) {
        v[0] = (uint8_t)rnd(256);
        n += put(out + n, 3, 0, v, chance(90), chance(percent));
      }
      break;
    default:
      break;
    }
    if (type == 36 && chance(40)) {
      v[0] = (uint8_t)(chance(70) ? 5 : rnd(256));
      n += put(out + n, 73, 0, v, 1, chance(percent));
    }
    if ((type == 100 || type < 4) && chance(30)) {
      v[0] = 16;
      v[1] = 0;
      n += put(out + n, 2, 0, v, 2, chance(percent));
    }
    if (chance(4)) {
      v[0] = (uint8_t)rnd(256);
      n += put(out + n, (int)rnd(256), (int)rnd(3), v, rnd(9), 0);
    }
    if (chance(1))
      for (int j = (int)rnd(4); j > 0; j--)
        out[n++] = (uint8_t)rnd(256);
  }
  return n;
}

static size_t datagram(void) {
  static const int types[7] = { 32, 32, 32, 34, 34, 36, 100 };
  size_t n;
  if (chance(4)) {
    n = rnd(chance(90) ? 80 : 2000);
    for (size_t i = 0; i < n; i++)
      buffer[i] = (uint8_t)rnd(chance(50) ? 256 : 100);
    if (n > 1 && chance(60)) {
      buffer[0] = chance(50) ? 0x48 : 0x40;
      buffer[1] = (uint8_t)types[rnd(7)];
    }
    return n;
  }
  int type = chance(85) ? types[rnd(7)] : 1 + (int)rnd(3);
  int t = type >= 32;
  size_t front = t ? 12 : 8;
  memset(buffer, 0, 12);
  buffer[0] = (uint8_t)(t ? 0x48 : 0x40) | (chance(10) ? (uint8_t)rnd(8) : 0);
  buffer[1] = (uint8_t)type;
  if (t && (type != 32 || chance(3)))
    for (int i = 4; i < 8; i++)
      buffer[i] = (uint8_t)rnd(256);
  for (size_t i = front - 4; i < front; i++)
    buffer[i] = (uint8_t)rnd(256);
  n = front + fields(buffer + front, type);
  if (chance(3))
    n -= rnd((uint32_t)(n < 12 ? n : 12));
  buffer[2] = (uint8_t)((n - 4) >> 8);
  buffer[3] = (uint8_t)(n - 4);
  if (chance(4))
    buffer[rnd(4)] ^= (uint8_t)(1 << rnd(8));
  if (chance(4))
    for (int j = (int)rnd(4); j >= 0; j--)
      buffer[rnd((uint32_t)n ? (uint32_t)n : 1)] = (uint8_t)rnd(256);
  return n;
}

static long differences;

static void differ(const char *what, const uint8_t *d, size_t n) {
  printf("difference in %s:", what);
  for (size_t i = 0; i < n && i < 300; i++)
    printf("%02X", d[i]);
  printf("\n");
  if (++differences == 20)
    exit(1);
}

/* what requests of their own type came to: by number, and by type where they are sound */
static long causes[128], kinds[128];

static void note(const Head *h, unsigned kind, const Answer *a) {
  if (h->number == 0 && h->kind == kind) {
    causes[a->number]++;
    kinds[a->kind]++;
  }
}

int main(int argc, char **argv) {
  long count = argc > 1 ? atol(argv[1]) : 1000000;
  long gates[16] = { 0 };
  state = 88172645463325252ull ^ (argc > 2 ? strtoull(argv[2], NULL, 10) : 0);
  for (long i = 0; i < count; i++) {
    size_t n = datagram();
    if (i % 5000 == 4999)
      n = 65530 + rnd(40000);
    Head h = head(buffer, n), g = requests_head(buffer, n);
    if (memcmp(&h, &g, sizeof h))
      differ("head", buffer, n);
    gates[h.number]++;
    if (n < h.fields)
      continue;
    reading_octets m = { buffer + h.fields, n - h.fields };
    uint8_t ebi = chance(70) ? 5 : (uint8_t)(5 + rnd(11));
    Answer a = create(m), b = requests_create(m.at, m.size);
    if (memcmp(&a, &b, sizeof a))
      differ("create", m.at, m.size);
    note(&h, 32, &a);
    a = modify(m, ebi);
    b = requests_modify(m.at, m.size, ebi);
    if (memcmp(&a, &b, sizeof a))
      differ("modify", m.at, m.size);
    note(&h, 34, &a);
    a = delete_session(m, ebi);
    b = requests_delete(m.at, m.size, ebi);
    if (memcmp(&a, &b, sizeof a))
      differ("delete", m.at, m.size);
    note(&h, 36, &a);
    Carried c = carried(m), e = requests_carried(m.at, m.size);
    if (memcmp(&c, &e, sizeof c))
      differ("carried", m.at, m.size);
  }
  printf("headers:");
  for (int i = 0; i < 16; i++)
    if (gates[i])
      printf(" %d: %ld", i, gates[i]);
  printf("\nrequests of their own type:");
  for (int i = 0; i < 128; i++)
    if (causes[i])
      printf(" %d: %ld", i, causes[i]);
  printf("\nsound: create %ld, modify %ld, delete %ld\n", kinds[32], kinds[34], kinds[36]);
  printf("%ld datagrams, %ld differences\n", count, differences);
  return differences != 0;
}
