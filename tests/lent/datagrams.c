/* The made-up datagrams: fields in any order, left out, doubled, of another length or value, now and then. */
#include "made.h"
#include <string.h>

typedef grugavorn_session session;

static uint8_t *d = lent.datagram;

static void octet(unsigned v) {
  if (length < MOST)
    d[length++] = (uint8_t)v;
}

static void word(uint32_t v, int octets) {
  while (octets-- > 0)
    octet(v >> 8 * octets);
}

static void field(unsigned type, unsigned instance, const uint8_t *v, unsigned size) {
  octet(type);
  word(size, 2);
  octet((chance() & 0xF0 & -(uint32_t)one_in(3)) | instance);
  for (unsigned i = 0; i < size; i++)
    octet(v[i]);
}

static void fteid(unsigned instance, unsigned first, uint32_t teid) {
  uint8_t v[12] = { (uint8_t)first, 0, 0, 0, 0, 10, 1, 0, 0, 1, 2, 3 };
  for (int i = 0; i < 4; i++)
    v[1 + i] = (uint8_t)(teid >> 8 * (3 - i));
  v[7] = (uint8_t)chance();
  v[8] = (uint8_t)chance();
  if (one_in(40))
    v[0] = (uint8_t)chance();
  if (one_in(60))
    memset(v + 1, 0, 4);
  field(87, instance, v, one_in(40) ? below(9) : one_in(10) ? 12 : 9);
}

static uint8_t value[80];

static void one_octet(unsigned type, unsigned v) {
  value[0] = (uint8_t)v;
  field(type, 0, value, one_in(50) ? 0 : 1 + one_in(9));
}

static void stranger(void) {
  field(one_in(2) ? 1 + below(255) : 200, below(16), value, below(9));
}

unsigned long values_made[BEHIND + 1];

/* Recovery, in two of three messages. Most have the value that is stored, so that sessions stay and the table
 * fills up; one in eight is 1 to 128 behind it, late; one in 250 is 1 to 127 ahead, a restart, which empties
 * the table. The farthest value of either side comes more often than the others. Where none is stored yet it
 * is any. */
static void recovery(void) {
  if (one_in(3))
    return;
  int side = node.heard == 0 ? FIRST : one_in(250) ? AHEAD : one_in(8) ? BEHIND : STORED;
  unsigned far = side == AHEAD ? 127 : 128, step = one_in(4) ? far : 1 + below(far);
  values_made[side]++;
  if (side == FIRST)
    one_octet(3, chance());
  else
    one_octet(3, node.recovery + (side == AHEAD ? step : side == BEHIND ? 256 - step : 0));
}

/* fields of a message in any order; one may be left out, doubled, or come after a stranger */
typedef void piece(void);

static void shuffled(piece **p, int n) {
  piece *all[16];
  memcpy(all, p, (size_t)n * sizeof *p);
  if (one_in(3))
    for (int i = n - 1; i > 0; i--) {
      int j = (int)below((uint32_t)i + 1);
      piece *x = all[i];
      all[i] = all[j];
      all[j] = x;
    }
  for (int i = 0; i < n; i++) {
    if (one_in(20))
      stranger();
    if (!one_in(45))
      all[i]();
    if (one_in(60))
      all[i]();
  }
}

static unsigned imsi_no, ebi_no;

static void p_imsi(void) {
  uint8_t v[8] = { 0x44, 0x10, 0x10, 0x32, 0x54, 0x76, 0, 0xF0 };
  v[6] = (uint8_t)(imsi_no % 10 | (imsi_no / 10 % 10) << 4);
  v[7] = (uint8_t)(0xF0 | imsi_no / 100 % 10);
  if (one_in(60))
    v[below(8)] ^= 1u << below(8);
  field(1, 0, v, one_in(50) ? below(8) : 8);
}

static void p_rat(void) {
  one_octet(82, one_in(40) ? chance() : one_in(4) ? 1 : 6);
}

static void p_sender(void) {
  fteid(0, 0x86, 1 + below(0xFFFFFFFF));
}

static void p_apn(void) {
  unsigned known = node.plan.count;
  known = known > GRUGAVORN_POINTS ? GRUGAVORN_POINTS : known + (unsigned)one_in(30);
  const grugavorn_point *a = &node.plan.points[below(known)];
  unsigned size = a->size;
  if (size > GRUGAVORN_NAME)
    size = GRUGAVORN_NAME;
  else if (one_in(60) && size > 0)
    size--;
  field(71, 0, a->name, size);
}

static void p_paa(void) {
  memset(value, 0, 8);
  value[0] = one_in(40) ? below(8) : 1 | (chance() & 8);
  field(79, 0, value, one_in(50) ? below(5) : 5);
}

static void p_ebi(void) {
  one_octet(73, one_in(50) ? chance() : ebi_no | (chance() & 0x10));
}

static void p_user2(void) {
  fteid(2, 0x84, 1 + below(0xFFFFFFFF));
}

static void p_user1(void) {
  fteid(1, 0x84, 1 + below(0xFFFFFFFF));
}

static void p_qos(void) {
  field(80, 0, value, one_in(50) ? below(22) : one_in(9) ? 25 : 22);
}

static void context(piece **p, int n) {
  size_t head = length;
  word((uint32_t)93 << 24, 4);
  shuffled(p, n);
  size_t size = length - head - 4;
  if (one_in(50))
    size += below(7) - 3u;
  if (head + 3 < MOST) {
    d[head + 1] = (uint8_t)(size >> 8);
    d[head + 2] = (uint8_t)size;
  }
}

static void p_context32(void) {
  piece *p[] = { p_ebi, p_user2, p_qos };
  context(p, 3);
}

static void p_context34(void) {
  piece *p[] = { p_ebi, p_user1 };
  context(p, one_in(3) ? 1 : 2);
}

static void p_cause(void) {
  value[0] = 16;
  value[1] = 0;
  field(2, 0, value, one_in(20) ? below(2) : 2);
}

static void head(unsigned type, int with, uint32_t teid, uint32_t sequence) {
  length = 0;
  octet((with ? 0x48 : 0x40) | (chance() & 7));
  octet(type);
  word(0, 2);
  if (with)
    word(teid, 4);
  word(sequence, 3);
  octet(chance());
}

/* the Modifies and Deletes of before, some more than the store has rows */
enum { EARLIER = GRUGAVORN_KEPT + 8 };

static uint8_t earlier[EARLIER][MOST];
static size_t earlier_sizes[EARLIER];
static unsigned latest;

static void remember(void) {
  latest = (latest + 1) % EARLIER;
  memcpy(earlier[latest], d, MOST);
  earlier_sizes[latest] = length;
}

/* One of them once more, octet for octet; or what a row of the store was kept for, with no fields or with one
 * that overruns. Now and then one bit of its type, sequence number or TEID is another. */
static void asked_again(void) {
  if (one_in(3)) {
    const grugavorn_kept *k = some_row();
    head(k->type, 1, 0, 0);
    memcpy(d + 4, k->teid, 4);
    memcpy(d + 8, k->sequence, 3);
    if (one_in(3))
      word(chance(), (int)below(5));
  } else {
    unsigned back = below(one_in(4) ? EARLIER : 12);
    unsigned i = (latest + EARLIER - back) % EARLIER;
    length = earlier_sizes[i];
    memcpy(d, earlier[i], MOST);
  }
  if (one_in(12) && length > 11) {
    static const uint8_t at[] = { 1, 4, 5, 6, 7, 8, 9, 10 };
    unsigned which = at[below(sizeof at)];
    d[which] ^= which == 1 ? 34 ^ 36 : 1u << below(8);
  }
}

void control_datagram(unsigned kind) {
  uint32_t sequence = one_in(30) ? chance() & 0xFFFFFF : below(6);
  int k = some_place(TAKEN);
  const session *s = &lent.records[k];
  uint32_t teid = s->usage * 256 + (unsigned)k;
  if (one_in(25))
    teid = chance();
  if (one_in(25))
    teid += 128;
  if (one_in(25))
    teid += 256;
  imsi_no = below(110);
  ebi_no = 5 + below(one_in(6) ? 11 : 1);
  switch (kind) {
  case 32: {
    piece *p[] = { p_imsi, p_rat, p_sender, p_apn, p_paa, p_context32, recovery };
    head(32, 1, one_in(60) ? chance() : 0, sequence);
    shuffled(p, 7);
    break;
  }
  case 34: {
    ebi_no = s->ebi;
    piece *p[] = { p_sender, p_context34 };
    head(34, 1, teid, sequence);
    int n = (int)below(3);
    shuffled(p + below(3u - (uint32_t)n), n);
    break;
  }
  case 36: {
    ebi_no = one_in(12) ? 5 + below(11) : s->ebi;
    piece *p[] = { p_ebi, stranger, p_context34 };
    head(36, 1, teid, sequence);
    shuffled(p, (int)below(4));
    break;
  }
  case 1: {
    piece *p[] = { recovery };
    head(1, 0, 0, sequence);
    shuffled(p, 1);
    break;
  }
  case 2: {
    piece *p[] = { recovery };
    head(2, 0, 0, one_in(8) ? sequence : node.echo.number);
    shuffled(p, 1);
    break;
  }
  case 3:
    head(3, 0, 0, sequence);
    break;
  case 100: {
    k = some_place(AWAITED);
    s = &lent.records[k];
    piece *p[] = { p_cause };
    head(100, 1, one_in(12) ? teid : s->usage * 256 + (unsigned)k, one_in(12) ? sequence : s->own.number);
    shuffled(p, 1);
    break;
  }
  case AGAIN:
    asked_again();
    break;
  default:
    length = below(40);
    for (size_t i = 0; i < length; i++)
      d[i] = (uint8_t)chance();
    if (length > 1 && one_in(2))
      d[0] = 0x48;
  }
  if (length > 3) {
    d[2] = (uint8_t)((length - 4) >> 8);
    d[3] = (uint8_t)(length - 4);
  }
  if (kind == 34 || kind == 36)
    remember();
}

void user_datagram(void) {
  int k = some_place(TAKEN);
  length = 0;
  octet(0x30 | (one_in(2) ? 0 : chance() & 15));
  octet(one_in(4) ? 1 : 255);
  word(0, 2);
  word(lent.records[k].usage * 256 + 128 + (unsigned)k, 4);
  if (one_in(8))
    d[4 + below(4)] ^= 1u << below(8);
  if (d[0] & 7) {
    word(chance(), 3);
    unsigned next = one_in(2) ? 0 : one_in(12) ? chance() & 255 : 1 + below(127);
    octet(next);
    while ((d[0] & 4) && next != 0 && length < 300) {
      unsigned n = one_in(25) ? one_in(2) ? 0 : below(256) : 1 + below(3);
      octet(n);
      for (unsigned i = 2; i < 4 * n && length < 500; i++)
        octet(chance());
      next = one_in(2) ? 0 : one_in(12) ? chance() & 255 : 1 + below(127);
      octet(next);
    }
  }
  unsigned extra = below(20);
  while (extra-- > 0)
    octet(chance());
  if (one_in(30))
    length = below((uint32_t)length + 1);
  if (length > 7) {
    d[2] = (uint8_t)((length - 8) >> 8);
    d[3] = (uint8_t)(length - 8);
  }
}

/* octets changed, cut or hung on; the length mended or not */
void damage(unsigned less) {
  for (unsigned n = 1 + below(3); n > 0 && length > 0; n--)
    d[below((uint32_t)length)] = (uint8_t)chance();
  if (one_in(3))
    length = below((uint32_t)length + 1);
  if (one_in(3))
    for (unsigned n = below(6); n > 0; n--)
      octet(chance());
  if (length > 8 && one_in(2)) {
    d[2] = (uint8_t)((length - less) >> 8);
    d[3] = (uint8_t)(length - less);
  }
}
