/* Compares the proved reader of user datagrams with the reading of document 01 (tests/reading/user.c).
 *   host fuzz COUNT     that many made-up datagrams, and the long chains; ends with 1 at the first difference
 *   host stack          how much stack the proved reader takes, by the number of extension headers
 *   host count          reads each of a fixed mix of packets once with each reader, for a counter of
 *                       instructions, and prints the places of the runs for one that reads a trace */
#include "../reading/reading.h"
#include <stdio.h>
#include <stdlib.h>
#include <string.h>

/* The proved reader (crate trial_readers): it answers as reading_packet does. A slice is its pointer, then
 * its length. */
size_t gpdu_read(const uint8_t *d, size_t n, uint8_t *number, uint8_t *type, uint32_t *teid,
                 uint16_t *sequence);

enum { MOST = 65600, MIX = 1024 };

static uint8_t d[MOST];
static uint64_t seen[256][2]; /* by number, and by type within 0: [0][0] packets, [0][1] echoes */

/* xorshift64*, so that every run is the same */
static uint64_t state = 0x9E3779B97F4A7C15ull;

static uint32_t draw(void) {
  state ^= state >> 12;
  state ^= state << 25;
  state ^= state >> 27;
  return (uint32_t)(state * 0x2545F4914F6CDD1Dull >> 32);
}

static uint32_t below(uint32_t n) {
  return (uint32_t)((uint64_t)draw() * n >> 32);
}

static int one_in(uint32_t n) {
  return below(n) == 0;
}

static void set_length(size_t n) {
  if (n >= 8) {
    d[2] = (uint8_t)((n - 8) >> 8);
    d[3] = (uint8_t)(n - 8);
  }
}

/* An octet of the kinds that the walk tells apart. */
static uint8_t extension_type(void) {
  static const uint8_t edges[] = { 1, 0x40, 127, 128, 129, 0x85, 0xC0, 255 };
  return below(4) ? (uint8_t)(1 + below(127)) : edges[below(sizeof edges)];
}

/* A datagram that is sound but for what chance does to it. */
static size_t make(void) {
  size_t n = 8, i, headers;
  d[0] = (uint8_t)(0x30 | below(16));
  d[1] = below(3) ? 255 : 1;
  for (i = 4; i < 8; i++)
    d[i] = (uint8_t)draw();
  if (d[0] & 7) {
    for (; n < 12; n++)
      d[n] = (uint8_t)draw();
    d[11] = 0;
    if (d[0] & 4) {
      headers = below(4) ? below(4) : below(40);
      for (i = 0; i < headers; i++) {
        size_t whole = 4 * (below(8) ? 1 : 1 + below(6)), k;
        d[n - 1] = extension_type();
        d[n] = (uint8_t)(whole / 4);
        for (k = 1; k < whole; k++)
          d[n + k] = (uint8_t)draw();
        n += whole;
        d[n - 1] = 0;
      }
    }
  }
  for (i = below(40); i; i--)
    d[n++] = (uint8_t)draw();
  set_length(n);
  /* and what chance does */
  if (one_in(4)) {
    n = below((uint32_t)n + 1);
    if (below(4))
      set_length(n);
  }
  for (i = one_in(3) ? 1 + below(3) : 0; i && n; i--)
    d[below((uint32_t)n)] = one_in(3) ? (uint8_t)(below(2) ? 0 : 128) : (uint8_t)draw();
  if (one_in(16))
    for (i = 0; i < n; i++)
      d[i] = (uint8_t)draw();
  return n;
}

/* What a reader says; the places are filled before, so that one it leaves alone shows. */
struct said {
  uint8_t number, type;
  uint16_t sequence;
  uint32_t teid;
  size_t size;
};

typedef size_t reader(const uint8_t *, size_t, uint8_t *, uint8_t *, uint32_t *, uint16_t *);

static struct said ask(reader *read, const uint8_t *from, size_t n) {
  struct said s = { 99, 99, 9999, 99999, 0 };
  s.size = read(from, n, &s.number, &s.type, &s.teid, &s.sequence);
  return s;
}

static int same(size_t n) {
  struct said a = ask(gpdu_read, d, n), b = ask(reading_packet, d, n);
  seen[b.number][b.number == 0 && b.type == 1]++;
  if (a.number == b.number && a.type == b.type && a.sequence == b.sequence && a.teid == b.teid
      && a.size == b.size)
    return 1;
  printf("differs at %lu octets: number %d and %d, payload of %lu and %lu\n", (unsigned long)n, a.number,
         b.number, (unsigned long)a.size, (unsigned long)b.size);
  for (size_t i = 0; i < n && i < 64; i++)
    printf("%02X", d[i]);
  printf("\n");
  return 0;
}

/* A chain of so many least extension headers, with this many octets behind it. */
static size_t chain(size_t headers, size_t behind) {
  size_t n = 12, i;
  d[0] = 0x34;
  d[1] = 255;
  d[11] = headers ? 1 : 0;
  for (i = 0; i < headers; i++) {
    d[n] = 1;
    d[n + 1] = d[n + 2] = 0;
    d[n + 3] = i + 1 < headers;
    n += 4;
  }
  n += behind;
  set_length(n);
  return n;
}

static int fuzz(size_t many) {
  size_t i, k;
  for (i = 0; i < many; i++)
    if (!same(make()))
      return 1;
  /* long chains: to the most that a length can say, sound and with the last header damaged or cut */
  for (i = 0; 12 + 4 * i <= 65543; i += i < 70 ? 1 : 61) {
    size_t n = chain(i, 0);
    if (!same(n))
      return 1;
    if (i) {
      static const uint8_t damage[] = { 1, 127, 128, 255 };
      for (k = 0; k < 4; k++) {
        d[n - 1] = damage[k];
        if (!same(n))
          return 1;
      }
      d[n - 4] = 0;
      if (!same(n))
        return 1;
      chain(i, 0);
      set_length(n - 1);
      if (!same(n - 1))
        return 1;
    }
  }
  for (i = 65540; i < 65550; i++) { /* past what 16 bits can say */
    chain(0, i - 12);
    if (!same(i))
      return 1;
  }
  printf("datagrams by number: taken %llu packets, %llu echoes", (unsigned long long)seen[0][0],
         (unsigned long long)seen[0][1]);
  for (i = 1; i < 256; i++)
    if (seen[i][0])
      printf("; %d: %llu", (int)i, (unsigned long long)seen[i][0]);
  printf("\n0 differences\n");
  return 0;
}

/* The reader on a stack of its own, painted: how many octets of it were written. */
static uint8_t painted[1 << 21] __attribute__((aligned(64)));
static struct said on_painted;

static void call_it(size_t n) {
  on_painted.size =
      gpdu_read(d, n, &on_painted.number, &on_painted.type, &on_painted.teid, &on_painted.sequence);
}

static size_t stack_of(void (*f)(size_t), size_t n) {
  size_t i;
  uint8_t *top = painted + sizeof painted - 64;
  for (i = 0; i < sizeof painted; i++)
    painted[i] = 0xA5;
  __asm__ volatile("movq %%rsp, %%rbx\n\tmovq %1, %%rsp\n\tcallq *%2\n\tmovq %%rbx, %%rsp"
                   : "+D"(n)
                   : "r"(top), "r"(f)
                   : "rbx", "rax", "rcx", "rdx", "rsi", "r8", "r9", "r10", "r11", "memory", "cc");
  for (i = 0; painted[i] == 0xA5;)
    i++;
  return (size_t)(top - (painted + i));
}

static int stack(void) {
  static const size_t headers[] = { 0, 1, 2, 8, 15, 16, 17, 32, 509, 16382 };
  for (size_t i = 0; i < sizeof headers / sizeof *headers; i++) {
    size_t n = chain(headers[i], 1), took = stack_of(call_it, n);
    printf("%5lu extension headers, %5lu octets: number %d, payload at %lu, %lu octets of stack\n",
           (unsigned long)headers[i], (unsigned long)n, on_painted.number,
           (unsigned long)(n - on_painted.size), (unsigned long)took);
    if (took > 1024) {
      printf("more than 1024\n");
      return 1;
    }
  }
  return 0;
}

/* The mix: of each 16 packets 9 plain ones, 2 with a sequence number, 1 with an N-PDU number, 2 with one
 * or two extension headers, an echo, and one that is refused. */
static uint8_t mix[MIX][128];
static size_t sizes[MIX];

static void make_mix(void) {
  for (size_t i = 0; i < MIX; i++) {
    size_t kind = i % 16, k, n = 8;
    d[0] = kind < 9 ? 0x30 : kind < 11 ? 0x32 : kind == 11 ? 0x31 : kind < 14 ? 0x34 : 0x32;
    d[1] = kind == 14 ? 1 : 255;
    for (k = 4; k < 8; k++)
      d[k] = (uint8_t)draw();
    if (d[0] & 7)
      for (; n < 12; n++)
        d[n] = 0;
    for (k = kind == 12 ? 1 : kind == 13 ? 2 : 0; k; k--) {
      d[n - 1] = 0x40;
      d[n] = 1;
      d[n + 1] = (uint8_t)draw();
      d[n + 2] = (uint8_t)draw();
      d[n + 3] = 0;
      n += 4;
    }
    for (k = kind == 14 ? 0 : 20 + below(40); k; k--)
      d[n++] = (uint8_t)draw();
    set_length(n);
    if (kind == 15)
      d[i / 16 % 4] ^= 0x55;
    memcpy(mix[i], d, n);
    sizes[i] = n;
  }
}

/* The two runs stand in a section of their own, so that a trace can leave the loops out. */
#define APART __attribute__((noinline, used, section("apart")))
extern const uint8_t __start_apart[], __stop_apart[];

static struct said heard;

APART unsigned long run_proved(void) {
  unsigned long sum = 0;
  for (size_t i = 0; i < MIX; i++)
    sum +=
        gpdu_read(mix[i], sizes[i], &heard.number, &heard.type, &heard.teid, &heard.sequence) + heard.number;
  return sum;
}

APART unsigned long run_plain(void) {
  unsigned long sum = 0;
  for (size_t i = 0; i < MIX; i++)
    sum += reading_packet(mix[i], sizes[i], &heard.number, &heard.type, &heard.teid, &heard.sequence)
           + heard.number;
  return sum;
}

APART void run_end(void) {
  __asm__ volatile("");
}

static int counted(void) {
  make_mix();
  unsigned long a = run_proved(), b = run_plain();
  run_end();
  printf("%d packets, %s\n", MIX, a == b ? "the same answers" : "different answers");
  printf("%lx %lx %lx %lx %lx\n", (unsigned long)run_proved, (unsigned long)run_plain, (unsigned long)run_end,
         (unsigned long)__start_apart, (unsigned long)__stop_apart);
  return a != b;
}

int main(int argc, char **argv) {
  if (argc == 3 && !strcmp(argv[1], "fuzz"))
    return fuzz((size_t)atoi(argv[2]));
  if (argc == 2 && !strcmp(argv[1], "stack"))
    return stack();
  if (argc == 2 && !strcmp(argv[1], "count"))
    return counted();
  printf("host fuzz COUNT | host stack | host count\n");
  return 2;
}
