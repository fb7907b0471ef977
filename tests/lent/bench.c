/* The bench as a host in C over the library for firmware: so that every case of the bench also goes through
 * the calls on a unit. With READING defined these go to the reading instead. Reads standard
 * input, prints what the bench prints. */
#ifdef READING
#define grugavorn_fresh reading_fresh
#define grugavorn_control reading_control
#define grugavorn_user reading_user
#define grugavorn_tick reading_tick
#define grugavorn_send reading_send
#define grugavorn_close reading_close
#define grugavorn_line reading_line
#define grugavorn_down reading_down
#endif
#include "../../include/grugavorn.h"
#include <stdio.h>
#include <stdlib.h>
#include <string.h>

enum { FIELDS = 8, LONGEST = 2048 };

typedef struct {
  const char *text;
  size_t size;
} part;

static grugavorn_unit unit;
static grugavorn_plan plan;
static uint8_t reply[GRUGAVORN_REPLY], datagram[LONGEST], out[LONGEST + GRUGAVORN_HEAD];

static void bad(unsigned long line) {
  printf("E\t%lu\n", line);
  exit(0);
}

/* ---- fields: octets in hex, and numbers up to 255; -1 where it is neither */
static int digit(char c) {
  return c >= '0' && c <= '9' ? c - '0' : c >= 'A' && c <= 'F' ? c - 'A' + 10 : -1;
}

static long octets(part f, uint8_t *to, size_t most) {
  if (f.size % 2 != 0 || f.size / 2 > most)
    return -1;
  for (size_t i = 0; i < f.size / 2; i++) {
    int high = digit(f.text[2 * i]), low = digit(f.text[2 * i + 1]);
    if (high < 0 || low < 0)
      return -1;
    to[i] = (uint8_t)(high * 16 + low);
  }
  return (long)(f.size / 2);
}

static int number(part f) {
  int v = f.size == 0 ? -1 : 0;
  for (size_t i = 0; i < f.size && v >= 0; i++) {
    if (f.text[i] < '0' || f.text[i] > '9')
      return -1;
    v = v * 10 + (f.text[i] - '0');
    if (v > 255)
      return -1;
  }
  return v;
}

/* ---- what is printed */
static void in_hex(const uint8_t *from, size_t size) {
  if (size == 0)
    putchar('-');
  for (size_t i = 0; i < size; i++)
    printf("%02X", from[i]);
}

static void answered(grugavorn_answer a) {
  printf("%u\t", a.number);
  in_hex(reply, a.size);
  putchar('\n');
}

static void send_due(void) {
  for (;;) {
    grugavorn_answer a = grugavorn_unit_send(&unit, reply, sizeof reply);
    if (a.number != 0)
      return;
    printf("D\t");
    in_hex(reply, a.size);
    putchar('\n');
  }
}

/* ---- lines */
static int take_node(const part *f, int n) {
  uint32_t *addresses[] = { &plan.control, &plan.user, &plan.pool };
  uint8_t *figures[] = { &plan.recovery, &plan.resend, &plan.sends, &plan.interval }, a[4];
  if (n != 8 || f[0].size != 1 || f[0].text[0] != 'N')
    return 0;
  for (int i = 0; i < 3; i++) {
    if (octets(f[1 + i], a, 4) != 4)
      return 0;
    *addresses[i] = (uint32_t)a[0] << 24 | (uint32_t)a[1] << 16 | (uint32_t)a[2] << 8 | a[3];
  }
  for (int i = 0; i < 4; i++) {
    int v = number(f[4 + i]);
    if (v < 0)
      return 0;
    *figures[i] = (uint8_t)v;
  }
  return 1;
}

static int take_point(const part *f, int n) {
  if (n != 4 || plan.count == GRUGAVORN_POINTS)
    return 0;
  grugavorn_point *a = &plan.points[plan.count];
  long size = octets(f[1], a->name, GRUGAVORN_NAME);
  int guarantee = number(f[2]), ceiling = number(f[3]);
  if (size < 0 || guarantee < 0 || ceiling < 0)
    return 0;
  a->size = (uint8_t)size;
  a->guarantee = (uint16_t)guarantee;
  a->ceiling = (uint16_t)ceiling;
  plan.count++;
  return 1;
}

static void take_plan(void) {
  if (grugavorn_unit_fresh(&unit, &plan).number == 0)
    return;
  puts("16\t-");
  exit(0);
}

static void take_user(size_t length) {
  grugavorn_handed h = grugavorn_unit_user(&unit, datagram, length, reply, sizeof reply);
  printf("%u\t", h.number);
  in_hex(reply, h.size);
  if (h.number == 0 && datagram[1] == 255) {
    putchar('\t');
    in_hex(datagram + h.start, h.octets);
  }
  putchar('\n');
}

static void take_down(size_t length) {
  grugavorn_written w = grugavorn_unit_down(&unit, datagram, length, out, sizeof out);
  printf("%u\t", w.number);
  in_hex(out, w.size);
  if (w.number == 0)
    printf("\t%08X", (unsigned)w.peer);
  putchar('\n');
}

static int take_event(const part *f, int n) {
  char kind = f[0].size == 1 ? f[0].text[0] : 0;
  if (kind == 'T' && n == 1) {
    answered(grugavorn_unit_tick(&unit));
    send_due();
    return 1;
  }
  if (n != 2)
    return 0;
  if (kind == 'X') {
    int place = number(f[1]);
    if (place < 0)
      return 0;
    answered(grugavorn_unit_close(&unit, (size_t)place));
    send_due();
    return 1;
  }
  if (kind != 'C' && kind != 'U' && kind != 'D')
    return 0;
  long length = octets(f[1], datagram, LONGEST);
  if (length < 0)
    return 0;
  if (kind == 'U')
    take_user((size_t)length);
  else if (kind == 'D')
    take_down((size_t)length);
  else
    answered(grugavorn_unit_control(&unit, datagram, (size_t)length, reply, sizeof reply));
  return 1;
}

static void print_places(void) {
  unsigned live = 0;
  for (int i = 0; i < GRUGAVORN_PLACES; i++)
    live += unit.records[i].state != GRUGAVORN_FREE;
  printf("L\t%u\n", live);
  for (int i = 0; i < GRUGAVORN_PLACES; i++)
    if (unit.records[i].usage != 0) {
      grugavorn_answer a = grugavorn_unit_line(&unit, (size_t)i, reply, sizeof reply);
      printf("%.*s\n", (int)a.size, (const char *)reply);
    }
}

static char *all_input(size_t *size) {
  size_t room = 1 << 16;
  char *all = malloc(room);
  *size = 0;
  for (size_t got; all != 0 && (got = fread(all + *size, 1, room - *size, stdin)) > 0;) {
    *size += got;
    if (*size == room) {
      room *= 2;
      all = realloc(all, room);
    }
  }
  if (all == 0)
    exit(1);
  return all;
}

int main(void) {
  size_t size, at = 0;
  const char *all = all_input(&size);
  unsigned long line = 0;
  int started = 0;
  while (at < size || line == 0) {
    part f[FIELDS + 1];
    int n = 0;
    line++;
    f[0] = (part){ all + at, 0 };
    for (; at < size && all[at] != '\n'; at++) {
      if (all[at] != '\t')
        f[n].size++;
      else if (n < FIELDS)
        f[++n] = (part){ all + at + 1, 0 };
    }
    at++;
    n++;
    if (line == 1) {
      if (!take_node(f, n))
        bad(line);
    } else if (!started && f[0].size == 1 && f[0].text[0] == 'A') {
      if (!take_point(f, n))
        bad(line);
    } else {
      if (!started)
        take_plan();
      started = 1;
      if (!take_event(f, n))
        bad(line);
    }
  }
  if (!started)
    take_plan();
  print_places();
  return 0;
}
