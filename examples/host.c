/* A host in C: one session is created, one packet of it is unwrapped, one for it is wrapped, its line is
 * printed, its place is closed, and what is then due is sent; then it is deleted, and the Delete is asked
 * again, as if its reply had been lost: the octets are the same. Prints each call's number and octets.
 * `examples/build` builds and runs it. */
#include "../include/grugavorn.h"
#include <stdio.h>
#include <string.h>

static grugavorn_unit unit;
static uint8_t reply[GRUGAVORN_REPLY], out[1500 + GRUGAVORN_HEAD];

static void show(const char *call, unsigned number, const uint8_t *octets, size_t size) {
  printf("%s %u ", call, number);
  for (size_t i = 0; i < size; i++)
    printf("%02X", octets[i]);
  puts(size == 0 ? "-" : "");
}

/* a Create of IMSI 440101234567890, EBI 5, for the access point "data" */
static const uint8_t create[] = {
  /* clang-format off */
  0x48, 0x20, 0x00, 0x6D, 0, 0, 0, 0, 0, 0, 1, 0,
  1, 0, 8, 0, 0x44, 0x10, 0x10, 0x32, 0x54, 0x76, 0x98, 0xF0,
  82, 0, 1, 0, 6,
  87, 0, 9, 0, 0x86, 0, 0, 0x11, 0x11, 10, 1, 0, 8,
  71, 0, 5, 0, 4, 'd', 'a', 't', 'a',
  79, 0, 5, 0, 1, 0, 0, 0, 0,
  93, 0, 44, 0,
  73, 0, 1, 0, 5,
  87, 0, 9, 2, 0x84, 0, 0, 0x22, 0x22, 10, 1, 0, 9,
  80, 0, 22, 0, 0x61, 9, 0, 0, 0, 0, 0, 0, 0, 0, 0, 0, 0, 0, 0, 0, 0, 0, 0, 0, 0, 0,
  3, 0, 1, 0, 3,
  /* clang-format on */
};

/* a G-PDU for place 0 in its first use, with four octets of payload */
static const uint8_t packet[] = { 0x30, 0xFF, 0, 4, 0, 0, 1, 0x80, 0x45, 0, 0, 0 };

/* an IPv4 packet of 24 octets from the carrier's side, for the address of place 0 */
static const uint8_t down[] = { 0x45, 0,  0,   24, 0,   0,  0, 0, 64,  17,  0,   0,
                                198,  51, 100, 7,  100, 64, 0, 1, 'd', 'o', 'w', 'n' };

/* a Delete of the session of place 0 in its first use */
static const uint8_t bye[] = { 0x48, 36, 0, 8, 0, 0, 1, 0, 0, 0, 2, 0 };

/* the echo of document 01's whole case */
static const uint8_t echo[] = { 0x40, 0x01, 0, 9, 0, 0, 1, 0, 3, 0, 1, 0, 5 };

/* as the bench prints: number and reply parted by a tab */
static void print_answer(uint8_t number, const uint8_t *octets, size_t size) {
  printf("%u\t", number);
  for (size_t i = 0; i < size; i++)
    printf("%02X", octets[i]);
  puts(size == 0 ? "-" : "");
}

int main(void) {
  grugavorn_plan plan = { 0 };
  plan.control = 0x0A000001;
  plan.user = 0x0A000002;
  plan.pool = 0x64400000;
  plan.recovery = 7;
  plan.resend = 3;
  plan.sends = 2;
  plan.interval = 60;
  plan.count = 1;
  memcpy(plan.points[0].name, "\4data", 5);
  plan.points[0].size = 5;
  plan.points[0].guarantee = 1;
  plan.points[0].ceiling = GRUGAVORN_PLACES;

  grugavorn_answer a = grugavorn_unit_fresh(&unit, &plan);
  show("fresh", a.number, reply, a.size);

  a = grugavorn_unit_control(&unit, create, sizeof create, reply, sizeof reply);
  show("control", a.number, reply, a.size);
  for (size_t i = a.from; i < a.to; i++)
    printf("place %zu has %08X\n", i, grugavorn_unit_address(&unit, i));

  grugavorn_handed h = grugavorn_unit_user(&unit, packet, sizeof packet, reply, sizeof reply);
  show("user", h.number, packet + h.start, h.octets);

  grugavorn_written w = grugavorn_unit_down(&unit, down, sizeof down, out, sizeof out);
  show("down", w.number, out, w.size);
  printf("to %08X\n", w.peer);

  a = grugavorn_unit_line(&unit, h.place, reply, sizeof reply);
  printf("line %u %.*s\n", a.number, (int)a.size, (const char *)reply);

  a = grugavorn_unit_close(&unit, h.place);
  show("close", a.number, reply, a.size);

  a = grugavorn_unit_send(&unit, reply, sizeof reply);
  show("send", a.number, reply, a.size);
  if (a.from < a.to)
    printf("to %08X\n", grugavorn_unit_peer(&unit, a.from));

  a = grugavorn_unit_send(&unit, reply, sizeof reply);
  show("send", a.number, reply, a.size);

  a = grugavorn_unit_tick(&unit);
  show("tick", a.number, reply, a.size);

  for (int times = 0; times < 2; times++) {
    a = grugavorn_unit_control(&unit, bye, sizeof bye, reply, sizeof reply);
    show("control", a.number, reply, a.size);
  }

  /* the whole case of document 01, on a fresh unit */
  grugavorn_unit_fresh(&unit, &plan);
  a = grugavorn_unit_control(&unit, echo, sizeof echo, reply, sizeof reply);
  print_answer(a.number, reply, a.size);
  a = grugavorn_unit_close(&unit, 0);
  print_answer(a.number, reply, a.size);
  unsigned live = 0;
  for (size_t i = 0; i < GRUGAVORN_PLACES; i++)
    live += unit.records[i].state != GRUGAVORN_FREE;
  printf("L\t%u\n", live);
  return 0;
}
