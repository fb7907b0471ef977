/* What the trials by hand share: a Create, the fresh unit that a message comes to, live sessions in it, and
 * the call that is compared with the reading. */
#include "trial.h"
#include <stdio.h>
#include <string.h>

const char create_hex[] = "4820006D0000000000005100"
                          "0100080044101000000000F0"
                          "5200010006"
                          "5700090086000011110A010008"
                          "470005000464617461"
                          "4F0005000100000000"
                          "5D002C00"
                          "4900010005"
                          "5700090284000022220A010009"
                          "5000160061090000000000000000000000000000000000000000"
                          "0300010000";

void put_message(const char *hex) {
  for (length = 0; hex[2 * length]; length++) {
    unsigned v;
    if (sscanf(hex + 2 * length, "%2x", &v) != 1)
      differ("a message", CONTROL, 0, 0);
    lent.datagram[length] = (uint8_t)v;
  }
}

void message_to_fresh(const char *hex, unsigned ceiling) {
  put_message(hex);
  grugavorn_plan p;
  memset(&p, 0, sizeof p);
  p.control = 0x0A000001;
  p.user = 0x0A000002;
  p.pool = 0x64400000;
  p.recovery = 77;
  p.resend = 3;
  p.sends = 2;
  p.interval = 60;
  p.count = 1;
  p.points[0].size = 5;
  memcpy(p.points[0].name, "\4data", 5);
  p.points[0].ceiling = (uint16_t)ceiling;
  node = grugavorn_fresh(p, lent.records, GRUGAVORN_PLACES, lent.store, GRUGAVORN_KEPT).node;
}

void live_sessions(int count) {
  for (int i = 0; i < count; i++) {
    grugavorn_session *s = &lent.records[i];
    s->imsi = 440101000000001ull + (unsigned)i;
    s->usage = 1 + (unsigned)i;
    s->control = s->user = 0x100 + (unsigned)i;
    s->controladdr = s->useraddr = 0x0A010008;
    s->created = 0x40 + (unsigned)i;
    s->ebi = 5;
    s->state = GRUGAVORN_LIVE;
  }
}

grugavorn_left control_compared(void) {
  grugavorn_left a = both(CONTROL, GRUGAVORN_PLACES, GRUGAVORN_KEPT, GRUGAVORN_REPLY, 0);
  turn++;
  return a;
}
