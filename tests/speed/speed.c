/* One call again and again, on the proved library or on the plain implementation (plain.c), for counting
 * instructions; and a comparison of what the two answer. The same table, store, node and datagram go into
 * every call: what a call changes is put back after it. Behind a + stands how many replies are kept; without
 * it there is none, but the one to a request that is asked again.
 *   speed check
 *       every call with every number of sessions, both ways: answers, tables and buffers are equal
 *   speed library|plain CALL LIVE COUNT [LENT ROWS]
 *       COUNT calls with so many live sessions; LENT records and ROWS rows of the store are lent, all where
 *       it is not said: any other number is refused (2) with none of them looked at
 *   speed time library|plain CALL LIVE COUNT
 *       the same, and prints the nanoseconds a call */
#define _POSIX_C_SOURCE 199309L /* for the clock */
#include "../reading/reading.h"
#include <stdio.h>
#include <stdlib.h>
#include <string.h>
#include <time.h>

/* LONGEST: octets of a datagram, or of a packet from the carrier's side */
enum { PLACES = GRUGAVORN_PLACES, LONGEST = 1400 };

static grugavorn_session first[PLACES], records[PLACES];
static grugavorn_kept first_store[GRUGAVORN_KEPT], store[GRUGAVORN_KEPT];
static grugavorn_node node;
static uint8_t reply[GRUGAVORN_REPLY], datagram[LONGEST], out[LONGEST + GRUGAVORN_HEAD];
static size_t size, lent = PLACES, rows = GRUGAVORN_KEPT;

static void octets(const char *hex) {
  for (size = 0; hex[0]; hex += 2) {
    unsigned v;
    if (sscanf(hex, "%2x", &v) != 1)
      exit(2);
    datagram[size++] = (uint8_t)v;
  }
}

/* a Create with the IMSI of a person, for the access point "data" */
static void create(unsigned person) {
  octets("482000680000000000010000"
         "0100080044101000000000F0"
         "5200010006"
         "5700090086000011110A010008"
         "470005000464617461"
         "4F0005000100000000"
         "5D002C00"
         "4900010005"
         "5700090284000022220A010009"
         "5000160061090000000000000000000000000000000000000000");
  for (int digit = 14; digit > 5; digit--) {
    uint8_t *both = &datagram[16 + digit / 2];
    *both = (uint8_t)(digit % 2 ? (*both & 15) | (person % 10) << 4 : (*both & 240) | person % 10);
    person /= 10;
  }
}

/* an IPv4 packet of so many octets from the carrier's side for the session of a place */
static void packet_for(unsigned place, size_t length) {
  octets("450000000000000040110000C000020164400001");
  size = length;
  datagram[2] = (uint8_t)(size >> 8);
  datagram[3] = (uint8_t)size;
  datagram[19] = (uint8_t)(1 + place);
  for (size_t i = 20; i < size; i++)
    datagram[i] = (uint8_t)i;
}

static void set_point(grugavorn_point *a, const char *name, unsigned ceiling) {
  a->size = (uint8_t)strlen(name);
  memcpy(a->name, name, a->size);
  a->ceiling = (uint16_t)ceiling;
}

static void table(unsigned live, int closing, unsigned ceiling) {
  grugavorn_plan p;
  memset(&p, 0, sizeof p);
  p.control = 0x0A000001;
  p.user = 0x0A000002;
  p.pool = 0x64400000;
  p.recovery = 7;
  p.resend = 200;
  p.sends = 2;
  p.interval = 200;
  p.count = 2;
  set_point(&p.points[0], "\4data", ceiling);
  set_point(&p.points[1], "\4grid", PLACES);
  node = reading_fresh(p, first, PLACES, first_store, GRUGAVORN_KEPT).node;
  for (unsigned i = 0; i < live; i++) {
    grugavorn_session *s = &first[i];
    s->imsi = 440101000000000ull + 7919u * i;
    s->usage = 1;
    s->control = 0x1111;
    s->controladdr = 0x0A010008;
    s->user = 0x2222;
    s->useraddr = 0x0A010009;
    s->created = 0x100 + i;
    s->ebi = 5;
    s->state = closing ? GRUGAVORN_CLOSING : GRUGAVORN_LIVE;
    if (closing) {
      s->own.timer = 100;
      s->own.sends = 1;
      s->own.number = i;
    }
  }
  if (closing)
    node.next = live;
}

/* so many replies to Deletes, each of another session, their numbers one after the other, the newest first */
static void keep(unsigned replies) {
  memmove(first_store + replies, first_store, (GRUGAVORN_KEPT - replies) * sizeof *first_store);
  for (unsigned i = 0; i < replies; i++)
    first_store[replies - 1 - i] = (grugavorn_kept){
      36, { 0, 3, (uint8_t)i }, { 0, 0, 2, (uint8_t)i }, GRUGAVORN_LIFE, 0, 18, { 0x48 }
    };
}

static const char *const calls[] = {
  "packet",    "packet+1",  "packet+32",    "user-echo", "user-short", "user-short+1", "user-short+32",
  "down-128",  "down-1400", "echo",         "late",      "create",     "repeat",       "no-room",
  "no-filler", "modify",    "modify-again", "delete",    "delete+32",  "delete-again", "delete-again+31",
  "tick",      "tick+32",   "tick-closing", "send",      "close",      "line"
};

static int is(const char *call, const char *name) {
  return strcmp(call, name) == 0;
}

/* The name as it stands above, or null. What is compared in every call then lies where the compiler put
 * it, and not at the end of the stack, where the length of a comparison goes by the environment. */
static const char *known(const char *name) {
  for (size_t i = 0; i < sizeof calls / sizeof *calls; i++)
    if (is(calls[i], name))
      return calls[i];
  return NULL;
}

/* a packet from the carrier's side */
static int is_down(const char *call) {
  return call[0] == 'd' && call[1] == 'o';
}

/* a Modify or a Delete */
static int is_request(const char *call) {
  return call[0] == 'm' || (call[0] == 'd' && call[1] == 'e');
}

/* the datagram of a call, and of the table what is its own */
static void make(const char *call, unsigned live) {
  if (is(call, "packet")) {
    octets("30FF00040000018045000000");
    datagram[7] = (uint8_t)(live == 0 ? 128 : 127 + live);
  } else if (is_down(call)) {
    packet_for(live - 1, is(call, "down-128") ? 128 : LONGEST);
  } else if (is(call, "user-echo")) {
    octets("320100040000000012340000");
  } else if (is(call, "user-short")) {
    octets("30FF00");
  } else if (is(call, "echo")) {
    octets("4001000400010000");
  } else if (is(call, "late")) {
    octets("40010009000100000300010004");
    node.heard = 1;
    node.recovery = 5;
  } else if (is(call, "create") || is(call, "no-room")) {
    create(1);
  } else if (is(call, "no-filler")) {
    create(1);
    datagram[23] &= 15;
  } else if (is(call, "repeat")) {
    create(7919 * (live - 1));
    datagram[9] = (uint8_t)((0x100 + live - 1) >> 8);
    datagram[10] = (uint8_t)(0x100 + live - 1);
  } else if (is_request(call)) {
    octets(call[0] == 'm' ? "4822001500000100000200005700090086000033330A010077"
                          : "482400080000010000020000");
    datagram[7] = (uint8_t)(live - 1);
  } else if (is(call, "send") && live != 0) {
    first[live - 1].state = GRUGAVORN_CLOSING;
  }
}

/* the table, the store and the datagram of a call; 0 where it makes no sense with so many sessions */
static int prepare(const char *name, unsigned live) {
  char call[32] = "";
  const char *plus = strchr(name, '+');
  memcpy(call, name, strcspn(name, "+"));
  int closing = is(call, "tick-closing"), last = is(call, "create") && live == PLACES;
  if (live == 0
      && (is(call, "repeat") || is(call, "no-room") || is_request(call) || is_down(call) || closing))
    return 0;
  table(last ? PLACES - 1 : live, closing, is(call, "no-room") ? live : PLACES);
  make(call, live);
  memcpy(records, first, sizeof records);
  if (strstr(call, "-again") != NULL)
    reading_control(node, records, PLACES, first_store, GRUGAVORN_KEPT, datagram, size, reply, sizeof reply);
  if (plus != NULL)
    keep((unsigned)atoi(plus + 1));
  memcpy(records, first, sizeof records);
  memcpy(store, first_store, sizeof store);
  return 1;
}

static grugavorn_left answer;
static grugavorn_handed handed;
static grugavorn_written written;

/* of a user datagram there is no node */
static int is_user(const char *call) {
  return call[0] == 'p' || call[0] == 'u';
}

/* which of the library's calls it is, by a letter; most are control datagrams */
static int kind_of(const char *call) {
  if (is_user(call))
    return 'u';
  if (is_down(call))
    return 'd';
  if (call[0] == 't')
    return 't';
  return is(call, "send") ? 's' : is(call, "close") ? 'x' : is(call, "line") ? 'l' : 'c';
}

/* what every call begins with */
#define LENT node, records, lent, store, rows

static void once(const char *call, int plain, unsigned live) {
  size_t place = live == 0 ? 0 : live - 1;
  switch (kind_of(call)) {
  case 'u':
    handed = plain ? reading_user(LENT, datagram, size, reply, sizeof reply)
                   : grugavorn_user(LENT, datagram, size, reply, sizeof reply);
    break;
  case 'd':
    written = plain ? reading_down(LENT, datagram, size, out, sizeof out)
                    : grugavorn_down(LENT, datagram, size, out, sizeof out);
    break;
  case 't':
    answer = plain ? reading_tick(LENT) : grugavorn_tick(LENT);
    break;
  case 's':
    answer = plain ? reading_send(LENT, reply, sizeof reply) : grugavorn_send(LENT, reply, sizeof reply);
    break;
  case 'x':
    answer = plain ? reading_close(LENT, place) : grugavorn_close(LENT, place);
    break;
  case 'l':
    answer = plain ? reading_line(LENT, place, reply, sizeof reply)
                   : grugavorn_line(LENT, place, reply, sizeof reply);
    break;
  default:
    answer = plain ? reading_control(LENT, datagram, size, reply, sizeof reply)
                   : grugavorn_control(LENT, datagram, size, reply, sizeof reply);
  }
}

static int same_answers(const grugavorn_left *a, const grugavorn_left *b) {
  return a->number == b->number && a->size == b->size && a->from == b->from && a->to == b->to
         && a->node.next == b->node.next && a->node.echo.timer == b->node.echo.timer
         && a->node.heard == b->node.heard && a->node.recovery == b->node.recovery;
}

static int same_parts(const grugavorn_handed *a, const grugavorn_handed *b) {
  return a->number == b->number && a->place == b->place && a->size == b->size && a->start == b->start
         && a->octets == b->octets;
}

static int same_packets(const grugavorn_written *a, const grugavorn_written *b) {
  return a->number == b->number && a->place == b->place && a->size == b->size && a->peer == b->peer;
}

static int same_records(const grugavorn_session *a, const grugavorn_session *b) {
  return a->imsi == b->imsi && a->usage == b->usage && a->control == b->control
         && a->controladdr == b->controladdr && a->user == b->user && a->useraddr == b->useraddr
         && a->created == b->created && a->own.timer == b->own.timer && a->own.sends == b->own.sends
         && a->own.number == b->own.number && a->state == b->state && a->point == b->point
         && a->ebi == b->ebi;
}

static int check(void) {
  static const unsigned numbers[] = { 0, PLACES / 2, PLACES };
  int runs = 0;
  for (size_t c = 0; c < sizeof calls / sizeof *calls; c++)
    for (int k = 0; k < 3; k++) {
      grugavorn_session seen[2][PLACES];
      grugavorn_kept kept[2][GRUGAVORN_KEPT];
      uint8_t said[2][GRUGAVORN_REPLY], packet[2][sizeof out];
      grugavorn_left left[2];
      grugavorn_handed part[2];
      grugavorn_written down[2];
      if (!prepare(calls[c], numbers[k]))
        continue;
      for (int plain = 0; plain < 2; plain++) {
        memcpy(records, first, sizeof records);
        memcpy(store, first_store, sizeof store);
        memset(reply, 0x5A, sizeof reply);
        memset(out, 0x5A, sizeof out);
        memset(&answer, 0, sizeof answer);
        memset(&handed, 0, sizeof handed);
        memset(&written, 0, sizeof written);
        once(calls[c], plain, numbers[k]);
        memcpy(seen[plain], records, sizeof records);
        memcpy(kept[plain], store, sizeof store);
        memcpy(said[plain], reply, sizeof reply);
        memcpy(packet[plain], out, sizeof out);
        left[plain] = answer;
        part[plain] = handed;
        down[plain] = written;
      }
      int same = same_answers(&left[0], &left[1]) && same_parts(&part[0], &part[1])
                 && same_packets(&down[0], &down[1]) && memcmp(said[0], said[1], GRUGAVORN_REPLY) == 0
                 && memcmp(packet[0], packet[1], sizeof out) == 0
                 && memcmp(kept[0], kept[1], sizeof store) == 0;
      for (int i = 0; i < PLACES; i++)
        same = same && same_records(&seen[0][i], &seen[1][i]);
      if (!same) {
        printf("speed: %s with %u live: the two differ (%u and %u)\n", calls[c], numbers[k], left[0].number,
               left[1].number);
        return 1;
      }
      /* of the three answers two are zero */
      printf("%s %u %u %zu\n", calls[c], numbers[k], left[0].number + part[0].number + down[0].number,
             left[0].size + part[0].size + down[0].size);
      runs++;
    }
  printf("speed: %d kinds of calls, the answers are equal\n", runs);
  return 0;
}

/* what a call changes in the store: of a request the front row, or where all are used every row; of a tick
 * the lives; else nothing */
enum { NOTHING, FRONT, ROWS, LIVES };

static int changed_by(const char *call) {
  int full = strchr(call, '+') != NULL;
  if (is_request(call) && strstr(call, "-again") == NULL)
    return full ? ROWS : FRONT;
  return call[0] == 't' && full ? LIVES : NOTHING;
}

static void put_back(int changed) {
  if (changed == FRONT)
    store[0] = first_store[0];
  else if (changed == ROWS)
    memcpy(store, first_store, sizeof store);
  else if (changed == LIVES)
    for (int i = 0; i < GRUGAVORN_KEPT; i++)
      store[i].life = first_store[i].life;
}

int main(int argc, char **argv) {
  if (argc == 2 && is(argv[1], "check"))
    return check();
  int timed = argc == 6 && is(argv[1], "time");
  argc -= timed;
  argv += timed;
  if (argc != 5 && argc != 7)
    return 2;
  int plain = is(argv[1], "plain");
  const char *call = known(argv[2]);
  if (call == NULL)
    return 2;
  unsigned live = (unsigned)atoi(argv[3]), sum = 0;
  if (!prepare(call, live))
    return 3;
  if (argc == 7) {
    lent = (size_t)atoi(argv[5]);
    rows = (size_t)atoi(argv[6]);
  }
  size_t last = live == 0 || is(call, "create") ? (live == PLACES ? PLACES - 1 : live) : live - 1;
  int all = call[0] == 't', changed = changed_by(call);
  /* aligned, so that the stack of every call is, and the C library's copies take the same way each time */
  _Alignas(64) struct timespec start, end;
  clock_gettime(CLOCK_MONOTONIC, &start);
  for (int i = atoi(argv[4]); i > 0; i--) {
    once(call, plain, live);
    sum += answer.number + handed.number + written.number;
    if (all)
      memcpy(records, first, sizeof records);
    else
      records[last] = first[last];
    put_back(changed);
  }
  clock_gettime(CLOCK_MONOTONIC, &end);
  printf("%u\n", sum);
  if (timed)
    printf("%.0f\n", ((double)(end.tv_sec - start.tv_sec) * 1e9 + (double)(end.tv_nsec - start.tv_nsec))
                         / atoi(argv[4]));
  return 0;
}
