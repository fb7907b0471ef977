/* A unit on the wire: a host for Linux with two UDP sockets, 2123 for control and 2152 for user datagrams,
 * bound to the addresses of its plan, and the carrier's side: a TUN device, both ways, or standard output up
 * and orders down. One thread, one poll; a tick is one expiry of a clock. To be copied, with start.c, which
 * has the options and opens what is polled here.
 *
 * Standard input takes orders: `close N`, `down HEX`, a packet from the carrier's side, `places`, and `quit`,
 * which ends at once and closes nothing. SIGTERM and SIGINT close all places, a few a tick, and end once
 * every place is free; a second one ends at once. */
#define _GNU_SOURCE
#include "start.h"
#include <arpa/inet.h>
#include <errno.h>
#include <inttypes.h>
#include <poll.h>
#include <stdio.h>
#include <stdlib.h>
#include <string.h>
#include <sys/signalfd.h>
#include <unistd.h>

/* LONGEST: octets of a datagram or of a packet, at most, as on the bench. BATCH: how many of them a port or
 * the TUN device may bring before the clock is looked at again. CLOSES: of a tick, at the end, since an
 * exchange may not bear 64 at once. USES: the use numbers that each start has for itself; 256 times this is
 * one more than the last of them. */
enum { CONTROL_PORT = 2123, USER_PORT = 2152, LONGEST = 2048, BATCH = 64, CLOSES = 4, USES = 65536 };

/* the message types that the host looks at */
enum { ECHO_RESPONSE = 2, CREATE = 32, PACKET = 255 };

static grugavorn_unit unit;
/* What came: a datagram, or a packet from the carrier's side; by one octet more a longer one is known. What
 * goes out: a reply or an own request, or a G-PDU. */
static uint8_t datagram[LONGEST], packet[LONGEST + 1];
static uint8_t reply[GRUGAVORN_REPLY], gpdu[LONGEST + GRUGAVORN_HEAD];
static options with;
static uint32_t exchange, first_use;
static int control_socket, user_socket, tun = -1, ending, ended;
static FILE *journal;
/* how often each number came, and what was not taken or not sent */
static unsigned long numbers[256], strangers, longer, late, unsent;

static void in_hex(FILE *to, const uint8_t *from, size_t size) {
  for (size_t i = 0; i < size; i++)
    fprintf(to, "%02X", from[i]);
}

/* ---- the journal: a line for each call that may change something or answer, written before it is made */
static void note_plan(const grugavorn_plan *p) {
  if (journal == NULL)
    return;
  fprintf(journal, "N\t%08" PRIX32 "\t%08" PRIX32 "\t%08" PRIX32 "\t%u\t%u\t%u\t%u\n", p->control, p->user,
          p->pool, p->recovery, p->resend, p->sends, p->interval);
  for (int i = 0; i < p->count; i++) {
    fputs("A\t", journal);
    in_hex(journal, p->points[i].name, p->points[i].size);
    fprintf(journal, "\t%u\t%u\n", p->points[i].guarantee, p->points[i].ceiling);
  }
}

static void note_datagram(char kind, const uint8_t *octets, size_t size) {
  if (journal == NULL)
    return;
  fprintf(journal, "%c\t", kind);
  in_hex(journal, octets, size);
  fputc('\n', journal);
}

static void flush(void) {
  fflush(stdout);
  if (journal != NULL && (fflush(journal) != 0 || ferror(journal))) {
    fprintf(stderr, "unit: the journal cannot be written, and ends here: %s\n", strerror(errno));
    fclose(journal);
    journal = NULL;
  }
}

/* ---- what goes out */
static void post(int from, const uint8_t *octets, size_t size, uint32_t address, uint16_t port) {
  struct sockaddr_in to = { .sin_family = AF_INET, .sin_port = htons(port) };
  to.sin_addr.s_addr = htonl(address);
  if (address == 0 || sendto(from, octets, size, 0, (struct sockaddr *)&to, sizeof to) != (ssize_t)size)
    unsent++;
}

static grugavorn_answer take_control(const uint8_t *octets, size_t size) {
  note_datagram('C', octets, size);
  grugavorn_answer a = grugavorn_unit_control(&unit, octets, size, reply, sizeof reply);
  numbers[a.number]++;
  return a;
}

/* All that is due. Without -a the exchange is where the last control datagram that was taken came from;
 * before the first there is no session, and an echo that goes nowhere costs none. */
static void send_due(void) {
  uint8_t answer[] = { 0x40, ECHO_RESPONSE, 0, 4, 0, 0, 0, 0 };
  int answered = 0;
  grugavorn_answer a;
  while ((a = grugavorn_unit_send(&unit, reply, sizeof reply)).number == GRUGAVORN_TAKEN) {
    if (a.from < a.to) {
      post(control_socket, reply, a.size, grugavorn_unit_peer(&unit, a.from), CONTROL_PORT);
    } else if (with.no_echo) {
      memcpy(answer + 4, reply + 4, 3);
      answered = 1;
    } else {
      post(control_socket, reply, a.size, exchange, CONTROL_PORT);
    }
  }
  if (answered)
    take_control(answer, sizeof answer);
}

/* ---- what comes in: datagrams, packets from the carrier's side, ticks, orders */

/* A Modify or a Delete that is asked again gets its reply from the unit's store; to the host it is one like
 * any other, and goes to who asks now. */
static void on_control(size_t size, uint32_t source, uint16_t port) {
  if (ending && size > 1 && datagram[1] == CREATE) {
    late++;
    return;
  }
  grugavorn_answer a = take_control(datagram, size);
  if (a.number == GRUGAVORN_TAKEN && with.peer_count == 0)
    exchange = source;
  if (a.size != 0)
    post(control_socket, reply, a.size, source, with.known_ports ? CONTROL_PORT : port);
}

static void hand_up(size_t place, const uint8_t *payload, size_t size) {
  if (tun >= 0) {
    if (size != 0 && write(tun, payload, size) != (ssize_t)size)
      unsent++;
    return;
  }
  printf("packet %zu ", place);
  in_hex(stdout, payload, size);
  putchar('\n');
}

static void on_user(size_t size, uint32_t source, uint16_t port) {
  note_datagram('U', datagram, size);
  grugavorn_handed h = grugavorn_unit_user(&unit, datagram, size, reply, sizeof reply);
  numbers[h.number]++;
  if (h.number == GRUGAVORN_TAKEN && datagram[1] == PACKET) {
    if (with.named_only && source != unit.records[h.place].useraddr)
      strangers++;
    else
      hand_up(h.place, datagram + h.start, h.octets);
  }
  /* an Error Indication goes to the port of GTP-U, an echo's answer to where the echo came from */
  if (h.size != 0)
    post(user_socket, reply, h.size, source,
         with.known_ports || h.number == GRUGAVORN_USER_NOT_LIVE ? USER_PORT : port);
}

static int is_peer(uint32_t source) {
  for (int i = 0; i < with.peer_count; i++)
    if (with.peers[i] == source)
      return 1;
  return with.peer_count == 0;
}

static void receive(int from_socket, void (*take)(size_t size, uint32_t source, uint16_t port)) {
  for (int i = 0; i < BATCH; i++) {
    struct sockaddr_in from;
    socklen_t room = sizeof from;
    ssize_t size = recvfrom(from_socket, datagram, sizeof datagram, MSG_DONTWAIT | MSG_TRUNC,
                            (struct sockaddr *)&from, &room);
    if (size < 0)
      return;
    if (!is_peer(ntohl(from.sin_addr.s_addr)))
      strangers++;
    else if (size > LONGEST)
      longer++;
    else
      take((size_t)size, ntohl(from.sin_addr.s_addr), ntohs(from.sin_port));
  }
}

/* A packet from the carrier's side goes, as a G-PDU, to the user address of its session's peer, if that is
 * one to hear from. Answers the number; -1 for a packet that is too long, and only counted. */
static int on_packet(size_t size) {
  if (size > LONGEST) {
    longer++;
    return -1;
  }
  note_datagram('D', packet, size);
  grugavorn_written w = grugavorn_unit_down(&unit, packet, size, gpdu, sizeof gpdu);
  numbers[w.number]++;
  if (w.number == GRUGAVORN_TAKEN && !is_peer(w.peer))
    strangers++;
  else if (w.number == GRUGAVORN_TAKEN)
    post(user_socket, gpdu, w.size, w.peer, USER_PORT);
  return w.number;
}

/* Takes what the TUN device has; answers whether there may be more: not of one that was taken away. */
static int read_tun(void) {
  for (int i = 0; i < BATCH; i++) {
    ssize_t size = read(tun, packet, sizeof packet);
    if (size < 0)
      return errno == EAGAIN || errno == EINTR;
    on_packet((size_t)size);
  }
  return 1;
}

/* One tick, however often the clock ran out meanwhile: ticks that were missed would only give up requests. */
static void on_tick(int clock) {
  uint64_t times;
  if (read(clock, &times, sizeof times) != sizeof times)
    return;
  if (journal != NULL)
    fputs("T\n", journal);
  numbers[grugavorn_unit_tick(&unit).number]++;
  send_due();
}

static uint8_t close_place(size_t place) {
  if (journal != NULL)
    fprintf(journal, "X\t%zu\n", place);
  grugavorn_answer a = grugavorn_unit_close(&unit, place);
  numbers[a.number]++;
  send_due();
  return a.number;
}

/* At the end. A place is free by the N x T-th tick after its close, so the unit ends by the 16 + N x T-th. */
static void close_some(void) {
  int closes = 0;
  for (size_t i = 0; i < GRUGAVORN_PLACES && closes < CLOSES; i++)
    if (unit.records[i].state == GRUGAVORN_LIVE) {
      close_place(i);
      closes++;
    }
}

static unsigned open_places(void) {
  unsigned open = 0;
  for (size_t i = 0; i < GRUGAVORN_PLACES; i++)
    open += unit.records[i].state != GRUGAVORN_FREE;
  return open;
}

/* the L lines of the bench, then what was counted */
static void print_places(void) {
  printf("L\t%u\n", open_places());
  for (size_t i = 0; i < GRUGAVORN_PLACES; i++)
    if (unit.records[i].usage != first_use) {
      grugavorn_answer a = grugavorn_unit_line(&unit, i, reply, sizeof reply);
      printf("%.*s\n", (int)a.size, (const char *)reply);
    }
  printf("numbers");
  for (int i = 0; i < 256; i++)
    if (numbers[i] != 0)
      printf(" %d:%lu", i, numbers[i]);
  printf("\nstrangers %lu, longer %lu, late %lu, unsent %lu\n", strangers, longer, late, unsent);
}

/* the octets of a text in hex go into `packet`, as many as it takes; answers how many; -1 for another text */
static ssize_t packet_in(const char *text) {
  static const char digits[] = "0123456789ABCDEF";
  size_t size = strlen(text) / 2;
  if (strlen(text) % 2 != 0 || strspn(text, digits) != 2 * size)
    return -1;
  if (size > sizeof packet)
    size = sizeof packet;
  for (size_t i = 0; i < 2 * size; i++)
    packet[i / 2] = (uint8_t)(packet[i / 2] << 4 | (strchr(digits, text[i]) - digits));
  return (ssize_t)size;
}

static void on_order(const char *order) {
  unsigned place;
  char more;
  ssize_t size;
  if (sscanf(order, "close %3u%c", &place, &more) == 1 && place <= UINT8_MAX)
    printf("close %u: %u\n", place, close_place(place));
  else if (strncmp(order, "down ", 5) == 0 && (size = packet_in(order + 5)) >= 0)
    printf("down: %d\n", on_packet((size_t)size));
  else if (strcmp(order, "places") == 0)
    print_places();
  else if (strcmp(order, "quit") == 0)
    ended = 1;
  else
    puts("orders: close N, down HEX, places, quit");
}

/* Takes what standard input has, and the orders in it that are whole; answers whether there may be more. */
static int read_orders(void) {
  static char order[2 * LONGEST + 64];
  static size_t have;
  char octets[4096];
  ssize_t got = read(STDIN_FILENO, octets, sizeof octets);
  for (ssize_t i = 0; i < got; i++) {
    if (octets[i] != '\n') {
      order[have] = octets[i];
      have += have < sizeof order - 1;
      continue;
    }
    order[have] = '\0';
    have = 0;
    on_order(order);
  }
  return got > 0;
}

static void serve(int clock, int signals) {
  struct pollfd on[] = { { clock, POLLIN, 0 },          { signals, POLLIN, 0 },
                         { control_socket, POLLIN, 0 }, { user_socket, POLLIN, 0 },
                         { STDIN_FILENO, POLLIN, 0 },   { tun, POLLIN, 0 } };
  while (!ended) {
    if (poll(on, sizeof on / sizeof on[0], -1) < 0)
      fail("poll");
    if (on[0].revents != 0)
      on_tick(clock);
    if (on[2].revents != 0)
      receive(control_socket, on_control);
    if (on[3].revents != 0)
      receive(user_socket, on_user);
    if (on[5].revents != 0 && !read_tun())
      on[5].fd = -1;
    if (on[4].revents != 0 && !read_orders())
      on[4].fd = -1;
    if (on[1].revents != 0) {
      struct signalfd_siginfo which;
      ended |= read(signals, &which, sizeof which) < 0 || ending;
      ending = 1;
    }
    if (ending && (on[0].revents != 0 || on[1].revents != 0))
      close_some();
    if (ending && open_places() == 0)
      ended = 1;
    flush();
  }
}

int main(int count, char **words) {
  with = options_of(count, words);
  grugavorn_plan plan = plan_of(with.plan);
  control_socket = socket_of(plan.control, CONTROL_PORT);
  user_socket = socket_of(plan.user, USER_PORT);
  if (with.device != NULL)
    tun = tun_of(with.device);
  if (with.journal != NULL && (journal = fopen(with.journal, "a")) == NULL)
    fail(with.journal);
  if (with.counter != NULL)
    plan.recovery = step_counter(with.counter, plan.recovery);
  if (grugavorn_unit_fresh(&unit, &plan).number != GRUGAVORN_TAKEN) {
    fputs("unit: the plan breaks a limit\n", stderr);
    return 1;
  }
  /* The peers may still send under tunnel numbers of before this start. They must not meet new sessions, so
   * each start has use numbers of its own; the table's rules allow a free record any use. */
  if (with.own_uses)
    first_use = (uint32_t)plan.recovery * USES;
  for (size_t i = 0; i < GRUGAVORN_PLACES; i++)
    unit.records[i].usage = first_use;
  exchange = with.peers[0];
  int clock = clock_of(with.tick), signals = signals_of();
  fprintf(stderr, "unit: restart counter %u, uses from %" PRIu32 "\n", plan.recovery, first_use);
  note_plan(&plan);
  flush();
  serve(clock, signals);
  print_places();
  flush();
  return 0;
}
