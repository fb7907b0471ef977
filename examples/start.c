#define _GNU_SOURCE
#include "start.h"
#include <arpa/inet.h>
#include <errno.h>
#include <fcntl.h>
#include <inttypes.h>
#include <linux/if_tun.h>
#include <net/if.h>
#include <signal.h>
#include <stdio.h>
#include <stdlib.h>
#include <string.h>
#include <sys/ioctl.h>
#include <sys/signalfd.h>
#include <sys/timerfd.h>
#include <unistd.h>

void fail(const char *what) {
  fprintf(stderr, "unit: %s: %s\n", what, errno != 0 ? strerror(errno) : "not as it should be");
  exit(1);
}

options options_of(int count, char **words) {
  options o = { .tick = 1000 };
  int letter, bad = 0;
  struct in_addr a;
  while ((letter = getopt(count, words, "m:r:uj:a:swet:")) != -1) {
    if (letter == 'm')
      o.tick = atol(optarg);
    else if (letter == 'r')
      o.counter = optarg;
    else if (letter == 'u')
      o.own_uses = 1;
    else if (letter == 'j')
      o.journal = optarg;
    else if (letter == 'a' && o.peer_count < PEERS && inet_aton(optarg, &a) != 0)
      o.peers[o.peer_count++] = ntohl(a.s_addr);
    else if (letter == 's')
      o.named_only = 1;
    else if (letter == 'w')
      o.known_ports = 1;
    else if (letter == 'e')
      o.no_echo = 1;
    else if (letter == 't')
      o.device = optarg;
    else
      bad = 1;
  }
  if (bad || optind != count - 1 || o.tick < 1 || (o.own_uses && o.counter == NULL)) {
    fputs("usage: unit [-m MILLISECONDS] [-r FILE [-u]] [-j FILE] [-a ADDRESS].. [-s] [-w] [-e] [-t NAME] "
          "PLAN\n",
          stderr);
    exit(2);
  }
  o.plan = words[optind];
  return o;
}

/* ---- the plan */
static int node_line(const char *line, grugavorn_plan *p) {
  unsigned figures[4];
  uint8_t *to[] = { &p->recovery, &p->resend, &p->sends, &p->interval };
  char end;
  int fields = sscanf(line, "N\t%8" SCNx32 "\t%8" SCNx32 "\t%8" SCNx32 "\t%3u\t%3u\t%3u\t%3u%c", &p->control,
                      &p->user, &p->pool, &figures[0], &figures[1], &figures[2], &figures[3], &end);
  if (fields != 8 || end != '\n')
    return 0;
  for (int i = 0; i < 4; i++) {
    if (figures[i] > UINT8_MAX)
      return 0;
    *to[i] = (uint8_t)figures[i];
  }
  return 1;
}

static int point_line(const char *line, grugavorn_plan *p) {
  char name[2 * GRUGAVORN_NAME + 1], end;
  grugavorn_point *a = &p->points[p->count];
  if (p->count == GRUGAVORN_POINTS
      || sscanf(line, "A\t%126[0-9A-F]\t%3" SCNu16 "\t%3" SCNu16 "%c", name, &a->guarantee, &a->ceiling, &end)
             != 4
      || end != '\n' || strlen(name) % 2 != 0)
    return 0;
  a->size = (uint8_t)(strlen(name) / 2);
  for (int i = 0; i < a->size; i++)
    sscanf(name + 2 * i, "%2" SCNx8, &a->name[i]);
  p->count++;
  return 1;
}

grugavorn_plan plan_of(const char *path) {
  grugavorn_plan plan = { 0 };
  char line[256];
  FILE *from = fopen(path, "r");
  if (from == NULL)
    fail(path);
  errno = 0;
  if (fgets(line, sizeof line, from) == NULL || !node_line(line, &plan))
    fail(path);
  while (fgets(line, sizeof line, from) != NULL)
    if (!point_line(line, &plan))
      fail(path);
  fclose(from);
  return plan;
}

/* ---- the restart counter: written beside the old one, which it then replaces */
uint8_t step_counter(const char *path, uint8_t first) {
  char beside[4096];
  unsigned last;
  FILE *f = fopen(path, "r");
  if (f == NULL && errno != ENOENT)
    fail(path);
  if (f != NULL) {
    errno = 0;
    if (fscanf(f, "%u", &last) != 1 || last > UINT8_MAX)
      fail(path);
    fclose(f);
    first = (uint8_t)(last + 1);
  }
  snprintf(beside, sizeof beside, "%s.new", path);
  f = fopen(beside, "w");
  if (f == NULL || fprintf(f, "%u\n", first) < 0 || fflush(f) != 0 || fsync(fileno(f)) != 0 || fclose(f) != 0
      || rename(beside, path) != 0)
    fail(beside);
  return first;
}

/* ---- descriptors */
int socket_of(uint32_t address, uint16_t port) {
  struct sockaddr_in own = { .sin_family = AF_INET, .sin_port = htons(port) };
  /* of the receive buffer, as far as the machine allows it: the default holds some 280 packets */
  int octets = 4 << 20;
  int s = socket(AF_INET, SOCK_DGRAM | SOCK_CLOEXEC, 0);
  own.sin_addr.s_addr = htonl(address);
  if (s < 0 || bind(s, (struct sockaddr *)&own, sizeof own) != 0)
    fail(inet_ntoa(own.sin_addr));
  setsockopt(s, SOL_SOCKET, SO_RCVBUF, &octets, sizeof octets);
  return s;
}

int clock_of(long milliseconds) {
  struct itimerspec each = { .it_value = { milliseconds / 1000, milliseconds % 1000 * 1000000 } };
  int clock = timerfd_create(CLOCK_MONOTONIC, TFD_CLOEXEC | TFD_NONBLOCK);
  each.it_interval = each.it_value;
  if (clock < 0 || timerfd_settime(clock, 0, &each, NULL) != 0)
    fail("the clock");
  return clock;
}

int signals_of(void) {
  sigset_t set;
  sigemptyset(&set);
  sigaddset(&set, SIGTERM);
  sigaddset(&set, SIGINT);
  sigprocmask(SIG_BLOCK, &set, NULL);
  int signals = signalfd(-1, &set, SFD_CLOEXEC);
  if (signals < 0)
    fail("the signals");
  return signals;
}

int tun_of(const char *name) {
  struct ifreq device = { .ifr_flags = IFF_TUN | IFF_NO_PI };
  int tun = open("/dev/net/tun", O_RDWR | O_CLOEXEC | O_NONBLOCK);
  if (strlen(name) >= sizeof device.ifr_name)
    fail(name);
  strcpy(device.ifr_name, name);
  if (tun < 0 || ioctl(tun, TUNSETIFF, &device) < 0)
    fail(name);
  return tun;
}
