/* What a host on Linux does once, before its loop (start.c): its options, the files that it reads, and the
 * descriptors that it polls. Each call ends the program with status 1 and a word on standard error where it
 * cannot be done; a usage error ends it with 2. */
#ifndef START_H
#define START_H
#include "../include/grugavorn.h"

/* addresses that -a may name */
#define PEERS 16

/* The options, and PLAN:
 *     -m MILLISECONDS   of a tick (1000)
 *     -r FILE           keeps the restart counter, which goes into the plan in place of its Recovery
 *     -u                use numbers begin at the restart counter times 65,536 (needs -r)
 *     -j FILE           the journal: all that goes in is put behind what the file has, as bench lines
 *     -a ADDRESS        takes datagrams from this address only, and sends packets down to no other; up to 16
 *                       times; the first is the exchange
 *     -s                hands a packet up only if it came from the address that its session named
 *     -w                answers go to ports 2123 and 2152, whatever port was asked from
 *     -e                the exchange answers no echo: the unit's own are not sent, and count as answered
 *     -t NAME           the carrier's side is this TUN device; else payloads go to standard output */
typedef struct {
  const char *plan, *counter, *journal, *device;
  uint32_t peers[PEERS];
  long tick;
  int peer_count, own_uses, named_only, known_ports, no_echo;
} options;

options options_of(int count, char **words);

/* says what is wrong, and ends the program */
_Noreturn void fail(const char *what);

/* Reads a plan from the lines N and A of a bench input; a file that has anything else is refused. */
grugavorn_plan plan_of(const char *path);

/* The restart counter of this start: one more than the file has, after 255 comes 0; `first` where there is
 * no file. It lies in the file before this answers. */
uint8_t step_counter(const char *path, uint8_t first);

/* a UDP socket bound to an address and a port */
int socket_of(uint32_t address, uint16_t port);

/* a clock that can be read once every so many milliseconds */
int clock_of(long milliseconds);

/* SIGTERM and SIGINT, as a descriptor that can be read */
int signals_of(void);

/* a TUN device, made where there is none of the name; where nothing waits, a read of it ends at once */
int tun_of(const char *name);

#endif
