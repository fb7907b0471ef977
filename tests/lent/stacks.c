/* The library's calls, each on a stack of its own, so that the deepest use of each is known at the end. */
#include "trial.h"
#include <string.h>
#include <ucontext.h>

const char *const names[CALLS] = { "fresh", "control", "user", "tick", "send", "close", "line", "down" };

enum { DEEP = 262144 };

static uint8_t stacks[CALLS + 1][DEEP];
static ucontext_t home, there[CALLS + 1];
job_t job;

static void work(int call) {
  for (;;) {
    switch (call) {
    case FRESH:
      job.left = grugavorn_fresh(job.plan, job.records, job.count, job.store, job.rows);
      break;
    case CONTROL:
      job.left = grugavorn_control(node, job.records, job.count, job.store, job.rows, job.datagram,
                                   job.length, job.reply, job.room);
      break;
    case USER:
      job.handed = grugavorn_user(node, job.records, job.count, job.store, job.rows, job.datagram, job.length,
                                  job.reply, job.room);
      break;
    case TICK:
      job.left = grugavorn_tick(node, job.records, job.count, job.store, job.rows);
      break;
    case SEND:
      job.left = grugavorn_send(node, job.records, job.count, job.store, job.rows, job.reply, job.room);
      break;
    case CLOSE:
      job.left = grugavorn_close(node, job.records, job.count, job.store, job.rows, job.place);
      break;
    case LINE:
      job.left =
          grugavorn_line(node, job.records, job.count, job.store, job.rows, job.place, job.reply, job.room);
      break;
    case DOWN:
      job.written = grugavorn_down(node, job.records, job.count, job.store, job.rows, packet_of(&ends_lent),
                                   packet_size, out_of(&ends_lent), out_size);
      break;
    }
    swapcontext(&there[call], &home);
  }
}

void set_stacks(void) {
  memset(stacks, 0xA5, sizeof stacks);
  for (int i = 0; i <= CALLS; i++) {
    getcontext(&there[i]);
    there[i].uc_stack.ss_sp = stacks[i];
    there[i].uc_stack.ss_size = DEEP;
    there[i].uc_link = 0;
    makecontext(&there[i], (void (*)(void))work, 1, i);
  }
  swapcontext(&home, &there[CALLS]);
}

long deepest(int call) {
  long i = 0;
  while (i < DEEP && stacks[call][i] == 0xA5)
    i++;
  return DEEP - i;
}

grugavorn_left run_on(int call, size_t count, size_t rows, size_t room, size_t place) {
  job.records = lent.records;
  job.count = count;
  job.store = lent.store;
  job.rows = rows;
  job.datagram = lent.datagram;
  job.length = length;
  job.reply = lent.reply;
  job.room = room;
  job.place = place;
  swapcontext(&home, &there[call]);
  return job.left;
}
