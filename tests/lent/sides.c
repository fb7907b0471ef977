/* One call on both sides, of the library and of the reading, each on what it was lent; what has to be equal
 * after it is compared. */
#include "trial.h"

/* whether a number leaves records and store as they were; 5 has a reply */
static int leaves_all(unsigned number) {
  return number >= 1 && number <= 17 && number != 15 && number != 16;
}

static grugavorn_left user_on_both(size_t count, size_t rows, size_t room) {
  run_on(USER, count, rows, room, 0);
  grugavorn_handed h = job.handed;
  grugavorn_handed r =
      reading_user(node, read_.records, count, read_.store, rows, read_.datagram, length, read_.reply, room);
  grugavorn_left a = { h.number, h.size, node, 0, 0 }, b = { r.number, r.size, node, 0, 0 };
  if (h.place != r.place || h.start != r.start || h.octets != r.octets)
    differ("the payload", USER, h.number, r.number);
  compare(USER, &a, &b, count, rows, 1);
  return a;
}

static grugavorn_left down_on_both(size_t count, size_t rows) {
  copy_ends(&ends_before, &ends_lent);
  copy_ends(&ends_read, &ends_lent);
  run_on(DOWN, count, rows, 0, 0);
  grugavorn_written w = reading_down(node, read_.records, count, read_.store, rows, packet_of(&ends_read),
                                     packet_size, out_of(&ends_read), out_size);
  compare_down(&job.written, &w, count, rows);
  return (grugavorn_left){ job.written.number, 0, node, 0, 0 };
}

grugavorn_left both(int call, size_t count, size_t rows, size_t room, size_t place) {
  before = lent;
  read_ = lent;
  if (call == USER)
    return user_on_both(count, rows, room);
  if (call == DOWN)
    return down_on_both(count, rows);
  grugavorn_left a = run_on(call, count, rows, room, place), b = a;
  int kept = leaves_all(a.number);
  switch (call) {
  case FRESH:
    b = reading_fresh(job.plan, read_.records, count, read_.store, rows);
    break;
  case CONTROL:
    b = reading_control(node, read_.records, count, read_.store, rows, read_.datagram, length, read_.reply,
                        room);
    break;
  case TICK:
    b = reading_tick(node, read_.records, count, read_.store, rows);
    break;
  case SEND:
    b = reading_send(node, read_.records, count, read_.store, rows, read_.reply, room);
    break;
  case LINE:
    b = reading_line(node, read_.records, count, read_.store, rows, place, read_.reply, room);
    kept = 1;
    break;
  case CLOSE:
    b = reading_close(node, read_.records, count, read_.store, rows, place);
    break;
  }
  compare(call, &a, &b, count, rows, kept);
  return a;
}
