/* Document 01, and of document 02 what is built, read once more, by hand, in plain C, for comparison with the
 * library: the same calls, the same arguments, none of its code. Numbers, causes and types are the papers'
 * figures as they stand there.
 *   user.c      the header of a user datagram
 *   control.c   control datagrams: their header, their fields, what each type carries
 *   messages.c  the octets of every message that the unit writes
 *   table.c     the plan's limits, what a record is held to, the counts of the sharing rule
 *   rules.c     the rules of table and store, slow on purpose; tests/speed has a quick one in its place
 *   store.c     the store of kept replies: asked, kept, aged, emptied
 *   calls.c     the seven calls of document 01
 *   down.c      the eighth, which document 02 adds: downlink */
#ifndef READING_H
#define READING_H
#include "../../include/grugavorn.h"

/* Before what the parts have of one another. A program that takes the reading in as one piece, as a plain
 * implementation would be compiled, makes it `static` (tests/speed/plain.c). */
#ifndef READING_PART
#define READING_PART
#endif

/* ---- the calls (calls.c, down.c) */
grugavorn_left reading_fresh(grugavorn_plan plan, grugavorn_session *records, size_t count,
                             grugavorn_kept *store, size_t rows);
grugavorn_left reading_control(grugavorn_node node, grugavorn_session *records, size_t count,
                               grugavorn_kept *store, size_t rows, const uint8_t *datagram, size_t length,
                               uint8_t *reply, size_t room);
grugavorn_handed reading_user(grugavorn_node node, const grugavorn_session *records, size_t count,
                              const grugavorn_kept *store, size_t rows, const uint8_t *datagram,
                              size_t length, uint8_t *reply, size_t room);
grugavorn_left reading_tick(grugavorn_node node, grugavorn_session *records, size_t count,
                            grugavorn_kept *store, size_t rows);
grugavorn_left reading_send(grugavorn_node node, grugavorn_session *records, size_t count,
                            const grugavorn_kept *store, size_t rows, uint8_t *reply, size_t room);
grugavorn_left reading_close(grugavorn_node node, grugavorn_session *records, size_t count,
                             const grugavorn_kept *store, size_t rows, size_t place);
grugavorn_left reading_line(grugavorn_node node, const grugavorn_session *records, size_t count,
                            const grugavorn_kept *store, size_t rows, size_t place, uint8_t *reply,
                            size_t room);
grugavorn_written reading_down(grugavorn_node node, const grugavorn_session *records, size_t count,
                               const grugavorn_kept *store, size_t rows, const uint8_t *packet, size_t length,
                               uint8_t *out, size_t room);

/* ---- user datagrams (user.c) */

/* Answers the size of the payload, which ends where the datagram ends (0 where it is refused), and writes the
 * number, as far as the header settles it; of a datagram that is taken also the message type, the TEID of a
 * packet and the sequence number of an echo; else 0. */
READING_PART size_t reading_packet(const uint8_t *d, size_t n, uint8_t *number, uint8_t *type, uint32_t *teid,
                                   uint16_t *sequence);

/* ---- control datagrams (control.c) */

/* A header: the first number that refuses it, or 0, and what stands in it. Octets that are not there count as
 * 0. `fields` is where the fields begin. */
typedef struct {
  uint32_t number, kind, teid, sequence, fields;
} reading_head;

/* the fields of a message, or of a Bearer Context */
typedef struct {
  const uint8_t *at;
  size_t size;
} reading_octets;

/* what is wrong with a request: the cause (0: nothing), and the field that it names, if it names one */
typedef struct {
  unsigned cause;
  int named;
  unsigned type, instance;
} reading_fault;

/* what a Modify brings: which of the two ends and whether a Bearer Context came, and the ends */
typedef struct {
  int control_came, user_came, context_came;
  uint32_t control, controladdr, user, useraddr;
} reading_moves;

/* no Recovery */
enum { READING_NO_RECOVERY = 256 };

READING_PART reading_head reading_control_head(const uint8_t *d, size_t length);

/* A Create under a plan: what it says goes into the record, which is zero before. `reply_to` is the TEID
 * that a cause reply goes to. */
READING_PART reading_fault reading_create(reading_octets m, const grugavorn_plan *plan, grugavorn_session *s,
                                          uint32_t *reply_to);

/* a Modify and a Delete of a session with this EBI */
READING_PART reading_fault reading_modify(reading_octets m, unsigned ebi, reading_moves *moves);
READING_PART reading_fault reading_delete(reading_octets m, unsigned ebi);

/* whether a field of the message itself runs past its end */
READING_PART int reading_overruns(reading_octets m);

/* the Recovery of a message without an overrun */
READING_PART unsigned reading_recovery(reading_octets m);

/* the Cause of a reply, or -1 where the reply is unreadable */
READING_PART int reading_cause(reading_octets m);

/* octets as on the wire, as a number */
static inline uint32_t reading_number(const uint8_t *d, int octets) {
  uint32_t v = 0;
  while (octets-- > 0)
    v = v << 8 | *d++;
  return v;
}

/* ---- messages (messages.c): each writes to the buffer and answers how many octets it has */
READING_PART size_t reading_write_unsupported(uint8_t *reply);
READING_PART size_t reading_write_echo(uint8_t *reply, unsigned type, uint32_t sequence, unsigned recovery);
READING_PART size_t reading_write_refused(uint8_t *reply, reading_fault f, unsigned type, uint32_t teid,
                                          uint32_t sequence);
READING_PART size_t reading_write_created(uint8_t *reply, const grugavorn_plan *plan,
                                          const grugavorn_session *s, unsigned place, uint32_t sequence);
READING_PART size_t reading_write_modified(uint8_t *reply, const grugavorn_session *s, int context,
                                           uint32_t sequence);
READING_PART size_t reading_write_deleted(uint8_t *reply, uint32_t teid, uint32_t sequence);
READING_PART size_t reading_write_delete_bearer(uint8_t *reply, const grugavorn_session *s);
READING_PART size_t reading_write_user_echo(uint8_t *reply, unsigned sequence);
READING_PART size_t reading_write_error(uint8_t *reply, uint32_t teid, uint32_t address);
READING_PART size_t reading_write_packet(uint8_t *out, uint32_t teid, const uint8_t *packet, size_t length);

/* ---- the table (table.c, rules.c) */
enum { READING_LAST_USE = 16777215, READING_LAST_CREATED = 16777215, READING_LAST_OWN = 8388607 };

READING_PART int reading_plan_fits(const grugavorn_plan *plan);

/* `before` is the most that the timer may be before the first send */
READING_PART int reading_request_fits(const grugavorn_request *r, unsigned before,
                                      const grugavorn_plan *plan);
READING_PART int reading_record_fits(const grugavorn_session *s, const grugavorn_plan *plan);

/* u of an access point, and S */
READING_PART unsigned reading_sessions(const grugavorn_session *t, unsigned point);
READING_PART unsigned reading_shared(const grugavorn_session *t, const grugavorn_plan *plan);

READING_PART int reading_rules_kept(const grugavorn_node *node, const grugavorn_session *t, size_t count,
                                    const grugavorn_kept *store, size_t rows);

/* ---- the store (store.c), of 32 rows: the kept reply to a request with this header, or null; a reply is
 * kept; a tick; a restart of the exchange */
READING_PART const grugavorn_kept *reading_asked(const grugavorn_kept *store, const reading_head *h);
READING_PART void reading_keep(grugavorn_kept *store, const reading_head *h, unsigned number, size_t size,
                               const uint8_t *reply);
READING_PART void reading_age(grugavorn_kept *store);
READING_PART void reading_empty(grugavorn_kept *store);
#endif
