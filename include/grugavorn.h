/* Grugavorn for firmware in C: the session table is the caller's, each call is
 * one function, nothing is kept between calls.
 *
 * A host keeps one grugavorn_unit and makes every call through it:
 *
 *     static grugavorn_unit unit;
 *     static uint8_t reply[GRUGAVORN_REPLY];
 *     grugavorn_answer a = grugavorn_unit_fresh(&unit, &plan);
 *     ...
 *     a = grugavorn_unit_control(&unit, datagram, length, reply, sizeof reply);
 *     if (a.size != 0) send(reply, a.size);
 *     for (size_t i = a.from; i < a.to; i++) look(&unit.records[i]);
 *
 * The unit is the table of documents 01 and 02: 64 session records, the store, which is 32 rows of kept
 * replies, and the node, which is all that goes with them. The calls on a unit stand at the end of this file.
 * Each is a few lines over one of the library's own eight calls, which take the node by value, answer the
 * node to keep, and are lent the records and the store. A host may make those itself, where records, store
 * and node lie apart; it has to store the answer's node before the next call, whatever the number is.
 *
 * The library is proved: every call ends and answers for any octets in any of its arguments, also for a
 * table, a plan or a datagram that makes no sense. It allocates nothing, keeps no static state, calls
 * nothing outside (but memcpy, memmove and memset) and writes only to what a call's comment says. What it
 * takes on trust is the C side: that each pointer has as many elements behind it as the count beside it
 * says and is not null, not even for a count of 0, and that the records, the store, the datagram or
 * packet and the reply or output buffer of one call do not overlap where one of them is written to: a
 * packet is not wrapped where it lies.
 *
 * Numbers are those of documents 01 and 02 (enum grugavorn_number, docs/NUMBERS.md). Every refusal leaves
 * the records, the store, the node and the reply or output buffer as they were, unless the call's comment or
 * the number's section says otherwise. Octets of a buffer past the length that was answered are never
 * written. Multi-octet fields below are the processor's own order; datagrams, packets and replies are octets
 * as on the wire, and so are the rows of the store.
 *
 * Each call that may change records answers where: those of the places from `from` on and below `to`, which
 * is never over 64; every other record is as it was, and where no record changed mostly both are 0. A host
 * that sets routes looks at these places alone. Of the store nothing is answered: no host has to look at
 * it. */
#ifndef GRUGAVORN_H
#define GRUGAVORN_H

#include <stddef.h>
#include <stdint.h>

#if defined(__cplusplus)
#define GRUGAVORN_LAID(what) static_assert(what, "the layout is the library's")
extern "C" {
#elif defined(__STDC_VERSION__) && __STDC_VERSION__ >= 201112L
#define GRUGAVORN_LAID(what) _Static_assert(what, "the layout is the library's")
#else
#define GRUGAVORN_LAID(what) extern char grugavorn_layout_is_the_librarys[(what) ? 1 : -1]
#endif

/* The version: document 01 is 1.0. A change of the exported names, of their arguments or of a struct's
 * layout raises the major number; what is only added, or what a call does otherwise, raises the minor one.
 * 2.0: answers have from and to; grugavorn_peer and grugavorn_address are new. 2.1: grugavorn_down, with
 * numbers 18 to 20. 2.2: grugavorn_control throws a late Recovery away, where it freed all places. 3.0: the
 * store of kept replies is lent to all eight calls, behind the records, and is a field of the unit;
 * grugavorn_control answers a Modify or a Delete that is asked twice from it. */
#define GRUGAVORN_VERSION_MAJOR 3
#define GRUGAVORN_VERSION_MINOR 0
#define GRUGAVORN_VERSION "3.0"

/* the places of a unit, numbered from 0; the most access points of a plan; the most octets of a name */
#define GRUGAVORN_PLACES 64
#define GRUGAVORN_POINTS 4
#define GRUGAVORN_NAME 63
/* the least reply buffer: a shorter one is number 1 */
#define GRUGAVORN_REPLY 128
/* the octets of a G-PDU before its packet: the output buffer has at least so many more than the packet */
#define GRUGAVORN_HEAD 8
/* the octets of one session record */
#define GRUGAVORN_RECORD 48
/* the characters of a place's line, at most: 81, and up to 3 digits of the place */
#define GRUGAVORN_LINE 84
/* the rows of the store, one a kept reply; the life of a kept reply, in ticks: the tenth drops it */
#define GRUGAVORN_KEPT 32
#define GRUGAVORN_LIFE 10

/* The numbers that come back (docs/NUMBERS.md). */
enum grugavorn_number {
  GRUGAVORN_TAKEN = 0,
  /* the reply buffer is short */
  GRUGAVORN_REPLY_SHORT = 1,
  /* the table breaks its rules */
  GRUGAVORN_RULES_BROKEN = 2,
  /* a datagram under 8 octets */
  GRUGAVORN_UNDER_EIGHT = 3,
  /* P is set */
  GRUGAVORN_FLAG_P_SET = 4,
  /* a control version that is not 2 */
  GRUGAVORN_OTHER_VERSION = 5,
  /* the length is not the size less 4 (user: less 8), or the header is cut */
  GRUGAVORN_LENGTH_UNFIT = 6,
  GRUGAVORN_TYPE_NOT_TAKEN = 7,
  /* T, or Create's TEID */
  GRUGAVORN_TEID_UNFIT = 8,
  /* a reply that is not awaited, or unreadable */
  GRUGAVORN_NOT_AWAITED = 9,
  /* a place over 63, or free when closed */
  GRUGAVORN_NO_PLACE = 10,
  /* admitted, and no place is free */
  GRUGAVORN_NO_FREE_PLACE = 11,
  /* user version or PT wrong */
  GRUGAVORN_NOT_USER = 12,
  /* the optional part is cut, or an extension's length is 0 or cut */
  GRUGAVORN_PART_CUT = 13,
  /* an extension that must be understood */
  GRUGAVORN_MUST_UNDERSTAND = 14,
  /* a user TEID that is not live */
  GRUGAVORN_USER_NOT_LIVE = 15,
  /* the plan breaks a limit */
  GRUGAVORN_PLAN_BREAKS = 16,
  GRUGAVORN_NOTHING_DUE = 17,
  /* a packet that is not one whole IPv4 packet */
  GRUGAVORN_PACKET_UNFIT = 18,
  /* no session has the destination address */
  GRUGAVORN_NO_SESSION = 19,
  /* the output buffer is under the packet plus 8 */
  GRUGAVORN_OUTPUT_SHORT = 20,
  /* the causes: the reply has that cause. No such session */
  GRUGAVORN_NOT_LIVE = 64,
  /* a field is short, or overruns */
  GRUGAVORN_SHORT = 67,
  /* a field is wrong */
  GRUGAVORN_WRONG = 69,
  /* a field is missing */
  GRUGAVORN_MISSING = 70,
  /* the sharing rule has no room */
  GRUGAVORN_NO_ROOM = 73,
  GRUGAVORN_UNKNOWN_APN = 78,
  /* an address type that is not served */
  GRUGAVORN_ADDRESS_TYPE = 83,
};

/* the states of a record */
#define GRUGAVORN_FREE 0
#define GRUGAVORN_LIVE 1
#define GRUGAVORN_CLOSING 2

/* An access point: its name as the APN field has it (labels with their lengths), of which the first `size`
 * octets count, and how many places it is promised and may have at most. */
typedef struct {
  uint8_t name[GRUGAVORN_NAME];
  uint8_t size;
  uint16_t guarantee;
  uint16_t ceiling;
} grugavorn_point;

/* A plan: the unit's addresses for control and user datagrams, the pool base, the unit's restart counter,
 * T, N and E, and how many of the access points are there. */
typedef struct {
  uint32_t control;
  uint32_t user;
  uint32_t pool;
  uint8_t recovery;
  uint8_t resend;
  uint8_t sends;
  uint8_t interval;
  uint8_t count;
  grugavorn_point points[GRUGAVORN_POINTS];
} grugavorn_plan;

/* A request of the unit's own: ticks until it is due (0: due, or nothing under way), how often it was
 * sent, its sequence number. */
typedef struct {
  uint8_t timer;
  uint8_t sends;
  uint32_t number;
} grugavorn_request;

/* The record of one place. `usage` is its use number; `control` and `user` are the peer's TEIDs, each with
 * its address; `created` is the sequence number of the Create; `own` is the Delete Bearer of a closing
 * place; `point` is the access point's number in the plan. */
typedef struct {
  uint64_t imsi;
  uint32_t usage;
  uint32_t control;
  uint32_t controladdr;
  uint32_t user;
  uint32_t useraddr;
  uint32_t created;
  grugavorn_request own;
  uint8_t state;
  uint8_t point;
  uint8_t ebi;
} grugavorn_session;

/* A row of the store: the reply to a Modify (34) or a Delete (36), kept for when it is asked again. `type`,
 * `sequence` and `teid` are those of the request's header, octets as they stand there; `life` is how many
 * ticks it still has; `number` is what the call answered; of `reply` the first `size` octets are the reply,
 * and in a row that the library wrote the others are 0. A row whose life is 0 is unused: nothing else of it
 * is looked at. Of the used rows the newest stands first.
 * The store is a part of the table and has rules of its own; where one is broken every call answers 2:
 *   - there are 32 rows
 *   - each used row has a life of at most 10, a size of at most 128, type 34 or 36, and a number that such a
 *     request is answered with: 0, 64, 67, 69 or 70
 *   - no two used rows are equal in type, sequence number and TEID
 * Only grugavorn_fresh, grugavorn_control and grugavorn_tick write to it. */
typedef struct {
  uint8_t type;
  uint8_t sequence[3];
  uint8_t teid[4];
  uint8_t life;
  uint8_t number;
  uint8_t size;
  uint8_t reply[GRUGAVORN_REPLY];
} grugavorn_kept;

/* What goes with the records: the plan, the unit's own echo, the next sequence number, and the stored
 * Recovery value of the exchange, which is one once `heard` is not 0. */
typedef struct {
  grugavorn_plan plan;
  grugavorn_request echo;
  uint32_t next;
  uint8_t heard;
  uint8_t recovery;
} grugavorn_node;

/* What a call of the library answers: the number, the length of the reply in the reply buffer (0: none),
 * the node to keep, and the places whose records may have changed: from `from` on and below `to`. */
typedef struct {
  uint8_t number;
  size_t size;
  grugavorn_node node;
  size_t from;
  size_t to;
} grugavorn_left;

/* What a user datagram comes to: the number, the place of its session, the length of the reply (0: none),
 * and the payload: `octets` octets from datagram + start on. Where nothing is handed up, place and octets
 * are 0 and start is the datagram's length. */
typedef struct {
  uint8_t number;
  size_t place;
  size_t size;
  size_t start;
  size_t octets;
} grugavorn_handed;

/* What a packet from the carrier's side comes to: the number, the place of its session, the length of the
 * G-PDU in the output buffer, and the user address of the session's peer, to which it goes. Where nothing is
 * written, all but the number are 0. */
typedef struct {
  uint8_t number;
  size_t place;
  size_t size;
  uint32_t peer;
} grugavorn_written;

GRUGAVORN_LAID(sizeof(grugavorn_point) == 68 && offsetof(grugavorn_point, name) == 0
               && offsetof(grugavorn_point, size) == 63 && offsetof(grugavorn_point, guarantee) == 64
               && offsetof(grugavorn_point, ceiling) == 66);
GRUGAVORN_LAID(sizeof(grugavorn_plan) == 292 && offsetof(grugavorn_plan, control) == 0
               && offsetof(grugavorn_plan, user) == 4 && offsetof(grugavorn_plan, pool) == 8
               && offsetof(grugavorn_plan, recovery) == 12 && offsetof(grugavorn_plan, resend) == 13
               && offsetof(grugavorn_plan, sends) == 14 && offsetof(grugavorn_plan, interval) == 15
               && offsetof(grugavorn_plan, count) == 16 && offsetof(grugavorn_plan, points) == 18);
GRUGAVORN_LAID(sizeof(grugavorn_request) == 8 && offsetof(grugavorn_request, timer) == 0
               && offsetof(grugavorn_request, sends) == 1 && offsetof(grugavorn_request, number) == 4);
GRUGAVORN_LAID(sizeof(grugavorn_session) == GRUGAVORN_RECORD && offsetof(grugavorn_session, imsi) == 0
               && offsetof(grugavorn_session, usage) == 8 && offsetof(grugavorn_session, control) == 12
               && offsetof(grugavorn_session, controladdr) == 16 && offsetof(grugavorn_session, user) == 20
               && offsetof(grugavorn_session, useraddr) == 24 && offsetof(grugavorn_session, created) == 28
               && offsetof(grugavorn_session, own) == 32 && offsetof(grugavorn_session, state) == 40
               && offsetof(grugavorn_session, point) == 41 && offsetof(grugavorn_session, ebi) == 42);
GRUGAVORN_LAID(sizeof(grugavorn_kept) == 139 && offsetof(grugavorn_kept, type) == 0
               && offsetof(grugavorn_kept, sequence) == 1 && offsetof(grugavorn_kept, teid) == 4
               && offsetof(grugavorn_kept, life) == 8 && offsetof(grugavorn_kept, number) == 9
               && offsetof(grugavorn_kept, size) == 10 && offsetof(grugavorn_kept, reply) == 11);
GRUGAVORN_LAID(sizeof(grugavorn_node) == 308 && offsetof(grugavorn_node, plan) == 0
               && offsetof(grugavorn_node, echo) == 292 && offsetof(grugavorn_node, next) == 300
               && offsetof(grugavorn_node, heard) == 304 && offsetof(grugavorn_node, recovery) == 305);
GRUGAVORN_LAID(sizeof(grugavorn_left) == 344 && offsetof(grugavorn_left, number) == 0
               && offsetof(grugavorn_left, size) == 8 && offsetof(grugavorn_left, node) == 16
               && offsetof(grugavorn_left, from) == 328 && offsetof(grugavorn_left, to) == 336);
GRUGAVORN_LAID(sizeof(grugavorn_handed) == 40 && offsetof(grugavorn_handed, number) == 0
               && offsetof(grugavorn_handed, place) == 8 && offsetof(grugavorn_handed, size) == 16
               && offsetof(grugavorn_handed, start) == 24 && offsetof(grugavorn_handed, octets) == 32);
GRUGAVORN_LAID(sizeof(grugavorn_written) == 32 && offsetof(grugavorn_written, number) == 0
               && offsetof(grugavorn_written, place) == 8 && offsetof(grugavorn_written, size) == 16
               && offsetof(grugavorn_written, peer) == 24);

/* ---- the library's own calls: the node goes in by value, and the one that comes back is to be stored */

/* Fresh state from a plan. Whatever the records held, use numbers included, they are zero after it, and so
 * are all octets of the store.
 *   0   a state under the plan, its first echo due after E ticks, no reply kept
 *   2   `count` is not 64, or `rows` is not 32: the records and the store are kept; the node is one without
 *       access points, so later calls answer 2
 *   16  the plan breaks a limit: the records and the store are zero; the node as for 2
 * There is no reply: size is 0. Where the records are zero, from and to are all places. */
grugavorn_left grugavorn_fresh(grugavorn_plan plan, grugavorn_session *records, size_t count,
                               grugavorn_kept *store, size_t rows);

/* Take control datagram: `length` octets from the exchange. The reply buffer of `room` octets holds the
 * reply's first `size` octets.
 *   0   taken; records, store, node and reply as the datagram's type has it
 *   1   room under 128
 *   2   the table or the store breaks its rules, `count` is not 64, or `rows` is not 32
 *   3 to 9, 11   see docs/NUMBERS.md
 *   5   replied to with Version Not Supported; table and store kept
 *   64 67 69 70 73 78 83   a reply with that cause; the table as before but for Recovery and a replaced
 *                          session, the store as below
 * 1, 2 and the silent numbers leave all as it was. The datagram is never written to.
 * A Modify or a Delete whose header is in order (no 3 to 8) first asks the store, before its fields are read
 * and before 64. If a used row is equal in type, sequence number and TEID, then that row is the answer: its
 * number, its octets, and nothing changes, the row's life neither. Else it is answered from the table, and
 * the reply is kept, whatever its number: the row goes in front, with a life of 10, and the rows before the
 * first unused one move back by one; if none is unused, the last one, which is the oldest, is lost.
 * Recovery is read in type 1, in an awaited type 2 and in a Create with its fields in order. Let d be
 * received minus stored, modulo 256. 0, or nothing stored yet: it is stored. 1 to 127: the exchange
 * restarted; all places are freed, the life of every row of the store becomes 0, and it is stored. 128 to
 * 255: it is late; it is thrown away, and the message is taken as one without it.
 * From and to: where the exchange restarted, all places; of a Create that is no repeat, the place of the
 * replaced session and the new one's, with what lies between; of a Modify and a Delete that were not answered
 * from the store, and of a reply to a Delete Bearer, the session's place, also where nothing changed; of
 * everything else none. */
grugavorn_left grugavorn_control(grugavorn_node node, grugavorn_session *records, size_t count,
                                 grugavorn_kept *store, size_t rows, const uint8_t *datagram, size_t length,
                                 uint8_t *reply, size_t room);

/* Take user datagram. The table and the store are only read, so no node comes back.
 *   0   a packet: place and payload; or an echo: no payload, a reply of 14 octets
 *   15  no live user number: a reply of 24 octets, the Error Indication
 *   1, 2, 3, 6, 7, 12, 13, 14   silent, as in docs/NUMBERS.md; 1 and 2 as for control
 * The payload is a part of the caller's datagram: nothing is copied. */
grugavorn_handed grugavorn_user(grugavorn_node node, const grugavorn_session *records, size_t count,
                                const grugavorn_kept *store, size_t rows, const uint8_t *datagram,
                                size_t length, uint8_t *reply, size_t room);

/* Downlink: `length` octets from the carrier's side, one whole IPv4 packet, go into the output buffer of
 * `room` octets as a G-PDU under the user TEID of the peer whose session has the destination address: pool
 * base + 1 + place. A closing session counts. The table and the store are only read, so no node comes back;
 * the packet is never written to.
 *   0   written: 30 FF, the packet's length, the TEID, then the packet; `size` is length + 8
 *   2   the table or the store breaks its rules, `count` is not 64, or `rows` is not 32
 *   18  under 20 octets, a version other than 4, a header length under 20 octets or over the total length, or
 *       a total length other than `length`; nothing else of the header is read
 *   19  no live or closing session has the destination address
 *   20  room under length + 8
 * There is no number 1, and all refusals are silent: nothing is written, place, size and peer are 0. */
grugavorn_written grugavorn_down(grugavorn_node node, const grugavorn_session *records, size_t count,
                                 const grugavorn_kept *store, size_t rows, const uint8_t *packet,
                                 size_t length, uint8_t *out, size_t room);

/* Tick: what was sent and is unanswered counts down from T, and is due again, or given up after N sends:
 * its place is freed, for an echo all places. In the store the life of each used row falls by one, also where
 * an echo is given up; what falls to 0 is dropped, so that a reply is there after nine ticks and not after
 * ten. The other octets of a row stay.
 *   0   done
 *   2   the table or the store breaks its rules, `count` is not 64, or `rows` is not 32
 * There is no reply: size is 0. Send what is due, then tick. From and to are all places where one of them
 * awaits an answer or all were freed, else none. */
grugavorn_left grugavorn_tick(grugavorn_node node, grugavorn_session *records, size_t count,
                              grugavorn_kept *store, size_t rows);

/* Send next due: one datagram to the exchange, an own echo (13 octets) or a place's Delete Bearer (17).
 * Call it until it answers 17. The store is only read.
 *   0   the reply buffer holds the datagram's `size` octets, and it counts as sent: where from < to it is
 *       the Delete Bearer of place `from`, to that session's peer (grugavorn_peer), else the echo
 *   1, 2   as for control
 *   17  nothing is due */
grugavorn_left grugavorn_send(grugavorn_node node, grugavorn_session *records, size_t count,
                              const grugavorn_kept *store, size_t rows, uint8_t *reply, size_t room);

/* Close a place: it is marked closing, and its Delete Bearer is due. The store is only read.
 *   0   marked, or closing already
 *   2   as for tick
 *   10  a place over 63, or a free one
 * There is no reply: size is 0. After 0 from and to are the place alone. */
grugavorn_left grugavorn_close(grugavorn_node node, grugavorn_session *records, size_t count,
                               const grugavorn_kept *store, size_t rows, size_t place);

/* Line of a place: what the bench prints of it, as `size` characters of text in the reply buffer, at most
 * GRUGAVORN_LINE, with no line end. Table and store are only read: the node that comes back is the one that
 * went in.
 *   0   the line, also of a free place
 *   1, 2   as for control
 *   10  a place over 63 */
grugavorn_left grugavorn_line(grugavorn_node node, const grugavorn_session *records, size_t count,
                              const grugavorn_kept *store, size_t rows, size_t place, uint8_t *reply,
                              size_t room);

/* Where a place's session is: two calls that only read, for any table and without the store, and answer an
 * address as a number.
 * The control address of the session's peer, to which a Delete Bearer goes; 0 where the place is free or not
 * among the records. */
uint32_t grugavorn_peer(const grugavorn_session *records, size_t count, size_t place);

/* The session's own address by the plan: pool base + 1 + place; 0 for a place over 63. */
uint32_t grugavorn_address(grugavorn_node node, size_t place);

/* ---- the calls on a unit: as above, with its own records, store and node; the node that comes back is
 * stored */

/* A unit: all that documents 01 and 02 call the table. Nothing has to be done to it before
 * grugavorn_unit_fresh. */
typedef struct grugavorn_unit {
  grugavorn_node node;
  grugavorn_session records[GRUGAVORN_PLACES];
  grugavorn_kept store[GRUGAVORN_KEPT];
} grugavorn_unit;

/* What a call on a unit answers: the number, the length of the reply in the reply buffer (0: none), and the
 * places whose records may have changed: from `from` on and below `to`. */
typedef struct {
  uint8_t number;
  size_t size;
  size_t from;
  size_t to;
} grugavorn_answer;

/* Stores the node that came back. For the calls below. */
static inline grugavorn_answer grugavorn_unit_keep(grugavorn_unit *unit, grugavorn_left left) {
  grugavorn_answer answer;
  answer.number = left.number;
  answer.size = left.size;
  answer.from = left.from;
  answer.to = left.to;
  unit->node = left.node;
  return answer;
}

/* A unit under a plan: grugavorn_fresh. Where it answers 16, every later call answers 2. */
static inline grugavorn_answer grugavorn_unit_fresh(grugavorn_unit *unit, const grugavorn_plan *plan) {
  return grugavorn_unit_keep(
      unit, grugavorn_fresh(*plan, unit->records, GRUGAVORN_PLACES, unit->store, GRUGAVORN_KEPT));
}

/* Takes a control datagram: grugavorn_control. A Modify or a Delete that is asked twice is answered from the
 * unit's store. */
static inline grugavorn_answer grugavorn_unit_control(grugavorn_unit *unit, const uint8_t *datagram,
                                                      size_t length, uint8_t *reply, size_t room) {
  return grugavorn_unit_keep(unit, grugavorn_control(unit->node, unit->records, GRUGAVORN_PLACES, unit->store,
                                                     GRUGAVORN_KEPT, datagram, length, reply, room));
}

/* Takes a user datagram: grugavorn_user. The unit is only read. */
static inline grugavorn_handed grugavorn_unit_user(const grugavorn_unit *unit, const uint8_t *datagram,
                                                   size_t length, uint8_t *reply, size_t room) {
  return grugavorn_user(unit->node, unit->records, GRUGAVORN_PLACES, unit->store, GRUGAVORN_KEPT, datagram,
                        length, reply, room);
}

/* Writes a packet from the carrier's side as a G-PDU into the output buffer: grugavorn_down. The unit is only
 * read. */
static inline grugavorn_written grugavorn_unit_down(const grugavorn_unit *unit, const uint8_t *packet,
                                                    size_t length, uint8_t *out, size_t room) {
  return grugavorn_down(unit->node, unit->records, GRUGAVORN_PLACES, unit->store, GRUGAVORN_KEPT, packet,
                        length, out, room);
}

/* Counts one tick: grugavorn_tick. The kept replies grow older by it. */
static inline grugavorn_answer grugavorn_unit_tick(grugavorn_unit *unit) {
  return grugavorn_unit_keep(
      unit, grugavorn_tick(unit->node, unit->records, GRUGAVORN_PLACES, unit->store, GRUGAVORN_KEPT));
}

/* Writes the next due datagram into the reply buffer: grugavorn_send. Call it until it answers 17. */
static inline grugavorn_answer grugavorn_unit_send(grugavorn_unit *unit, uint8_t *reply, size_t room) {
  return grugavorn_unit_keep(unit, grugavorn_send(unit->node, unit->records, GRUGAVORN_PLACES, unit->store,
                                                  GRUGAVORN_KEPT, reply, room));
}

/* Closes a place: grugavorn_close. */
static inline grugavorn_answer grugavorn_unit_close(grugavorn_unit *unit, size_t place) {
  return grugavorn_unit_keep(
      unit, grugavorn_close(unit->node, unit->records, GRUGAVORN_PLACES, unit->store, GRUGAVORN_KEPT, place));
}

/* Writes the line of a place into the reply buffer: grugavorn_line. The unit is only read: the node that
 * comes back is its own, so that there is nothing to store. */
static inline grugavorn_answer grugavorn_unit_line(const grugavorn_unit *unit, size_t place, uint8_t *reply,
                                                   size_t room) {
  grugavorn_left left = grugavorn_line(unit->node, unit->records, GRUGAVORN_PLACES, unit->store,
                                       GRUGAVORN_KEPT, place, reply, room);
  grugavorn_answer answer;
  answer.number = left.number;
  answer.size = left.size;
  answer.from = left.from;
  answer.to = left.to;
  return answer;
}

/* The control address of the peer of a place's session: grugavorn_peer. */
static inline uint32_t grugavorn_unit_peer(const grugavorn_unit *unit, size_t place) {
  return grugavorn_peer(unit->records, GRUGAVORN_PLACES, place);
}

/* The address of a place's session: grugavorn_address. */
static inline uint32_t grugavorn_unit_address(const grugavorn_unit *unit, size_t place) {
  return grugavorn_address(unit->node, place);
}

#if defined(__cplusplus)
}
#endif
#endif
