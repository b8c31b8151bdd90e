/* bilguzor: whether some order of the events of a log holds a pattern. The functions of libbilguzor.a, and of libbilguzor_row.a,
 * libbilguzor_load.a and libbilguzor_orders.a, for C and C++.
 *
 * Every function ends, traps on nothing and keeps no memory of its own: what is known of a session lies in the bilguzor_session that the
 * caller holds, so that threads may work at once, each on its own session. A pointer must not be NULL, even where its size is 0, and must lead to
 * as many bytes or numbers as is said of it; what is written must not overlap what else is lent to the same call.
 *
 * Bytes of a pattern or a log, one command after another, closed by 00; operands of more bytes have the low byte first:
 *
 *   byte  event     operands, each with its width in bytes
 *   01    read      thread 1, variable 1
 *   02    write     thread 1, variable 1, height 4 (in a log only)
 *   03    acquire   thread 1, lock 1
 *   04    release   thread 1, lock 1
 *   05    fork      thread 1, child thread 1
 *   06    join      thread 1, child thread 1
 *   07    mark      thread 1, mark 2
 *
 * Threads and children are below BILGUZOR_THREADS, variables below BILGUZOR_VARIABLES, locks below BILGUZOR_LOCKS; marks run 0 to 65535. A pattern has 1 to 5 commands, a log 0 to 65535.
 * Locks count: the holder may acquire again, and the lock is free once it has been released as often.
 *
 * Whatever is refused gets a number, and the offset of the first byte of the command concerned, in the pattern or in the log. The numbers stand
 * in the order in which they are looked for; 0 is no refusal:
 *
 *    1  pattern: its first byte is 00
 *    2  pattern: a byte other than 00 after five commands; the offset of that byte
 *    3  command: a byte above 07; in bilguzor_take and bilguzor_take_all, an operation that is not 1 to 7
 *    4  command: an operand cut short; or no closing 00, and then the offset is the size
 *    5  command: thread not below BILGUZOR_THREADS
 *    6  command: variable, lock or child not below its limit
 *    7  command: fork or join of the acting thread itself
 *    8  a byte follows the closing 00; the offset of that byte
 *    9  event: 65535 events are already taken
 *   10  event: the acting thread is already joined
 *   11  event: acquire of a lock that another thread holds
 *   17  event: acquire by a holder who already holds the lock 255 deep
 *   12  event: release by a thread that does not hold the lock
 *   13  event: fork of a thread that acted or was named by a fork or join
 *   14  event: join of a joined thread
 *
 * 9 to 14 and 17 are looked for at each event, before the next command is looked at: an event that breaks a rule is refused whatever follows it.
 *
 *   15  replay: the buffer has fewer bytes than the log, match or none; looked for after the whole log has passed, and the offset is 0
 *   16  order query: an event number of 0 or above the number of events; the offset is 0
 *   18  row: more than 16 sessions; looked for before any number of the event and any session, and the offset is 0
 *   22  load: a count above 65535; the offset is 0
 *   15  load: the buffer has fewer bytes than the whole log; looked for after 22, and the offset is 0
 *   25  orders: a log of more than 8 events; looked for after the whole log has passed, and the offset is 0
 *   26  orders: a given list that is no order of the log; looked for after 25, and the offset is 0
 */
#ifndef BILGUZOR_H
#define BILGUZOR_H

#include <stddef.h>
#include <stdint.h>

#ifdef __cplusplus
extern "C" {
#endif

/* Raised whenever an answer or the layout of a session changes; bilguzor_version gives that of the library that is linked. Where the two differ nothing may
 * be called, and a session that was kept under another version can't go on: it is opened anew and handed its events again. */
#define BILGUZOR_VERSION 6

#define BILGUZOR_THREADS 16
#define BILGUZOR_VARIABLES 32
#define BILGUZOR_LOCKS 16
#define BILGUZOR_SLOTS 5

/* The most sessions that a row has. */
#define BILGUZOR_ROW 16

/* The most events that a log has. */
#define BILGUZOR_EVENTS 65535

/* A buffer of so many bytes has room for the load of any seed and count. */
#define BILGUZOR_LOAD_SIZE (7 * BILGUZOR_EVENTS + 1)

/* How many places an order has, and so the most events of a log whose orders are gone through. */
#define BILGUZOR_PLACES 8

/* How many numbers each part of a session has: clocks of each thread, of the reads and of the writes of each variable, and of each lock; the table; and
 * of the rules one entry for each thread and two for each lock. */
#define BILGUZOR_CLOCKS_LENGTH ((BILGUZOR_THREADS + 2 * BILGUZOR_VARIABLES + BILGUZOR_LOCKS) * BILGUZOR_THREADS)
#define BILGUZOR_TABLE_LENGTH 512
#define BILGUZOR_STATE_LENGTH (BILGUZOR_THREADS + 2 * BILGUZOR_LOCKS)

/* The byte of an event, as a session takes it. */
enum bilguzor_operation {
    BILGUZOR_READ = 1,
    BILGUZOR_WRITE = 2,
    BILGUZOR_ACQUIRE = 3,
    BILGUZOR_RELEASE = 4,
    BILGUZOR_FORK = 5,
    BILGUZOR_JOIN = 6,
    BILGUZOR_MARK = 7
};

/* The field `kind` of an answer. */
enum bilguzor_kind {
    BILGUZOR_NO = 0, /* no order holds the pattern */
    BILGUZOR_YES = 1, /* some order holds the pattern */
    BILGUZOR_PATTERN_REFUSED = 2,
    BILGUZOR_LOG_REFUSED = 3,
    BILGUZOR_QUERY_REFUSED = 4,
    BILGUZOR_SAME = 5, /* one event, asked twice */
    BILGUZOR_BEFORE = 6, /* the first event comes before the second */
    BILGUZOR_AFTER = 7, /* the second event comes before the first */
    BILGUZOR_FREE = 8, /* neither comes before the other */
    BILGUZOR_ORDER = 9, /* the events are an order of the log */
    BILGUZOR_LAST = 10 /* the given order was the last */
};

/* What a run, or a session so far, has found. 32 bytes. */
typedef struct bilguzor_judgement {
    uint8_t kind; /* BILGUZOR_NO, BILGUZOR_YES, BILGUZOR_PATTERN_REFUSED or BILGUZOR_LOG_REFUSED */
    uint8_t number; /* of the refusal; 0 without one */
    uint16_t events[BILGUZOR_SLOTS]; /* with a match, the number of the event for each slot, counted from 1: of a run the first such list, smallest at
                                        the first place where two differ; of a session one that it chose; 0 beyond the pattern and without a match */
    size_t count; /* with a match, the smallest number of leading events that suffices; else 0 */
    size_t offset; /* of the refusal; 0 without one */
} bilguzor_judgement;

/* What a run has found, and why there is no match. 72 bytes. */
typedef struct bilguzor_reasoned {
    bilguzor_judgement judgement; /* what bilguzor_run gives */
    size_t slot; /* without a match, the first slot that can't be filled, counted from 1; 0 with a match and for a refusal */
    size_t last; /* the number of the last event that fits that slot, counted from 1; 0 where no event of the log fits it, with a match and for a refusal */
    size_t earlier; /* the lowest slot below that one whose event the last one comes before or is; 0 where `last` is */
    uint16_t events[BILGUZOR_SLOTS]; /* without a match, the first events for the slots below `slot`; 0 from there on, with a match and for a refusal */
} bilguzor_reasoned;

/* What a replay has found and written. 40 bytes. */
typedef struct bilguzor_replayed {
    bilguzor_judgement judgement; /* what bilguzor_run gives; or BILGUZOR_LOG_REFUSED with 15 */
    size_t length; /* with a match, how many bytes are written, which is the size of the log; else 0 */
} bilguzor_replayed;

/* How one event of a log stands to another. 16 bytes. */
typedef struct bilguzor_ordering {
    uint8_t kind; /* BILGUZOR_SAME, BILGUZOR_BEFORE, BILGUZOR_AFTER, BILGUZOR_FREE, BILGUZOR_LOG_REFUSED or BILGUZOR_QUERY_REFUSED */
    uint8_t number; /* of the refusal; 0 without one */
    size_t offset; /* of the refusal; 0 without one */
} bilguzor_ordering;

/* What became of an event that was handed to a session. 16 bytes. */
typedef struct bilguzor_answer {
    uint8_t number; /* 0: the event is taken; else that of the refusal, and the session is as it was */
    size_t offset; /* 0, also for a refusal */
} bilguzor_answer;

/* An event in numbers, as bilguzor_take_all takes it. 16 bytes. */
typedef struct bilguzor_event {
    uint32_t thread;
    uint32_t operation; /* the byte of the event (enum bilguzor_operation) */
    uint32_t object; /* its variable, lock, child or mark */
    int32_t height; /* counts for a write alone */
} bilguzor_event;

/* What became of an event that was handed to a row. 32 bytes. */
typedef struct bilguzor_row_report {
    uint8_t number; /* 0: every session took the event; 18: the row is too long; else that of the refusal at `place` */
    size_t offset; /* 0, also for a refusal */
    size_t count; /* how many sessions refused; 0 with 18 */
    size_t place; /* the lowest place in the row, counted from 1, that refused; 0 without one and with 18 */
} bilguzor_row_report;

/* What became of a load. 24 bytes. */
typedef struct bilguzor_load_made {
    uint8_t number; /* 0: the log is written; else that of the refusal, and the buffer is as it was */
    size_t offset; /* 0, also for a refusal */
    size_t length; /* how many bytes are written; 0 for a refusal */
} bilguzor_load_made;

/* An order of a short log. 24 bytes. */
typedef struct bilguzor_order_row {
    uint8_t kind; /* BILGUZOR_ORDER, BILGUZOR_LAST, BILGUZOR_LOG_REFUSED or BILGUZOR_QUERY_REFUSED */
    uint8_t number; /* of the refusal; 0 without one */
    uint8_t events[BILGUZOR_PLACES]; /* of an order, the number of the event at each place, counted from 1; 0 beyond the log's events, and all 0 without an
                                        order */
    size_t offset; /* of the refusal; 0 without one */
} bilguzor_order_row;

/* A session: 4172 bytes, none of them padding, which may be copied. It comes from bilguzor_open alone, and only bilguzor_session_take (or
 * bilguzor_take) and bilguzor_take_all change it. */
typedef struct bilguzor_session {
    uint32_t slots[BILGUZOR_SLOTS]; /* for each slot its byte, 256 times its thread and 65536 times its object, added up */
    uint32_t size; /* how many slots there are */
    uint16_t clocks[BILGUZOR_CLOCKS_LENGTH]; /* how many events of each thread come before */
    uint16_t table[BILGUZOR_TABLE_LENGTH]; /* the best partial match of every set of slots */
    uint16_t taken; /* how many events are taken */
    uint16_t count; /* the count of the match, 0 without one */
    uint8_t state[BILGUZOR_STATE_LENGTH]; /* of each thread whether it acted or is joined, and who holds each lock, and how deep */
} bilguzor_session;

/* A session that was opened. 4200 bytes. */
typedef struct bilguzor_opening {
    uint8_t number; /* 0: the pattern is accepted; else that of the refusal */
    size_t offset; /* of the refusal; 0 without one */
    size_t slots; /* how many the pattern has; 0 for a refused one */
    bilguzor_session session; /* on the pattern, with no event taken; for a refused one, on the lone slot thread 0, mark 0 */
} bilguzor_opening;

/* Judges a whole log by a pattern. A refused pattern answers BILGUZOR_PATTERN_REFUSED (1 to 8), and the log is not looked at; a refusal anywhere
 * in the log answers BILGUZOR_LOG_REFUSED (3 to 14, or 17), also after a match. */
bilguzor_judgement bilguzor_run(const uint8_t *pattern, size_t pattern_size, const uint8_t *log, size_t log_size);

/* Judges a whole log by a pattern, as bilguzor_run does, and says why where there is no match. The first slots of the pattern, as many as can be filled,
 * get their first events: each fits its slot, none comes before the event of an earlier slot or is it, and no list of events that is so has a smaller
 * number in any slot. The next slot then can't be filled, for one of two reasons:
 *
 *   no event fits it: `last` and `earlier` are 0; or
 *   the last event that fits it comes before the event of slot `earlier`, or is it, and so does every other that fits; bilguzor_order says the same
 *   of `last` and events[earlier - 1].
 *
 * Such a reason is enough: where there is one, no order of the log holds the pattern. A log without a match has exactly one.
 *
 * What bilguzor_run refuses is refused alike. With a match, and for every refusal, all beside the judgement is 0. */
bilguzor_reasoned bilguzor_reason(const uint8_t *pattern, size_t pattern_size, const uint8_t *log, size_t log_size);

/* Judges a whole log by a pattern, as bilguzor_run does. With a match it writes at the start of the buffer a log that shows it: the same events,
 * first all that come before the event of slot 1 or are it, then those not yet written that do so for slot 2, and so on, then the rest, each group in
 * the order of the log. Swaps of neighbours that do not depend on each other lead to that order, which holds the slots in sequence; bilguzor_run over
 * it with the same pattern answers BILGUZOR_YES. It is exactly as long as the log: a buffer of log_size bytes is enough, and bytes after it stay as
 * they were.
 *
 * What bilguzor_run refuses is refused alike. Once the log has passed, a buffer with fewer bytes than the log answers BILGUZOR_LOG_REFUSED (15, at
 * offset 0), match or none. Without a match, and for every refusal, no byte of the buffer is changed, and the length is 0. */
bilguzor_replayed bilguzor_replay(
    const uint8_t *pattern, size_t pattern_size, const uint8_t *log, size_t log_size, uint8_t *buffer, size_t buffer_size);

/* How event number `first` of the log, counted from 1, stands to event number `second`: BILGUZOR_SAME where the numbers are equal; BILGUZOR_BEFORE
 * where a chain of events rising in the log, each dependent on the next, leads from the first to the second; BILGUZOR_AFTER where one leads from the
 * second to the first; else BILGUZOR_FREE. A refused log answers BILGUZOR_LOG_REFUSED (3 to 14, or 17); a number that no event of the log has then
 * BILGUZOR_QUERY_REFUSED (16). Up to version 3 it answered BILGUZOR_YES for same and before, BILGUZOR_NO for after and free. */
bilguzor_ordering bilguzor_order(const uint8_t *log, size_t log_size, size_t first, size_t second);

/* Opens a session on a pattern. A refused pattern (1 to 8) still gives a session, on the lone slot thread 0, mark 0. */
bilguzor_opening bilguzor_open(const uint8_t *pattern, size_t pattern_size);

/* Hands one event to the session. `operation` is the byte of the event (enum bilguzor_operation), `object` its variable, lock, child or mark;
 * `height` counts for a write alone. Every number may be given: an operation other than 1 to 7 is refused with 3, then a thread not below
 * BILGUZOR_THREADS with 5, an object not below its limit with 6, and so on. A refused event leaves the session as it was. */
static inline bilguzor_answer bilguzor_session_take(
    bilguzor_session *session, uint32_t thread, uint32_t operation, uint32_t object, int32_t height);

/* Hands one event to each of the row_size sessions of a row, in row order: many patterns, one call an event. More than BILGUZOR_ROW sessions are
 * refused with 18, before the event is looked at, and none of them changes. Else each session ends exactly as bilguzor_session_take alone would leave
 * it: one that refuses is as it was, and the others go on. The report has how many refused, the lowest place that did and the number of its refusal;
 * all three are 0 where none did. A row of size 0 answers zeros, whatever the event; its pointer too must not be NULL.
 *
 * It is in libbilguzor_row.a, which is linked beside libbilguzor.a, and it saves no time: each session is copied from the row and back, one that refuses
 * too. A loop over bilguzor_session_take does the same to each session, and with 12 patterns of three slots it was measured to be 14 times as fast. */
bilguzor_row_report bilguzor_take_all(bilguzor_session *row, size_t row_size, bilguzor_event event);

/* Writes at the start of the buffer the load of a seed and a count: a log of so many events, always the same, on every machine. Each event takes one step
 * of a state of 32 bits, which begins as the seed: it becomes 1664525 times itself plus 1013904223, of which the low 32 bits are kept. Its bits 31 and 30
 * are the event's thread, 29 and 28 its kind (0 a read, 1 a write, 2 or 3 a mark), 27 to 25 its variable or mark, and bits 11 to 0 minus 2048 the height of
 * a write. The log is always accepted. Bytes of the buffer after it stay as they were.
 *
 * A count above BILGUZOR_EVENTS is refused with 22, and then a buffer that is too short for the whole log with 15; no byte of it is changed. It is in
 * libbilguzor_load.a, which needs none of the others. */
bilguzor_load_made bilguzor_load(uint32_t seed, size_t count, uint8_t *buffer, size_t buffer_size);

/* The first order of a log of 0 to BILGUZOR_PLACES events: BILGUZOR_ORDER with the events 1, 2 and so on, which is how they were recorded. An order is
 * what swaps of neighbours that do not depend on each other make of that list. The log without events has one order, with 0 at every place.
 *
 * A refused log answers BILGUZOR_LOG_REFUSED (3 to 14, or 17); one of more events then BILGUZOR_QUERY_REFUSED (25). This function and the next are in
 * libbilguzor_orders.a, which needs none of the others. */
bilguzor_order_row bilguzor_first_order(const uint8_t *log, size_t log_size);

/* The order after a given one: BILGUZOR_ORDER, or BILGUZOR_LAST where there is none. Of two orders the one that is smaller at the first place where they
 * differ comes first. Called with the first order, and then with the events of each answer, it gives every other order, each exactly once. There is one
 * order where each event comes before the next, and there are 40320 of eight events that are all free of each other.
 *
 * The given list has BILGUZOR_PLACES numbers, as an answer has them. What bilguzor_first_order refuses is refused alike, whatever the list. A list that
 * is no order of the log then answers BILGUZOR_QUERY_REFUSED (26), also one of fewer or more numbers, or with another than 0 beyond the log's events. */
bilguzor_order_row bilguzor_next_order(const uint8_t *log, size_t log_size, const uint8_t *order, size_t order_size);

/* What the session has found in the events taken so far: BILGUZOR_YES or BILGUZOR_NO; it refuses nothing. */
static inline bilguzor_judgement bilguzor_session_verdict(const bilguzor_session *session);

/* BILGUZOR_VERSION of the library. */
uint32_t bilguzor_version(void);

/* The same two as the library has them, given the parts of a session. */
bilguzor_answer bilguzor_take(const uint32_t slots[BILGUZOR_SLOTS], uint32_t size, uint16_t clocks[BILGUZOR_CLOCKS_LENGTH],
    uint16_t table[BILGUZOR_TABLE_LENGTH], uint16_t *taken, uint16_t *count, uint8_t state[BILGUZOR_STATE_LENGTH], uint32_t thread,
    uint32_t operation, uint32_t object, int32_t height);

bilguzor_judgement bilguzor_verdict(uint32_t size, const uint16_t table[BILGUZOR_TABLE_LENGTH], uint16_t count);

static inline bilguzor_answer bilguzor_session_take(
    bilguzor_session *session, uint32_t thread, uint32_t operation, uint32_t object, int32_t height)
{
    return bilguzor_take(session->slots, session->size, session->clocks, session->table, &session->taken, &session->count, session->state, thread,
        operation, object, height);
}

static inline bilguzor_judgement bilguzor_session_verdict(const bilguzor_session *session)
{
    return bilguzor_verdict(session->size, session->table, session->count);
}

#ifdef __cplusplus
}
#endif

/* The sizes that the library was compiled with. */
#if defined(__cplusplus) && __cplusplus >= 201103L
#define BILGUZOR_ASSERT_SIZE(type, size) static_assert(sizeof(type) == (size), #type " has another size than in the library")
#elif defined(__STDC_VERSION__) && __STDC_VERSION__ >= 201112L
#define BILGUZOR_ASSERT_SIZE(type, size) _Static_assert(sizeof(type) == (size), #type " has another size than in the library")
#else
#define BILGUZOR_ASSERT_SIZE(type, size) typedef char type##_has_its_size[sizeof(type) == (size) ? 1 : -1]
#endif

BILGUZOR_ASSERT_SIZE(bilguzor_judgement, 32);
BILGUZOR_ASSERT_SIZE(bilguzor_reasoned, 72);
BILGUZOR_ASSERT_SIZE(bilguzor_replayed, 40);
BILGUZOR_ASSERT_SIZE(bilguzor_ordering, 16);
BILGUZOR_ASSERT_SIZE(bilguzor_answer, 16);
BILGUZOR_ASSERT_SIZE(bilguzor_event, 16);
BILGUZOR_ASSERT_SIZE(bilguzor_row_report, 32);
BILGUZOR_ASSERT_SIZE(bilguzor_load_made, 24);
BILGUZOR_ASSERT_SIZE(bilguzor_order_row, 24);
BILGUZOR_ASSERT_SIZE(bilguzor_session, 4172);
BILGUZOR_ASSERT_SIZE(bilguzor_opening, 4200);

#endif
