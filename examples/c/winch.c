/* A session that is handed its events one by one, rows of sessions, runs over whole logs, reasons, a replay, order queries, loads, and all orders of short
 * logs, through libbilguzor.a and the three libraries beside it. */
#include <stdio.h>
#include <string.h>

#include "bilguzor.h"

static void print_judgement(const char *what, bilguzor_judgement j)
{
    if (j.kind == BILGUZOR_YES) {
        printf("%s: match at %zu, events", what, j.count);
        for (int i = 0; i < BILGUZOR_SLOTS; i++) {
            printf(" %u", j.events[i]);
        }
        printf("\n");
    } else if (j.kind == BILGUZOR_NO) {
        printf("%s: no match\n", what);
    } else {
        const char *whose = j.kind == BILGUZOR_PATTERN_REFUSED ? "pattern" : "log";
        printf("%s: %s refused %u at %zu\n", what, whose, j.number, j.offset);
    }
}

static void print_reason(const char *what, bilguzor_reasoned r)
{
    print_judgement(what, r.judgement);
    printf("%s: slot %zu, last event %zu, earlier slot %zu, events", what, r.slot, r.last, r.earlier);
    for (int i = 0; i < BILGUZOR_SLOTS; i++) {
        printf(" %u", r.events[i]);
    }
    printf("\n");
}

static void print_ordering(const char *what, bilguzor_ordering o)
{
    switch (o.kind) {
    case BILGUZOR_SAME: printf("%s: same\n", what); break;
    case BILGUZOR_BEFORE: printf("%s: before\n", what); break;
    case BILGUZOR_AFTER: printf("%s: after\n", what); break;
    case BILGUZOR_FREE: printf("%s: free\n", what); break;
    default: printf("%s: %s refused %u at %zu\n", what, o.kind == BILGUZOR_LOG_REFUSED ? "log" : "query", o.number, o.offset);
    }
}

static void print_order(const char *what, bilguzor_order_row r)
{
    switch (r.kind) {
    case BILGUZOR_ORDER: printf("%s: order", what); break;
    case BILGUZOR_LAST: printf("%s: last,", what); break;
    default: printf("%s: %s refused %u at %zu,", what, r.kind == BILGUZOR_LOG_REFUSED ? "log" : "query", r.number, r.offset);
    }
    for (int i = 0; i < BILGUZOR_PLACES; i++) {
        printf(" %u", r.events[i]);
    }
    printf("\n");
}

static void hand(bilguzor_session *session, uint32_t thread, uint32_t operation, uint32_t object, int32_t height)
{
    bilguzor_answer a = bilguzor_session_take(session, thread, operation, object, height);
    printf("thread %u operation %u object %u: ", (unsigned)thread, (unsigned)operation, (unsigned)object);
    if (a.number != 0) {
        printf("refused %u at %zu, ", a.number, a.offset);
    }
    printf("%u taken", session->taken);
    print_judgement("", bilguzor_session_verdict(session));
}

static bilguzor_session open_session(const char *what, const uint8_t *pattern, size_t size)
{
    bilguzor_opening o = bilguzor_open(pattern, size);
    if (o.number == 0) {
        printf("%s: %zu slots\n", what, o.slots);
    } else {
        printf("%s: refused %u at %zu\n", what, o.number, o.offset);
    }
    return o.session;
}

static void sessions(void)
{
    /* thread 1 mark 10, thread 0 mark 20, thread 0 mark 21, thread 1 mark 11 */
    static const uint8_t marks[] = { 7, 1, 10, 0, 7, 0, 20, 0, 7, 0, 21, 0, 7, 1, 11, 0, 0 };
    static const uint8_t nothing[] = { 0 };
    bilguzor_session session = open_session("four marks", marks, sizeof marks);
    hand(&session, 1, BILGUZOR_MARK, 10, 0);
    hand(&session, 1, BILGUZOR_MARK, 11, 0);
    hand(&session, BILGUZOR_THREADS, BILGUZOR_MARK, 20, 0);
    hand(&session, 0, 0, 20, 0);
    hand(&session, 0, BILGUZOR_MARK, 65536, 0);
    hand(&session, 0, BILGUZOR_WRITE, 32, -400);
    hand(&session, 0, BILGUZOR_WRITE, 31, -400);
    hand(&session, 0, BILGUZOR_MARK, 20, 0);
    hand(&session, 0, BILGUZOR_MARK, 21, 0);
    hand(&session, 0, BILGUZOR_RELEASE, 3, 0);
    bilguzor_session lone = open_session("no slot", nothing, sizeof nothing);
    hand(&lone, 0, BILGUZOR_MARK, 0, 0);
}

/* Thread 0 takes lock 2 as deep as it can be held, and once more. */
static void locks(void)
{
    static const uint8_t mark[] = { 7, 1, 11, 0, 0 };
    bilguzor_session session = open_session("a mark", mark, sizeof mark);
    for (int i = 0; i < 254; i++) {
        bilguzor_session_take(&session, 0, BILGUZOR_ACQUIRE, 2, 0);
    }
    hand(&session, 0, BILGUZOR_ACQUIRE, 2, 0);
    hand(&session, 0, BILGUZOR_ACQUIRE, 2, 0);
    hand(&session, 1, BILGUZOR_ACQUIRE, 2, 0);
}

/* Hands one event to a row, and by itself to a copy of each session, which must end with the same bytes; too long a row must stay as it was. */
static void hand_row(bilguzor_session *row, size_t size, bilguzor_event e)
{
    static bilguzor_session copies[BILGUZOR_ROW + 1];
    int fits = size <= BILGUZOR_ROW;
    memcpy(copies, row, size * sizeof *row);
    bilguzor_row_report r = bilguzor_take_all(row, size, e);
    for (size_t i = 0; fits && i < size; i++) {
        bilguzor_session_take(&copies[i], e.thread, e.operation, e.object, e.height);
    }
    const char *bytes = memcmp(copies, row, size * sizeof *row) == 0 ? "each session" : "NOT each session";
    printf("row of %zu, thread %u operation %u object %u: ", size, (unsigned)e.thread, (unsigned)e.operation, (unsigned)e.object);
    printf("number %u at %zu, %zu refused, lowest place %zu, ", r.number, r.offset, r.count, r.place);
    printf("%s as %s\n", bytes, fits ? "alone" : "it was");
}

static const bilguzor_event mark_3 = { 2, BILGUZOR_MARK, 3, 0 };
static const bilguzor_event no_operation = { 2, 0, 3, 0 };
static const bilguzor_event lock_5 = { 2, BILGUZOR_ACQUIRE, 5, 0 };

/* Place 16 is full; then thread 1 holds lock 5 at place 8; then thread 2 is joined at place 1. */
static void row_refusals(bilguzor_session *row)
{
    while (bilguzor_session_take(&row[15], 0, BILGUZOR_MARK, 0, 0).number == 0) {
    }
    hand_row(row, BILGUZOR_ROW, mark_3);
    bilguzor_session_take(&row[7], 1, BILGUZOR_ACQUIRE, 5, 0);
    hand_row(row, BILGUZOR_ROW, lock_5);
    bilguzor_session_take(&row[0], 1, BILGUZOR_JOIN, 2, 0);
    hand_row(row, BILGUZOR_ROW, lock_5);
}

/* The session of each place looks for thread 2's mark of that number. */
static void rows(void)
{
    static const size_t sizes[] = { 0, 1, BILGUZOR_ROW, BILGUZOR_ROW + 1 };
    static bilguzor_session row[BILGUZOR_ROW + 1];
    for (uint8_t place = 1; place <= BILGUZOR_ROW + 1; place++) {
        const uint8_t pattern[] = { 7, 2, place, 0, 0 };
        row[place - 1] = bilguzor_open(pattern, sizeof pattern).session;
    }
    for (size_t i = 0; i < sizeof sizes / sizeof *sizes; i++) {
        hand_row(row, sizes[i], mark_3);
        hand_row(row, sizes[i], no_operation);
    }
    row_refusals(row);
    print_judgement("place 2", bilguzor_session_verdict(&row[1]));
    print_judgement("place 3", bilguzor_session_verdict(&row[2]));
}

/* thread 1 mark 11; thread 0 writes variable 0, height -400 mm */
static const uint8_t sign_log[] = { 7, 1, 11, 0, 2, 0, 0, 0x70, 0xFE, 0xFF, 0xFF, 0 };

/* thread 0 acquires lock 2, thread 1 acquires it */
static const uint8_t held_log[] = { 3, 0, 2, 3, 1, 2, 0 };

/* thread 0 writes variable 0, thread 1 mark 11 */
static const uint8_t sign[] = { 2, 0, 0, 7, 1, 11, 0, 0 };

static const uint8_t other[] = { 7, 1, 12, 0, 0 };
static const uint8_t open_ended[] = { 7, 1, 12, 0 };

static void runs(void)
{
    print_judgement("run", bilguzor_run(sign, sizeof sign, sign_log, sizeof sign_log));
    print_judgement("run", bilguzor_run(other, sizeof other, sign_log, sizeof sign_log));
    print_judgement("run", bilguzor_run(other, sizeof other, held_log, sizeof held_log));
    print_judgement("run", bilguzor_run(open_ended, sizeof open_ended, held_log, sizeof held_log));
}

static void reasons(void)
{
    /* thread 1 acquires lock 3, marks 10 and 11 and releases it; thread 0 acquires it, writes variable 0 and releases it */
    static const uint8_t panel_log[] = { 3, 1, 3, 7, 1, 10, 0, 7, 1, 11, 0, 4, 1, 3, 3, 0, 3, 2, 0, 0, 0x70, 0xFE, 0xFF, 0xFF, 4, 0, 3, 0 };
    /* thread 1 mark 10, thread 0 writes variable 0, thread 1 mark 11 */
    static const uint8_t panel[] = { 7, 1, 10, 0, 2, 0, 0, 7, 1, 11, 0, 0 };
    print_reason("panel with the lock", bilguzor_reason(panel, sizeof panel, panel_log, sizeof panel_log));
    print_ordering("3 and 6", bilguzor_order(panel_log, sizeof panel_log, 3, 6));
    print_reason("no such event", bilguzor_reason(other, sizeof other, sign_log, sizeof sign_log));
    print_reason("a match", bilguzor_reason(sign, sizeof sign, sign_log, sizeof sign_log));
    print_reason("held lock", bilguzor_reason(other, sizeof other, held_log, sizeof held_log));
    print_reason("open end", bilguzor_reason(open_ended, sizeof open_ended, held_log, sizeof held_log));
}

static void replays(void)
{
    uint8_t buffer[sizeof sign_log];
    bilguzor_replayed r = bilguzor_replay(sign, sizeof sign, sign_log, sizeof sign_log, buffer, sizeof buffer);
    print_judgement("replay", r.judgement);
    printf("replay of %zu bytes:", r.length);
    for (size_t i = 0; i < r.length; i++) {
        printf(" %02X", buffer[i]);
    }
    printf("\n");
    print_judgement("run over the replay", bilguzor_run(sign, sizeof sign, buffer, r.length));
    r = bilguzor_replay(sign, sizeof sign, sign_log, sizeof sign_log, buffer, sizeof buffer - 1);
    print_judgement("replay, a byte too short", r.judgement);
}

static void orders(void)
{
    /* thread 0 writes variable 3, thread 1 reads it, thread 1 marks 5 */
    static const uint8_t log[] = { 2, 0, 3, 0, 0, 0, 0, 1, 1, 3, 7, 1, 5, 0, 0 };
    print_ordering("1 and 3", bilguzor_order(log, sizeof log, 1, 3));
    print_ordering("3 and 1", bilguzor_order(log, sizeof log, 3, 1));
    print_ordering("2 and 2", bilguzor_order(log, sizeof log, 2, 2));
    print_ordering("1 and 2, independent", bilguzor_order(sign_log, sizeof sign_log, 1, 2));
    print_ordering("1 and 4", bilguzor_order(log, sizeof log, 1, 4));
    print_ordering("1 and 2", bilguzor_order(held_log, sizeof held_log, 1, 2));
}

static size_t print_load(uint32_t seed, size_t count, uint8_t *buffer, size_t size)
{
    bilguzor_load_made l = bilguzor_load(seed, count, buffer, size);
    printf("load of seed %u, count %zu in %zu bytes: ", (unsigned)seed, count, size);
    if (l.number != 0) {
        printf("refused %u at %zu, ", l.number, l.offset);
    }
    printf("%zu written:", l.length);
    for (size_t i = 0; i < l.length && i < 12; i++) {
        printf(" %02X", buffer[i]);
    }
    printf("\n");
    return l.length;
}

static void loads(void)
{
    /* thread 1 mark 7, thread 0 mark 6 */
    static const uint8_t marks[] = { 7, 1, 7, 0, 7, 0, 6, 0, 0 };
    static uint8_t buffer[BILGUZOR_LOAD_SIZE];
    print_load(0, 0, buffer, 1);
    print_load(0, 1, buffer, 5);
    print_load(0, 1, buffer, 4);
    print_load(UINT32_MAX, 2, buffer, 100);
    print_load(0, BILGUZOR_EVENTS + 1, buffer, 0);
    size_t length = print_load(0, BILGUZOR_EVENTS, buffer, sizeof buffer);
    print_judgement("run over the load", bilguzor_run(marks, sizeof marks, buffer, length));
}

/* Prints every order of a log and what is answered after the last. */
static void go_through(const char *what, const uint8_t *log, size_t size)
{
    bilguzor_order_row r = bilguzor_first_order(log, size);
    print_order(what, r);
    while (r.kind == BILGUZOR_ORDER) {
        r = bilguzor_next_order(log, size, r.events, sizeof r.events);
        print_order(what, r);
    }
}

/* Eight threads mark 1: how many orders there are, and the last of them. */
static void eight_marks(void)
{
    static const uint8_t log[] = { 7, 0, 1, 0, 7, 1, 1, 0, 7, 2, 1, 0, 7, 3, 1, 0, 7, 4, 1, 0, 7, 5, 1, 0, 7, 6, 1, 0, 7, 7, 1, 0, 0 };
    bilguzor_order_row last, next = bilguzor_first_order(log, sizeof log);
    size_t count = 0;
    do {
        last = next;
        next = bilguzor_next_order(log, sizeof log, last.events, sizeof last.events);
        count++;
    } while (next.kind == BILGUZOR_ORDER);
    printf("eight marks: %zu orders\n", count);
    print_order("eight marks", last);
}

/* thread 0 acquires lock 2 and releases it, thread 1 marks 11 and acquires lock 2 */
static const uint8_t lock_log[] = { 3, 0, 2, 4, 0, 2, 7, 1, 11, 0, 3, 1, 2, 0 };

/* thread 0 marks 1, nine times */
static const uint8_t nine_log[] = { 7, 0, 1, 0, 7, 0, 1, 0, 7, 0, 1, 0, 7, 0, 1, 0, 7, 0, 1, 0, 7, 0, 1, 0, 7, 0, 1, 0, 7, 0, 1, 0, 7, 0, 1, 0, 0 };

static void all_orders(void)
{
    static const uint8_t nothing[] = { 0 };
    go_through("lock and mark", lock_log, sizeof lock_log);
    go_through("no event", nothing, sizeof nothing);
    eight_marks();
    go_through("nine marks", nine_log, sizeof nine_log);
    go_through("held lock", held_log, sizeof held_log);
}

/* One order, and lists that are none: with dependent events turned round, with an event twice, with one too many, with seven and with nine places. */
static void given_orders(void)
{
    static const uint8_t order[BILGUZOR_PLACES + 1] = { 1, 3, 2, 4 };
    static const uint8_t turned[BILGUZOR_PLACES] = { 1, 3, 4, 2 };
    static const uint8_t twice[BILGUZOR_PLACES] = { 1, 3, 2, 2 };
    static const uint8_t more[BILGUZOR_PLACES] = { 1, 3, 2, 4, 5 };
    print_order("after 1 3 2 4", bilguzor_next_order(lock_log, sizeof lock_log, order, BILGUZOR_PLACES));
    print_order("after 1 3 4 2", bilguzor_next_order(lock_log, sizeof lock_log, turned, sizeof turned));
    print_order("after 1 3 2 2", bilguzor_next_order(lock_log, sizeof lock_log, twice, sizeof twice));
    print_order("after 1 3 2 4 5", bilguzor_next_order(lock_log, sizeof lock_log, more, sizeof more));
    print_order("after seven places", bilguzor_next_order(lock_log, sizeof lock_log, order, BILGUZOR_PLACES - 1));
    print_order("after nine places", bilguzor_next_order(lock_log, sizeof lock_log, order, BILGUZOR_PLACES + 1));
    print_order("nine marks, after nine places", bilguzor_next_order(nine_log, sizeof nine_log, order, BILGUZOR_PLACES + 1));
    print_order("held lock, after nine places", bilguzor_next_order(held_log, sizeof held_log, order, BILGUZOR_PLACES + 1));
}

int main(void)
{
    printf("version %u%s\n", (unsigned)bilguzor_version(), bilguzor_version() == BILGUZOR_VERSION ? "" : ", which is not the header's");
    sessions();
    locks();
    rows();
    runs();
    reasons();
    replays();
    orders();
    loads();
    all_orders();
    given_orders();
    return 0;
}
