/*
 * session.c: a host in C that runs sessions over an area, by include/sudolog.h. Prints a line for each check that
 * fails and at the end 'N passed, M failed'; exit status 1 on a failure.
 *
 * The marked examples 7 to 10 of the scope document; the 40 bytes of a session, and bytes that are none; an answer
 * without room; what a refusal leaves as it was; the turns of I/O bytes; which of two refusals goes first; the limits of a
 * message, an area and a record; NULL in the place of a message and of an area; that a restart and a file check touch no
 * data bytes; and that data of every size is stored byte for byte.
 */
#define _DEFAULT_SOURCE
#include "check.h"
#include "data.h"
#include "sudolog.h"

#include <stdlib.h>
#include <string.h>
#include <sys/mman.h>

enum { AREA = 4096 };

/* A host: one session over one area, and the message that it makes next. */
struct host {
    struct sudolog_session session;
    uint8_t area[AREA];
    size_t used;
    uint8_t message[512];
    size_t n;
    struct sudolog_answer answer;
};

static int hand_over(struct host *h)
{
    int refusal = sudolog_take_message(&h->session, h->message, h->n, h->area, sizeof h->area, h->used, &h->answer);
    h->used = h->answer.used;
    return refusal;
}

static void made(struct host *h, uint64_t written)
{
    CHECK(sudolog_written_refusal(written) == 0);
    h->n = sudolog_written_size(written);
}

static void make_accept(struct host *h, bool io)
{
    static const char *const keys[] = { "command", "runuser", "submithost", "submituser" };
    uint8_t run[256];
    size_t run_n = 0, i;
    for (i = 0; i < 4; i++)
        CHECK(sudolog_add_written(sudolog_write_entry_string(SUDOLOG_ENTRY_OF_ACCEPT, SUDOLOG_LEND_STRING(keys[i]),
                                                             SUDOLOG_LEND_STRING("x"), 0, run + run_n,
                                                             sizeof run - run_n),
                                  &run_n)
              == 0);
    made(h, sudolog_write_accept(SUDOLOG_FROM_CLIENT_ACCEPT, 1700000000, 0, run, run_n, io, 0, h->message,
                                 sizeof h->message));
}

static int accept_io(struct host *h)
{
    make_accept(h, true);
    return hand_over(h);
}

static int ttyout(struct host *h, uint64_t seconds)
{
    made(h, sudolog_write_io(SUDOLOG_FROM_CLIENT_TTYOUT, seconds, 0, SUDOLOG_LEND_STRING("hi"), 0, h->message,
                             sizeof h->message));
    return hand_over(h);
}

static int restart(struct host *h, uint64_t seconds)
{
    made(h, sudolog_write_restart(SUDOLOG_FROM_CLIENT_RESTART, SUDOLOG_LEND_STRING("a"), seconds, 0, 0, h->message,
                                  sizeof h->message));
    return hand_over(h);
}

static int leave(struct host *h)
{
    made(h, sudolog_write_exit(SUDOLOG_FROM_CLIENT_EXIT, 9, 0, 0, 0, SUDOLOG_LEND_STRING(NULL), SUDOLOG_LEND_STRING(NULL),
                               0, h->message, sizeof h->message));
    return hand_over(h);
}

/* Does a tick give this many seconds, -1 for no point. */
static bool ticks(const struct host *h, int64_t seconds)
{
    struct sudolog_time point = { -2, -2 };
    if (!sudolog_tick(&h->session, &point))
        return seconds == -1 && point.seconds == -2;
    return point.seconds == seconds && point.nanoseconds == 0;
}

static bool has_point(const struct host *h, int64_t seconds)
{
    return h->answer.has_point && h->answer.point.seconds == seconds && h->answer.point.nanoseconds == 0;
}

static struct host opened(void)
{
    struct host h;
    memset(&h, 0xA5, sizeof h);
    h.session = sudolog_new_session();
    h.used = 0;
    return h;
}

/* A new connection over the area as it was left. */
static struct host reconnected(const struct host *before)
{
    struct host h = *before;
    h.session = sudolog_new_session();
    return h;
}

/* Example 7's unfinished file. */
static struct host four_records(void)
{
    struct host h = opened();
    CHECK(accept_io(&h) == 0);
    CHECK(ttyout(&h, 1) == 0 && ticks(&h, 0));
    CHECK(ttyout(&h, 0) == 0 && ticks(&h, 0));
    CHECK(ttyout(&h, 0) == 0 && ticks(&h, 0));
    CHECK(ttyout(&h, 2) == 0 && ticks(&h, 1));
    return h;
}

static void test_examples(void)
{
    struct host h = four_records(), again = reconnected(&h);
    CHECK(sudolog_check_file(h.area, AREA, h.used) == SUDOLOG_FILE_UNFINISHED);
    CHECK(leave(&h) == 0 && has_point(&h, 3) && h.answer.state == SUDOLOG_STATE_CLOSED && ticks(&h, -1));
    CHECK(sudolog_check_file(h.area, AREA, h.used) == SUDOLOG_FILE_FINISHED);
    CHECK(restart(&again, 1) == 0 && again.answer.state == SUDOLOG_STATE_LOGGING && ticks(&again, 1));
    CHECK(again.used == h.used - 13 - 13); /* the last ttyout and the exit, 13 bytes each */
    CHECK(ttyout(&again, 2) == 0 && ticks(&again, 1));
    again = four_records();
    again = reconnected(&again);
    CHECK(restart(&again, 2) == 14 && again.answer.state == SUDOLOG_STATE_CLOSED);
    again = four_records();
    again = reconnected(&again);
    CHECK(restart(&again, 1) == 0);
    CHECK(ttyout(&again, 0) == 11);
    h = reconnected(&h);
    CHECK(restart(&h, 3) == 13);
    h = opened();
    CHECK(accept_io(&h) == 0 && ticks(&h, -1));
    CHECK(leave(&h) == 0 && has_point(&h, 0));
}

/* The layout that the header gives. */
static void test_layout(void)
{
    struct host h = opened();
    const uint8_t *b = h.session.bytes;
    CHECK(sizeof h.session.bytes == 40);
    CHECK(sudolog_big_endian(b) == SUDOLOG_STATE_NEW && sudolog_big_endian(b + 32) == 0);
    h = four_records();
    CHECK(sudolog_big_endian(b) == SUDOLOG_STATE_LOGGING && sudolog_big_endian(b + 8) == h.used);
    CHECK(sudolog_big_endian(b + 16) == 3000000000 && sudolog_big_endian(b + 24) == 1000000000);
    h = reconnected(&h);
    CHECK(restart(&h, 1) == 0);
    CHECK(sudolog_big_endian(b) == SUDOLOG_STATE_LOGGING + 8 && sudolog_big_endian(b + 8) == h.used);
    CHECK(sudolog_big_endian(b + 16) == 1000000000 && sudolog_big_endian(b + 24) == 0);
    CHECK(sudolog_big_endian(b + 32) == 1000000000);
}

/* A session with a changed byte counts as a closed one. */
static void test_no_session(size_t at, uint8_t byte)
{
    struct host h = four_records(), before;
    h.session.bytes[at] = byte;
    before = h;
    CHECK(ticks(&h, -1));
    CHECK(ttyout(&h, 1) == 9 && h.answer.state == SUDOLOG_STATE_CLOSED && h.used == before.used);
    CHECK(memcmp(h.area, before.area, AREA) == 0);
    CHECK(sudolog_big_endian(h.session.bytes) == SUDOLOG_STATE_CLOSED);
}

static void test_no_sessions(void)
{
    test_no_session(0, 1);   /* a state beyond 2^56 */
    test_no_session(7, 5);   /* no state */
    test_no_session(7, 13);  /* no state with a point */
    test_no_session(12, 64); /* a used length beyond 1 GiB: 2^30 and what stands there */
    test_no_session(16, 60); /* a total of 60 * 2^56 ns and more: seconds beyond 32 bits */
    test_no_session(24, 60);
    test_no_session(39, 1);  /* a point where none stands */
}

/* Slices of another length than 40 hold no session, and stay as they are. An answer without room closes the session and does no more. */
static void test_lengths(void)
{
    uint8_t slice[64], opened_slice[64], out[64];
    size_t n;
    struct host h = opened();
    make_accept(&h, true);
    for (n = 0; n <= sizeof slice; n++) {
        memset(slice, 0, sizeof slice);
        memset(out, 0xEE, sizeof out);
        CHECK(sudolog_session_open(slice, n) == (n == SUDOLOG_SESSION_SIZE ? 0 : 12));
        memcpy(opened_slice, slice, sizeof slice);
        CHECK(sudolog_session_message(slice, n, h.message, h.n, h.area, AREA, 0, out, sizeof out) == (n == 40 ? 0 : 9));
        CHECK(sudolog_big_endian(out) == (n == 40 ? 11 + h.n - 2 : 0));
        CHECK(out[40] == 0xEE && out[63] == 0xEE);
        CHECK((slice[7] == SUDOLOG_STATE_LOGGING) == (n == 40));
        CHECK((memcmp(slice, opened_slice, sizeof slice) == 0) == (n != 40));
        memcpy(slice, opened_slice, sizeof slice);
        CHECK(sudolog_session_message(slice, n, h.message, h.n, h.area, AREA, 0, out, SUDOLOG_ANSWER_SIZE - 1) == 12);
        CHECK((memcmp(slice, opened_slice, sizeof slice) == 0) == (n != 40));
    }
    for (n = 0; n < 40; n++) {
        struct host before;
        h = opened();
        make_accept(&h, true);
        before = h;
        memset(out, 0xEE, sizeof out);
        CHECK(sudolog_session_message(h.session.bytes, 40, h.message, h.n, h.area, AREA, 0, out, n) == 12);
        before.session.bytes[7] = SUDOLOG_STATE_CLOSED; /* as by every refusal */
        CHECK(memcmp(&h, &before, sizeof h) == 0 && out[0] == 0xEE);
    }
}

/* A message for a session, and an answer in this room: 12 below 40, before the message is looked at, and then 9 for every other
 * one; otherwise what the message gives. */
static void test_room(struct host h, const uint8_t *message, size_t n, size_t room, int refusal)
{
    struct host before = h;
    uint8_t out[64];
    int gives;
    memset(out, 0xEE, sizeof out);
    gives = sudolog_session_message(h.session.bytes, sizeof h.session.bytes, message, n, h.area, AREA, h.used, out, room);
    if (room >= SUDOLOG_ANSWER_SIZE) {
        CHECK(gives == refusal && out[0] == 0);
        return;
    }
    CHECK(gives == SUDOLOG_NO_ROOM && out[0] == 0xEE && memcmp(out, out + 1, sizeof out - 1) == 0);
    CHECK(memcmp(h.area, before.area, AREA) == 0 && sudolog_big_endian(h.session.bytes) == SUDOLOG_STATE_CLOSED);
    CHECK(ticks(&h, -1) && ttyout(&h, 1) == SUDOLOG_NOT_ITS_TURN);
    CHECK(h.used == before.used && memcmp(h.area, before.area, AREA) == 0);
    h.session = before.session; /* had it not been asked, it would go on */
    CHECK(sudolog_take_message(&h.session, message, n, h.area, AREA, h.used, &h.answer) == refusal);
}

static void test_rooms(void)
{
    static const size_t rooms[] = { 0, 1, 39, 40, 41 };
    uint8_t *long_one = (uint8_t *)calloc(1, SUDOLOG_MESSAGE_MAX + 1);
    struct host fresh = opened(), logging = four_records();
    size_t i;
    if (long_one == NULL)
        exit(2);
    make_accept(&fresh, true);
    made(&logging, sudolog_write_io(SUDOLOG_FROM_CLIENT_TTYOUT, 1, 0, SUDOLOG_LEND_STRING("hi"), 0, logging.message,
                                    sizeof logging.message));
    for (i = 0; i < sizeof rooms / sizeof rooms[0]; i++) {
        test_room(fresh, fresh.message, fresh.n, rooms[i], 0);
        test_room(logging, logging.message, logging.n, rooms[i], 0);
        test_room(logging, fresh.message, fresh.n, rooms[i], 9);
        test_room(logging, fresh.message, 0, rooms[i], 6);
        test_room(logging, long_one, SUDOLOG_MESSAGE_MAX + 1, rooms[i], 1);
    }
    free(long_one);
}

/* A refusal leaves every byte of the area and the used length, and closes the session. */
static void test_refusals(void)
{
    struct host h = four_records(), before = h;
    CHECK(accept_io(&h) == 9 && h.answer.state == SUDOLOG_STATE_CLOSED);
    CHECK(h.used == before.used && memcmp(h.area, before.area, AREA) == 0);
    h = before;
    h.used -= 1;
    CHECK(ttyout(&h, 1) == 15 && h.used == before.used - 1 && memcmp(h.area, before.area, AREA) == 0);
    h = opened();
    before = h;
    h.used = 1;
    CHECK(accept_io(&h) == 15 && h.used == 1 && memcmp(h.area, before.area, AREA) == 0);
    h = opened();
    make_accept(&h, false);
    CHECK(hand_over(&h) == 0 && h.answer.state == SUDOLOG_STATE_EVENTS_ONLY && h.used == 0);
    CHECK(memcmp(h.area, before.area, AREA) == 0 && leave(&h) == 0 && !h.answer.has_point);
    h = opened();
    made(&h, sudolog_write_accept(SUDOLOG_FROM_CLIENT_ACCEPT, 1, 0, SUDOLOG_LEND(NULL, 0), 1, 0, h.message,
                                  sizeof h.message));
    CHECK(hand_over(&h) == 8 && h.answer.key == 0);
}

/* What a message gives over the host's area with this used length. A refusal leaves both. */
static int refusal_of(struct host h, const uint8_t *message, size_t n, size_t used)
{
    struct host before = h;
    int refusal = sudolog_take_message(&h.session, message, n, h.area, sizeof h.area, used, &h.answer);
    CHECK(refusal == 0 || (h.answer.used == used && h.answer.state == SUDOLOG_STATE_CLOSED));
    CHECK(refusal == 0 || memcmp(h.area, before.area, AREA) == 0);
    return refusal;
}

/* Duty 3 of docs/HOST.md: a copy of the session, over an area of length 0, gives 12 for an accept that has to be stored and would be
 * taken, and for every other accept what the session gives. */
static void test_asked_first(struct host h, int asked, int gives)
{
    struct sudolog_session copy = h.session;
    struct sudolog_answer answer;
    CHECK(sudolog_take_message(&copy, h.message, h.n, NULL, 0, 0, &answer) == asked && answer.used == 0);
    CHECK(hand_over(&h) == gives);
}

static void test_asked(void)
{
    struct host h = opened();
    make_accept(&h, true);
    test_asked_first(h, 12, 0);
    make_accept(&h, false);
    test_asked_first(h, 0, 0);
    made(&h, sudolog_write_accept(SUDOLOG_FROM_CLIENT_ACCEPT, 1, 0, SUDOLOG_LEND(NULL, 0), 1, 0, h.message,
                                  sizeof h.message));
    test_asked_first(h, 8, 8);
    h = four_records();
    make_accept(&h, true);
    test_asked_first(h, 9, 9);
}

/* A message with a value out of range is 7; where its lengths are wrong too, 15, which goes right after 9. No writer
 * writes these messages. */
static void test_lengths_before_ranges(void)
{
    /* a ttyout after 10^9 ns, 65,536 rows, a suspend without a signal, exit_value 256, a restart without a log_id */
    static const uint8_t nanoseconds[] = { 0x3A, 8, 0x0A, 6, 0x10, 0x80, 0x94, 0xEB, 0xDC, 3 };
    static const uint8_t rows[] = { 0x5A, 4, 0x10, 0x80, 0x80, 4 };
    static const uint8_t signal[] = { 0x62, 0 };
    static const uint8_t value[] = { 0x1A, 3, 0x10, 0x80, 2 };
    static const uint8_t log_id[] = { 0x22, 0 };
    static const uint8_t *const logging[] = { nanoseconds, rows, signal, value };
    static const size_t sizes[] = { sizeof nanoseconds, sizeof rows, sizeof signal, sizeof value };
    struct host h = four_records(), again = reconnected(&h);
    size_t i;
    for (i = 0; i < 4; i++) {
        CHECK(refusal_of(h, logging[i], sizes[i], h.used) == 7);
        CHECK(refusal_of(h, logging[i], sizes[i], AREA + 1) == 15);   /* beyond the area */
        CHECK(refusal_of(h, logging[i], sizes[i], h.used - 1) == 15); /* not the session's */
        CHECK(refusal_of(again, logging[i], sizes[i], AREA + 1) == 9);
    }
    CHECK(refusal_of(again, log_id, sizeof log_id, h.used) == 7);
    CHECK(refusal_of(again, log_id, sizeof log_id, AREA + 1) == 15);
    CHECK(refusal_of(h, log_id, sizeof log_id, AREA + 1) == 9);
}

/* I/O bytes have their turn in logging alone. */
static void test_turns_of_io(void)
{
    unsigned member;
    for (member = SUDOLOG_FROM_CLIENT_TTYIN; member <= SUDOLOG_FROM_CLIENT_STDERR; member++) {
        struct host fresh = opened(), greeted = fresh, logging = fresh, events = fresh, closed;
        struct host *const others[] = { &fresh, &greeted, &events, &closed };
        size_t i;
        made(&greeted, sudolog_write_client_hello(SUDOLOG_FROM_CLIENT_HELLO, SUDOLOG_LEND_STRING("c"), 0, greeted.message,
                                                  sizeof greeted.message));
        CHECK(hand_over(&greeted) == 0 && greeted.answer.state == SUDOLOG_STATE_GREETED);
        make_accept(&events, false);
        CHECK(hand_over(&events) == 0 && events.answer.state == SUDOLOG_STATE_EVENTS_ONLY);
        CHECK(accept_io(&logging) == 0);
        closed = logging;
        CHECK(leave(&closed) == 0 && closed.answer.state == SUDOLOG_STATE_CLOSED);
        made(&logging,
             sudolog_write_io(member, 0, 0, SUDOLOG_LEND_STRING("hi"), 0, logging.message, sizeof logging.message));
        for (i = 0; i < 4; i++)
            CHECK(refusal_of(*others[i], logging.message, logging.n, others[i]->used) == 9);
        CHECK(hand_over(&logging) == 0 && logging.answer.state == SUDOLOG_STATE_LOGGING);
    }
}

/* At a restart point a delay of zero is 11, and not 12, in an area that has no byte left. */
static void test_restart_point_before_room(void)
{
    uint64_t delay;
    for (delay = 0; delay <= 2; delay += 2) {
        struct host h = four_records();
        h = reconnected(&h);
        CHECK(restart(&h, 1) == 0);
        made(&h, sudolog_write_io(SUDOLOG_FROM_CLIENT_TTYOUT, delay, 0, SUDOLOG_LEND_STRING("hi"), 0, h.message,
                                  sizeof h.message));
        CHECK(sudolog_take_message(&h.session, h.message, h.n, h.area, h.used, h.used, &h.answer)
              == (delay == 0 ? 11 : 12));
    }
}

/* A NULL message of any length is an empty one: 6. */
static void test_null_message(size_t n)
{
    struct host h = four_records();
    CHECK(refusal_of(opened(), NULL, n, 0) == 6);
    CHECK(refusal_of(h, NULL, n, h.used) == 6);
}

/* What the host's message gives over a NULL area. What stands in the area's place stays as it was, and all beside it. */
static int over_null(struct host h, size_t area_n, size_t used)
{
    int refusal;
    DATA_STAYS(refusal = sudolog_take_message(&h.session, h.message, h.n, NULL, area_n, used, &h.answer));
    CHECK(h.answer.used == used && *sudolog_lend_room(NULL) == 0);
    CHECK(refusal == 0 || h.answer.state == SUDOLOG_STATE_CLOSED);
    return refusal;
}

/* A NULL area of any length is one of length 0, as memory that could not be had. */
static void test_null_area(size_t area_n)
{
    struct host h = opened();
    made(&h, sudolog_write_client_hello(SUDOLOG_FROM_CLIENT_HELLO, SUDOLOG_LEND_STRING("c"), 0, h.message,
                                        sizeof h.message));
    CHECK(over_null(h, area_n, 0) == 0); /* needs no area */
    make_accept(&h, false);
    CHECK(over_null(h, area_n, 0) == 0);
    make_accept(&h, true);
    CHECK(over_null(h, area_n, 0) == 12);
    CHECK(over_null(h, area_n, 1) == 15);
    made(&h, sudolog_write_restart(SUDOLOG_FROM_CLIENT_RESTART, SUDOLOG_LEND_STRING("a"), 0, 0, 0, h.message,
                                   sizeof h.message));
    CHECK(over_null(h, area_n, 0) == 15);
    h = four_records(); /* in logging: the message is a ttyout */
    CHECK(over_null(h, area_n, h.used) == 15);
    CHECK(sudolog_check_file(SUDOLOG_LEND(NULL, area_n), 0) == SUDOLOG_FILE_REFUSED);
    CHECK(sudolog_check_file(SUDOLOG_LEND(NULL, area_n), 1) == SUDOLOG_FILE_REFUSED);
}

static void test_null(void)
{
    static const size_t lengths[] = { 0, 1, 40, AREA, 2097153, SIZE_MAX };
    size_t i;
    for (i = 0; i < sizeof lengths / sizeof lengths[0]; i++) {
        test_null_message(lengths[i]);
        test_null_area(lengths[i]);
    }
}

/* A file of two I/O records of 2 MiB whose data is in pages that can't be read: restart and check look at
 * headers alone. */
static void test_headers_alone(void)
{
    enum { DATA = 2097152, PAGE = 4096, SIZE = 3 * DATA };
    uint8_t *area = (uint8_t *)mmap(NULL, SIZE, PROT_READ | PROT_WRITE, MAP_PRIVATE | MAP_ANONYMOUS, -1, 0);
    uint8_t *data = (uint8_t *)malloc(DATA), *message = (uint8_t *)malloc(DATA + 64);
    struct sudolog_session session = sudolog_new_session();
    struct sudolog_answer answer;
    struct host h = opened();
    size_t used, ends[3], i;
    if (area == MAP_FAILED || data == NULL || message == NULL)
        exit(2);
    make_accept(&h, true);
    CHECK(sudolog_take_message(&session, h.message, h.n, area, SIZE, 0, &answer) == 0);
    ends[0] = answer.used;
    memset(data, 'x', DATA);
    for (i = 0; i < 2; i++) {
        size_t n = DATA - 64; /* the message around it is at most 2,097,152 bytes */
        uint64_t written = sudolog_write_io(SUDOLOG_FROM_CLIENT_TTYOUT, 1, 0, data, n, 0, message, DATA + 64);
        CHECK(sudolog_written_refusal(written) == 0);
        CHECK(sudolog_take_message(&session, message, sudolog_written_size(written), area, SIZE, answer.used, &answer)
              == 0);
        ends[i + 1] = answer.used;
    }
    used = answer.used;
    for (i = 0; i < 2; i++) {
        size_t from = (ends[i] + 11 + PAGE - 1) / PAGE * PAGE, to = ends[i + 1] / PAGE * PAGE;
        if (mprotect(area + from, to - from, PROT_NONE) != 0)
            exit(2);
    }
    CHECK(sudolog_check_file(area, SIZE, used) == SUDOLOG_FILE_UNFINISHED);
    session = sudolog_new_session();
    made(&h, sudolog_write_restart(SUDOLOG_FROM_CLIENT_RESTART, SUDOLOG_LEND_STRING("a"), 1, 0, 0, h.message,
                                   sizeof h.message));
    CHECK(sudolog_take_message(&session, h.message, h.n, area, SIZE, used, &answer) == 0 && answer.used == ends[1]);
    munmap(area, SIZE);
    free(data);
    free(message);
}

/* A message of the greatest length is stored, one byte more is 1; an area of the greatest length is taken, one byte more is 15. */
static void test_limits(void)
{
    uint8_t *area = (uint8_t *)mmap(NULL, (size_t)SUDOLOG_AREA_MAX + 1, PROT_READ | PROT_WRITE,
                                    MAP_PRIVATE | MAP_ANONYMOUS | MAP_NORESERVE, -1, 0);
    uint8_t *data = (uint8_t *)calloc(1, SUDOLOG_MESSAGE_MAX), *message = (uint8_t *)malloc(SUDOLOG_MESSAGE_MAX + 1);
    struct sudolog_session session = sudolog_new_session(), logging;
    struct sudolog_answer answer;
    struct host h = opened();
    size_t used, n = SUDOLOG_MESSAGE_MAX;
    if (area == MAP_FAILED || data == NULL || message == NULL)
        exit(2);
    make_accept(&h, true);
    CHECK(sudolog_take_message(&session, h.message, h.n, area, (size_t)SUDOLOG_AREA_MAX + 1, 0, &answer) == 15);
    session = sudolog_new_session();
    CHECK(sudolog_take_message(&session, h.message, h.n, area, SUDOLOG_AREA_MAX, 0, &answer) == 0);
    used = answer.used;
    CHECK(sudolog_check_file(area, SUDOLOG_AREA_MAX, used) == SUDOLOG_FILE_UNFINISHED);
    CHECK(sudolog_check_file(area, (size_t)SUDOLOG_AREA_MAX + 1, used) == SUDOLOG_FILE_REFUSED);
    logging = session;
    /* its data is ten bytes shorter: two tags, two lengths of three bytes, an empty delay */
    CHECK(sudolog_write_io(SUDOLOG_FROM_CLIENT_TTYOUT, 0, 0, data, n - 10, 0, message, n + 1) == n);
    message[n] = 0;
    CHECK(sudolog_take_message(&logging, message, n + 1, area, SUDOLOG_AREA_MAX, used, &answer) == 1 && answer.used == used);
    CHECK(sudolog_take_message(&session, message, n, area, SUDOLOG_AREA_MAX, used, &answer) == 0);
    CHECK(answer.used == used + 11 + n - 10);
    munmap(area, (size_t)SUDOLOG_AREA_MAX + 1);
    free(data);
    free(message);
}

/* By how much a record is longer than its message, which the session takes. */
static int64_t extra(struct host h, const uint8_t *message, size_t n)
{
    CHECK(sudolog_take_message(&h.session, message, n, h.area, AREA, h.used, &h.answer) == 0);
    return (int64_t)(h.answer.used - h.used) - (int64_t)n;
}

/* A record is at most 13 bytes longer: a window size of which nothing is said. */
static void test_record_extra(void)
{
    static const uint8_t window[] = { 0x5A, 0 }, io[] = { 0x3A, 0 }, end[] = { 0x1A, 0 }, suspend[] = { 0x62, 3, 0x12, 1, 'x' };
    struct host h = four_records(), fresh = opened();
    make_accept(&fresh, true);
    CHECK(extra(h, window, sizeof window) == SUDOLOG_RECORD_EXTRA);
    CHECK(extra(h, io, sizeof io) == 9); /* 11 of header, and no tag and length of the member */
    CHECK(extra(h, end, sizeof end) == 11);
    CHECK(extra(h, suspend, sizeof suspend) == 7);
    CHECK(extra(fresh, fresh.message, fresh.n) == 9);
}

/* Data of n bytes in an area with room for it and no more: the record's header, then every byte, and no byte behind. */
static void test_stored(uint8_t *area, size_t size, uint8_t *message, const uint8_t *data, size_t n)
{
    struct sudolog_session session = sudolog_new_session();
    struct sudolog_answer answer;
    struct host h = opened();
    size_t start;
    uint64_t written;
    make_accept(&h, true);
    memset(area, 0xEE, size);
    CHECK(sudolog_take_message(&session, h.message, h.n, area, size, 0, &answer) == 0);
    start = answer.used + 11;
    written = sudolog_write_io(SUDOLOG_FROM_CLIENT_TTYOUT, 1, 0, data, n, 0, message, n + 64);
    CHECK(sudolog_written_refusal(written) == 0);
    CHECK(sudolog_take_message(&session, message, sudolog_written_size(written), area, start + n, answer.used, &answer)
          == 0);
    CHECK(answer.used == start + n && memcmp(area + start, data, n) == 0 && area[start + n] == 0xEE);
}

/* The copy takes other ways by the size: each size up to 300, then those around the blocks and pages. */
static void test_sizes(void)
{
    enum { MOST = 70000 };
    static const size_t edges[] = { 512, 8192, 16384, 32768, 49152, 65536 };
    uint8_t *area = (uint8_t *)malloc(MOST + AREA), *message = (uint8_t *)malloc(MOST + 64), *data = (uint8_t *)malloc(MOST);
    size_t i, n;
    if (area == NULL || message == NULL || data == NULL)
        exit(2);
    for (i = 0; i < MOST; i++)
        data[i] = (uint8_t)(i * 31 + i / 251);
    for (n = 0; n <= 300; n++)
        test_stored(area, MOST + AREA, message, data, n);
    for (i = 0; i < sizeof edges / sizeof *edges; i++)
        for (n = edges[i] - 17; n <= edges[i] + 17; n++)
            test_stored(area, MOST + AREA, message, data, n);
    free(area);
    free(message);
    free(data);
}

int main(void)
{
    test_examples();
    test_layout();
    test_no_sessions();
    test_lengths();
    test_rooms();
    test_refusals();
    test_asked();
    test_turns_of_io();
    test_lengths_before_ranges();
    test_restart_point_before_room();
    test_limits();
    test_record_extra();
    test_null();
    test_headers_alone();
    test_sizes();
    return checked();
}
