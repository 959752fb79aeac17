/*
 * writing.h: the writers, for tests/fuzzing/fuzz.c: the refusal that the values get, what is written and what is not, with all
 * the room that is needed and with a byte less, and that it reads back. Then messages that are none, and damage.
 */
#ifndef WRITING_H
#define WRITING_H

#include "base.h"

/* ---- writing ---- */

enum writer {
    HELLO, ACCEPT, REPORT, EXIT, RESTART, IO, WINDOW, SUSPEND, SERVER_HELLO, TIME, NOTE, STRINGS, NUMBERS, ENTRY_NUMBER,
    ENTRY_STRING, ENTRY_STRINGS, ENTRY_NUMBERS, WRITERS
};

static const char *const writer_names[WRITERS] = {
    "sudolog_write_client_hello", "sudolog_write_accept", "sudolog_write_report", "sudolog_write_exit",
    "sudolog_write_restart", "sudolog_write_io", "sudolog_write_window_size", "sudolog_write_suspend",
    "sudolog_write_server_hello", "sudolog_write_time", "sudolog_write_note", "sudolog_write_string_list",
    "sudolog_write_number_list", "sudolog_write_entry_number", "sudolog_write_entry_string",
    "sudolog_write_entry_strings", "sudolog_write_entry_numbers"
};

/* What a writer is handed; each takes the parts that it has. */
struct values {
    enum writer writer;
    uint64_t member, seconds, nanos, one, two;
    uint8_t flag, framed;
    const uint8_t *x;                    /* an id, a run, data, a signal, a key */
    size_t x_n;
    uint8_t y[TEXT], z[TEXT];            /* a reason, an error, a value; joined strings */
    size_t y_n, z_n;
    size_t ends[LIST];
    uint64_t numbers[LIST];
    size_t list_n;
    bool run_is_good;                    /* a run of entries as the entry writers wrote them for this message */
};

static uint64_t call_writer(const struct values *v, uint64_t seconds, uint8_t *out, size_t room)
{
    const uint8_t *x = lend(&first, v->x, v->x_n), *y = lend(&second, v->y, v->y_n), *z = lend(&third, v->z, v->z_n);
    bool numbers = v->writer == NUMBERS || v->writer == ENTRY_NUMBERS;
    const uint8_t *l = lend(&list, numbers ? (const void *)v->numbers : (const void *)v->ends, v->list_n * sizeof(uint64_t));
    bool none = v->list_n == 0 && at_lower_end; /* NULL, as the header lends it */
    const uint64_t *n = none ? sudolog_lend_numbers(NULL) : (const uint64_t *)(const void *)l;
    const size_t *ends = none ? sudolog_lend_ends(NULL) : (const size_t *)(const void *)l;
    uint64_t m = v->member;
    uint8_t f = v->framed;
    switch (v->writer) {
    case HELLO: return sudolog_write_client_hello(m, x, v->x_n, f, out, room);
    case ACCEPT: return sudolog_write_accept(m, seconds, v->nanos, x, v->x_n, v->flag, f, out, room);
    case REPORT: return sudolog_write_report(m, seconds, v->nanos, y, v->y_n, x, v->x_n, f, out, room);
    case EXIT:
        return sudolog_write_exit(m, seconds, v->nanos, v->one, v->flag, x, v->x_n, y, v->y_n, f, out, room);
    case RESTART: return sudolog_write_restart(m, x, v->x_n, seconds, v->nanos, f, out, room);
    case IO: return sudolog_write_io(m, seconds, v->nanos, x, v->x_n, f, out, room);
    case WINDOW: return sudolog_write_window_size(m, seconds, v->nanos, v->one, v->two, f, out, room);
    case SUSPEND: return sudolog_write_suspend(m, seconds, v->nanos, x, v->x_n, f, out, room);
    case SERVER_HELLO:
        return sudolog_write_server_hello(m, x, v->x_n, y, v->y_n, z, v->z_n, ends, v->list_n, v->flag, f, out, room);
    case TIME: return sudolog_write_time(m, seconds, v->nanos, f, out, room);
    case NOTE: return sudolog_write_note(m, x, v->x_n, f, out, room);
    case STRINGS: return sudolog_write_string_list(z, v->z_n, ends, v->list_n, f, out, room);
    case NUMBERS: return sudolog_write_number_list(n, v->list_n, f, out, room);
    case ENTRY_NUMBER: return sudolog_write_entry_number(m, x, v->x_n, v->one, f, out, room);
    case ENTRY_STRING: return sudolog_write_entry_string(m, x, v->x_n, y, v->y_n, f, out, room);
    case ENTRY_STRINGS:
        return sudolog_write_entry_strings(m, x, v->x_n, z, v->z_n, ends, v->list_n, f, out, room);
    default: return sudolog_write_entry_numbers(m, x, v->x_n, n, v->list_n, f, out, room);
    }
}

static uint64_t ask_writer(const struct values *v, uint8_t *out, size_t room)
{
    uint64_t written = call_writer(v, v->seconds + (fault == OTHER_VALUE), out, room);
    size_t size = sudolog_written_size(written);
    tally.calls++;
    if (fault == WRITE_PAST)
        change(out + room, 1);
    if (fault == WRITE_BEFORE)
        change(out - 1, 1);
    if (fault == WRITE_SLACK && sudolog_written_refusal(written) == 0 && size < room)
        change(out + size, 1);
    if (fault == WRITE_REFUSED && sudolog_written_refusal(written) != 0 && room > 0)
        change(out, 1);
    if (fault == OTHER_SIZE && size > 0)
        written--;
    return written;
}

static bool member_is(const struct values *v, uint64_t from, uint64_t to)
{
    return v->member == 0 || (v->member >= from && v->member <= to);
}

static bool time_is_good(const struct values *v)
{
    return v->seconds <= 4294967295 && v->nanos <= 999999999;
}

/* Are 64 bits those of an int32. */
static bool is_int32(uint64_t bits)
{
    return bits == (uint64_t)(int64_t)(int32_t)(uint32_t)bits;
}

static bool ends_are_good(const struct values *v)
{
    size_t i, before = 0;
    for (i = 0; i < v->list_n; i++) {
        if (v->ends[i] < before)
            return false;
        before = v->ends[i];
    }
    return before == v->z_n;
}

/* Are the values in their ranges, a lent run apart. */
static bool values_are_good(const struct values *v)
{
    bool has_date = v->nanos <= 999999999;
    switch (v->writer) {
    case HELLO: return member_is(v, 13, 13);
    case ACCEPT: return member_is(v, 1, 1) && has_date;
    case REPORT: return (member_is(v, 2, 2) || v->member == 5) && has_date;
    case EXIT: return member_is(v, 3, 3) && time_is_good(v) && v->one <= 255 && v->x_n <= 127;
    case RESTART: return member_is(v, 4, 4) && time_is_good(v) && v->x_n >= 1 && v->x_n <= 4095;
    case IO: return member_is(v, 6, 10) && time_is_good(v);
    case WINDOW: return member_is(v, 11, 11) && time_is_good(v) && v->one <= 65535 && v->two <= 65535;
    case SUSPEND: return member_is(v, 12, 12) && time_is_good(v) && v->x_n >= 1 && v->x_n <= 127;
    case SERVER_HELLO: return member_is(v, 1, 1) && ends_are_good(v);
    case TIME: return v->member == 0 ? is_int32(v->nanos) : v->member == 2 && time_is_good(v);
    case NOTE: return v->member >= 3 && v->member <= 5;
    case STRINGS: return ends_are_good(v);
    case NUMBERS: return true;
    case ENTRY_STRINGS: return member_is(v, 2, 3) && v->x_n > 0 && ends_are_good(v);
    default: return member_is(v, 2, 3) && v->x_n > 0;
    }
}

/* ---- what was written reads back ---- */

static bool is_span(const uint8_t *m, struct sudolog_span span, const uint8_t *bytes, size_t n)
{
    return span.length == n && memcmp(m + span.offset, bytes, n) == 0;
}

static bool is_time(struct sudolog_time t, const struct values *v)
{
    return t.seconds == sudolog_int64(v->seconds) && t.nanoseconds == sudolog_int32(v->nanos);
}

static bool are_strings(const uint8_t *m, struct sudolog_string_list left, const struct values *v)
{
    struct sudolog_span span;
    size_t i, before = 0;
    for (i = 0; i < v->list_n; i++) {
        if (!sudolog_next_string(&left, &span) || !is_span(m, span, v->z + before, v->ends[i] - before))
            return false;
        before = v->ends[i];
    }
    return !sudolog_next_string(&left, &span);
}

static bool are_numbers(struct sudolog_number_list left, const struct values *v)
{
    int64_t found;
    size_t i;
    for (i = 0; i < v->list_n; i++)
        if (!sudolog_next_int64(&left, &found) || found != sudolog_int64(v->numbers[i]))
            return false;
    return !sudolog_next_int64(&left, &found);
}

/* The entries that are read are as many as the run has bytes for: they are compared as bytes. */
static bool is_run(const uint8_t *m, size_t n, uint64_t field, const struct values *v)
{
    struct sudolog_parts left = sudolog_field_parts(field, m, n), lent = sudolog_field_parts(field, v->x, v->x_n);
    struct sudolog_span a, b;
    while (sudolog_next_part(&lent, &b))
        if (!sudolog_next_part(&left, &a) || !is_span(m, a, v->x + b.offset, b.length))
            return false;
    return !sudolog_next_part(&left, &a);
}

static bool is_entry(const uint8_t *m, size_t n, const struct values *v)
{
    struct sudolog_entry e;
    struct sudolog_string_list strings;
    struct sudolog_number_list numbers;
    if (sudolog_read_entry(m, n, &e) != 0 || !is_span(m, e.key, v->x, v->x_n))
        return false;
    switch (v->writer) {
    case ENTRY_NUMBER: return e.kind == SUDOLOG_VALUE_NUMBER && e.number == sudolog_int64(v->one);
    case ENTRY_STRING: return e.kind == SUDOLOG_VALUE_STRING && is_span(m, e.value, v->y, v->y_n);
    case ENTRY_STRINGS:
        sudolog_get_string_list(m + e.value.offset, e.value.length, &strings);
        return e.kind == SUDOLOG_VALUE_STRINGS && are_strings(m + e.value.offset, strings, v);
    default:
        sudolog_get_number_list(m + e.value.offset, e.value.length, &numbers);
        return e.kind == SUDOLOG_VALUE_NUMBERS && are_numbers(numbers, v);
    }
}

static bool is_exit(const uint8_t *m, size_t n, const struct values *v)
{
    struct sudolog_exit e;
    return sudolog_read_exit(m, n, &e) == 0 && is_time(e.run_time, v) && e.exit_value == (int32_t)v->one
           && e.dumped_core == (v->flag != 0) && is_span(m, e.signal, v->x, v->x_n) && is_span(m, e.error, v->y, v->y_n);
}

static bool is_server_hello(const uint8_t *m, size_t n, const struct values *v)
{
    struct sudolog_server_hello h;
    return sudolog_read_server_hello(m, n, &h) == 0 && is_span(m, h.server_id, v->x, v->x_n)
           && is_span(m, h.redirect, v->y, v->y_n) && are_strings(m, h.servers, v) && h.subcommands == (v->flag != 0);
}

static bool is_accept(const uint8_t *m, size_t n, const struct values *v)
{
    struct sudolog_accept a;
    return sudolog_read_accept(m, n, &a) == 0 && is_time(a.submit_time, v) && a.expect_iobufs == (v->flag != 0)
           && is_run(m, n, 2, v);
}

static bool is_report(const uint8_t *m, size_t n, const struct values *v)
{
    struct sudolog_reject r;
    return sudolog_read_reject(m, n, &r) == 0 && is_time(r.submit_time, v) && is_span(m, r.reason, v->y, v->y_n)
           && is_run(m, n, 3, v);
}

static bool is_timed_message(const uint8_t *m, size_t n, const struct values *v)
{
    struct sudolog_io_buffer io;
    struct sudolog_suspend suspend;
    struct sudolog_window_size w;
    if (v->writer == IO)
        return sudolog_read_io_buffer(m, n, &io) == 0 && is_time(io.delay, v) && is_span(m, io.data, v->x, v->x_n);
    if (v->writer == SUSPEND)
        return sudolog_read_suspend(m, n, &suspend) == 0 && is_time(suspend.delay, v)
               && is_span(m, suspend.signal, v->x, v->x_n);
    return sudolog_read_window_size(m, n, &w) == 0 && is_time(w.delay, v) && w.rows == (int32_t)v->one
           && w.cols == (int32_t)v->two;
}

static bool is_small_message(const uint8_t *m, size_t n, const struct values *v)
{
    struct sudolog_client_hello hello;
    struct sudolog_restart restart;
    struct sudolog_string_list strings;
    struct sudolog_number_list numbers;
    switch (v->writer) {
    case HELLO: return sudolog_read_client_hello(m, n, &hello) == 0 && is_span(m, hello.client_id, v->x, v->x_n);
    case RESTART:
        return sudolog_read_restart(m, n, &restart) == 0 && is_time(restart.resume_point, v)
               && is_span(m, restart.log_id, v->x, v->x_n);
    case TIME:
        return sudolog_int64(sudolog_number(1, m, n)) == sudolog_int64(v->seconds)
               && sudolog_int32(sudolog_number(2, m, n)) == sudolog_int64(v->nanos);
    case NOTE: return n == v->x_n && memcmp(m, v->x, n) == 0;
    case STRINGS: return sudolog_read_string_list(m, n, &strings) == 0 && are_strings(m, strings, v);
    default: return sudolog_read_number_list(m, n, &numbers) == 0 && are_numbers(numbers, v);
    }
}

/* The message by itself, without what is around it. */
static bool is_content(const uint8_t *m, size_t n, const struct values *v)
{
    switch (v->writer) {
    case ACCEPT: return is_accept(m, n, v);
    case REPORT: return is_report(m, n, v);
    case EXIT: return is_exit(m, n, v);
    case SERVER_HELLO: return is_server_hello(m, n, v);
    case IO:
    case WINDOW:
    case SUSPEND: return is_timed_message(m, n, v);
    case ENTRY_NUMBER:
    case ENTRY_STRING:
    case ENTRY_STRINGS:
    case ENTRY_NUMBERS: return is_entry(m, n, v);
    default: return is_small_message(m, n, v);
    }
}

static bool from_server(enum writer writer)
{
    return writer == SERVER_HELLO || writer == TIME || writer == NOTE;
}

/* A message without its frame: what is around it has one member, that holds the values. */
static bool reads_back(const uint8_t *m, size_t n, const struct values *v)
{
    struct sudolog_client_message client;
    struct sudolog_server_message server;
    struct sudolog_span span = { 0, n };
    if (v->member != 0 && v->writer >= ENTRY_NUMBER) {
        span = sudolog_field_span(v->member, m, n); /* a run of one entry */
    } else if (v->member != 0 && from_server(v->writer)) {
        if (sudolog_read_server_message(m, n, &server) != 0 || (uint64_t)server.member != v->member)
            return false;
        span = server.content;
    } else if (v->member != 0 && v->writer < STRINGS) {
        if (sudolog_read_client_message(m, n, &client) != 0 || (uint64_t)client.member != v->member)
            return false;
        span = client.content;
    }
    return is_content(m + span.offset, span.length, v);
}

/* ---- one writer, with room and without ---- */

/* A call with this room: the answer and every byte of the room are those of `size` bytes written, or of a refusal. */
static void write_again(const struct values *v, size_t room, uint64_t expected, const uint8_t *bytes)
{
    uint8_t *out = lend(&answer, NULL, room);
    uint64_t written = ask_writer(v, out, room);
    size_t size = sudolog_written_size(expected);
    HOLDS(written == expected, "the same values have the same answer; 12 where a byte of room is missing");
    HOLDS(memcmp(held(&answer), bytes, size) == 0, "and the same bytes");
    HOLDS(all_are(held(&answer) + size, room - size, FILL) && margin_holds(&answer), "nothing else is written");
}

static void write_once(const struct values *v, size_t shorter)
{
    static uint8_t bytes[LARGEST + SPARE];
    size_t ample = v->x_n + v->y_n + v->z_n + 512; /* tags, lengths, numbers and a list take less */
    uint64_t written = ask_writer(v, lend(&answer, NULL, ample), ample);
    int refusal = sudolog_written_refusal(written);
    size_t size = sudolog_written_size(written), body = v->framed ? 4 : 0;
    bool has_run = v->writer == ACCEPT || v->writer == REPORT;
    call_name = writer_names[v->writer];
    HOLDS(refusal == 0 ? size <= ample : size == 0, "a refusal has no size");
    HOLDS(refusal != 0 || size <= LARGEST + body, "no message is longer than 2,097,152 bytes");
    HOLDS(refusal != 1 || ample > LARGEST, "1 where a message is too long");
    HOLDS(refusal == 0 || refusal == 1 || refusal == 7 || (has_run && refusal >= 2 && refusal <= 5), "a documented refusal");
    if (!has_run || v->run_is_good)
        HOLDS((refusal == 7) == !values_are_good(v), "7 exactly where a value is out of its range");
    else
        HOLDS(refusal != 0 || values_are_good(v), "values out of their range are refused");
    HOLDS(all_are(held(&answer) + size, ample - size, FILL) && margin_holds(&answer), "nothing is written behind the size");
    tally.written[refusal]++;
    saw(32 + v->writer, (uint64_t)refusal, v->member << 1 | (v->framed != 0));
    memcpy(bytes, held(&answer), size);
    write_again(v, size, written, bytes);
    if (refusal != 0)
        return;
    saw(50 + v->writer, bits(size), bits(v->list_n));
    if (size > 0)
        write_again(v, size - 1, (uint64_t)12 << 32, bytes);
    write_again(v, shorter % (size + 1), shorter % (size + 1) == size ? written : (uint64_t)12 << 32, bytes);
    call_name = writer_names[v->writer];
    HOLDS(size >= body, "a frame has its four bytes");
    if (v->framed)
        HOLDS(sudolog_frame_state(bytes, size) == SUDOLOG_FRAME_WHOLE && sudolog_frame_count(bytes, size) == size - 4,
              "a frame is whole and has the message's length");
    HOLDS(reads_back(bytes + body, size - body, v), "what was written reads back as the same values");
    set_message(bytes + body, size - body);
}

static void write_both_ends(const struct values *v, size_t shorter)
{
    at_lower_end = false;
    write_once(v, shorter);
    at_lower_end = true;
    write_once(v, shorter);
}

/* ---- values from the program ---- */

static uint64_t right_member(enum writer writer, uint8_t how)
{
    switch (writer) {
    case HELLO: return 13;
    case ACCEPT: return 1;
    case REPORT: return how % 2 == 0 ? 2 : 5;
    case EXIT: return 3;
    case RESTART: return 4;
    case IO: return 6 + how % 5u;
    case WINDOW: return 11;
    case SUSPEND: return 12;
    case SERVER_HELLO: return 1;
    case TIME: return 2;
    case NOTE: return 3 + how % 3u;
    default: return 2 + how % 2u;
    }
}

static uint64_t member(struct program *p, enum writer writer)
{
    uint8_t how = byte(p);
    return how < 192 ? right_member(writer, how) : how < 224 ? 0 : number(p) % 32;
}

static void take_list(struct program *p, struct values *v)
{
    uint8_t how = byte(p);
    size_t i;
    v->list_n = how % LIST;
    for (i = 0; i < v->list_n; i++) {
        v->numbers[i] = number(p);
        v->ends[i] = how < 224 ? (i + 1) * v->z_n / v->list_n : (size_t)number(p);
    }
}

/* The values of a writer that needs no run of entries. */
static void take_values(struct program *p, enum writer writer, struct values *v)
{
    static uint8_t x[TEXT];
    v->writer = writer;
    v->member = member(p, writer);
    v->flag = byte(p) % 4;
    v->framed = v->flag == 3;
    v->seconds = number(p);
    v->nanos = number(p);
    v->one = number(p);
    v->two = number(p);
    v->x = x;
    v->x_n = text(p, x);
    v->y_n = text(p, v->y);
    v->z_n = 0;
    v->list_n = 0;
    v->run_is_good = false;
    if (writer == SERVER_HELLO || writer == STRINGS || writer == ENTRY_STRINGS)
        v->z_n = text(p, v->z);
    if (writer >= SERVER_HELLO)
        take_list(p, v);
}

static const char *const keys[] = { "command", "runuser", "submithost", "submituser" };

/* A run of entries for an accept (2), or a reject or an alert (3): the required keys as the mask says, then some more. */
static size_t make_run(struct program *p, uint64_t of, uint8_t *run, bool *good)
{
    struct values entry;
    uint8_t mask = byte(p), more = byte(p), k;
    uint64_t written;
    size_t n = 0;
    *good = true;
    for (k = 0; k < 4; k++) {
        if (mask >> k & 1)
            continue; /* missing */
        if (mask >> (k + 4) & 1)
            written = sudolog_write_entry_number(of, SUDOLOG_LEND_STRING(keys[k]), k, 0, run + n, SMALL - n);
        else
            written = sudolog_write_entry_string(of, SUDOLOG_LEND_STRING(keys[k]), SUDOLOG_LEND_STRING("root"), 0, run + n,
                                                 SMALL - n);
        sudolog_add_written(written, &n);
    }
    for (k = 0; k < more % 4; k++) {
        take_values(p, (enum writer)(ENTRY_NUMBER + byte(p) % 4), &entry);
        entry.framed = 0;
        if (entry.flag == 1) { /* a required key once more: the last one counts */
            entry.x = sudolog_text(keys[more >> 6]);
            entry.x_n = strlen(keys[more >> 6]);
        }
        entry.member = entry.flag == 2 ? entry.member : of;
        written = call_writer(&entry, 0, run + n, SMALL - n > 8192 ? SMALL - n : 0);
        *good = *good && (entry.member == of || sudolog_written_refusal(written) != 0);
        sudolog_add_written(written, &n);
    }
    return n;
}

static void write_message(struct program *p)
{
    static struct values v;
    static uint8_t run[SMALL];
    enum writer writer = (enum writer)(byte(p) % WRITERS);
    uint8_t how;
    if (writer == ACCEPT || writer == REPORT) {
        size_t run_n;
        bool good;
        run_n = make_run(p, writer == ACCEPT ? 2 : 3, run, &good);
        take_values(p, writer, &v);
        how = byte(p);
        if (how >= 192) { /* damaged, or the message before */
            good = false;
            if (how >= 224 && host.n < SMALL)
                memcpy(run, host.message, run_n = host.n);
            else if (run_n > 0)
                run[place(p, run_n - 1)] ^= (uint8_t)(1 << how % 8);
        }
        v.x = run;
        v.x_n = run_n;
        v.run_is_good = good;
    } else {
        take_values(p, writer, &v);
    }
    write_both_ends(&v, place(p, 65535));
}

/* ---- messages that are none ---- */

static void raw_message(struct program *p)
{
    uint8_t bytes[TEXT];
    set_message(bytes, text(p, bytes));
}

static void insert(size_t at, const uint8_t *bytes, size_t n)
{
    if (host.n + n > SMALL)
        return;
    memmove(host.message + at + n, host.message + at, host.n - at);
    memcpy(host.message + at, bytes, n);
    host.n += n;
}

/* The message as a field of another one. */
static void wrap(uint8_t tag)
{
    uint8_t head[4];
    size_t n = 0, length = host.n;
    head[n++] = tag;
    for (; length >= 128; length >>= 7)
        head[n++] = (uint8_t)(length | 128);
    head[n++] = (uint8_t)length;
    insert(0, head, n);
}

/* The number that ends at a place in a longer form, as readers have to take it. */
static void stretch(size_t at, size_t by)
{
    static const uint8_t longer[] = { 0x80, 0x80, 0x80, 0x80, 0x80, 0x80, 0x80, 0x80, 0x80, 0x00 };
    if (at >= host.n || host.message[at] >= 0x80)
        return;
    host.message[at] |= 0x80;
    insert(at + 1, longer + sizeof longer - by, by);
}

static void damage(struct program *p)
{
    uint8_t how = byte(p), bytes[TEXT];
    size_t at = place(p, host.n > 0 && host.n <= SMALL ? host.n - 1 : 0);
    if (host.n > SMALL || (host.n == 0 && how % 12 < 4))
        return;
    switch (how % 12) {
    case 0: host.n = at; break;
    case 1: host.message[at] ^= (uint8_t)(1 << byte(p) % 8); break;
    case 2: host.message[at] = byte(p); break;
    case 3: host.message[at] += (uint8_t)(how < 128 ? 1 : 255); break; /* a length one off, mostly */
    case 4: insert(at, bytes, text(p, bytes)); break;
    case 5: insert(how < 128 ? host.n : at, host.spare, host.spare_n); break;
    case 6: memcpy(host.spare, host.message, host.spare_n = host.n); break;
    case 7: wrap((uint8_t)((1 + byte(p) % 13) << 3 | 2)); break;
    case 8: wrap(byte(p)); break;
    case 9: stretch(at, 1 + byte(p) % 10u); break;
    case 10: stretch(how < 128 ? 0 : 1, 1 + byte(p) % 10u); break; /* the first tag, or its length */
    default:
        if (host.n > 0)
            memmove(host.message + at, host.message + at + 1, --host.n - at);
        break;
    }
}

#endif
