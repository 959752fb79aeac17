/*
 * library.c: the library, through include/sudolog.h. bench/run --beside compiles this file twice, for two libraries:
 * CONTENDERS, ID and NAME tell them apart, and one whose header has no sudolog_compare_files is compiled WITHOUT_COMPARE.
 */
#include "bench.h"
#include "sudolog.h"

#ifndef CONTENDERS
#define CONTENDERS library
#define ID "library"
#define NAME "**the library**"
#endif

INLINE bool is_io(int member)
{
    return SUDOLOG_FROM_CLIENT_TTYIN <= member && member <= SUDOLOG_FROM_CLIENT_STDERR;
}

/* ---- one walk ---- */

INLINE void scan(struct message m, struct listener *to)
{
    struct sudolog_client_scan found;
    if (sudolog_scan_client(m.bytes, m.n, &found) != 0) {
        hear_refusal(to);
        return;
    }
    hear(to, (uint64_t)found.member);
    if (!is_io(found.member))
        return;
    hear_time(to, found.delay.seconds, found.delay.nanoseconds);
    hear_bytes(to, m.bytes + found.content.offset, found.content.length);
}

READER(scan)

/* ---- any message by its struct ---- */

INLINE void hear_io(const uint8_t *bytes, size_t n, struct listener *to)
{
    struct sudolog_io_buffer io;
    sudolog_get_io_buffer(bytes, n, &io);
    hear_time(to, io.delay.seconds, io.delay.nanoseconds);
    hear_bytes(to, bytes + io.data.offset, io.data.length);
}

INLINE void hear_strings(const uint8_t *bytes, size_t n, struct listener *to)
{
    struct sudolog_string_list strings;
    struct sudolog_span string;
    sudolog_get_string_list(bytes, n, &strings);
    while (sudolog_next_string(&strings, &string))
        hear_bytes(to, bytes + string.offset, string.length);
}

INLINE void hear_numbers(const uint8_t *bytes, size_t n, struct listener *to)
{
    struct sudolog_number_list numbers;
    int64_t number;
    sudolog_get_number_list(bytes, n, &numbers);
    while (sudolog_next_int64(&numbers, &number))
        hear(to, (uint64_t)number);
}

INLINE void hear_entry(const uint8_t *accept, const struct sudolog_entry *entry, struct listener *to)
{
    const uint8_t *value = accept + entry->value.offset;
    hear_bytes(to, accept + entry->key.offset, entry->key.length);
    hear(to, (uint64_t)entry->kind);
    if (entry->kind == SUDOLOG_VALUE_NUMBER)
        hear(to, (uint64_t)entry->number);
    else if (entry->kind == SUDOLOG_VALUE_STRING)
        hear_bytes(to, value, entry->value.length);
    else if (entry->kind == SUDOLOG_VALUE_STRINGS)
        hear_strings(value, entry->value.length, to);
    else if (entry->kind == SUDOLOG_VALUE_NUMBERS)
        hear_numbers(value, entry->value.length, to);
}

INLINE void hear_accept(const uint8_t *bytes, size_t n, struct listener *to)
{
    struct sudolog_accept accept;
    struct sudolog_entry entry;
    sudolog_get_accept(bytes, n, &accept);
    while (sudolog_next_entry(&accept.entries, &entry))
        hear_entry(bytes, &entry, to);
    hear_time(to, accept.submit_time.seconds, accept.submit_time.nanoseconds);
    hear(to, accept.expect_iobufs);
}

INLINE void read_message(struct message m, struct listener *to, bool values)
{
    struct sudolog_client_message found;
    if (sudolog_read_client_message(m.bytes, m.n, &found) != 0) {
        hear_refusal(to);
        return;
    }
    hear(to, (uint64_t)found.member);
    if (is_io(found.member))
        hear_io(m.bytes + found.content.offset, found.content.length, to);
    else if (values && found.member == SUDOLOG_FROM_CLIENT_ACCEPT)
        hear_accept(m.bytes + found.content.offset, found.content.length, to);
}

INLINE void read_members(struct message m, struct listener *to)
{
    read_message(m, to, false);
}

INLINE void read_values(struct message m, struct listener *to)
{
    read_message(m, to, true);
}

READER(read_members)
READER(read_values)

/* ---- the session ---- */

/* Where the present session's area begins, and how much of it is used. */
struct place {
    struct sudolog_session session;
    size_t start;
    size_t used;
};

INLINE void open_session(struct place *p)
{
    p->session = sudolog_new_session();
    p->start += p->used;
    p->used = 0;
}

INLINE int take(const struct work *w, struct place *p, struct message m)
{
    struct sudolog_answer answer;
    int refusal = sudolog_take_message(&p->session, m.bytes, m.n, w->area + p->start, w->area_n - p->start, p->used,
                                       &answer);
    p->used = answer.used;
    return refusal;
}

static uint64_t store_pass(const struct work *w)
{
    struct place p = { .start = 0, .used = 0 };
    struct message m;
    size_t at, round;
    int refusals = 0;
    open_session(&p);
    if (w->opening.n != 0)
        refusals += take(w, &p, w->opening);
    for (round = 0; round < w->rounds; round++)
        for (at = 0; next_message(w, &at, &m);) {
            if (w->opening.n == 0)
                open_session(&p);
            refusals += take(w, &p, m);
        }
    return refusals == 0 ? p.start + p.used : 0;
}

/* ---- files ---- */

static uint64_t check_pass(const struct work *w)
{
    return sudolog_check_file(w->area, w->area_n, w->used);
}

static uint64_t restart_pass(const struct work *w)
{
    struct sudolog_session session = sudolog_new_session();
    struct sudolog_answer answer;
    if (sudolog_take_message(&session, w->restart.bytes, w->restart.n, w->area, w->area_n, w->used, &answer) != 0)
        return 0;
    return answer.used + sudolog_big_endian(session.bytes + 24); /* the greatest lower total */
}

/* ---- commit points ---- */

static uint64_t write_pass(const struct work *w)
{
    size_t round, i, at = 0;
    int refusals = 0;
    for (round = 0; round < w->rounds; round++)
        for (i = 0; i < w->points_n; i++)
            refusals += sudolog_add_written(
                sudolog_write_time(SUDOLOG_FROM_SERVER_COMMIT_POINT, w->points[i].seconds, w->points[i].nanoseconds,
                                   true, w->area + at, w->area_n - at),
                &at);
    return refusals == 0 ? at : 0;
}

/* ---- two files ---- */

#ifndef WITHOUT_COMPARE
static uint64_t compare_pass(const struct work *w)
{
    uint64_t answer = sudolog_compare_files(w->first.bytes, w->first.n, w->first.n, w->second.bytes, w->second.n,
                                            w->second.n, w->area, w->area_n);
    return sudolog_written_refusal(answer) == 0 ? sudolog_written_size(answer) : 0;
}
#endif

const struct contender CONTENDERS[] = {
    { ID "-scan", READS, NAME ", `sudolog_scan_client`", MEMBERS, false, false, scan_pass, scan_digest },
    { ID "-read", READS, NAME ", `sudolog_read_client_message`", MEMBERS, false, false, read_members_pass,
      read_members_digest },
    { ID "-values", READS_ALL, NAME ", `sudolog_read_client_message`", VALUES, true, false, read_values_pass,
      read_values_digest },
    { ID "-store", STORES, NAME ", `sudolog_take_message`", STORED, false, false, store_pass, NULL },
    { ID "-check", CHECKS, NAME ", `sudolog_check_file`", CHECKED, false, false, check_pass, NULL },
    { ID "-restart", RESTARTS, NAME ", `sudolog_take_message`", RESTARTED, false, false, restart_pass, NULL },
    { ID "-write", WRITES, NAME ", `sudolog_write_time`", WRITTEN, false, false, write_pass, NULL },
#ifndef WITHOUT_COMPARE
    { ID "-compare", COMPARES, NAME ", `sudolog_compare_files`", COMPARED, false, false, compare_pass, NULL },
#endif
    { NULL, NULL, NULL, MEMBERS, false, false, NULL, NULL },
};
