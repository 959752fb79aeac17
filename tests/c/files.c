/*
 * files.c: the calls of include/sudolog.h for stored files, beside pages that can't be touched, and what the header's second part
 * makes of them. Prints a line for each check that fails and at the end 'N passed, M failed'; exit status 1 on a failure. A call
 * that touches a byte that it must not is stopped by the system.
 *
 * Every slice at the end and at the start of its pages, with data of every size around a block; bytes behind the used ones; a buffer
 * that can't be written where a call refuses; data bytes that a count and a step to the next record must not read.
 */
#define _DEFAULT_SOURCE
#include "check.h"
#include "sudolog.h"

#include <stdlib.h>
#include <string.h>
#include <sys/mman.h>

enum { PAGE = 4096, GROUND = 2 * PAGE, HEADER = 11, NUMBERS = 40, MOST = 140 };

/* ---- pages ---- */

/* Two pages between two that can't be touched. */
static uint8_t *ground(void)
{
    uint8_t *pages = (uint8_t *)mmap(NULL, GROUND + 2 * PAGE, PROT_NONE, MAP_PRIVATE | MAP_ANONYMOUS, -1, 0);
    if (pages == MAP_FAILED || mprotect(pages + PAGE, GROUND, PROT_READ | PROT_WRITE) != 0)
        exit(2);
    return pages + PAGE;
}

static uint8_t *first_ground, *second_ground, *out_ground;
static bool at_start; /* slices are at the starts of their pages, otherwise at the ends */

/* n bytes of these pages that end or start with them: the byte behind, or the one before, can't be touched. */
static uint8_t *slice(uint8_t *pages, size_t n)
{
    return at_start ? pages : pages + GROUND - n;
}

static uint8_t *copied(uint8_t *pages, const uint8_t *bytes, size_t n)
{
    uint8_t *to = slice(pages, n);
    memcpy(to, bytes, n);
    return to;
}

static void may(uint8_t *pages, int what)
{
    if (mprotect(pages, GROUND, what) != 0)
        exit(2);
}

/* ---- files ---- */

/* A record as docs/FORMAT.md packs it, with a delay of seconds below 16; where it ends. */
static size_t add_record(uint8_t *file, size_t at, unsigned kind, unsigned seconds, const void *data, size_t n)
{
    memset(file + at, 0, HEADER);
    file[at] = (uint8_t)(kind << 4);
    file[at + 4] = (uint8_t)(seconds << 4);
    file[at + 8] = (uint8_t)(n >> 16);
    file[at + 9] = (uint8_t)(n >> 8);
    file[at + 10] = (uint8_t)n;
    memcpy(file + at + HEADER, data, n);
    return at + HEADER + n;
}

/* An accept and a ttyout with these data. */
static size_t two_records(uint8_t *file, const uint8_t *data, size_t n)
{
    return add_record(file, add_record(file, 0, 1, 0, "A", 1), 7, 1, data, n);
}

/* What the comparison of two such files gives, each slice beside a page: the flags and the offset of the second records. */
static struct sudolog_difference compared(const uint8_t *x, size_t x_n, const uint8_t *y, size_t y_n)
{
    uint8_t first[GROUND], second[GROUND];
    size_t first_n = two_records(first, x, x_n), second_n = two_records(second, y, y_n);
    uint8_t *out = slice(out_ground, 16);
    uint64_t written = sudolog_compare_files(copied(first_ground, first, first_n), first_n, first_n,
                                             copied(second_ground, second, second_n), second_n, second_n, out, 16);
    CHECK(written == 16 && sudolog_difference_at(out, 0).flags == 0 && sudolog_difference_at(out, 0).offset == 0);
    return sudolog_difference_at(out, 1);
}

static bool is(struct sudolog_difference d, uint32_t flags, size_t offset)
{
    return d.flags == flags && d.offset == offset;
}

/* ---- every slice beside a page ---- */

static void test_compare_at_pages(void)
{
    uint8_t data[MOST], other[MOST];
    size_t n;
    for (n = 0; n < MOST; n++)
        data[n] = other[n] = (uint8_t)(n * 7);
    for (n = 0; n < MOST; n++) {
        CHECK(is(compared(data, n, other, n), 0, 0));
        CHECK(is(compared(data, n, other, n + 1), SUDOLOG_DIFFERS_DATA, n));
        CHECK(is(compared(data, n + 1, other, n), SUDOLOG_DIFFERS_DATA, n));
        other[n] ^= 0x80;
        CHECK(is(compared(data, n + 1, other, n + 1), SUDOLOG_DIFFERS_DATA, n));
        CHECK(is(compared(data, MOST, other, MOST), SUDOLOG_DIFFERS_DATA, n));
        other[n] ^= 0x80;
    }
}

static void test_records_at_pages(void)
{
    uint8_t file[GROUND], data[MOST], *area, *out = slice(out_ground, NUMBERS);
    size_t n, used, at;
    memset(data, 'x', sizeof data);
    for (n = 0; n < MOST; n++) {
        used = two_records(file, data, n);
        area = copied(first_ground, file, used);
        at = used - HEADER - n;
        CHECK(sudolog_count_records(area, used, used) == 2);
        CHECK(sudolog_next_record(area, used, used, at, out, NUMBERS) == 1);
        CHECK(sudolog_big_endian(out) == 7 && sudolog_big_endian(out + 8) == 1000000000);
        CHECK(sudolog_big_endian(out + 16) == at + HEADER && sudolog_big_endian(out + 24) == n);
        CHECK(sudolog_big_endian(out + 32) == used);
        CHECK(sudolog_next_record(area, used, used, used, out, NUMBERS) == 0);
        CHECK(sudolog_next_record(area, used, used, used + 1, out, NUMBERS) == 15);
        CHECK(sudolog_next_record(area, used, used, SIZE_MAX, out, NUMBERS) == 15);
    }
}

/* A file cut at every byte, with nothing behind it: the headers are not read further than it goes. */
static void test_cut_at_pages(void)
{
    uint8_t file[GROUND], *area, *out = slice(out_ground, NUMBERS);
    size_t used = add_record(file, two_records(file, (const uint8_t *)"hi", 2), 3, 2, "\1\4TERM", 6), n;
    for (n = 0; n <= used; n++) {
        bool valid = n == 12 || n == 25 || n == used;
        area = copied(first_ground, file, n);
        CHECK(sudolog_count_records(area, n, n) == (valid ? (n == 12 ? 1u : n == 25 ? 2u : 3u) : (uint64_t)15 << 32));
        CHECK(sudolog_compare_files(area, n, n, copied(second_ground, file, used), used, used, slice(out_ground, 24), 24)
              == (valid ? 24 : (uint64_t)15 << 32));
        CHECK(sudolog_compare_files(copied(second_ground, file, used), used, used, area, n, n, slice(out_ground, 24), 24)
              == (valid ? 24 : (uint64_t)15 << 32));
        CHECK(sudolog_next_record(area, n, n, n < 25 ? 0 : 25, out, NUMBERS) == (n == 0 || n == 25 ? 0 : n < 12 || (n > 25 && n < used) ? 15 : 1));
    }
}

/* Text of every length, in just the room that it needs. */
static void test_escape_at_pages(void)
{
    static const char mixed[] = "a\\\n\r\t\x1b~\x7f\x80 ";
    size_t n, i, size;
    for (n = 0; n < MOST; n++) {
        uint8_t data[MOST];
        for (size = i = 0; i < n; i++) {
            data[i] = (uint8_t)mixed[i * 3 % 10];
            size += strchr("\\\n\r\t", data[i]) != NULL ? 2 : data[i] >= 32 && data[i] < 127 ? 1 : 4;
        }
        CHECK(sudolog_escape(copied(first_ground, data, n), n, slice(out_ground, size), size) == size);
        if (size > 0)
            CHECK(sudolog_escape(copied(first_ground, data, n), n, slice(out_ground, size - 1), size - 1) == (uint64_t)12 << 32);
    }
}

/* ---- what is not touched ---- */

/* The area goes on behind the used bytes, in a page that can't be read. */
static void test_behind_the_used_bytes(void)
{
    uint8_t file[GROUND], *first, *second;
    size_t used = two_records(file, (const uint8_t *)"hi", 2), n = used + PAGE;
    at_start = false;
    first = copied(first_ground, file, used);
    second = copied(second_ground, file, used);
    CHECK(sudolog_compare_files(first, n, used, second, n, used, slice(out_ground, 16), 16) == 16);
    CHECK(sudolog_count_records(first, n, used) == 2);
    CHECK(sudolog_next_record(first, n, used, 12, slice(out_ground, NUMBERS), NUMBERS) == 1);
    CHECK(sudolog_next_record(first, n, used, used, slice(out_ground, NUMBERS), NUMBERS) == 0);
    CHECK(sudolog_next_record(first, n, used, used + 1, slice(out_ground, NUMBERS), NUMBERS) == 15);
}

/* Lengths that are wrong are refused before a byte of the area is read. */
static void test_wrong_lengths(void)
{
    uint8_t *area = first_ground + GROUND, *out = slice(out_ground, 64), file[16];
    size_t n = add_record(file, 0, 1, 0, "A", 1), i;
    static const struct {
        size_t n, used;
    } wrong[] = { { 0, 0 }, { 0, 1 }, { 100, 101 }, { 100, SIZE_MAX }, { (size_t)SUDOLOG_AREA_MAX + 1, 12 }, { SIZE_MAX, 12 },
                  { SIZE_MAX, SIZE_MAX } };
    for (i = 0; i < sizeof wrong / sizeof *wrong; i++) {
        CHECK(sudolog_count_records(area, wrong[i].n, wrong[i].used) == (uint64_t)15 << 32);
        CHECK(sudolog_compare_files(area, wrong[i].n, wrong[i].used, file, n, n, out, 64) == (uint64_t)15 << 32);
        CHECK(sudolog_compare_files(file, n, n, area, wrong[i].n, wrong[i].used, out, 64) == (uint64_t)15 << 32);
        CHECK(sudolog_next_record(area, wrong[i].n, wrong[i].used, 0, out, 64) == (i == 0 ? 0 : 15));
    }
}

/* A refusal writes nothing: the buffer can't be written, or not even read. */
static void test_refusals_without_a_buffer(int what)
{
    uint8_t file[64], other[64], *out = slice(out_ground, 64);
    size_t n = two_records(file, (const uint8_t *)"hi", 2), other_n = two_records(other, (const uint8_t *)"ho", 2), room;
    may(out_ground, what);
    for (room = 0; room < 64; room++) {
        CHECK(sudolog_compare_files(file, n, n - 1, other, other_n, other_n, out, room) == (uint64_t)15 << 32);
        CHECK(sudolog_compare_files(file, n, n, other, other_n, other_n - 1, out, room) == (uint64_t)15 << 32);
        CHECK(sudolog_next_record(file, n, n, 1, out, room) == 15);
        CHECK(sudolog_next_record(file, n, n - 1, 12, out, room) == 15);
        CHECK(sudolog_next_record(file, n, n, n, out, room) == 0);
    }
    for (room = 0; room < 16; room++)
        CHECK(sudolog_compare_files(file, n, n, other, other_n, other_n, out, room) == (uint64_t)12 << 32);
    for (room = 0; room < NUMBERS; room++)
        CHECK(sudolog_next_record(file, n, n, 12, out, room) == 12);
    for (room = 0; room < 8; room++)
        CHECK(sudolog_escape((const uint8_t *)"ab\n\x1b", 4, out, room) == (uint64_t)12 << 32);
    CHECK(sudolog_escape((const uint8_t *)"", 0, out, 0) == 0);
    may(out_ground, PROT_READ | PROT_WRITE);
}

/* A file whose three ttyouts of 2 MiB have their data in pages that can't be read: a count and a step look at headers alone. */
static void test_headers_alone(void)
{
    enum { DATA = 2097152, RECORDS = 3, SIZE = (RECORDS + 1) * DATA };
    uint8_t *area = (uint8_t *)mmap(NULL, SIZE, PROT_READ | PROT_WRITE, MAP_PRIVATE | MAP_ANONYMOUS, -1, 0);
    struct sudolog_records left;
    struct sudolog_record record;
    uint8_t *data = (uint8_t *)calloc(1, DATA);
    size_t used, starts[RECORDS + 1], i;
    if (area == MAP_FAILED || data == NULL)
        exit(2);
    starts[0] = add_record(area, 0, 1, 0, "A", 1);
    for (i = 0; i < RECORDS; i++)
        starts[i + 1] = add_record(area, starts[i], 7, 1, data, DATA);
    used = starts[RECORDS];
    for (i = 0; i < RECORDS; i++) {
        size_t from = (starts[i] + HEADER + PAGE - 1) / PAGE * PAGE, to = starts[i + 1] / PAGE * PAGE;
        if (mprotect(area + from, to - from, PROT_NONE) != 0)
            exit(2);
    }
    CHECK(sudolog_count_records(area, SIZE, used) == RECORDS + 1);
    left = sudolog_records_of(area, SIZE, used);
    CHECK(sudolog_walk_records(&left, &record) == 1 && record.kind == SUDOLOG_FROM_CLIENT_ACCEPT);
    for (i = 0; i < RECORDS; i++)
        CHECK(sudolog_walk_records(&left, &record) == 1 && record.data.offset == starts[i] + HEADER && record.data.length == DATA);
    CHECK(sudolog_walk_records(&left, &record) == 0);
    munmap(area, SIZE);
    free(data);
}

/* ---- the header's second part ---- */

static void test_walk(void)
{
    uint8_t file[128];
    size_t used = add_record(file, add_record(file, 0, 1, 0, "A", 1), 10, 1, "hi", 2), end = add_record(file, used, 3, 2, "\7\0", 2);
    struct sudolog_records left = sudolog_records_of(file, sizeof file, end);
    struct sudolog_record record, before;
    CHECK(left.area == file && left.area_n == sizeof file && left.used == end && left.at == 0);
    CHECK(sudolog_walk_records(&left, &record) == 1 && record.kind == SUDOLOG_FROM_CLIENT_ACCEPT && left.at == 12);
    CHECK(record.delay.seconds == 0 && record.delay.nanoseconds == 0 && record.data.offset == 11 && record.data.length == 1);
    file[12 + 8] |= 0x40; /* a nanosecond more */
    CHECK(sudolog_walk_records(&left, &record) == 1 && record.kind == SUDOLOG_FROM_CLIENT_STDERR && left.at == used);
    CHECK(record.delay.seconds == 1 && record.delay.nanoseconds == 1 && record.data.offset == 23 && record.data.length == 2);
    CHECK(sudolog_walk_records(&left, &record) == 1 && record.kind == SUDOLOG_FROM_CLIENT_EXIT && left.at == end);
    memset(&record, 0xA5, sizeof record);
    before = record;
    CHECK(sudolog_walk_records(&left, &record) == 0 && left.at == end);
    left.used = end + 1;
    CHECK(sudolog_walk_records(&left, &record) == 15 && left.at == end);
    left = sudolog_records_of(file, end, end + 1);
    CHECK(sudolog_walk_records(&left, &record) == 15 && left.at == 0);
    CHECK(memcmp(&record, &before, sizeof record) == 0);
}

static void test_kind_names(void)
{
    static const char *const names[] = { NULL, "accept", NULL, "exit", NULL, NULL, "ttyin", "ttyout", "stdin", "stdout", "stderr",
                                         "window size", "suspend", NULL, NULL, NULL };
    int kind;
    for (kind = -1; kind <= 16; kind++) {
        const char *name = kind >= 0 && kind < 16 ? names[kind] : NULL;
        CHECK(strcmp(sudolog_kind_name(kind), name != NULL ? name : "no kind of record") == 0);
    }
}

/* Stored data at the end of a page. */
static bool gets_exit(const char *bytes, size_t n, struct sudolog_exit *out)
{
    struct sudolog_time run_time = { 5, 6 };
    return sudolog_get_stored_exit(copied(first_ground, (const uint8_t *)bytes, n), n, run_time, out);
}

static void test_stored_exit(void)
{
    struct sudolog_exit e, before;
    memset(&e, 0xA5, sizeof e);
    before = e;
    CHECK(!gets_exit("", 0, &e) && !gets_exit("\1", 1, &e) && !gets_exit("\1\4TER", 5, &e) && !gets_exit("\1\xFF", 2, &e));
    CHECK(memcmp(&e, &before, sizeof e) == 0);
    CHECK(gets_exit("\7\0", 2, &e) && e.exit_value == 7 && !e.dumped_core && e.signal.length == 0 && e.error.length == 0);
    CHECK(e.run_time.seconds == 5 && e.run_time.nanoseconds == 6);
    CHECK(gets_exit("\377\204SEGVtext", 10, &e) && e.exit_value == 255 && e.dumped_core);
    CHECK(e.signal.offset == 2 && e.signal.length == 4 && e.error.offset == 6 && e.error.length == 4);
    CHECK(gets_exit("\0\4TERM", 6, &e) && e.exit_value == 0 && !e.dumped_core && e.signal.length == 4 && e.error.length == 0);
    CHECK(gets_exit("\0\0text", 6, &e) && e.signal.length == 0 && e.error.offset == 2 && e.error.length == 4);
}

static void test_stored_window_size(void)
{
    static const uint8_t data[] = { 0x01, 0x02, 0xFF, 0xFE, 0x00 };
    struct sudolog_time delay = { 5, 6 };
    struct sudolog_window_size w, before;
    size_t n;
    memset(&w, 0xA5, sizeof w);
    before = w;
    for (n = 0; n <= sizeof data; n++)
        if (n != 4)
            CHECK(!sudolog_get_stored_window_size(copied(first_ground, data, n), n, delay, &w));
    CHECK(memcmp(&w, &before, sizeof w) == 0);
    CHECK(sudolog_get_stored_window_size(copied(first_ground, data, 4), 4, delay, &w));
    CHECK(w.rows == 0x0102 && w.cols == 0xFFFE && w.delay.seconds == 5 && w.delay.nanoseconds == 6);
}

static void test_difference_at(void)
{
    static const uint8_t entries[] = { 0, 0, 0, 0, 0, 0, 0, 0, 0, 0, 0, 7, 0, 0x1F, 0xFF, 0xFE, 0, 0, 0, 16, 0, 0, 0, 0, 1, 2, 3, 4, 0xFF, 6, 7, 8 };
    const uint8_t *out = copied(out_ground, entries, sizeof entries);
    CHECK(is(sudolog_difference_at(out, 0), 0, 0));
    CHECK(is(sudolog_difference_at(out, 1), SUDOLOG_DIFFERS_KIND | SUDOLOG_DIFFERS_TIME | SUDOLOG_DIFFERS_DATA, 0x1FFFFE));
    CHECK(is(sudolog_difference_at(out, 2), SUDOLOG_SECOND_ONLY, 0));
    CHECK(is(sudolog_difference_at(out, 3), 0x01020304, 0xFF060708)); /* the bytes as they are */
    CHECK(SUDOLOG_DIFFERS_KIND == 1 && SUDOLOG_DIFFERS_TIME == 2 && SUDOLOG_DIFFERS_DATA == 4 && SUDOLOG_FIRST_ONLY == 8);
}

int main(void)
{
    int turn;
    first_ground = ground();
    second_ground = ground();
    out_ground = ground();
    for (turn = 0; turn < 2; turn++) {
        at_start = turn == 0;
        test_compare_at_pages();
        test_records_at_pages();
        test_cut_at_pages();
        test_escape_at_pages();
        test_refusals_without_a_buffer(PROT_READ);
        test_refusals_without_a_buffer(PROT_NONE);
        test_stored_exit();
        test_stored_window_size();
        test_difference_at();
    }
    test_behind_the_used_bytes();
    test_wrong_lengths();
    test_headers_alone();
    test_walk();
    test_kind_names();
    return checked();
}
