/*
 * files.h: the calls for stored files, for fuzz.c: two files side by side, counts, the record at a place, recorded bytes as text.
 * One file is the host's, the other a copy of it from some time before, changed or not. Every answer and every byte is compared with
 * model.h.
 */
#ifndef FILES_H
#define FILES_H

#include "session.h"

static struct {
    uint8_t area[SMALL];
    size_t n, used;
} copy;

static struct lent_file host_file(void)
{
    struct lent_file f = { host.area, host.area_n, host.used };
    return f;
}

static struct lent_file copied_file(void)
{
    struct lent_file f = { copy.area, copy.n, copy.used };
    return f;
}

static void copy_file(void)
{
    copy.n = host.area_n < SMALL ? host.area_n : SMALL;
    copy.used = host.used < copy.n ? host.used : copy.n;
    memcpy(copy.area, host.area, copy.n);
}

/* ---- side by side ---- */

/* The fault: where one record's data is the other's beginning, they count as equal. */
static void forget_longer_data(const struct lent_file *f, const struct lent_file *g, const uint8_t *out, size_t n)
{
    struct record r, q;
    size_t i = 0, j = 0, at;
    for (at = 0; at < n; at += 8, i += 11 + r.n, j += 11 + q.n) {
        if (i >= f->used || j >= g->used || !record_at(f->area + i, f->used - i, &r) || !record_at(g->area + j, g->used - j, &q))
            return;
        if ((out[at + 3] & 4) != 0 && (sudolog_difference_at(out + at, 0).offset == (r.n < q.n ? r.n : q.n))) {
            uint8_t entry[8];
            size_t k;
            put_number(entry, (uint64_t)(out[at + 3] & 3) << 32);
            for (k = 0; k < 8; k++)
                change(out + at + k, out[at + k] ^ entry[k]);
        }
    }
}

static uint64_t ask_compare(const struct lent_file *f, const struct lent_file *g, size_t room)
{
    const uint8_t *x = lend(&read_area, f->area, f->n), *y = lend(&input, g->area, g->n);
    uint8_t *out = lend(&answer, NULL, room);
    uint64_t written = sudolog_compare_files(x, f->n, f->used, y, g->n, g->used, out, room);
    tally.calls++;
    if (fault == SHORTER_DATA)
        forget_longer_data(f, g, out, sudolog_written_size(written));
    return written;
}

static void count_entries(const uint8_t *entries, size_t n)
{
    size_t i;
    for (i = 0; i < n / 8; i++) {
        struct sudolog_difference d = sudolog_difference_at(entries, i);
        tally.flags[d.flags]++;
        saw(80, d.flags, bits(d.offset));
    }
}

static void compare_once(const struct lent_file *f, const struct lent_file *g, size_t room)
{
    static uint8_t expected[8 * SMALL];
    bool valid = is_valid(f) && is_valid(g);
    size_t n = valid ? entries_of(f, g, expected) : 0;
    int refusal = !valid ? 15 : room < n ? 12 : 0;
    uint64_t written = ask_compare(f, g, room);
    call_name = "sudolog_compare_files";
    n = refusal == 0 ? n : 0;
    HOLDS(written == ((uint64_t)refusal << 32 | n), "the refusal and the size are the model's");
    HOLDS(memcmp(held(&answer), expected, n) == 0, "the entries are the model's");
    HOLDS(all_are(held(&answer) + n, room - n, FILL) && margin_holds(&answer), "nothing is written behind them, or where it refuses");
    tally.compared[refusal]++;
    count_entries(expected, n);
    saw(81, (uint64_t)refusal, bits(n));
}

/* The file with no area behind its used bytes: a read behind them meets the page. */
static struct lent_file tight(struct lent_file f)
{
    f.n = f.used < f.n ? f.used : f.n;
    return f;
}

/* Both ways, at both ends of the pages, with all the room that is needed, with less and with more. */
static void compare_both(struct lent_file f, struct lent_file g, uint8_t how)
{
    static uint8_t entries[8 * SMALL];
    size_t n = is_valid(&f) && is_valid(&g) ? entries_of(&f, &g, entries) : how % 64u;
    size_t less = n == 0 ? 0 : how < 128 ? n - 1 : how % n;
    struct lent_file f_alone = tight(f), g_alone = tight(g);
    at_lower_end = how % 2 == 0;
    compare_once(&f, &g, n);
    compare_once(&g, &f, less);
    compare_once(&f_alone, &g_alone, n + how % 16u);
    at_lower_end = !at_lower_end;
    compare_once(&g_alone, &f_alone, n);
    compare_once(&f_alone, &g_alone, less);
}

/* ---- the records of one ---- */

static void count_records(const struct lent_file *f)
{
    struct file whole = file_in(f->area, f->used <= f->n ? f->used : 0, UINT64_MAX);
    uint64_t counted = sudolog_count_records(lend(&read_area, f->area, f->n), f->n, f->used);
    tally.calls++;
    call_name = "sudolog_count_records";
    HOLDS(counted == (is_valid(f) ? whole.records : (uint64_t)15 << 32), "the count is the model's");
}

static void step_once(const struct lent_file *f, size_t at, size_t room)
{
    uint8_t numbers[40];
    int expected = record_in(f, at, room, numbers);
    const uint8_t *area = lend(&read_area, f->area, f->n);
    uint8_t *out = lend(&answer, NULL, room);
    int gives = sudolog_next_record(area, f->n, f->used, at, out, room);
    size_t n = expected == 1 ? 40 : 0;
    tally.calls++;
    call_name = "sudolog_next_record";
    HOLDS(gives == expected, "a record, the end or the refusal is the model's");
    HOLDS(memcmp(held(&answer), numbers, n) == 0, "the five numbers are the model's");
    HOLDS(all_are(held(&answer) + n, room - n, FILL) && margin_holds(&answer), "nothing is written behind them, or where there is none");
    tally.stepped[expected]++;
    saw(82, (uint64_t)expected, expected == 1 ? numbers[7] : 0);
}

/* From the start to where no record is left, by the header's call. */
static void walk_records(const struct lent_file *f)
{
    struct sudolog_records left;
    struct sudolog_record record;
    uint8_t numbers[40];
    size_t at = 0;
    int expected, gives;
    at_lower_end = !at_lower_end;
    left = sudolog_records_of(lend(&read_area, f->area, f->n), f->n, f->used);
    call_name = "sudolog_walk_records";
    do {
        expected = record_in(f, at, 40, numbers);
        gives = sudolog_walk_records(&left, &record);
        tally.calls++;
        HOLDS(gives == expected, "the walk goes as far as the model's");
        if (gives == 1) {
            HOLDS(record.kind == numbers[7] && moment_of(record.delay) == sudolog_big_endian(numbers + 8), "kind and delay are the model's");
            at = (size_t)sudolog_big_endian(numbers + 32);
            HOLDS(record.data.offset + record.data.length == at && left.at == at, "and the data's place, and the next");
        }
    } while (gives == 1);
}

/* A used length beyond its area, and an area beyond 1 GiB: 15, even at the end. */
static void step_wrongly(struct lent_file f, uint8_t how)
{
    f.used = f.n + 1 + how % 4u;
    count_records(&f);
    step_once(&f, how % 2 == 0 ? 0 : f.used, 40);
    call_name = "sudolog_next_record over more than 1 GiB";
    HOLDS(sudolog_next_record(vast, (size_t)LARGEST_AREA + 1, how, how, vast + LARGEST_AREA + 512, 40) == 15, "it is 15");
    HOLDS(sudolog_count_records(vast, (size_t)LARGEST_AREA + 1, how) == (uint64_t)15 << 32, "and so is the count");
    tally.calls += 2;
}

static void look_at_records(struct program *p, struct lent_file f, uint8_t how)
{
    size_t at = how < 128 ? place(p, f.n + 12) : (size_t)number(p), near_end = how % 12u;
    count_records(&f);
    walk_records(&f);
    step_once(&f, at, byte(p) % 64u);
    f = tight(f);
    at_lower_end = how % 4 < 2;
    count_records(&f);
    step_once(&f, f.used - (near_end < f.used ? near_end : f.used), 40);
    at_lower_end = !at_lower_end;
    step_once(&f, f.used, how % 64u);
    step_once(&f, 0, 40);
    step_wrongly(f, how);
}

/* ---- text ---- */

/* The fault: \x7F becomes the byte. */
static size_t with_raw_delete(uint8_t *out, size_t n)
{
    size_t i = 0;
    while (i < n) {
        size_t step = out[i] != '\\' ? 1 : out[i + 1] == 'x' ? 4 : 2;
        if (step == 4 && memcmp(out + i, "\\x7F", 4) == 0) {
            memmove(out + i + 1, out + i + 4, n - i - 4);
            out[i] = 127;
            memset(out + n - 3, FILL, 3);
            n -= 3;
            step = 1;
        }
        i += step;
    }
    return n;
}

static void escape_once(const uint8_t *data, size_t n, size_t room)
{
    static char expected[4 * SMALL + 1];
    size_t length = text_of(data, n, expected);
    int refusal = length > room ? 12 : 0;
    const uint8_t *d = lend(&input, data, n);
    uint8_t *out = lend(&answer, NULL, room);
    uint64_t written = sudolog_escape(d, n, out, room);
    tally.calls++;
    if (fault == RAW_DELETE && sudolog_written_refusal(written) == 0)
        written = with_raw_delete(out, sudolog_written_size(written));
    call_name = "sudolog_escape";
    length = refusal == 0 ? length : 0;
    HOLDS(written == ((uint64_t)refusal << 32 | length), "the refusal and the length are the model's");
    HOLDS(memcmp(held(&answer), expected, length) == 0, "the text is the model's");
    HOLDS(all_are(held(&answer) + length, room - length, FILL) && margin_holds(&answer), "nothing is written behind it, or where it refuses");
    tally.escaped[refusal]++;
    saw(83, (uint64_t)refusal, bits(length));
}

static void escape_bytes(const uint8_t *data, size_t n, uint8_t how)
{
    static char whole[4 * SMALL + 1];
    size_t length = text_of(data, n, whole);
    at_lower_end = how % 2 == 0;
    escape_once(data, n, length);
    at_lower_end = !at_lower_end;
    escape_once(data, n, how < 128 && length > 0 ? length - 1 : 4 * n);
}

/* ---- steps of the program ---- */

/* Wrong lengths, of one file or the other; then an area beyond 1 GiB, and a buffer that can't be written. */
static void compare_wrongly(struct program *p, uint8_t how)
{
    struct lent_file f = host_file(), g = copied_file();
    switch (how % 4) {
    case 0: f.used = place(p, f.n); break;
    case 1: g.used = place(p, g.n); break;
    case 2: f.used = (size_t)number(p); break;
    default: g.n = place(p, g.n); break;
    }
    compare_both(f, g, how);
    call_name = "sudolog_compare_files over more than 1 GiB";
    g = copied_file();
    HOLDS(sudolog_compare_files(vast, (size_t)LARGEST_AREA + 1 + how, 12, lend(&input, g.area, g.n), g.n, g.used, vast + LARGEST_AREA + 512, 64)
              == (uint64_t)15 << 32,
          "it is 15, and nothing is written");
    tally.calls++;
}

static void files(struct program *p)
{
    uint8_t what = byte(p), how = byte(p), bytes[TEXT];
    switch (what % 6) {
    case 0: copy_file(); break;
    case 1:
        if (copy.used > 0)
            copy.area[place(p, copy.used - 1)] ^= (uint8_t)(1 << how % 8);
        break;
    case 2: compare_both(host_file(), copied_file(), how); break;
    case 3: compare_wrongly(p, how); break;
    case 4: look_at_records(p, how % 2 == 0 ? host_file() : copied_file(), how); break;
    default: escape_bytes(bytes, text(p, bytes), how); break;
    }
}

/* The host's file as it is, beside what it was at the last check. */
static void check_and_compare(struct program *p)
{
    struct lent_file f;
    check_files(p);
    f = host_file();
    count_records(&f);
    walk_records(&f);
    compare_both(f, copied_file(), (uint8_t)f.used);
    copy_file();
}

/* Both are rare, so that the inputs of the corpus that are older than the calls for files keep their meaning. */
static void large_or_files(struct program *p)
{
    uint8_t which = byte(p);
    if (which == 'L')
        large(p);
    else if (which >= 128 && which < 184)
        files(p);
}

#endif
