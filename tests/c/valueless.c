/*
 * valueless.c: a host's own choice, as docs/HOST.md shows it: an accept is handed on without its entries that have no value.
 *
 *   valueless STREAM...
 *
 * Each STREAM is a recorded client whose accept the session refuses with 7 for such an entry. Handed on without them it
 * is taken, and the recording is stored to its exit. Prints a line for each check that fails, and at the end 'N passed,
 * M failed'; exit status 1 on a failure.
 */
#include "check.h"
#include "sudolog.h"

#include <stdio.h>
#include <stdlib.h>
#include <string.h>

enum { ROOM = 65536 };

/* ==== on the page ==== */

/* Puts an entry into a run of them: its field's tag, its length as a varint, its bytes. The bytes that it took; 0 for no room. */
static size_t put_entry(const uint8_t *entry, size_t n, uint8_t *out, size_t room)
{
    size_t at = 1, left = n;
    if (room < 6 || room - 6 < n)
        return 0;
    out[0] = SUDOLOG_ENTRY_OF_ACCEPT << 3 | 2;
    for (; left > 127; left >>= 7)
        out[at++] = (uint8_t)(left | 128);
    out[at++] = (uint8_t)left;
    memcpy(out + at, entry, n);
    return at + n;
}

/* Writes an accept again, without the entries that have no value. Its length in `out`; 0 where the message is no accept, or has no room. */
static size_t without_valueless(const uint8_t *m, size_t n, uint8_t *out, size_t room)
{
    static uint8_t run[ROOM];
    struct sudolog_client_message message;
    struct sudolog_accept accept;
    struct sudolog_entry entry;
    struct sudolog_span part;
    size_t run_n = 0, out_n = 0, took;
    if (sudolog_decode_client_message(m, n, &message) != 0 || message.member != SUDOLOG_FROM_CLIENT_ACCEPT)
        return 0;
    m += message.content.offset;
    sudolog_get_accept(m, message.content.length, &accept);
    while (sudolog_next_part(&accept.entries.parts, &part)) {
        sudolog_get_entry(m + part.offset, part.length, &entry);
        if (entry.kind == SUDOLOG_VALUE_NONE)
            continue;
        took = put_entry(m + part.offset, part.length, run + run_n, sizeof run - run_n);
        if (took == 0)
            return 0;
        run_n += took;
    }
    if (sudolog_add_written(sudolog_write_accept(SUDOLOG_FROM_CLIENT_ACCEPT, (uint64_t)accept.submit_time.seconds,
                                                 (uint64_t)accept.submit_time.nanoseconds, run, run_n,
                                                 accept.expect_iobufs, false, out, room),
                            &out_n) != 0)
        return 0;
    return out_n;
}

/* ==== the test ==== */

static size_t read_stream(const char *path, uint8_t *stream)
{
    FILE *f = fopen(path, "rb");
    size_t n = f == NULL ? 0 : fread(stream, 1, ROOM, f);
    if (f == NULL || n == ROOM) {
        fprintf(stderr, "valueless: can't read %s\n", path);
        exit(1);
    }
    fclose(f);
    return n;
}

/* How many entries of an accept have no value, and how many have. */
static void count_entries(const uint8_t *m, size_t n, size_t *none, size_t *some)
{
    struct sudolog_client_message message;
    struct sudolog_accept accept;
    struct sudolog_entry entry;
    *none = *some = 0;
    CHECK(sudolog_decode_client_message(m, n, &message) == 0);
    sudolog_get_accept(m + message.content.offset, message.content.length, &accept);
    while (sudolog_next_entry(&accept.entries, &entry))
        ++*(entry.kind == SUDOLOG_VALUE_NONE ? none : some);
}

/* The first refusal of a session that gets the whole stream, 0 for none; its accepts are handed on as they are, or without such entries. */
static int run(const uint8_t *stream, size_t n, bool leave_out, uint8_t *area, size_t *used)
{
    static uint8_t accept[ROOM];
    struct sudolog_session session = sudolog_new_session();
    struct sudolog_answer answer;
    size_t at = 0, count, none, some, none_left, some_left;
    int refusal = 0;
    *used = 0;
    while (refusal == 0 && sudolog_cut_frame(stream + at, n - at, &count) == SUDOLOG_FRAME_WHOLE) {
        const uint8_t *m = stream + at + 4;
        size_t length = leave_out ? without_valueless(m, count, accept, sizeof accept) : 0;
        if (length != 0) {
            count_entries(m, count, &none, &some);
            count_entries(accept, length, &none_left, &some_left);
            CHECK(none > 0 && none_left == 0 && some_left == some);
            CHECK(without_valueless(m, count, accept, length - 1) == 0);
            CHECK(without_valueless(m, count, accept, length) == length);
        }
        refusal = sudolog_take_message(&session, length != 0 ? accept : m, length != 0 ? length : count, area, ROOM, *used, &answer);
        *used = answer.used;
        if (length != 0) {
            struct sudolog_client_message message;
            CHECK(refusal == 0 && sudolog_read_client_message(accept, length, &message) == 0);
            CHECK(*used == 11 + message.content.length && memcmp(area + 11, accept + message.content.offset, message.content.length) == 0);
        }
        at += 4 + count;
    }
    return refusal;
}

int main(int argc, char **argv)
{
    static uint8_t stream[ROOM], area[ROOM];
    size_t used;
    int k;
    for (k = 1; k < argc; k++) {
        size_t n = read_stream(argv[k], stream);
        CHECK(run(stream, n, false, area, &used) == 7);
        CHECK(used == 0);
        CHECK(run(stream, n, true, area, &used) == 0);
        CHECK(sudolog_check_file(area, sizeof area, used) == SUDOLOG_FILE_FINISHED);
    }
    return checked();
}
