/*
 * api.c: include/sudolog.h as a C program uses it. Prints a line for each check that fails and at the end
 * 'N passed, M failed'; exit status 1 on a failure.
 *
 * In the order of the header's parts: names and limits, frames, the marked examples of the scope document, each
 * message's reader, lists, NULL in the place of a slice, refusals and what they leave untouched; then the same of
 * writing.
 */
#define _DEFAULT_SOURCE
#include "check.h"
#include "data.h"
#include "sudolog.h"

#include <limits.h>
#include <stdlib.h>
#include <string.h>
#include <sys/mman.h>
#include <unistd.h>

struct slice {
    const uint8_t *m;
    size_t n;
};

static struct slice slice_of(const char *text, size_t n)
{
    struct slice s;
    s.m = (const uint8_t *)text;
    s.n = n;
    return s;
}

/* The bytes of a string literal without its closing zero. */
#define BYTES(TEXT) slice_of(TEXT, sizeof(TEXT) - 1)

/* The number -1 as a varint; the same with a tenth byte that is too great. */
#define MINUS_ONE "\xFF\xFF\xFF\xFF\xFF\xFF\xFF\xFF\xFF\x01"
#define TENTH_BYTE_OF_2 "\xFF\xFF\xFF\xFF\xFF\xFF\xFF\xFF\xFF\x02"

static struct slice part(struct slice s, struct sudolog_span span)
{
    s.m += span.offset;
    s.n = span.length;
    return s;
}

static bool is_text(struct slice s, struct sudolog_span span, const char *text)
{
    return span.length == strlen(text) && memcmp(s.m + span.offset, text, span.length) == 0;
}

static bool is_time(struct sudolog_time moment, int64_t seconds, int32_t nanoseconds)
{
    return moment.seconds == seconds && moment.nanoseconds == nanoseconds;
}

/* A reader that refuses: the number, and no byte of the struct changed. */
#define REFUSED(READER, NAME, IN, REFUSAL)                                                                  \
    do {                                                                                                    \
        struct slice refused_in = IN;                                                                       \
        struct sudolog_##NAME out, before;                                                                  \
        memset(&out, 0xA5, sizeof out);                                                                     \
        memset(&before, 0xA5, sizeof before);                                                               \
        CHECK(sudolog_##READER(refused_in.m, refused_in.n, &out) == (REFUSAL));                             \
        CHECK(memcmp(&out, &before, sizeof out) == 0);                                                      \
    } while (0)

/* Out of range: sudolog_read_NAME refuses with 7 what sudolog_decode_NAME takes. */
#define OUT_OF_RANGE(NAME, IN)                                                                              \
    do {                                                                                                    \
        struct slice ranged_in = IN;                                                                        \
        struct sudolog_##NAME taken;                                                                        \
        CHECK(sudolog_decode_##NAME(ranged_in.m, ranged_in.n, &taken) == 0);                                \
        REFUSED(read_##NAME, NAME, ranged_in, 7);                                                           \
    } while (0)

/* What is given with NULL as its length. */
static const size_t lengths[] = { 0, 1, 2, 4, 4096, SIZE_MAX };

/* ---- names and limits ---- */

static void version(void)
{
    CHECK(sudolog_version() == SUDOLOG_VERSION);
}

/* Document 01's table, row by row. */
static void refusals_have_names(void)
{
    static const int rows[] = { SUDOLOG_TAKEN,         SUDOLOG_TOO_LONG,        SUDOLOG_BAD_VARINT,
                                SUDOLOG_PAST_END,      SUDOLOG_BAD_TAG,         SUDOLOG_OTHER_WIRE_TYPE,
                                SUDOLOG_NO_MEMBER,     SUDOLOG_OUT_OF_RANGE,    SUDOLOG_ENTRY_MISSING,
                                SUDOLOG_NOT_ITS_TURN,  SUDOLOG_TOTAL_TOO_GREAT, SUDOLOG_ZERO_AT_RESTART,
                                SUDOLOG_NO_ROOM,       SUDOLOG_FINISHED_FILE,   SUDOLOG_NO_SUCH_POINT,
                                SUDOLOG_NO_VALID_FILE };
    int k;
    CHECK(sizeof rows / sizeof rows[0] == 16);
    for (k = 0; k < 16; k++)
        CHECK(rows[k] == k);
}

/* Words of its own for 0 to 15, and the same for every number that is none. docs/FORMAT.md has them: tests/pages. */
static void refusals_have_words(void)
{
    static const int others[] = { INT_MIN, -16, -1, 17, 255, 256, 65536, INT_MAX };
    const char *none = sudolog_refusal_text(16);
    size_t i;
    int k, j;
    CHECK(none != NULL && none[0] != '\0');
    for (k = 0; k < 16; k++) {
        const char *words = sudolog_refusal_text(k);
        CHECK(words != NULL && words[0] != '\0' && strcmp(words, none) != 0);
        for (j = 0; j < k; j++)
            CHECK(strcmp(words, sudolog_refusal_text(j)) != 0);
    }
    for (i = 0; i < sizeof others / sizeof others[0]; i++)
        CHECK(strcmp(sudolog_refusal_text(others[i]), none) == 0);
    CHECK(strcmp(sudolog_refusal_text(0), "no refusal") == 0);
    CHECK(strcmp(sudolog_refusal_text(SUDOLOG_NOT_ITS_TURN), "not this state's turn") == 0);
}

/* The numbers; that they are the library's is seen where each is used: below, and in session.c. */
static void limits_have_names(void)
{
    CHECK(SUDOLOG_MESSAGE_MAX == 2097152 && SUDOLOG_FRAME_MAX == 2097156 && SUDOLOG_AREA_MAX == 1073741824);
    CHECK(SUDOLOG_SESSION_SIZE == 40 && SUDOLOG_ANSWER_SIZE == 40 && SUDOLOG_RECORD_EXTRA == 13);
    CHECK(sizeof(struct sudolog_session) == SUDOLOG_SESSION_SIZE);
}

/* ---- frames ---- */

#define LARGEST SUDOLOG_MESSAGE_MAX

static bool cuts(const uint8_t *s, size_t n, enum sudolog_frame state, size_t count)
{
    size_t got = 99;
    return sudolog_cut_frame(s, n, &got) == state && got == count;
}

static void short_frames(void)
{
    struct slice empty = BYTES("\0\0\0\0\x3A");
    struct slice one = BYTES("\0\0\0\1\x3A\x3A");
    size_t n;
    CHECK(cuts(NULL, 0, SUDOLOG_FRAME_WAIT, 4));
    for (n = 0; n < 4; n++)
        CHECK(cuts(empty.m, n, SUDOLOG_FRAME_WAIT, 4 - n));
    CHECK(cuts(empty.m, 4, SUDOLOG_FRAME_WHOLE, 0));
    CHECK(cuts(empty.m, 5, SUDOLOG_FRAME_WHOLE, 0));
    CHECK(cuts(one.m, 4, SUDOLOG_FRAME_WAIT, 1));
    CHECK(cuts(one.m, 5, SUDOLOG_FRAME_WHOLE, 1));
    CHECK(cuts(one.m, 6, SUDOLOG_FRAME_WHOLE, 1));
}

static void longest_frames(void)
{
    uint8_t *s = (uint8_t *)calloc(1, SUDOLOG_FRAME_MAX + 2);
    CHECK(s != NULL);
    if (s == NULL)
        return;
    memcpy(s, "\x00\x20\x00\x00", 4);
    CHECK(cuts(s, 3, SUDOLOG_FRAME_WAIT, 1));
    CHECK(cuts(s, 4, SUDOLOG_FRAME_WAIT, LARGEST));
    CHECK(cuts(s, 4 + LARGEST - 1, SUDOLOG_FRAME_WAIT, 1));
    CHECK(cuts(s, SUDOLOG_FRAME_MAX, SUDOLOG_FRAME_WHOLE, LARGEST));
    CHECK(cuts(s, SUDOLOG_FRAME_MAX + 1, SUDOLOG_FRAME_WHOLE, LARGEST));
    memcpy(s, "\x00\x20\x00\x01", 4);
    CHECK(cuts(s, 3, SUDOLOG_FRAME_WAIT, 1));
    CHECK(cuts(s, 4, SUDOLOG_FRAME_REFUSED, 0));
    CHECK(cuts(s, 5, SUDOLOG_FRAME_REFUSED, 0));
    CHECK(cuts(s, 4 + LARGEST + 1, SUDOLOG_FRAME_REFUSED, 0));
    memcpy(s, "\xFF\xFF\xFF\xFF", 4);
    CHECK(cuts(s, 4, SUDOLOG_FRAME_REFUSED, 0));
    free(s);
}

/* ---- the marked examples that speak of reading ---- */

static void example_1_time(void)
{
    struct slice in = BYTES("\x08\x05\x10\x80\xE5\x9A\x77");
    struct sudolog_time moment;
    CHECK(sudolog_read_time(in.m, in.n, &moment) == 0);
    CHECK(is_time(moment, 5, 250000000));
}

static void example_2_ttyout(void)
{
    struct slice frame = BYTES("\x00\x00\x00\x0A\x3A\x08\x0A\x02\x08\x01\x12\x02hi");
    struct slice in = slice_of((const char *)frame.m + 4, 10);
    struct sudolog_client_message message;
    struct sudolog_io_buffer buffer;
    struct slice content;
    CHECK(cuts(frame.m, frame.n, SUDOLOG_FRAME_WHOLE, 10));
    CHECK(sudolog_read_client_message(in.m, in.n, &message) == 0);
    CHECK(message.member == SUDOLOG_FROM_CLIENT_TTYOUT);
    CHECK(message.content.offset == 2 && message.content.length == 8);
    content = part(in, message.content);
    sudolog_get_io_buffer(content.m, content.n, &buffer);
    CHECK(is_time(buffer.delay, 1, 0));
    CHECK(is_text(content, buffer.data, "hi"));
}

static void example_4_int64(void)
{
    struct slice minus = BYTES("\x08" MINUS_ONE);
    struct slice least = BYTES("\x08\x80\x80\x80\x80\x80\x80\x80\x80\x80\x01");
    struct slice greatest = BYTES("\x08\xFF\xFF\xFF\xFF\xFF\xFF\xFF\xFF\x7F");
    struct sudolog_time moment;
    CHECK(sudolog_read_time(minus.m, minus.n, &moment) == 0 && is_time(moment, -1, 0));
    CHECK(sudolog_read_time(least.m, least.n, &moment) == 0 && is_time(moment, INT64_MIN, 0));
    CHECK(sudolog_read_time(greatest.m, greatest.n, &moment) == 0 && is_time(moment, INT64_MAX, 0));
}

static void example_5_int32(void)
{
    struct slice in = BYTES("\x10\x80\x80\x80\x80\x10");
    struct sudolog_exit message;
    CHECK(sudolog_read_exit(in.m, in.n, &message) == 0);
    CHECK(message.exit_value == 0);
}

static void example_6_commit_point(void)
{
    struct slice frame = BYTES("\x00\x00\x00\x04\x12\x02\x08\x01");
    struct sudolog_server_message message;
    CHECK(cuts(frame.m, frame.n, SUDOLOG_FRAME_WHOLE, 4));
    CHECK(sudolog_read_server_message(frame.m + 4, 4, &message) == 0);
    CHECK(message.member == SUDOLOG_FROM_SERVER_COMMIT_POINT);
    CHECK(is_time(message.commit_point, 1, 0));
}

/* ---- entries and lists ---- */

static void entry_values(void)
{
    struct slice number = BYTES("\x0A\x03uid\x10" MINUS_ONE);
    struct slice string = BYTES("\x0A\x03tty\x1A\x04pts0");
    struct slice strings = BYTES("\x0A\x04" "argv\x22\x05\x0A\x01" "a\x0A\x00");
    struct slice numbers = BYTES("\x0A\x04gids\x2A\x04\x0A\x02\x01\x02");
    struct sudolog_entry entry;
    CHECK(sudolog_read_entry(number.m, number.n, &entry) == 0);
    CHECK(is_text(number, entry.key, "uid") && entry.kind == SUDOLOG_VALUE_NUMBER);
    CHECK(entry.number == -1 && entry.value.length == 0);
    CHECK(sudolog_read_entry(string.m, string.n, &entry) == 0);
    CHECK(is_text(string, entry.key, "tty") && entry.kind == SUDOLOG_VALUE_STRING);
    CHECK(is_text(string, entry.value, "pts0") && entry.number == 0);
    CHECK(sudolog_read_entry(strings.m, strings.n, &entry) == 0);
    CHECK(entry.kind == SUDOLOG_VALUE_STRINGS && entry.value.length == 5 && entry.number == 0);
    CHECK(sudolog_read_entry(numbers.m, numbers.n, &entry) == 0);
    CHECK(entry.kind == SUDOLOG_VALUE_NUMBERS && entry.value.length == 4 && entry.number == 0);
}

static void entry_last_value_counts(void)
{
    struct slice in = BYTES("\x0A\x01k\x10\x07\x1A\x01s\x2A\x00\x1A\x01t");
    struct slice number = BYTES("\x0A\x01j\x1A\x01s\x10\x07\x0A\x01k");
    struct sudolog_entry entry;
    CHECK(sudolog_read_entry(in.m, in.n, &entry) == 0);
    CHECK(entry.kind == SUDOLOG_VALUE_STRING && entry.number == 0 && is_text(in, entry.value, "t"));
    CHECK(sudolog_read_entry(number.m, number.n, &entry) == 0);
    CHECK(entry.kind == SUDOLOG_VALUE_NUMBER && entry.number == 7 && entry.value.length == 0);
    CHECK(is_text(number, entry.key, "k"));
}

static void entry_without_value(void)
{
    struct slice in = BYTES("\x0A\x07ttyname");
    struct sudolog_entry entry;
    CHECK(sudolog_decode_entry(in.m, in.n, &entry) == 0);
    CHECK(entry.kind == SUDOLOG_VALUE_NONE && is_text(in, entry.key, "ttyname"));
    CHECK(entry.value.length == 0 && entry.number == 0);
    REFUSED(read_entry, entry, in, 7);
}

static void strings_in_order(void)
{
    struct slice in = BYTES("\x0A\x02" "ab\x78\x05\x0A\x00\x0A\x01" "c\x7A\x01x\x0A\x00");
    struct sudolog_string_list list, again;
    struct sudolog_span string;
    CHECK(sudolog_read_string_list(in.m, in.n, &list) == 0);
    again = list;
    CHECK(sudolog_next_string(&list, &string) == 1 && is_text(in, string, "ab"));
    CHECK(sudolog_next_string(&list, &string) == 1 && is_text(in, string, ""));
    CHECK(sudolog_next_string(&list, &string) == 1 && is_text(in, string, "c"));
    CHECK(sudolog_next_string(&list, &string) == 1 && is_text(in, string, ""));
    CHECK(sudolog_next_string(&list, &string) == 0);
    CHECK(sudolog_next_string(&list, &string) == 0);
    CHECK(sudolog_next_string(&again, &string) == 1 && is_text(in, string, "ab"));
}

static bool numbers_are(struct slice in, const int64_t *expected, size_t count)
{
    struct sudolog_number_list list;
    int64_t number = 99;
    size_t i;
    if (sudolog_read_number_list(in.m, in.n, &list) != 0)
        return false;
    for (i = 0; i < count; i++)
        if (sudolog_next_int64(&list, &number) != 1 || number != expected[i])
            return false;
    number = 99;
    return sudolog_next_int64(&list, &number) == 0 && sudolog_next_int64(&list, &number) == 0 && number == 99;
}

static void numbers_in_order(void)
{
    static const int64_t expected[] = { 1, 300, -1, 0 };
    CHECK(numbers_are(BYTES(""), expected, 0));
    CHECK(numbers_are(BYTES("\x0A\x00"), expected, 0));
    CHECK(numbers_are(BYTES("\x0A\x00\x78\x05\x0A\x00"), expected, 0));
    CHECK(numbers_are(BYTES("\x08\x01\x08\xAC\x02\x08" MINUS_ONE "\x08\x00"), expected, 4));
    CHECK(numbers_are(BYTES("\x0A\x0E\x01\xAC\x02" MINUS_ONE "\x00"), expected, 4));
    CHECK(numbers_are(BYTES("\x0A\x03\x01\xAC\x02\x0A\x0B" MINUS_ONE "\x00"), expected, 4));
    CHECK(numbers_are(BYTES("\x08\x01\x0A\x00\x0A\x0C\xAC\x02" MINUS_ONE "\x78\x05\x08\x00"), expected, 4));
    CHECK(numbers_are(BYTES("\x7A\x02\x08\x07\x0A\x01\x01\x08\xAC\x02"), expected, 2));
}

/* ---- the messages ---- */

static void check_two_entries(struct slice in, struct sudolog_entry_list entries)
{
    struct sudolog_entry entry;
    struct sudolog_string_list strings;
    struct sudolog_span string;
    struct slice list;
    CHECK(sudolog_next_entry(&entries, &entry) == 1);
    CHECK(is_text(in, entry.key, "k") && entry.kind == SUDOLOG_VALUE_STRING && is_text(in, entry.value, "v"));
    CHECK(sudolog_next_entry(&entries, &entry) == 1);
    CHECK(is_text(in, entry.key, "argv") && entry.kind == SUDOLOG_VALUE_STRINGS);
    list = part(in, entry.value);
    sudolog_get_string_list(list.m, list.n, &strings);
    CHECK(sudolog_next_string(&strings, &string) == 1 && is_text(list, string, "ls"));
    CHECK(sudolog_next_string(&strings, &string) == 0);
    CHECK(sudolog_next_entry(&entries, &entry) == 0);
}

static void accept_fields(void)
{
    struct slice in = BYTES("\x0A\x04\x08\x05\x10\x07\x12\x06\x0A\x01k\x1A\x01v\x78\x01\x18\x02"
                            "\x12\x0C\x0A\x04" "argv\x22\x04\x0A\x02ls");
    struct sudolog_accept accept;
    CHECK(sudolog_read_accept(in.m, in.n, &accept) == 0);
    CHECK(is_time(accept.submit_time, 5, 7));
    CHECK(accept.expect_iobufs == true);
    check_two_entries(in, accept.entries);
}

static void reject_fields(void)
{
    struct slice in = BYTES("\x0A\x02\x08\x05\x12\x02no"
                            "\x1A\x06\x0A\x01k\x1A\x01v\x1A\x0C\x0A\x04" "argv\x22\x04\x0A\x02ls");
    struct sudolog_reject reject;
    CHECK(sudolog_read_reject(in.m, in.n, &reject) == 0);
    CHECK(is_time(reject.submit_time, 5, 0));
    CHECK(is_text(in, reject.reason, "no"));
    check_two_entries(in, reject.entries);
}

static void alert_fields(void)
{
    struct slice in = BYTES("\x0A\x0B\x08" MINUS_ONE "\x12\x02no"
                            "\x1A\x06\x0A\x01k\x1A\x01v\x1A\x0C\x0A\x04" "argv\x22\x04\x0A\x02ls");
    struct sudolog_alert alert;
    CHECK(sudolog_read_alert(in.m, in.n, &alert) == 0);
    CHECK(is_time(alert.alert_time, -1, 0));
    CHECK(is_text(in, alert.reason, "no"));
    check_two_entries(in, alert.entries);
}

static void exit_fields(void)
{
    struct slice in = BYTES("\x0A\x04\x08\x05\x10\x07\x10\xFF\x01\x18\x01\x22\x04KILL\x2A\x02no");
    struct sudolog_exit message;
    CHECK(sudolog_read_exit(in.m, in.n, &message) == 0);
    CHECK(is_time(message.run_time, 5, 7));
    CHECK(message.exit_value == 255 && message.dumped_core == true);
    CHECK(is_text(in, message.signal, "KILL"));
    CHECK(is_text(in, message.error, "no"));
}

static void restart_fields(void)
{
    struct slice in = BYTES("\x0A\x02id\x12\x07\x08\x05\x10\x80\xE5\x9A\x77");
    struct sudolog_restart restart;
    CHECK(sudolog_read_restart(in.m, in.n, &restart) == 0);
    CHECK(is_text(in, restart.log_id, "id"));
    CHECK(is_time(restart.resume_point, 5, 250000000));
}

static void timed_fields(void)
{
    struct slice io = BYTES("\x0A\x02\x10\x07\x12\x03\x00\xFF\n");
    struct slice window = BYTES("\x0A\x02\x08\x01\x10\xFF\xFF\x03\x18\x50");
    struct slice suspend = BYTES("\x0A\x02\x08\x01\x12\x04TSTP");
    struct sudolog_io_buffer buffer;
    struct sudolog_window_size size;
    struct sudolog_suspend stopped;
    CHECK(sudolog_read_io_buffer(io.m, io.n, &buffer) == 0);
    CHECK(is_time(buffer.delay, 0, 7));
    CHECK(buffer.data.offset == 6 && buffer.data.length == 3);
    CHECK(sudolog_read_window_size(window.m, window.n, &size) == 0);
    CHECK(is_time(size.delay, 1, 0) && size.rows == 65535 && size.cols == 80);
    CHECK(sudolog_read_suspend(suspend.m, suspend.n, &stopped) == 0);
    CHECK(is_time(stopped.delay, 1, 0) && is_text(suspend, stopped.signal, "TSTP"));
}

static void hello_fields(void)
{
    struct slice client = BYTES("\x0A\x04sudo");
    struct slice server = BYTES("\x0A\x01s\x12\x01r\x1A\x01" "a\x20\x01\x1A\x01" "b");
    struct sudolog_client_hello from_client;
    struct sudolog_server_hello from_server;
    struct sudolog_span name;
    CHECK(sudolog_read_client_hello(client.m, client.n, &from_client) == 0);
    CHECK(is_text(client, from_client.client_id, "sudo"));
    CHECK(sudolog_read_server_hello(server.m, server.n, &from_server) == 0);
    CHECK(is_text(server, from_server.server_id, "s") && is_text(server, from_server.redirect, "r"));
    CHECK(from_server.subcommands == true);
    CHECK(sudolog_next_string(&from_server.servers, &name) == 1 && is_text(server, name, "a"));
    CHECK(sudolog_next_string(&from_server.servers, &name) == 1 && is_text(server, name, "b"));
    CHECK(sudolog_next_string(&from_server.servers, &name) == 0);
}

static void server_members(void)
{
    struct slice log_id = BYTES("\x12\x02\x08\x05\x1A\x02id");
    struct slice hello = BYTES("\x22\x01" "e\x2A\x01" "a\x0A\x03\x0A\x01s");
    struct slice error = BYTES("\x22\x01" "e");
    struct slice end = BYTES("\x2A\x00");
    struct sudolog_server_message message;
    CHECK(sudolog_read_server_message(log_id.m, log_id.n, &message) == 0);
    CHECK(message.member == SUDOLOG_FROM_SERVER_LOG_ID && is_text(log_id, message.content, "id"));
    CHECK(is_time(message.commit_point, 0, 0));
    CHECK(sudolog_read_server_message(hello.m, hello.n, &message) == 0);
    CHECK(message.member == SUDOLOG_FROM_SERVER_HELLO);
    CHECK(message.content.offset == 8 && message.content.length == 3);
    CHECK(sudolog_read_server_message(error.m, error.n, &message) == 0);
    CHECK(message.member == SUDOLOG_FROM_SERVER_ERROR && is_text(error, message.content, "e"));
    CHECK(sudolog_read_server_message(end.m, end.n, &message) == 0);
    CHECK(message.member == SUDOLOG_FROM_SERVER_ABORT && message.content.length == 0);
}

/* Every member 1 to 13 with an empty message, read and scanned. */
static void client_members(void)
{
    uint8_t m[2] = { 0, 0 };
    struct sudolog_client_message message;
    struct sudolog_client_scan scan;
    int member;
    for (member = 1; member <= SUDOLOG_FROM_CLIENT_HELLO; member++) {
        m[0] = (uint8_t)(member * 8 + 2);
        CHECK(sudolog_decode_client_message(m, 2, &message) == 0);
        CHECK(message.member == member && message.content.length == 0);
        CHECK(sudolog_scan_client(m, 2, &scan) == 0);
        CHECK(scan.member == member && scan.content.length == 0);
        CHECK(is_time(scan.delay, 0, 0));
    }
}

static void scan_finds_delay_and_data(void)
{
    struct slice in = BYTES("\x6A\x00\x52\x0C\x0A\x04\x08\x05\x10\x07\x12\x04" "data\x78\x00");
    struct slice size = BYTES("\x5A\x04\x0A\x02\x08\x05");
    struct slice past = BYTES("\x3A\x0D\x0A\x0B\x10" MINUS_ONE);
    struct sudolog_client_scan scan;
    CHECK(sudolog_scan_client(in.m, in.n, &scan) == 0);
    CHECK(scan.member == SUDOLOG_FROM_CLIENT_STDERR);
    CHECK(is_time(scan.delay, 5, 7) && is_text(in, scan.content, "data"));
    CHECK(sudolog_scan_client(size.m, size.n, &scan) == 0);
    CHECK(scan.member == SUDOLOG_FROM_CLIENT_WINDOW_SIZE);
    CHECK(is_time(scan.delay, 0, 0) && scan.content.offset == 2 && scan.content.length == 4);
    CHECK(sudolog_scan_client(past.m, past.n, &scan) == 0);
    CHECK(is_time(scan.delay, 0, -1));
}

static void last_one_counts(void)
{
    struct slice io = BYTES("\x0A\x04\x08\x05\x10\x07\x12\x01" "a\x0A\x02\x10\x02\x12\x01" "b");
    struct slice size = BYTES("\x10\x01\x10\x02\x18\x03\x10\x04");
    struct slice client = BYTES("\x3A\x03\x12\x01" "a\x6A\x00\x3A\x02\x0A\x00");
    struct sudolog_io_buffer buffer;
    struct sudolog_window_size window;
    struct sudolog_client_message message;
    CHECK(sudolog_read_io_buffer(io.m, io.n, &buffer) == 0);
    CHECK(is_time(buffer.delay, 0, 2)); /* the earlier delay's seconds are not merged in */
    CHECK(is_text(io, buffer.data, "b"));
    CHECK(sudolog_read_window_size(size.m, size.n, &window) == 0);
    CHECK(window.rows == 4 && window.cols == 3);
    CHECK(sudolog_read_client_message(client.m, client.n, &message) == 0);
    CHECK(message.member == SUDOLOG_FROM_CLIENT_TTYOUT);
    CHECK(message.content.offset == 9 && message.content.length == 2);
}

static void longer_forms_are_read(void)
{
    struct sudolog_io_buffer buffer;
    struct slice in = BYTES("\x92\x80\x80\x80\x80\x80\x80\x80\x80\x00\x81\x80\x00x\x8A\x00\x83\x00\x08\x81\x00");
    CHECK(sudolog_read_io_buffer(in.m, in.n, &buffer) == 0);
    CHECK(is_time(buffer.delay, 1, 0) && is_text(in, buffer.data, "x"));
}

/* ---- varints of one byte ----
 *
 * Each message stands at the end of a page, and the one behind it can't be read. */

static struct slice at_the_end_of_a_page(struct slice s)
{
    static uint8_t *end;
    size_t page = (size_t)sysconf(_SC_PAGESIZE);
    struct slice moved = s;
    if (end == NULL) {
        uint8_t *pages = (uint8_t *)mmap(NULL, 2 * page, PROT_READ | PROT_WRITE, MAP_PRIVATE | MAP_ANONYMOUS, -1, 0);
        if (pages == MAP_FAILED || mprotect(pages + page, page, PROT_NONE) != 0) {
            perror("api");
            exit(1);
        }
        end = pages + page;
    }
    moved.m = (const uint8_t *)memcpy(end - s.n, s.m, s.n);
    return moved;
}

/* The varint at a place: the next number of a packed list that is the whole slice. */
static void varint_is(struct slice list, size_t from, uint64_t value, size_t next)
{
    uint8_t numbers[24];
    struct slice in = at_the_end_of_a_page(list);
    CHECK(sudolog_next_number(in.m, in.n, from, in.n, numbers, sizeof numbers) == 1);
    CHECK(sudolog_big_endian(numbers) == value && sudolog_big_endian(numbers + 8) == next);
}

static void no_varint_at(struct slice list, size_t from)
{
    uint8_t numbers[24];
    struct slice in = at_the_end_of_a_page(list);
    CHECK(sudolog_next_number(in.m, in.n, from, in.n, numbers, sizeof numbers) == 0);
}

/* A TimeSpec's seconds: what reading it gives, and the number. */
static void seconds_of(struct slice message, int refusal, uint64_t seconds)
{
    struct slice in = at_the_end_of_a_page(message);
    CHECK(sudolog_read(SUDOLOG_TIME_SPEC, in.m, in.n) == refusal);
    CHECK(sudolog_number(1, in.m, in.n) == seconds);
}

/* An I/O buffer's data. */
static void data_of(struct slice message, int refusal, size_t offset, size_t length)
{
    struct sudolog_io_buffer io;
    struct slice in = at_the_end_of_a_page(message);
    CHECK(sudolog_read_io_buffer(in.m, in.n, &io) == refusal);
    CHECK(refusal != 0 || (io.data.offset == offset && io.data.length == length));
}

static void one_byte_varints(void)
{
    varint_is(BYTES("\x00"), 0, 0, 1);
    varint_is(BYTES("\x7F"), 0, 127, 1);
    no_varint_at(BYTES("\x80"), 0);
    varint_is(BYTES("\x80\x01"), 0, 128, 2);
    varint_is(BYTES("\x80\x00"), 0, 0, 2);
    varint_is(BYTES("\x05\x80"), 0, 5, 1);
    no_varint_at(BYTES("\x05\x80"), 1);
    no_varint_at(BYTES("\x05"), 1);
    no_varint_at(BYTES("\x05"), 2);
    no_varint_at(BYTES("\x05"), SIZE_MAX);
    no_varint_at(BYTES(""), 0);
    varint_is(BYTES(MINUS_ONE), 0, UINT64_MAX, 10);
    no_varint_at(BYTES(TENTH_BYTE_OF_2), 0);
    varint_is(BYTES("\xFF\x7F"), 0, 16383, 2);
}

static void one_byte_seconds(void)
{
    seconds_of(BYTES("\x08\x00"), 0, 0);
    seconds_of(BYTES("\x08\x7F"), 0, 127);
    seconds_of(BYTES("\x08\x80"), 2, 0);
    seconds_of(BYTES("\x08\x80\x01"), 0, 128);
    seconds_of(BYTES("\x08\x80\x00"), 0, 0);
    seconds_of(BYTES("\x08\x05\x80"), 2, 5);
    seconds_of(BYTES("\x08"), 2, 0);
    seconds_of(BYTES(""), 0, 0);
    seconds_of(BYTES("\x08" MINUS_ONE), 0, UINT64_MAX);
    seconds_of(BYTES("\x08" TENTH_BYTE_OF_2), 2, 0);
    seconds_of(BYTES("\x08\xFF\x7F"), 0, 16383);
}

static void one_byte_lengths(void)
{
    uint8_t of_127[2 + 127] = { 0x12, 0x7F }, of_128[3 + 128] = { 0x12, 0x80, 0x01 };
    data_of(BYTES("\x12\x00"), 0, 2, 0);
    data_of(BYTES("\x12\x01\x80"), 0, 2, 1);
    data_of(BYTES("\x12\x05\x80"), 3, 0, 0);
    data_of(BYTES("\x12\x80"), 2, 0, 0);
    data_of(BYTES("\x12\x80\x00"), 0, 3, 0);
    data_of(BYTES("\x12"), 2, 0, 0);
    data_of(BYTES("\x12" MINUS_ONE), 3, 0, 0);
    data_of(BYTES("\x12" TENTH_BYTE_OF_2), 2, 0, 0);
    data_of(BYTES("\x12\xFF\x7F"), 3, 0, 0);
    data_of(slice_of((const char *)of_127, sizeof of_127), 0, 2, 127);
    data_of(slice_of((const char *)of_127, sizeof of_127 - 1), 3, 0, 0);
    data_of(slice_of((const char *)of_128, sizeof of_128), 0, 3, 128);
}

/* ---- message numbers without a message ---- */

/* 16 is what a packed list holds, varints; a number above it a message without fields. */
static void numbers_above_the_messages(void)
{
    static const uint8_t bad_tag[] = { 0x03 }, cut[] = { 0x0A, 0x05 }, open[] = { 0x80 }, unknown[] = { 0x0A, 0x01, 0x58 };
    CHECK(sudolog_decode(16, bad_tag, 1) == 0 && sudolog_decode(16, cut, 2) == 0 && sudolog_decode(16, open, 1) == 2);
    CHECK(sudolog_decode(17, bad_tag, 1) == 4 && sudolog_decode(17, cut, 2) == 3 && sudolog_decode(17, open, 1) == 2);
    CHECK(sudolog_decode(17, unknown, 3) == 0 && sudolog_decode(255, unknown, 3) == 0 && sudolog_decode(255, cut, 2) == 3);
}

/* ---- absent fields ----
 *
 * (m, n) is an empty message: an empty slice, or NULL with any length. It is decoded, or its getter is called alone. */

#define EMPTY(NAME, OUT)                                                                                    \
    memset(&(OUT), 0xA5, sizeof(OUT));                                                                      \
    if (decoded)                                                                                            \
        CHECK(sudolog_decode_##NAME(m, n, &(OUT)) == 0);                                                    \
    else                                                                                                    \
        sudolog_get_##NAME(m, n, &(OUT))

static void absent_fields(const uint8_t *m, size_t n, bool decoded)
{
    struct sudolog_accept accept;
    struct sudolog_exit ended;
    struct sudolog_restart restart;
    struct sudolog_window_size size;
    struct sudolog_entry entry;
    struct sudolog_time moment;
    EMPTY(accept, accept);
    CHECK(is_time(accept.submit_time, 0, 0) && accept.expect_iobufs == false);
    CHECK(sudolog_next_entry(&accept.entries, &entry) == 0);
    EMPTY(exit, ended);
    CHECK(is_time(ended.run_time, 0, 0) && ended.exit_value == 0 && ended.dumped_core == false);
    CHECK(ended.signal.length == 0 && ended.error.length == 0);
    EMPTY(restart, restart);
    CHECK(restart.log_id.length == 0 && is_time(restart.resume_point, 0, 0));
    EMPTY(window_size, size);
    CHECK(is_time(size.delay, 0, 0) && size.rows == 0 && size.cols == 0);
    EMPTY(entry, entry);
    CHECK(entry.key.length == 0 && entry.kind == SUDOLOG_VALUE_NONE && entry.value.length == 0);
    EMPTY(time, moment);
    CHECK(is_time(moment, 0, 0));
}

static void absent_spans_and_lists(const uint8_t *m, size_t n, bool decoded)
{
    struct sudolog_reject reject;
    struct sudolog_alert alert;
    struct sudolog_io_buffer buffer;
    struct sudolog_suspend suspend;
    struct sudolog_client_hello client;
    struct sudolog_server_hello server;
    struct sudolog_string_list strings;
    struct sudolog_number_list numbers;
    struct sudolog_entry entry;
    struct sudolog_span string;
    int64_t number;
    EMPTY(reject, reject);
    CHECK(reject.reason.length == 0 && sudolog_next_entry(&reject.entries, &entry) == 0);
    EMPTY(alert, alert);
    CHECK(alert.reason.length == 0 && sudolog_next_entry(&alert.entries, &entry) == 0);
    EMPTY(io_buffer, buffer);
    CHECK(is_time(buffer.delay, 0, 0) && buffer.data.length == 0);
    EMPTY(suspend, suspend);
    CHECK(is_time(suspend.delay, 0, 0) && suspend.signal.length == 0);
    EMPTY(client_hello, client);
    CHECK(client.client_id.length == 0);
    EMPTY(server_hello, server);
    CHECK(server.server_id.length == 0 && server.redirect.length == 0 && server.subcommands == false);
    CHECK(sudolog_next_string(&server.servers, &string) == 0);
    EMPTY(string_list, strings);
    CHECK(sudolog_next_string(&strings, &string) == 0);
    EMPTY(number_list, numbers);
    CHECK(sudolog_next_int64(&numbers, &number) == 0);
}

static void empty_messages(void)
{
    size_t i;
    int decoded;
    for (decoded = 0; decoded < 2; decoded++) {
        absent_fields(BYTES("").m, 0, decoded);
        absent_spans_and_lists(BYTES("").m, 0, decoded);
        for (i = 0; i < sizeof lengths / sizeof lengths[0]; i++) {
            absent_fields(NULL, lengths[i], decoded);
            absent_spans_and_lists(NULL, lengths[i], decoded);
        }
    }
}

/* ---- NULL, which is an empty slice whatever length is given with it ---- */

/* Both readers refuse NULL, or take it, as they do an empty message. */
#define READ_AS_EMPTY(NAME)                                                                                 \
    do {                                                                                                    \
        struct sudolog_##NAME out;                                                                          \
        CHECK(sudolog_decode_##NAME(NULL, n, &out) == sudolog_decode_##NAME(empty, 0, &out));               \
        CHECK(sudolog_read_##NAME(NULL, n, &out) == sudolog_read_##NAME(empty, 0, &out));                   \
    } while (0)

static void null_message(size_t n)
{
    const uint8_t *empty = BYTES("").m;
    struct sudolog_client_message client;
    struct sudolog_server_message server;
    READ_AS_EMPTY(client_message);
    READ_AS_EMPTY(server_message);
    READ_AS_EMPTY(accept);
    READ_AS_EMPTY(reject);
    READ_AS_EMPTY(exit);
    READ_AS_EMPTY(restart);
    READ_AS_EMPTY(alert);
    READ_AS_EMPTY(io_buffer);
    READ_AS_EMPTY(window_size);
    READ_AS_EMPTY(suspend);
    READ_AS_EMPTY(client_hello);
    READ_AS_EMPTY(server_hello);
    READ_AS_EMPTY(entry);
    READ_AS_EMPTY(string_list);
    READ_AS_EMPTY(number_list);
    READ_AS_EMPTY(time);
    REFUSED(decode_client_message, client_message, slice_of(NULL, n), 6);
    REFUSED(read_server_message, server_message, slice_of(NULL, n), 6);
    REFUSED(scan_client, client_scan, slice_of(NULL, n), 6);
    sudolog_get_client_message(NULL, n, &client);
    CHECK(client.member == 0 && client.content.length == 0);
    sudolog_get_server_message(NULL, n, &server);
    CHECK(server.member == 0 && server.content.length == 0 && is_time(server.commit_point, 0, 0));
    CHECK(cuts(NULL, n, SUDOLOG_FRAME_WAIT, 4));
}

static void null_fields(size_t n)
{
    struct sudolog_span span = sudolog_field_span(1, NULL, n);
    CHECK(span.offset == 0 && span.length == 0);
    CHECK(sudolog_field_int64(1, NULL, n) == 0 && sudolog_field_int32(1, NULL, n) == 0);
    CHECK(sudolog_field_flag(1, NULL, n) == false && is_time(sudolog_field_time(1, NULL, n), 0, 0));
    CHECK(sudolog_field_parts(1, NULL, n).n == 0);
}

/* Lists of a NULL message hold no length, and those that hold NULL themselves have no elements. */
static void null_lists(size_t n)
{
    struct sudolog_accept accept;
    struct sudolog_server_hello hello;
    struct sudolog_string_list strings;
    struct sudolog_entry_list entries;
    struct sudolog_number_list numbers;
    struct sudolog_entry entry;
    struct sudolog_span string;
    int64_t number = 99;
    sudolog_get_accept(NULL, n, &accept);
    sudolog_get_server_hello(NULL, n, &hello);
    sudolog_get_string_list(NULL, n, &strings);
    sudolog_get_number_list(NULL, n, &numbers);
    CHECK(accept.entries.parts.n == 0 && hello.servers.parts.n == 0 && strings.parts.n == 0 && numbers.n == 0);
    CHECK(accept.entries.parts.m != NULL && strings.parts.m != NULL && numbers.m != NULL);
    strings.parts.m = NULL;
    strings.parts.n = n;
    entries.parts = strings.parts;
    numbers.m = NULL;
    numbers.n = n;
    string.length = 99;
    CHECK(sudolog_next_part(&strings.parts, &string) == 0 && sudolog_next_string(&strings, &string) == 0);
    CHECK(sudolog_next_entry(&entries, &entry) == 0 && sudolog_next_int64(&numbers, &number) == 0);
    CHECK(string.length == 99 && number == 99);
}

static void null_is_empty(void)
{
    size_t i;
    for (i = 0; i < sizeof lengths / sizeof lengths[0]; i++) {
        null_message(lengths[i]);
        null_fields(lengths[i]);
        null_lists(lengths[i]);
    }
}

/* ---- refusals ---- */

#define REFUSED_BOTH(NAME, TEXT, REFUSAL)                                                                   \
    REFUSED(decode_##NAME, NAME, BYTES(TEXT), REFUSAL);                                                     \
    REFUSED(read_##NAME, NAME, BYTES(TEXT), REFUSAL)

static void each_refusal(void)
{
    REFUSED_BOTH(time, "\x08", 2);
    REFUSED_BOTH(time, "\x08\x80", 2);
    REFUSED_BOTH(time, "\x08" TENTH_BYTE_OF_2, 2);
    REFUSED_BOTH(number_list, "\x0A\x01\x80\x01", 2);
    REFUSED_BOTH(client_hello, "\x0A\x03" "ab", 3);
    REFUSED_BOTH(client_hello, "\x7D\x00\x00\x00", 3);
    REFUSED_BOTH(client_hello, "\x79\x00\x00\x00\x00\x00\x00\x00", 3);
    REFUSED_BOTH(client_hello, "\x00\x00", 4);
    REFUSED_BOTH(client_hello, "\x7B\x7C", 4);
    REFUSED_BOTH(client_hello, "\x80\x80\x80\x80\x10\x00", 4);
    REFUSED_BOTH(client_hello, "\x08\x00", 5);
    REFUSED_BOTH(client_hello, "\x0D", 5);
    REFUSED_BOTH(number_list, "\x0D\x00\x00\x00\x00", 5);
    REFUSED_BOTH(server_hello, "\x22\x00", 5);  /* subcommands, and below hello_msg: in the manual's */
    REFUSED_BOTH(client_message, "\x68\x00", 5); /* sections, not in its listing */
    REFUSED_BOTH(client_message, "", 6);
    REFUSED_BOTH(client_message, "\x78\x00", 6);
    REFUSED_BOTH(server_message, "\x6A\x00", 6);
}

/* Each reader leaves its struct alone, whichever function refuses. */
static void nothing_written(void)
{
    REFUSED_BOTH(client_message, "\x6A\x00\x00", 4);
    REFUSED_BOTH(server_message, "\x12\x00\x00", 4);
    REFUSED_BOTH(accept, "\x18\x01\x00", 4);
    REFUSED_BOTH(reject, "\x12\x01x\x00", 4);
    REFUSED_BOTH(exit, "\x10\x01\x00", 4);
    REFUSED_BOTH(restart, "\x0A\x01x\x00", 4);
    REFUSED_BOTH(alert, "\x12\x01x\x00", 4);
    REFUSED_BOTH(io_buffer, "\x12\x01x\x00", 4);
    REFUSED_BOTH(window_size, "\x10\x01\x00", 4);
    REFUSED_BOTH(suspend, "\x12\x01x\x00", 4);
    REFUSED_BOTH(client_hello, "\x0A\x01x\x00", 4);
    REFUSED_BOTH(server_hello, "\x20\x01\x00", 4);
    REFUSED_BOTH(entry, "\x0A\x01x\x00", 4);
    REFUSED_BOTH(string_list, "\x0A\x01x\x00", 4);
    REFUSED_BOTH(number_list, "\x08\x01\x00", 4);
    REFUSED_BOTH(time, "\x08\x01\x00", 4);
    REFUSED(scan_client, client_scan, BYTES("\x3A\x00\x00"), 4);
    REFUSED(scan_client, client_scan, BYTES(""), 6);
}

static void leftmost_place_first(void)
{
    struct slice exited = BYTES("\x1A\x03\x10\xAC\x02\x6A\x00");
    struct slice committed = BYTES("\x12\x06\x08\x80\x80\x80\x80\x10\x1A\x00");
    struct sudolog_client_message message;
    struct sudolog_server_message answer;
    REFUSED_BOTH(client_message, "\x3A\x02\x08\x00\x00", 5);         /* 5 inside, then 4 outside */
    REFUSED_BOTH(client_message, "\x3A\x02\x12\x05\x6A\x00", 3);     /* an overwritten member */
    REFUSED_BOTH(client_message, "\x3A\x04\x12\x03" "ab\x6A\x00", 3); /* its data would end outside it */
    REFUSED_BOTH(client_message, "\x3B", 4);                         /* at one tag 4 goes before 5 */
    /* ranges look only at what counts: a hello overwrites exit_value 300, a log id a commit point */
    CHECK(sudolog_read_client_message(exited.m, exited.n, &message) == 0);
    CHECK(message.member == SUDOLOG_FROM_CLIENT_HELLO);
    CHECK(sudolog_read_server_message(committed.m, committed.n, &answer) == 0);
    CHECK(answer.member == SUDOLOG_FROM_SERVER_LOG_ID && is_time(answer.commit_point, 0, 0));
}

static void ranges_of_times(void)
{
    OUT_OF_RANGE(io_buffer, BYTES("\x0A\x06\x08\x80\x80\x80\x80\x10"));       /* 4,294,967,296 s */
    OUT_OF_RANGE(io_buffer, BYTES("\x0A\x06\x10\x80\x94\xEB\xDC\x03"));       /* 1,000,000,000 ns */
    OUT_OF_RANGE(suspend, BYTES("\x0A\x0B\x08" MINUS_ONE "\x12\x01x"));
    OUT_OF_RANGE(restart, BYTES("\x0A\x01x\x12\x06\x08\x80\x80\x80\x80\x10"));
    OUT_OF_RANGE(exit, BYTES("\x0A\x06\x08\x80\x80\x80\x80\x10"));
    OUT_OF_RANGE(accept, BYTES("\x0A\x06\x10\x80\x94\xEB\xDC\x03"));
    OUT_OF_RANGE(reject, BYTES("\x0A\x06\x10\xFF\xFF\xFF\xFF\x0F"));          /* -1 ns */
    OUT_OF_RANGE(alert, BYTES("\x0A\x06\x10\x80\x94\xEB\xDC\x03"));
    OUT_OF_RANGE(server_message, BYTES("\x12\x06\x08\x80\x80\x80\x80\x10"));
}

static void ranges_of_the_rest(void)
{
    OUT_OF_RANGE(exit, BYTES("\x10\x80\x02"));
    OUT_OF_RANGE(exit, BYTES("\x10\xFF\xFF\xFF\xFF\x0F"));
    OUT_OF_RANGE(window_size, BYTES("\x10\x80\x80\x04"));
    OUT_OF_RANGE(window_size, BYTES("\x18\x80\x80\x04"));
    OUT_OF_RANGE(suspend, BYTES(""));
    OUT_OF_RANGE(restart, BYTES(""));
    OUT_OF_RANGE(entry, BYTES("\x10\x01"));
    OUT_OF_RANGE(accept, BYTES("\x12\x00"));
    OUT_OF_RANGE(reject, BYTES("\x1A\x00"));
    OUT_OF_RANGE(alert, BYTES("\x1A\x03\x0A\x01k"));
    OUT_OF_RANGE(client_message, BYTES("\x62\x00"));
}

/* A string of `length` bytes in field 1, 2 or 4: the ranges that speak of lengths. */
static struct slice long_string(uint8_t *room, uint8_t tag, size_t length)
{
    struct slice s;
    room[0] = tag;
    room[1] = (uint8_t)(length % 128 + 128);
    room[2] = (uint8_t)(length / 128);
    memset(room + 3, 'x', length);
    s.m = room;
    s.n = 3 + length;
    return s;
}

static void ranges_of_lengths(void)
{
    uint8_t room[3 + 4096];
    struct slice in;
    struct sudolog_exit ended;
    struct sudolog_suspend suspend;
    struct sudolog_restart restart;
    in = long_string(room, 0x22, 127);
    CHECK(sudolog_read_exit(in.m, in.n, &ended) == 0 && ended.signal.length == 127);
    OUT_OF_RANGE(exit, long_string(room, 0x22, 128));
    in = long_string(room, 0x12, 127);
    CHECK(sudolog_read_suspend(in.m, in.n, &suspend) == 0 && suspend.signal.length == 127);
    OUT_OF_RANGE(suspend, long_string(room, 0x12, 128));
    in = long_string(room, 0x0A, 4095);
    CHECK(sudolog_read_restart(in.m, in.n, &restart) == 0 && restart.log_id.length == 4095);
    OUT_OF_RANGE(restart, long_string(room, 0x0A, 4096));
}

/* ---- the exported functions where the structs hide their answer ---- */

static void room_too_small(void)
{
    struct slice client = BYTES("\x3A\x00");
    struct slice numbers = BYTES("\x08\x01");
    uint8_t out[40], before[40];
    memset(out, 0xA5, sizeof out);
    memset(before, 0xA5, sizeof before);
    CHECK(sudolog_client(client.m, client.n, out, SUDOLOG_ANSWER_SIZE - 1) == 12);
    CHECK(sudolog_client(client.m, client.n, out, 0) == 12);
    CHECK(sudolog_next_number(numbers.m, numbers.n, 0, 0, out, 23) == 12);
    CHECK(sudolog_next_number(numbers.m, numbers.n, 2, 0, out, 24) == 0);
    CHECK(memcmp(out, before, sizeof out) == 0);
    CHECK(sudolog_next_number(numbers.m, numbers.n, 0, 0, out, 24) == 1);
    CHECK(memcmp(out + 24, before + 24, sizeof out - 24) == 0);
    CHECK(sudolog_client(client.m, client.n, out, SUDOLOG_ANSWER_SIZE) == 0);
    CHECK(sudolog_big_endian(out) == SUDOLOG_FROM_CLIENT_TTYOUT);
}

/* The three numbers of sudolog_server: each member, one after a log_id that it overwrites; its refusals leave `out`. */
static void server_numbers(void)
{
    static const struct {
        const char *text;
        size_t n;
        int refusal;
    } refused[] = {
        { "\x12\x01\x08", 3, 2 },     /* a commit point that ends in its varint */
        { "\x1A\x03id", 4, 3 },       /* a log_id past the end */
        { "\x12\x00\x00", 3, 4 },     /* a tag of field 0 */
        { "\x13", 1, 4 },             /* a known field of an unknown wire type */
        { "\x10\x05", 2, 5 },         /* a commit point that is a number */
        { "", 0, 6 },
        { "\x6A\x00", 2, 6 },         /* a ClientMessage's hello is none of its members */
        { "\x12\x01\x08\x1A\x00", 5, 2 } /* broken, and overwritten */
    };
    uint8_t m[8] = { 0x1A, 0x02, 'i', 'd', 0, 0x02, 0x08, 0x05 };
    uint8_t out[25], before[25];
    uint64_t member;
    size_t i;
    memset(before, 0xA5, sizeof before);
    for (member = 1; member <= 5; member++) {
        m[4] = (uint8_t)(member << 3 | 2);
        m[6] = member == SUDOLOG_FROM_SERVER_HELLO ? 0x20 : 0x08; /* subcommands, or seconds */
        memcpy(out, before, sizeof out);
        CHECK(sudolog_server(m, sizeof m, out, 23) == 12 && sudolog_server(m, sizeof m, out, 0) == 12);
        CHECK(memcmp(out, before, sizeof out) == 0);
        CHECK(sudolog_server(m, sizeof m, out, 24) == 0 && out[24] == 0xA5);
        CHECK(sudolog_big_endian(out) == member && sudolog_big_endian(out + 8) == 6 && sudolog_big_endian(out + 16) == 2);
        CHECK(sudolog_server(m, sizeof m, out, 25) == 0 && out[24] == 0xA5);
        CHECK(sudolog_server(m, 4, out, 24) == 0 && sudolog_big_endian(out) == 3 && sudolog_big_endian(out + 8) == 2);
    }
    memcpy(out, before, sizeof out);
    for (i = 0; i < sizeof refused / sizeof refused[0]; i++) {
        struct slice in = slice_of(refused[i].text, refused[i].n);
        CHECK(sudolog_server(in.m, in.n, out, 24) == refused[i].refusal);
        CHECK(sudolog_server(in.m, in.n, out, 0) == refused[i].refusal);
        CHECK(sudolog_decode(SUDOLOG_SERVER_MESSAGE, in.m, in.n) == refused[i].refusal);
    }
    CHECK(sudolog_server(SUDOLOG_LEND(NULL, 0), out, 24) == 6);
    CHECK(sudolog_server(SUDOLOG_LEND(NULL, 0), SUDOLOG_LEND_ROOM(NULL, 0)) == 6);
    CHECK(sudolog_server(m, sizeof m, SUDOLOG_LEND_ROOM(NULL, 0)) == 12);
    CHECK(memcmp(out, before, sizeof out) == 0);
}

static void fields_that_are_absent(void)
{
    struct slice in = BYTES("\x08\x05\x12\x01x");
    struct slice key = BYTES("\x0A\x01k");
    CHECK(sudolog_number(1, in.m, in.n) == 5);
    CHECK(sudolog_number(3, in.m, in.n) == 0);
    CHECK(sudolog_offset(2, in.m, in.n) == 4 && sudolog_length(2, in.m, in.n) == 1);
    CHECK(sudolog_offset(3, in.m, in.n) == 0 && sudolog_length(3, in.m, in.n) == 0);
    CHECK(sudolog_next_offset(2, in.m, in.n, 0) == 4 && sudolog_next_length(2, in.m, in.n, 0) == 1);
    CHECK(sudolog_next_offset(2, in.m, in.n, 5) == UINT64_MAX && sudolog_next_length(2, in.m, in.n, 5) == 0);
    CHECK(sudolog_member(SUDOLOG_ACCEPT_MESSAGE, in.m, in.n) == 0);
    CHECK(sudolog_member(SUDOLOG_INFO_MESSAGE, key.m, key.n) == 0);
}

static void numbers_from_bytes(void)
{
    struct slice in = BYTES("\x01\x02\x03\x04\x05\x06\x07\xF8");
    CHECK(sudolog_big_endian(in.m) == UINT64_C(0x01020304050607F8));
    CHECK(sudolog_int64(UINT64_MAX) == -1 && sudolog_int64(UINT64_C(1) << 63) == INT64_MIN);
    CHECK(sudolog_int64(INT64_MAX) == INT64_MAX && sudolog_int64(0) == 0);
    CHECK(sudolog_int32(UINT32_MAX) == -1 && sudolog_int32(UINT64_C(1) << 31) == INT32_MIN);
    CHECK(sudolog_int32(UINT64_C(1) << 32) == 0 && sudolog_int32(INT32_MAX) == INT32_MAX);
}

/* ---- writing ----
 *
 * Every write goes to the start of `buffer`, which is filled before it: WRITES checks the bytes, their number
 * and that the rest is as it was; REFUSES the number and that all of it is. */

static uint8_t buffer[8192];

static void fill_buffer(void)
{
    memset(buffer, 0xA5, sizeof buffer);
}

static bool is_filled(const uint8_t *m, size_t n)
{
    size_t i;
    for (i = 0; i < n; i++)
        if (m[i] != 0xA5)
            return false;
    return true;
}

static bool is_filled_from(size_t at)
{
    return is_filled(buffer + at, sizeof buffer - at);
}

static bool wrote(uint64_t written, struct slice expected)
{
    return written == expected.n && memcmp(buffer, expected.m, expected.n) == 0 && is_filled_from(expected.n);
}

static bool refused(uint64_t written, int refusal)
{
    return sudolog_written_refusal(written) == refusal && sudolog_written_size(written) == 0 && is_filled_from(0);
}

/* Where a writer writes, and with how much room. */
#define WIDE buffer, sizeof buffer
/* A string literal as two arguments: its bytes, without the closing zero, and their number. */
#define TEXT(BYTES_OF) SUDOLOG_LEND_TEXT(BYTES_OF, sizeof(BYTES_OF) - 1)
#define NONE SUDOLOG_LEND(NULL, 0)
#define ENDS(ARRAY) SUDOLOG_LEND_ENDS(ARRAY, sizeof(ARRAY) / sizeof(ARRAY)[0])
#define NO_ENDS SUDOLOG_LEND_ENDS(NULL, 0)
#define NO_NUMBERS SUDOLOG_LEND_NUMBERS(NULL, 0)

#define WRITES(EXPECTED, WRITE)                                                                             \
    do {                                                                                                    \
        fill_buffer();                                                                                      \
        CHECK(wrote(WRITE, BYTES(EXPECTED)));                                                               \
    } while (0)
#define REFUSES(REFUSAL, WRITE)                                                                             \
    do {                                                                                                    \
        fill_buffer();                                                                                      \
        CHECK(refused(WRITE, REFUSAL));                                                                     \
    } while (0)

/* An int64's 64 bits. */
#define MINUS(NUMBER) ((uint64_t)0 - (NUMBER))

/* Two entries for an accept, and the same two for a reject or an alert. */
#define ACCEPT_RUN "\x12\x06\x0A\x01k\x1A\x01v\x12\x0C\x0A\x04" "argv\x22\x04\x0A\x02ls"
#define EVENT_RUN "\x1A\x06\x0A\x01k\x1A\x01v\x1A\x0C\x0A\x04" "argv\x22\x04\x0A\x02ls"

static void answers_taken_apart(void)
{
    size_t used = 3;
    CHECK(sudolog_written_size(14) == 14 && sudolog_written_refusal(14) == 0);
    CHECK(sudolog_written_size(UINT64_C(12) << 32) == 0 && sudolog_written_refusal(UINT64_C(12) << 32) == 12);
    CHECK(sudolog_add_written(14, &used) == 0 && used == 17);
    CHECK(sudolog_add_written(UINT64_C(7) << 32, &used) == 7 && used == 17);
}

static void writes_the_marked_examples(void)
{
    WRITES("\x08\x05\x10\x80\xE5\x9A\x77", sudolog_write_time(0, 5, 250000000, 0, WIDE));
    WRITES("\x00\x00\x00\x0A\x3A\x08\x0A\x02\x08\x01\x12\x02hi", sudolog_write_io(7, 1, 0, TEXT("hi"), 1, WIDE));
    WRITES("\x00\x00\x00\x04\x12\x02\x08\x01", sudolog_write_time(2, 1, 0, 1, WIDE));
    WRITES("\x08" MINUS_ONE, sudolog_write_time(0, MINUS(1), 0, 0, WIDE));
    WRITES("\x08\x80\x80\x80\x80\x80\x80\x80\x80\x80\x01", sudolog_write_time(0, UINT64_C(1) << 63, 0, 0, WIDE));
    WRITES("\x08\xFF\xFF\xFF\xFF\xFF\xFF\xFF\xFF\x7F", sudolog_write_time(0, INT64_MAX, 0, 0, WIDE));
}

/* ---- every message in its one written form: full, and with all left out that can be ---- */

static void writes_events(void)
{
    WRITES("\x0A\x04\x08\x05\x10\x07" ACCEPT_RUN "\x18\x01",
           sudolog_write_accept(0, 5, 7, TEXT(ACCEPT_RUN), 1, 0, WIDE));
    WRITES("\x0A\x0B\x08" MINUS_ONE, sudolog_write_accept(0, MINUS(1), 0, NONE, 0, 0, WIDE));
    WRITES("\x0A\x02\x0A\x00", sudolog_write_accept(1, 0, 0, NONE, 0, 0, WIDE));
    WRITES("\x0A\x02\x08\x05\x12\x02no" EVENT_RUN, sudolog_write_report(0, 5, 0, TEXT("no"), TEXT(EVENT_RUN), 0, WIDE));
    WRITES("\x12\x02\x0A\x00", sudolog_write_report(2, 0, 0, NONE, NONE, 0, WIDE));
    WRITES("\x0A\x02\x10\x05\x12\x02no" EVENT_RUN, sudolog_write_report(0, 0, 5, TEXT("no"), TEXT(EVENT_RUN), 0, WIDE));
    WRITES("\x2A\x02\x0A\x00", sudolog_write_report(5, 0, 0, NONE, NONE, 0, WIDE));
}

static void writes_ends_and_restarts(void)
{
    WRITES("\x0A\x04\x08\x05\x10\x07\x10\xFF\x01\x18\x01\x22\x04KILL\x2A\x02no",
           sudolog_write_exit(0, 5, 7, 255, 1, TEXT("KILL"), TEXT("no"), 0, WIDE));
    WRITES("\x1A\x02\x0A\x00", sudolog_write_exit(3, 0, 0, 0, 0, NONE, NONE, 0, WIDE));
    WRITES("\x0A\x02id\x12\x07\x08\x05\x10\x80\xE5\x9A\x77",
           sudolog_write_restart(0, TEXT("id"), 5, 250000000, 0, WIDE));
    WRITES("\x22\x05\x0A\x01i\x12\x00", sudolog_write_restart(4, TEXT("i"), 0, 0, 0, WIDE));
}

static void writes_timed_messages(void)
{
    uint8_t expected[4] = { 0, 2, 0x0A, 0 };
    int member;
    WRITES("\x0A\x02\x10\x07\x12\x03\x00\xFF\n", sudolog_write_io(0, 0, 7, TEXT("\x00\xFF\n"), 0, WIDE));
    for (member = SUDOLOG_FROM_CLIENT_TTYIN; member <= SUDOLOG_FROM_CLIENT_STDERR; member++) {
        expected[0] = (uint8_t)(member * 8 + 2);
        fill_buffer();
        CHECK(wrote(sudolog_write_io((uint64_t)member, 0, 0, NONE, 0, WIDE), slice_of((const char *)expected, 4)));
    }
    WRITES("\x0A\x02\x08\x01\x10\xFF\xFF\x03\x18\x50", sudolog_write_window_size(0, 1, 0, 65535, 80, 0, WIDE));
    WRITES("\x5A\x02\x0A\x00", sudolog_write_window_size(11, 0, 0, 0, 0, 0, WIDE));
    WRITES("\x0A\x02\x08\x01\x12\x04TSTP", sudolog_write_suspend(0, 1, 0, TEXT("TSTP"), 0, WIDE));
    WRITES("\x62\x05\x0A\x00\x12\x01x", sudolog_write_suspend(12, 0, 0, TEXT("x"), 0, WIDE));
}

static void writes_hellos_and_notes(void)
{
    static const size_t ends[] = { 1, 1, 2 };
    WRITES("\x0A\x04sudo", sudolog_write_client_hello(0, TEXT("sudo"), 0, WIDE));
    WRITES("", sudolog_write_client_hello(0, NONE, 0, WIDE));
    WRITES("\x6A\x00", sudolog_write_client_hello(13, NONE, 0, WIDE));
    WRITES("\x0A\x01s\x12\x01r\x1A\x01" "a\x1A\x00\x1A\x01" "b\x20\x01",
           sudolog_write_server_hello(0, TEXT("s"), TEXT("r"), TEXT("ab"), ENDS(ends), 1, 0, WIDE));
    WRITES("\x0A\x00", sudolog_write_server_hello(1, NONE, NONE, NONE, NO_ENDS, 0, 0, WIDE));
    WRITES("\x12\x00", sudolog_write_time(2, 0, 0, 0, WIDE));
    WRITES("\x1A\x02id", sudolog_write_note(3, TEXT("id"), 0, WIDE));
    WRITES("\x22\x00", sudolog_write_note(4, NONE, 0, WIDE));
    WRITES("\x2A\x02no", sudolog_write_note(5, TEXT("no"), 0, WIDE));
}

static void writes_lists(void)
{
    static const size_t ends[] = { 0, 2, 2, 3 };
    static const int64_t numbers[] = { 1, 300, -1, 0 };
    WRITES("\x0A\x00\x0A\x02" "ab\x0A\x00\x0A\x01" "c", sudolog_write_string_list(TEXT("abc"), ENDS(ends), 0, WIDE));
    WRITES("\x0A\x00", sudolog_write_string_list(NONE, ends, 1, 0, WIDE));
    WRITES("", sudolog_write_string_list(NONE, NO_ENDS, 0, WIDE));
    WRITES("\x0A\x0E\x01\xAC\x02" MINUS_ONE "\x00",
           sudolog_write_number_list(SUDOLOG_LEND_NUMBERS(numbers, 4), 0, WIDE));
    WRITES("\x0A\x01\x00", sudolog_write_number_list(SUDOLOG_LEND_NUMBERS(numbers + 3, 1), 0, WIDE));
    WRITES("", sudolog_write_number_list(NO_NUMBERS, 0, WIDE));
    WRITES("\x00\x00\x00\x00", sudolog_write_number_list(NO_NUMBERS, 1, WIDE));
}

static void writes_entries(void)
{
    static const size_t ends[] = { 1, 1 };
    static const int64_t numbers[] = { 1, 2 };
    WRITES("\x0A\x03uid\x10" MINUS_ONE, sudolog_write_entry_number(0, TEXT("uid"), MINUS(1), 0, WIDE));
    WRITES("\x12\x05\x0A\x01k\x10\x00", sudolog_write_entry_number(SUDOLOG_ENTRY_OF_ACCEPT, TEXT("k"), 0, 0, WIDE));
    WRITES("\x0A\x03tty\x1A\x04pts0", sudolog_write_entry_string(0, TEXT("tty"), TEXT("pts0"), 0, WIDE));
    WRITES("\x1A\x05\x0A\x01k\x1A\x00", sudolog_write_entry_string(SUDOLOG_ENTRY_OF_REJECT, TEXT("k"), NONE, 0, WIDE));
    WRITES("\x1A\x0D\x0A\x04" "argv\x22\x05\x0A\x01" "a\x0A\x00",
           sudolog_write_entry_strings(SUDOLOG_ENTRY_OF_ALERT, TEXT("argv"), TEXT("a"), ENDS(ends), 0, WIDE));
    WRITES("\x0A\x04gids\x2A\x04\x0A\x02\x01\x02",
           sudolog_write_entry_numbers(0, TEXT("gids"), SUDOLOG_LEND_NUMBERS(numbers, 2), 0, WIDE));
}

static void writes_empty_lists_in_entries(void)
{
    WRITES("\x0A\x01k\x22\x00", sudolog_write_entry_strings(0, TEXT("k"), NONE, NO_ENDS, 0, WIDE));
    WRITES("\x0A\x01k\x2A\x00", sudolog_write_entry_numbers(0, TEXT("k"), NO_NUMBERS, 0, WIDE));
    WRITES("\x12\x05\x0A\x01k\x22\x00", sudolog_write_entry_strings(2, TEXT("k"), NONE, NO_ENDS, 0, WIDE));
    WRITES("\x1A\x05\x0A\x01k\x2A\x00", sudolog_write_entry_numbers(3, TEXT("k"), NO_NUMBERS, 0, WIDE));
}

/* Any number but 0 is true, also in the flag that puts a frame around it. */
static void flags_are_all_but_zero(void)
{
    WRITES("\x00\x00\x00\x06\x0A\x04\x0A\x00\x18\x01", sudolog_write_accept(1, 0, 0, NONE, 2, 0x80, WIDE));
    WRITES("\x0A\x00\x18\x01", sudolog_write_exit(0, 0, 0, 0, 0xFF, NONE, NONE, 0, WIDE));
    WRITES("\x20\x01", sudolog_write_server_hello(0, NONE, NONE, NONE, NO_ENDS, 0x40, 0, WIDE));
}

/* The example in the header's comment. */
static void writes_an_accept_and_a_commit_point(void)
{
    static const size_t ends[] = { 2, 4 };
    struct slice expected = BYTES("\x00\x00\x00\x35\x0A\x33\x0A\x06\x08\x80\xE2\xCF\xAA\x06"
                                  "\x12\x12\x0A\x07" "command\x1A\x07/bin/ls"
                                  "\x12\x13\x0A\x07runargv\x22\x08\x0A\x02ls\x0A\x02-l\x18\x01");
    uint8_t run[512], accept[1024], point[64];
    size_t run_n = 0, accept_n = 0, point_n = 0;
    int refusal = sudolog_add_written(
        sudolog_write_entry_string(SUDOLOG_ENTRY_OF_ACCEPT, SUDOLOG_LEND_STRING("command"),
                                   SUDOLOG_LEND_STRING("/bin/ls"), 0, run, sizeof run),
        &run_n);
    if (refusal == 0)
        refusal = sudolog_add_written(
            sudolog_write_entry_strings(SUDOLOG_ENTRY_OF_ACCEPT, SUDOLOG_LEND_STRING("runargv"),
                                        SUDOLOG_LEND_STRING("ls-l"), ends, 2, 0, run + run_n, sizeof run - run_n),
            &run_n);
    if (refusal == 0)
        refusal = sudolog_add_written(
            sudolog_write_accept(SUDOLOG_FROM_CLIENT_ACCEPT, 1700000000, 0, run, run_n, true, true,
                                 accept, sizeof accept),
            &accept_n);
    if (refusal == 0)
        refusal = sudolog_add_written(
            sudolog_write_time(SUDOLOG_FROM_SERVER_COMMIT_POINT, 1, 0, true, point, sizeof point), &point_n);
    CHECK(refusal == 0);
    CHECK(accept_n == expected.n && memcmp(accept, expected.m, expected.n) == 0);
    CHECK(point_n == 8 && memcmp(point, "\x00\x00\x00\x04\x12\x02\x08\x01", 8) == 0);
}

/* ---- what is lent ---- */

/* Longer forms, unknown fields in an entry and a value given twice: taken by the reader, and left as they are. */
static void run_is_copied_unchanged(void)
{
#define ODD "\x92\x00\x86\x00\x0A\x01k\x1A\x01v\x12\x0C\x10\x05\x78\x01\x0A\x81\x80\x00k\x1A\x01w"
    WRITES("\x0A\x00" ODD "\x18\x01", sudolog_write_accept(0, 0, 0, TEXT(ODD), 1, 0, WIDE));
    WRITES("\x0A\x1A\x0A\x00" ODD, sudolog_write_accept(1, 0, 0, TEXT(ODD), 0, 0, WIDE));
#undef ODD
    WRITES("\x0A\x00\x12\x01x\x9A\x00\x05\x0A\x01k\x10\x00",
           sudolog_write_report(0, 0, 0, TEXT("x"), TEXT("\x9A\x00\x05\x0A\x01k\x10\x00"), 0, WIDE));
}

#define ACCEPT_OF(RUN) sudolog_write_accept(1, 0, 0, TEXT(RUN), 0, 1, WIDE)
#define REJECT_OF(RUN) sudolog_write_report(2, 0, 0, NONE, TEXT(RUN), 1, WIDE)
#define ALERT_OF(RUN) sudolog_write_report(5, 0, 0, NONE, TEXT(RUN), 1, WIDE)

static void run_is_read_first(void)
{
    REFUSES(2, ACCEPT_OF("\x12"));
    REFUSES(2, ACCEPT_OF("\x12\x06\x0A\x01k\x1A\x01v\x12\x80"));
    REFUSES(2, REJECT_OF("\x1A\x01\x0A"));
    REFUSES(2, ACCEPT_OF("\x12\x80\x80\x80\x80\x80\x80\x80\x80\x80\x02"));
    REFUSES(2, ACCEPT_OF("\x92\x80\x80\x80\x80\x80\x80\x80\x80\x02\x00"));
    REFUSES(3, ACCEPT_OF("\x12\x05"));
    REFUSES(3, ALERT_OF("\x1A\x02\x0A\x01k\x1A"));
    REFUSES(4, ACCEPT_OF("\x00"));
    REFUSES(4, ACCEPT_OF("\x12\x01\x00"));
    REFUSES(5, ACCEPT_OF("\x10\x00"));
    REFUSES(5, REJECT_OF("\x1D"));
    REFUSES(5, ALERT_OF("\x1A\x02\x08\x00"));
    REFUSES(7, ACCEPT_OF("\x12\x00"));
    REFUSES(7, REJECT_OF("\x1A\x03\x0A\x01k"));
    REFUSES(7, ALERT_OF("\x1A\x02\x10\x01"));
}

static void run_has_entries_alone(void)
{
    REFUSES(4, ACCEPT_OF(EVENT_RUN));
    REFUSES(4, REJECT_OF(ACCEPT_RUN));
    REFUSES(4, ALERT_OF(ACCEPT_RUN));
    REFUSES(4, ACCEPT_OF("\x0A\x00"));     /* the message's own fields as well */
    REFUSES(4, ACCEPT_OF("\x18\x01"));
    REFUSES(4, ACCEPT_OF("\x78\x01"));     /* and unknown ones */
    REFUSES(4, ACCEPT_OF("\x0D"));         /* at its tag: what follows isn't looked at */
    REFUSES(4, ACCEPT_OF("\x13"));         /* at one tag 4 goes before 5 */
    REFUSES(4, ACCEPT_OF("\x12\x00\x1A\x00")); /* 2 to 5 of the whole run, then 7 */
    REFUSES(5, ACCEPT_OF("\x12\x02\x08\x00\x1A\x00")); /* the leftmost place first */
    REFUSES(4, ACCEPT_OF("\x1A\x00\x12\x02\x08\x00"));
}

static void ends_of_strings(void)
{
    static const size_t falling[] = { 2, 1, 2 }, low[] = { 0, 1 }, high[] = { 1, 3 }, wild[] = { SIZE_MAX, 2 };
    REFUSES(7, sudolog_write_string_list(TEXT("ab"), ENDS(falling), 0, WIDE));
    REFUSES(7, sudolog_write_string_list(TEXT("ab"), ENDS(low), 0, WIDE));
    REFUSES(7, sudolog_write_string_list(TEXT("ab"), ENDS(high), 0, WIDE));
    REFUSES(7, sudolog_write_string_list(TEXT("ab"), ENDS(wild), 0, WIDE));
    REFUSES(7, sudolog_write_string_list(TEXT("ab"), NO_ENDS, 0, WIDE));
    REFUSES(7, sudolog_write_string_list(NONE, high, 1, 0, WIDE));
    REFUSES(7, sudolog_write_server_hello(1, NONE, NONE, TEXT("ab"), ENDS(falling), 0, 1, WIDE));
    REFUSES(7, sudolog_write_server_hello(1, NONE, NONE, TEXT("ab"), ENDS(low), 0, 1, WIDE));
    REFUSES(7, sudolog_write_server_hello(1, NONE, NONE, TEXT("ab"), NO_ENDS, 0, 1, WIDE));
    REFUSES(7, sudolog_write_entry_strings(2, TEXT("k"), TEXT("ab"), ENDS(falling), 0, WIDE));
    REFUSES(7, sudolog_write_entry_strings(2, TEXT("k"), TEXT("ab"), ENDS(high), 0, WIDE));
    REFUSES(7, sudolog_write_entry_strings(2, TEXT("k"), TEXT("ab"), NO_ENDS, 0, WIDE));
}

/* What stands in the room's place is as it was, and all beside it. */
#define WITHOUT_ROOM(ANSWER, WRITE)                                                                         \
    do {                                                                                                    \
        uint64_t written;                                                                                   \
        DATA_STAYS(written = WRITE);                                                                        \
        CHECK(written == (ANSWER) && *sudolog_lend_room(NULL) == 0);                                        \
    } while (0)

static void null_room(size_t n)
{
    WITHOUT_ROOM(0, sudolog_write_number_list(NO_NUMBERS, 0, SUDOLOG_LEND_ROOM(NULL, n)));
    WITHOUT_ROOM(0, sudolog_write_client_hello(0, NONE, 0, SUDOLOG_LEND_ROOM(NULL, n)));
    WITHOUT_ROOM(UINT64_C(12) << 32, sudolog_write_time(2, 0, 0, 0, SUDOLOG_LEND_ROOM(NULL, n)));
    WITHOUT_ROOM(UINT64_C(12) << 32, sudolog_write_io(7, 0, 0, TEXT("hi"), 1, SUDOLOG_LEND_ROOM(NULL, n)));
}

/* Each slice of each writer. */
static void null_values(size_t n)
{
#define NULL_BYTES SUDOLOG_LEND(NULL, n)
#define NULL_ENDS SUDOLOG_LEND_ENDS(NULL, n)
#define NULL_NUMBERS SUDOLOG_LEND_NUMBERS(NULL, n)
    WRITES("\x6A\x00", sudolog_write_client_hello(13, NULL_BYTES, 0, WIDE));
    WRITES("\x0A\x00", sudolog_write_accept(0, 0, 0, NULL_BYTES, 0, 0, WIDE));
    WRITES("\x0A\x00", sudolog_write_report(0, 0, 0, NULL_BYTES, NULL_BYTES, 0, WIDE));
    WRITES("\x0A\x00", sudolog_write_exit(0, 0, 0, 0, 0, NULL_BYTES, NULL_BYTES, 0, WIDE));
    REFUSES(7, sudolog_write_restart(0, NULL_BYTES, 0, 0, 0, WIDE));
    WRITES("\x0A\x00", sudolog_write_io(0, 0, 0, NULL_BYTES, 0, WIDE));
    REFUSES(7, sudolog_write_suspend(0, 0, 0, NULL_BYTES, 0, WIDE));
    WRITES("", sudolog_write_server_hello(0, NULL_BYTES, NULL_BYTES, NULL_BYTES, NULL_ENDS, 0, 0, WIDE));
    REFUSES(7, sudolog_write_server_hello(0, NULL_BYTES, NULL_BYTES, TEXT("a"), NULL_ENDS, 0, 0, WIDE));
    WRITES("\x1A\x00", sudolog_write_note(3, NULL_BYTES, 0, WIDE));
    WRITES("", sudolog_write_string_list(NULL_BYTES, NULL_ENDS, 0, WIDE));
    WRITES("", sudolog_write_number_list(NULL_NUMBERS, 0, WIDE));
    REFUSES(7, sudolog_write_entry_number(0, NULL_BYTES, 0, 0, WIDE));
    WRITES("\x0A\x01k\x1A\x00", sudolog_write_entry_string(0, TEXT("k"), NULL_BYTES, 0, WIDE));
    WRITES("\x0A\x01k\x22\x00", sudolog_write_entry_strings(0, TEXT("k"), NULL_BYTES, NULL_ENDS, 0, WIDE));
    WRITES("\x0A\x01k\x2A\x00", sudolog_write_entry_numbers(0, TEXT("k"), NULL_NUMBERS, 0, WIDE));
    WRITES("\x1A\x00", sudolog_write_note(3, SUDOLOG_LEND_TEXT(NULL, n), 0, WIDE));
    null_room(n);
}

static void null_is_lent_empty(void)
{
    size_t i;
    for (i = 0; i < sizeof lengths / sizeof lengths[0]; i++)
        null_values(lengths[i]);
}

/* What is not NULL is lent as it is. */
static void lent_as_it_is(void)
{
    static const size_t ends[] = { 1, 2 };
    static const int64_t numbers[] = { 1, 2 };
    CHECK(sudolog_lend(buffer) == buffer && sudolog_lend_room(buffer) == buffer && sudolog_lend_ends(ends) == ends);
    CHECK((const void *)sudolog_lend_numbers(numbers) == (const void *)numbers && sudolog_lent(buffer, 5) == 5);
    WRITES("\x1A\x02id", sudolog_write_note(3, SUDOLOG_LEND_STRING("id\0no"), 0, WIDE));
    WRITES("\x1A\x03id\0", sudolog_write_note(3, SUDOLOG_LEND_TEXT("id\0no", 3), 0, WIDE));
    WRITES("\x1A\x00", sudolog_write_note(3, SUDOLOG_LEND_STRING(NULL), 0, WIDE));
}

/* ---- refusals ---- */

static void members_that_are_none(void)
{
    static const uint64_t far = UINT64_C(1) << 61; /* as a tag it would be 2 */
    REFUSES(7, sudolog_write_client_hello(1, NONE, 0, WIDE));
    REFUSES(7, sudolog_write_accept(2, 0, 0, NONE, 0, 0, WIDE));
    REFUSES(7, sudolog_write_accept(far + 1, 0, 0, NONE, 0, 0, WIDE));
    REFUSES(7, sudolog_write_report(1, 0, 0, NONE, NONE, 0, WIDE));
    REFUSES(7, sudolog_write_exit(4, 0, 0, 0, 0, NONE, NONE, 0, WIDE));
    REFUSES(7, sudolog_write_restart(3, TEXT("i"), 0, 0, 0, WIDE));
    REFUSES(7, sudolog_write_io(5, 0, 0, NONE, 0, WIDE));
    REFUSES(7, sudolog_write_io(11, 0, 0, NONE, 0, WIDE));
    REFUSES(7, sudolog_write_io(UINT64_MAX, 0, 0, NONE, 0, WIDE));
    REFUSES(7, sudolog_write_window_size(12, 0, 0, 0, 0, 0, WIDE));
    REFUSES(7, sudolog_write_suspend(11, 0, 0, TEXT("x"), 0, WIDE));
    REFUSES(7, sudolog_write_server_hello(13, NONE, NONE, NONE, NO_ENDS, 0, 0, WIDE));
    REFUSES(7, sudolog_write_time(1, 0, 0, 0, WIDE));
    REFUSES(7, sudolog_write_time(3, 0, 0, 0, WIDE));
    REFUSES(7, sudolog_write_note(2, NONE, 0, WIDE));
    REFUSES(7, sudolog_write_note(6, NONE, 0, WIDE));
    REFUSES(7, sudolog_write_entry_number(1, TEXT("k"), 0, 0, WIDE));
    REFUSES(7, sudolog_write_entry_string(4, TEXT("k"), NONE, 0, WIDE));
    REFUSES(7, sudolog_write_entry_strings(1, TEXT("k"), NONE, NO_ENDS, 0, WIDE));
    REFUSES(7, sudolog_write_entry_numbers(far + 2, TEXT("k"), NO_NUMBERS, 0, WIDE));
}

#define MOST_SECONDS UINT64_C(4294967295)
#define MOST_NANOS 999999999

/* A message with a span in it, written with WRITE(seconds, nanoseconds). */
#define SPANS(WRITE)                                                                                        \
    do {                                                                                                    \
        CHECK(sudolog_written_refusal(WRITE(MOST_SECONDS, MOST_NANOS)) == 0);                               \
        REFUSES(7, WRITE(MOST_SECONDS + 1, 0));                                                             \
        REFUSES(7, WRITE(MINUS(1), 0));                                                                     \
        REFUSES(7, WRITE(0, MOST_NANOS + 1));                                                               \
        REFUSES(7, WRITE(0, MINUS(1)));                                                                     \
        REFUSES(7, WRITE(0, UINT64_C(1) << 32));                                                            \
    } while (0)
/* The same with a moment: any seconds. */
#define MOMENTS(WRITE)                                                                                      \
    do {                                                                                                    \
        CHECK(sudolog_written_refusal(WRITE(MINUS(1), MOST_NANOS)) == 0);                                   \
        CHECK(sudolog_written_refusal(WRITE(INT64_MAX, 0)) == 0);                                           \
        REFUSES(7, WRITE(0, MOST_NANOS + 1));                                                               \
        REFUSES(7, WRITE(0, MINUS(1)));                                                                     \
        REFUSES(7, WRITE(0, UINT64_C(1) << 32));                                                            \
    } while (0)

static void written_ranges_of_times(void)
{
#define ACCEPT_AT(S, NS) sudolog_write_accept(1, S, NS, NONE, 0, 0, WIDE)
#define REJECT_AT(S, NS) sudolog_write_report(0, S, NS, NONE, NONE, 0, WIDE)
#define ALERT_AT(S, NS) sudolog_write_report(5, S, NS, NONE, NONE, 0, WIDE)
#define EXIT_AT(S, NS) sudolog_write_exit(3, S, NS, 0, 0, NONE, NONE, 0, WIDE)
#define RESTART_AT(S, NS) sudolog_write_restart(0, TEXT("i"), S, NS, 0, WIDE)
#define IO_AT(S, NS) sudolog_write_io(6, S, NS, NONE, 0, WIDE)
#define WINDOW_AT(S, NS) sudolog_write_window_size(0, S, NS, 0, 0, 0, WIDE)
#define SUSPEND_AT(S, NS) sudolog_write_suspend(12, S, NS, TEXT("x"), 0, WIDE)
#define COMMIT_AT(S, NS) sudolog_write_time(2, S, NS, 0, WIDE)
    MOMENTS(ACCEPT_AT);
    MOMENTS(REJECT_AT);
    MOMENTS(ALERT_AT);
    SPANS(EXIT_AT);
    SPANS(RESTART_AT);
    SPANS(IO_AT);
    SPANS(WINDOW_AT);
    SPANS(SUSPEND_AT);
    SPANS(COMMIT_AT);
    /* a TimeSpec by itself is any int64 and any int32 */
    WRITES("\x08" MINUS_ONE "\x10" MINUS_ONE, sudolog_write_time(0, MINUS(1), MINUS(1), 0, WIDE));
    WRITES("\x10\x80\x94\xEB\xDC\x03", sudolog_write_time(0, 0, MOST_NANOS + 1, 0, WIDE));
}

/* Nanoseconds by themselves: one written form of each int32, and no other 64 bits. */
static void written_int32(void)
{
    const uint64_t end = UINT64_C(1) << 31;
    WRITES("\x08\x05\x10\xFF\xFF\xFF\xFF\x07", sudolog_write_time(0, 5, end - 1, 0, WIDE));
    REFUSES(7, sudolog_write_time(0, 5, end, 0, WIDE));
    REFUSES(7, sudolog_write_time(0, 5, 2 * end - 1, 0, WIDE));
    REFUSES(7, sudolog_write_time(0, 5, 2 * end, 0, WIDE));
    REFUSES(7, sudolog_write_time(0, 5, MINUS(end) - 1, 0, WIDE));
    WRITES("\x08\x05\x10\x80\x80\x80\x80\xF8\xFF\xFF\xFF\xFF\x01", sudolog_write_time(0, 5, MINUS(end), 0, WIDE));
    WRITES("\x08\x05\x10" MINUS_ONE, sudolog_write_time(0, 5, MINUS(1), 0, WIDE));
    WRITES("\x08\x05", sudolog_write_time(0, 5, 0, 0, WIDE));
    /* as a frame too, and before 12 */
    REFUSES(7, sudolog_write_time(0, 5, 2 * end, 1, WIDE));
    REFUSES(7, sudolog_write_time(0, 5, 2 * end, 0, buffer, 0));
    /* as commit_point nanoseconds have their own range */
    REFUSES(7, sudolog_write_time(2, 5, end - 1, 0, WIDE));
    REFUSES(7, sudolog_write_time(2, 5, MINUS(end), 0, WIDE));
}

static void written_ranges_of_the_rest(void)
{
    static const uint8_t x[4096] = { 0 };
    REFUSES(7, sudolog_write_exit(3, 0, 0, 256, 0, NONE, NONE, 0, WIDE));
    REFUSES(7, sudolog_write_exit(3, 0, 0, MINUS(1), 0, NONE, NONE, 0, WIDE));
    REFUSES(7, sudolog_write_exit(3, 0, 0, UINT64_C(1) << 32, 0, NONE, NONE, 0, WIDE));
    CHECK(sudolog_write_exit(0, 0, 0, 0, 0, x, 127, NONE, 0, WIDE) == 2 + 2 + 127);
    REFUSES(7, sudolog_write_exit(0, 0, 0, 0, 0, x, 128, NONE, 0, WIDE));
    CHECK(sudolog_write_exit(0, 0, 0, 0, 0, NONE, x, 128, 0, WIDE) == 2 + 3 + 128);
    REFUSES(7, sudolog_write_window_size(11, 0, 0, 65536, 0, 0, WIDE));
    REFUSES(7, sudolog_write_window_size(11, 0, 0, 0, 65536, 0, WIDE));
    REFUSES(7, sudolog_write_window_size(11, 0, 0, UINT64_C(1) << 32, 0, 0, WIDE));
    REFUSES(7, sudolog_write_window_size(11, 0, 0, 0, MINUS(1), 0, WIDE));
    REFUSES(7, sudolog_write_suspend(12, 0, 0, NONE, 0, WIDE));
    CHECK(sudolog_write_suspend(0, 0, 0, x, 127, 0, WIDE) == 2 + 2 + 127);
    REFUSES(7, sudolog_write_suspend(0, 0, 0, x, 128, 0, WIDE));
    REFUSES(7, sudolog_write_restart(4, NONE, 0, 0, 0, WIDE));
    CHECK(sudolog_write_restart(0, x, 4095, 0, 0, 0, WIDE) == 3 + 4095 + 2);
    REFUSES(7, sudolog_write_restart(0, x, 4096, 0, 0, 0, WIDE));
    REFUSES(7, sudolog_write_entry_number(0, NONE, 1, 0, WIDE));
    REFUSES(7, sudolog_write_entry_string(2, NONE, TEXT("v"), 0, WIDE));
    REFUSES(7, sudolog_write_entry_strings(3, NONE, NONE, NO_ENDS, 0, WIDE));
    REFUSES(7, sudolog_write_entry_numbers(2, NONE, NO_NUMBERS, 0, WIDE));
}

/* Written with exactly the room that it needs, and refused with 12 for one byte less. WRITE speaks of `room`. */
#define FITS(WRITE)                                                                                         \
    do {                                                                                                    \
        size_t room = sizeof buffer, size;                                                                  \
        size = sudolog_written_size(WRITE);                                                                 \
        CHECK(size > 0);                                                                                    \
        room = size;                                                                                        \
        fill_buffer();                                                                                      \
        CHECK((WRITE) == size && is_filled_from(size));                                                     \
        room = size - 1;                                                                                    \
        REFUSES(12, WRITE);                                                                                 \
        room = 0;                                                                                           \
        REFUSES(12, WRITE);                                                                                 \
    } while (0)

static void exact_room(void)
{
    static const size_t ends[] = { 1, 2 };
    static const int64_t numbers[] = { 300, 1 };
    uint8_t framed;
    for (framed = 0; framed < 2; framed++) {
        FITS(sudolog_write_client_hello(13, TEXT("sudo"), framed, buffer, room));
        FITS(sudolog_write_accept(1, 5, 7, TEXT(ACCEPT_RUN), 1, framed, buffer, room));
        FITS(sudolog_write_report(2, 5, 7, TEXT("no"), TEXT(EVENT_RUN), framed, buffer, room));
        FITS(sudolog_write_report(0, 5, 7, TEXT("no"), NONE, framed, buffer, room));
        FITS(sudolog_write_exit(3, 5, 7, 1, 1, TEXT("KILL"), TEXT("no"), framed, buffer, room));
        FITS(sudolog_write_restart(0, TEXT("id"), 5, 7, framed, buffer, room));
        FITS(sudolog_write_io(9, 5, 7, TEXT("data"), framed, buffer, room));
        FITS(sudolog_write_window_size(11, 5, 7, 24, 80, framed, buffer, room));
        FITS(sudolog_write_suspend(12, 5, 7, TEXT("TSTP"), framed, buffer, room));
        FITS(sudolog_write_server_hello(1, TEXT("s"), TEXT("r"), TEXT("ab"), ENDS(ends), 1, framed, buffer, room));
        FITS(sudolog_write_time(2, 5, 7, framed, buffer, room));
        FITS(sudolog_write_note(3, TEXT("id"), framed, buffer, room));
        FITS(sudolog_write_string_list(TEXT("ab"), ENDS(ends), framed, buffer, room));
        FITS(sudolog_write_number_list(SUDOLOG_LEND_NUMBERS(numbers, 2), framed, buffer, room));
        FITS(sudolog_write_entry_number(2, TEXT("k"), 300, framed, buffer, room));
        FITS(sudolog_write_entry_string(3, TEXT("k"), TEXT("v"), framed, buffer, room));
        FITS(sudolog_write_entry_strings(2, TEXT("k"), TEXT("ab"), ENDS(ends), framed, buffer, room));
        FITS(sudolog_write_entry_numbers(3, TEXT("k"), SUDOLOG_LEND_NUMBERS(numbers, 2), framed, buffer, room));
    }
}

/* Messages of 291 and 70,000 bytes: each of the frame's four bytes counts. */
static void length_of_a_frame(void)
{
    uint8_t *in = (uint8_t *)calloc(1, 70000), *out = (uint8_t *)calloc(1, 4 + 70000);
    CHECK(in != NULL && out != NULL);
    if (in != NULL && out != NULL) {
        CHECK(sudolog_write_note(3, in, 291 - 3, 1, out, 4 + 291) == 4 + 291);
        CHECK(memcmp(out, "\x00\x00\x01\x23\x1A\xA0\x02", 7) == 0);
        CHECK(sudolog_write_note(3, in, 70000 - 4, 1, out, 4 + 70000) == 4 + 70000);
        CHECK(memcmp(out, "\x00\x01\x11\x70\x1A\xEC\xA2\x04", 8) == 0);
    }
    free(in);
    free(out);
}

/* The longest message, and one byte more: 1, whatever the room. */
static void longest_messages(void)
{
    uint8_t *in = (uint8_t *)calloc(1, LARGEST), *out = (uint8_t *)calloc(1, 4 + LARGEST + 1);
    CHECK(in != NULL && out != NULL);
    if (in != NULL && out != NULL) {
        CHECK(sudolog_write_io(7, 0, 0, in, LARGEST - 10, 0, out, LARGEST) == LARGEST);
        CHECK(memcmp(out, "\x3A\xFC\xFF\x7F\x0A\x00\x12\xF6\xFF\x7F", 10) == 0);
        CHECK(sudolog_write_io(7, 0, 0, in, LARGEST - 10, 1, out, 4 + LARGEST) == 4 + LARGEST);
        CHECK(memcmp(out, "\x00\x20\x00\x00\x3A\xFC\xFF\x7F", 8) == 0);
        CHECK(cuts(out, 4 + LARGEST, SUDOLOG_FRAME_WHOLE, LARGEST));
        memset(out, 0xA5, 4 + LARGEST + 1);
        CHECK(sudolog_write_io(7, 0, 0, in, LARGEST - 10, 1, out, 4 + LARGEST - 1) == UINT64_C(12) << 32);
        CHECK(sudolog_write_io(7, 0, 0, in, LARGEST - 9, 0, out, 4 + LARGEST + 1) == UINT64_C(1) << 32);
        CHECK(is_filled(out, 4 + LARGEST + 1));
        REFUSES(1, sudolog_write_note(4, in, LARGEST - 3, 0, WIDE));
        REFUSES(12, sudolog_write_note(4, in, LARGEST - 4, 0, WIDE));
        /* an entry that is a longest message, and then an accept around it */
        CHECK(sudolog_write_entry_string(2, TEXT("k"), in, LARGEST - 11, 0, out, LARGEST) == LARGEST);
        REFUSES(1, sudolog_write_accept(0, 0, 0, out, LARGEST, 0, 0, WIDE));
        REFUSES(4, sudolog_write_report(0, 0, 0, NONE, out, LARGEST, 0, WIDE));
    }
    free(in);
    free(out);
}

/* Document 01's order: the run's 2 to 5, its 7; 7; 1; 12. Each call has all that is named after its number. */
static void refusals_in_order(void)
{
    static const size_t falling[] = { 1, 0 };
    uint8_t *in = (uint8_t *)calloc(1, LARGEST);
    CHECK(in != NULL);
    if (in == NULL)
        return;
    REFUSES(2, sudolog_write_accept(9, 0, MINUS(1), TEXT("\x12\x00\x12"), 0, 1, buffer, 0));
    REFUSES(3, sudolog_write_report(9, 0, MINUS(1), in, LARGEST, TEXT("\x1A\x00\x1A\x01"), 1, buffer, 0));
    REFUSES(4, sudolog_write_report(9, 0, MINUS(1), in, LARGEST, TEXT("\x1A\x00\x12\x00"), 1, buffer, 0));
    REFUSES(5, sudolog_write_report(9, 0, MINUS(1), in, LARGEST, TEXT("\x1A\x00\x18\x00"), 1, buffer, 0));
    REFUSES(7, sudolog_write_report(5, 0, 0, in, LARGEST, TEXT("\x1A\x00"), 1, buffer, 0));
    REFUSES(7, sudolog_write_report(2, 0, MINUS(1), in, LARGEST, NONE, 1, buffer, 0));
    REFUSES(7, sudolog_write_io(1, 0, 0, in, LARGEST, 1, buffer, 0));
    REFUSES(7, sudolog_write_server_hello(1, in, LARGEST, NONE, TEXT("a"), ENDS(falling), 0, 1, buffer, 0));
    REFUSES(1, sudolog_write_report(2, 0, 0, in, LARGEST, NONE, 1, buffer, 0));
    REFUSES(1, sudolog_write_io(7, 0, 0, in, LARGEST, 1, buffer, 0));
    REFUSES(12, sudolog_write_io(7, 0, 0, in, 10, 1, buffer, 0));
    free(in);
}

/* ---- what is written is read again ---- */

static void written_accept_reads_back(void)
{
    struct slice in = BYTES(ACCEPT_RUN);
    struct sudolog_client_message message;
    struct sudolog_accept accept;
    size_t size = sudolog_written_size(sudolog_write_accept(1, MINUS(5), 7, in.m, in.n, 1, 1, WIDE));
    CHECK(cuts(buffer, size, SUDOLOG_FRAME_WHOLE, size - 4));
    in = slice_of((const char *)buffer + 4, size - 4);
    CHECK(sudolog_read_client_message(in.m, in.n, &message) == 0 && message.member == SUDOLOG_FROM_CLIENT_ACCEPT);
    in = part(in, message.content);
    sudolog_get_accept(in.m, in.n, &accept);
    CHECK(is_time(accept.submit_time, -5, 7) && accept.expect_iobufs == true);
    check_two_entries(in, accept.entries);
}

int main(void)
{
    version();
    refusals_have_names();
    refusals_have_words();
    limits_have_names();
    short_frames();
    longest_frames();
    example_1_time();
    example_2_ttyout();
    example_4_int64();
    example_5_int32();
    example_6_commit_point();
    entry_values();
    entry_last_value_counts();
    entry_without_value();
    strings_in_order();
    numbers_in_order();
    accept_fields();
    reject_fields();
    alert_fields();
    exit_fields();
    restart_fields();
    timed_fields();
    hello_fields();
    server_members();
    client_members();
    scan_finds_delay_and_data();
    last_one_counts();
    longer_forms_are_read();
    one_byte_varints();
    one_byte_seconds();
    one_byte_lengths();
    numbers_above_the_messages();
    empty_messages();
    null_is_empty();
    each_refusal();
    nothing_written();
    leftmost_place_first();
    ranges_of_times();
    ranges_of_the_rest();
    ranges_of_lengths();
    room_too_small();
    server_numbers();
    fields_that_are_absent();
    numbers_from_bytes();
    answers_taken_apart();
    writes_the_marked_examples();
    writes_events();
    writes_ends_and_restarts();
    writes_timed_messages();
    writes_hellos_and_notes();
    writes_lists();
    writes_entries();
    writes_empty_lists_in_entries();
    flags_are_all_but_zero();
    writes_an_accept_and_a_commit_point();
    run_is_copied_unchanged();
    run_is_read_first();
    run_has_entries_alone();
    ends_of_strings();
    null_is_lent_empty();
    lent_as_it_is();
    members_that_are_none();
    written_ranges_of_times();
    written_int32();
    written_ranges_of_the_rest();
    exact_room();
    length_of_a_frame();
    longest_messages();
    refusals_in_order();
    written_accept_reads_back();
    return checked();
}
