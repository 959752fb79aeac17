/*
 * null.c: every function of the second part of include/sudolog.h that is handed a pointer with its length, where a program
 * has NULL and any length. Prints a line for each check that fails and at the end 'N passed, M failed'; exit status 1 on
 * a failure.
 *
 * Linked without the library: the functions of the library are here, look at what they are handed, and answer that all is
 * well. So a length beside NULL is seen where no answer of the library would tell of it. They touch each byte, as the
 * library may, and AddressSanitizer watches them.
 *
 * With OVER_THE_LIBRARY and the library: the same calls, and every writer; each leaves the program's data as it was,
 * and with it what stands on both sides of what is lent in the place of NULL.
 */
#include "check.h"
#include "sudolog.h"

#include <string.h>

#ifdef OVER_THE_LIBRARY
#include "data.h"

/* A call, and a getter that may hand over nothing: that of a list looks at no byte yet. */
#define HANDS_OVER(CALL) DATA_STAYS((void)CALL)
#define GETS(CALL) DATA_STAYS(CALL)

#else

/* ---- the functions that the second part calls ---- */

static unsigned slices; /* that were handed over since it was set to 0 */

/* The bytes of a slice, the first thousand of many. */
static uint8_t touch(const uint8_t *m, size_t n)
{
    uint8_t all = 0;
    size_t i;
    for (i = 0; i < n && i < 1000; i++)
        all |= m[i];
    return all;
}

static uint8_t look(const uint8_t *m, size_t n)
{
    slices++;
    CHECK(m != NULL && n == 0);
    return touch(m, n);
}

/* Room is written to. */
static uint8_t look_at_room(uint8_t *m, size_t n)
{
    look(m, n);
    memset(m, 0xA5, n < 1000 ? n : 1000);
    return 0;
}

uint8_t sudolog_frame_state(const uint8_t *s, size_t n)
{
    return look(s, n);
}

uint64_t sudolog_frame_count(const uint8_t *s, size_t n)
{
    return look(s, n);
}

uint8_t sudolog_decode(uint8_t message, const uint8_t *s, size_t n)
{
    (void)message;
    return look(s, n);
}

uint8_t sudolog_read(uint8_t message, const uint8_t *s, size_t n)
{
    (void)message;
    return look(s, n);
}

/* Of an entry a number and of a ServerMessage a commit point, so that their values are asked for. */
uint64_t sudolog_member(uint8_t message, const uint8_t *s, size_t n)
{
    (void)message;
    return look(s, n) + 2u;
}

uint64_t sudolog_number(uint64_t field, const uint8_t *s, size_t n)
{
    (void)field;
    return look(s, n);
}

uint64_t sudolog_offset(uint64_t field, const uint8_t *s, size_t n)
{
    (void)field;
    return look(s, n);
}

uint64_t sudolog_length(uint64_t field, const uint8_t *s, size_t n)
{
    (void)field;
    return look(s, n);
}

/* An empty element, so that its length is asked for. */
uint64_t sudolog_next_offset(uint64_t field, const uint8_t *s, size_t n, size_t at)
{
    (void)field;
    return look(s, n) + at;
}

uint64_t sudolog_next_length(uint64_t field, const uint8_t *s, size_t n, size_t at)
{
    (void)field;
    (void)at;
    return look(s, n);
}

uint8_t sudolog_next_number(const uint8_t *s, size_t n, size_t at, size_t end, uint8_t *out, size_t room)
{
    (void)at;
    (void)end;
    memset(out, 0, room);
    return look(s, n);
}

uint8_t sudolog_client(const uint8_t *s, size_t n, uint8_t *out, size_t room)
{
    memset(out, 0, room);
    return look(s, n);
}

/* A commit point, so that its values are asked for. */
uint8_t sudolog_server(const uint8_t *s, size_t n, uint8_t *out, size_t room)
{
    memset(out, 0, room);
    out[7] = SUDOLOG_FROM_SERVER_COMMIT_POINT;
    return look(s, n);
}

uint8_t sudolog_session_message(uint8_t *session, size_t session_n, const uint8_t *message, size_t n, uint8_t *area,
                                size_t area_n, size_t used, uint8_t *out, size_t room)
{
    memset(session, 0, session_n);
    memset(out, 0, room);
    (void)used;
    return look(message, n) | look_at_room(area, area_n);
}

/* A record, so that its numbers are taken. */
uint8_t sudolog_next_record(const uint8_t *area, size_t area_n, size_t used, size_t at, uint8_t *out, size_t room)
{
    (void)used;
    (void)at;
    memset(out, 0, room);
    return (uint8_t)(look(area, area_n) + 1u);
}

/* A call that hands over slices, all of them empty. */
#define HANDS_OVER(CALL)                                                                                    \
    do {                                                                                                    \
        slices = 0;                                                                                         \
        CALL;                                                                                               \
        CHECK(slices > 0);                                                                                  \
    } while (0)
#define GETS(CALL) CALL

#endif

/* ---- the calls ---- */

#define READERS(NAME)                                                                                       \
    do {                                                                                                    \
        struct sudolog_##NAME out;                                                                          \
        GETS(sudolog_get_##NAME(NULL, n, &out));                                                            \
        HANDS_OVER(sudolog_decode_##NAME(NULL, n, &out));                                                   \
        HANDS_OVER(sudolog_read_##NAME(NULL, n, &out));                                                     \
    } while (0)

static void read_null(size_t n)
{
    struct sudolog_client_scan scan;
    size_t count;
    READERS(client_message);
    READERS(server_message);
    READERS(accept);
    READERS(reject);
    READERS(exit);
    READERS(restart);
    READERS(alert);
    READERS(io_buffer);
    READERS(window_size);
    READERS(suspend);
    READERS(client_hello);
    READERS(server_hello);
    READERS(entry);
    READERS(string_list);
    READERS(number_list);
    READERS(time);
    HANDS_OVER(sudolog_scan_client(NULL, n, &scan));
    HANDS_OVER(sudolog_cut_frame(NULL, n, &count));
}

static void get_fields_of_null(size_t n)
{
    HANDS_OVER(sudolog_field_span(1, NULL, n));
    HANDS_OVER(sudolog_field_int64(1, NULL, n));
    HANDS_OVER(sudolog_field_int32(1, NULL, n));
    HANDS_OVER(sudolog_field_flag(1, NULL, n));
    HANDS_OVER(sudolog_field_time(1, NULL, n));
    CHECK(sudolog_field_parts(1, NULL, n).m != NULL && sudolog_field_parts(1, NULL, n).n == 0);
}

/* Lists of a NULL message. */
static void walk_lists_of_null(size_t n)
{
    struct sudolog_accept accept;
    struct sudolog_reject reject;
    struct sudolog_alert alert;
    struct sudolog_server_hello hello;
    struct sudolog_string_list strings;
    struct sudolog_number_list numbers;
    struct sudolog_entry entry;
    struct sudolog_span span;
    int64_t number;
    sudolog_get_accept(NULL, n, &accept);
    sudolog_get_reject(NULL, n, &reject);
    sudolog_get_alert(NULL, n, &alert);
    sudolog_get_server_hello(NULL, n, &hello);
    sudolog_get_string_list(NULL, n, &strings);
    sudolog_get_number_list(NULL, n, &numbers);
    HANDS_OVER(sudolog_next_entry(&accept.entries, &entry));
    HANDS_OVER(sudolog_next_entry(&reject.entries, &entry));
    HANDS_OVER(sudolog_next_entry(&alert.entries, &entry));
    HANDS_OVER(sudolog_next_string(&hello.servers, &span));
    HANDS_OVER(sudolog_next_string(&strings, &span));
    HANDS_OVER(sudolog_next_int64(&numbers, &number));
}

/* Lists that hold NULL themselves. */
static void walk_null(size_t n)
{
    struct sudolog_parts parts = { NULL, n, 0, 1 };
    struct sudolog_string_list strings;
    struct sudolog_entry_list entries;
    struct sudolog_number_list numbers = { NULL, n, 0, 0 };
    struct sudolog_entry entry;
    struct sudolog_span span;
    int64_t number;
    strings.parts = parts;
    entries.parts = parts;
    HANDS_OVER(sudolog_next_part(&parts, &span));
    HANDS_OVER(sudolog_next_string(&strings, &span));
    HANDS_OVER(sudolog_next_entry(&entries, &entry));
    HANDS_OVER(sudolog_next_int64(&numbers, &number));
}

/* Files at NULL, and stored data. */
static void walk_files_of_null(size_t n)
{
    struct sudolog_records left = sudolog_records_of(NULL, n, n), holds_null = { NULL, n, n, 0 };
    struct sudolog_time time = { 0, 0 };
    struct sudolog_record record;
    struct sudolog_exit ended;
    struct sudolog_window_size size;
    CHECK(left.area != NULL && left.area_n == 0 && left.used == n && left.at == 0);
    HANDS_OVER(sudolog_walk_records(&left, &record));
    HANDS_OVER(sudolog_walk_records(&holds_null, &record));
    CHECK(!sudolog_get_stored_exit(NULL, n, time, &ended));
    CHECK(!sudolog_get_stored_window_size(NULL, n, time, &size));
}

#ifdef OVER_THE_LIBRARY

/* Every writer, with NULL for each of its slices and for its room. */
static void lend_null(size_t n)
{
#define BYTES SUDOLOG_LEND(NULL, n)
#define KEY SUDOLOG_LEND_STRING("k")
#define ENDS SUDOLOG_LEND_ENDS(NULL, n)
#define NUMBERS SUDOLOG_LEND_NUMBERS(NULL, n)
#define ROOM SUDOLOG_LEND_ROOM(NULL, n)
    HANDS_OVER(sudolog_write_client_hello(13, SUDOLOG_LEND_TEXT(NULL, n), 1, ROOM));
    HANDS_OVER(sudolog_write_accept(1, 5, 0, BYTES, 1, 1, ROOM));
    HANDS_OVER(sudolog_write_report(2, 5, 0, BYTES, BYTES, 1, ROOM));
    HANDS_OVER(sudolog_write_exit(3, 5, 0, 1, 1, BYTES, SUDOLOG_LEND_STRING(NULL), 1, ROOM));
    HANDS_OVER(sudolog_write_restart(4, BYTES, 5, 0, 1, ROOM));
    HANDS_OVER(sudolog_write_io(7, 5, 0, BYTES, 1, ROOM));
    HANDS_OVER(sudolog_write_window_size(11, 5, 0, 24, 80, 1, ROOM));
    HANDS_OVER(sudolog_write_suspend(12, 5, 0, BYTES, 1, ROOM));
    HANDS_OVER(sudolog_write_server_hello(1, BYTES, BYTES, BYTES, ENDS, 1, 1, ROOM));
    HANDS_OVER(sudolog_write_time(2, 5, 0, 1, ROOM));
    HANDS_OVER(sudolog_write_note(3, BYTES, 1, ROOM));
    HANDS_OVER(sudolog_write_string_list(BYTES, ENDS, 1, ROOM));
    HANDS_OVER(sudolog_write_number_list(NUMBERS, 1, ROOM));
    HANDS_OVER(sudolog_write_entry_number(2, KEY, 5, 1, ROOM));
    HANDS_OVER(sudolog_write_entry_string(2, KEY, BYTES, 1, ROOM));
    HANDS_OVER(sudolog_write_entry_strings(2, KEY, BYTES, ENDS, 1, ROOM));
    HANDS_OVER(sudolog_write_entry_numbers(2, KEY, NUMBERS, 1, ROOM));
}

/* The calls for stored files: with files at NULL, then with none but room at NULL. */
static void lend_null_as_file(size_t n)
{
    static const uint8_t one[] = { 0x10, 0, 0, 0, 0, 0, 0, 0, 0, 0, 1, 'A' }, other[] = { 0x10, 0, 0, 0, 0, 0, 0, 0, 0, 0, 0 };
    HANDS_OVER(sudolog_compare_files(BYTES, 0, BYTES, 0, ROOM));
    HANDS_OVER(sudolog_compare_files(BYTES, n, BYTES, n, ROOM));
    HANDS_OVER(sudolog_count_records(BYTES, n));
    HANDS_OVER(sudolog_next_record(BYTES, n, 0, ROOM));
    HANDS_OVER(sudolog_escape(BYTES, ROOM));
    HANDS_OVER(sudolog_compare_files(one, sizeof one, sizeof one, other, sizeof other, sizeof other, ROOM));
    HANDS_OVER(sudolog_next_record(one, sizeof one, sizeof one, 0, ROOM));
    HANDS_OVER(sudolog_escape(KEY, ROOM));
}

/* Messages that a session would store, over an area that could not be had: an accept with I/O, then, in logging, a ttyout. */
static void store_in_null(size_t n)
{
    static const char *const keys[] = { "command", "runuser", "submithost", "submituser" };
    struct sudolog_session session = sudolog_new_session(), logging = session;
    struct sudolog_answer answer;
    uint8_t run[128], message[256], area[256];
    size_t run_n = 0, message_n = 0, i;
    for (i = 0; i < 4; i++)
        CHECK(sudolog_add_written(sudolog_write_entry_string(2, SUDOLOG_LEND_STRING(keys[i]), SUDOLOG_LEND_STRING("x"), 0,
                                                             run + run_n, sizeof run - run_n),
                                  &run_n)
              == 0);
    CHECK(sudolog_add_written(sudolog_write_accept(1, 5, 0, run, run_n, 1, 0, message, sizeof message), &message_n) == 0);
    HANDS_OVER(sudolog_take_message(&session, message, message_n, NULL, n, 0, &answer));
    CHECK(answer.refusal == SUDOLOG_NO_ROOM && answer.used == 0);
    CHECK(sudolog_take_message(&logging, message, message_n, area, sizeof area, 0, &answer) == 0);
    message_n = 0;
    CHECK(sudolog_add_written(sudolog_write_io(7, 5, 0, KEY, 0, message, sizeof message), &message_n) == 0);
    HANDS_OVER(sudolog_take_message(&logging, message, message_n, NULL, n, answer.used, &answer));
    CHECK(answer.refusal == SUDOLOG_NO_VALID_FILE);
}

#else

/* What goes to a writer, or to a call of the first part. */
static void lend_null(size_t n)
{
    HANDS_OVER(look(SUDOLOG_LEND(NULL, n)));
    HANDS_OVER(look(SUDOLOG_LEND_TEXT(NULL, n)));
    HANDS_OVER(look(SUDOLOG_LEND_STRING(NULL)));
    HANDS_OVER(look_at_room(SUDOLOG_LEND_ROOM(NULL, n)));
    CHECK(sudolog_lend_ends(NULL) != NULL && *sudolog_lend_ends(NULL) == 0 && sudolog_lent(NULL, n) == 0);
    CHECK(sudolog_lend_numbers(NULL) != NULL && *sudolog_lend_numbers(NULL) == 0);
#define LENGTH_OF(POINTER, LENGTH) ((void)(POINTER), (LENGTH))
#define LENGTH_IN(LENT) LENGTH_OF(LENT)
    CHECK(LENGTH_IN(SUDOLOG_LEND_ENDS(NULL, n)) == 0 && LENGTH_IN(SUDOLOG_LEND_NUMBERS(NULL, n)) == 0);
}

#endif

/* A NULL message over a NULL area, in a session that is new. */
static void take_null(size_t n)
{
    struct sudolog_session session;
    struct sudolog_answer answer;
    memset(&session, 0, sizeof session);
    HANDS_OVER(sudolog_take_message(&session, NULL, n, NULL, n, 0, &answer));
    CHECK(*sudolog_lend_room(NULL) == 0);
}

int main(void)
{
    static const size_t lengths[] = { 0, 1, 40, 4096, 2097153, SIZE_MAX };
    size_t i;
    for (i = 0; i < sizeof lengths / sizeof lengths[0]; i++) {
        read_null(lengths[i]);
        get_fields_of_null(lengths[i]);
        walk_lists_of_null(lengths[i]);
        walk_null(lengths[i]);
        walk_files_of_null(lengths[i]);
        lend_null(lengths[i]);
        take_null(lengths[i]);
#ifdef OVER_THE_LIBRARY
        lend_null_as_file(lengths[i]);
        store_in_null(lengths[i]);
#endif
    }
    return checked();
}
