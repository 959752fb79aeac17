/*
 * driver.c: include/sudolog.h, called by lines, its results as lines, so that tests in other languages reach the
 * library through C.
 *
 * A request is a line of words, the bytes in hex; its answer is a line of JSON in the shape of the
 * vector files (a refusal is {"refused":n}, a value {"value":..}):
 *
 *   frame HEX         sudolog_cut_frame: {"frame":n}, {"wait":n} or {"refused":1}
 *   decode NAME HEX   sudolog_decode_..: NAME as in sudo_logsrv.proto
 *   read NAME HEX     sudolog_read_..
 *   scan HEX          sudolog_scan_client: answered as decode ClientMessage
 *
 *   write NAME MEMBER FRAMED ROOM ARGUMENT...
 *                     sudolog_write_NAME, its arguments in the header's order: a slice is one word of hex, a
 *                     number is decimal and may have a sign, a list is numbers with a comma between two;
 *                     the empty slice and the empty list are the empty word. Answered by {"written":HEX};
 *                     it is called twice, over different bytes, and "touched":true is added where a byte
 *                     beyond those written was changed, "differs":true where the two answers do.
 *
 * driver_sessions.c has the requests about areas, sessions and files, driver_files.c those about the records of files.
 */
#define _DEFAULT_SOURCE
#include "driver.h"
#include "sudolog.h"

#include <inttypes.h>
#include <stdio.h>
#include <stdlib.h>
#include <string.h>

/* ---- values as JSON ---- */

static void put_name(const char *before, const char *name)
{
    printf("%s\"%s\":", before, name);
}

static void put_bytes(const uint8_t *m, struct sudolog_span span)
{
    size_t i;
    putchar('"');
    for (i = 0; i < span.length; i++) {
        putchar("0123456789abcdef"[m[span.offset + i] >> 4]);
        putchar("0123456789abcdef"[m[span.offset + i] & 15]);
    }
    putchar('"');
}

static void put_flag(bool flag)
{
    fputs(flag ? "true" : "false", stdout);
}

static void put_time(const uint8_t *m, const struct sudolog_time *v)
{
    (void)m;
    printf("[%" PRId64 ",%" PRId32 "]", v->seconds, v->nanoseconds);
}

static void put_string_list(const uint8_t *m, const struct sudolog_string_list *v)
{
    struct sudolog_string_list left = *v;
    struct sudolog_span string;
    const char *before = "";
    putchar('[');
    while (sudolog_next_string(&left, &string)) {
        fputs(before, stdout);
        put_bytes(m, string);
        before = ",";
    }
    putchar(']');
}

static void put_number_list(const uint8_t *m, const struct sudolog_number_list *v)
{
    struct sudolog_number_list left = *v;
    int64_t number;
    const char *before = "";
    (void)m;
    putchar('[');
    while (sudolog_next_int64(&left, &number)) {
        printf("%s%" PRId64, before, number);
        before = ",";
    }
    putchar(']');
}

/* Of each message NAME: show_NAME prints a slice that was read already, answer_NAME reads one, with the
 * ranges or without, and prints what it says. Both over put_NAME, which prints the struct. */
#define SHOWN(NAME)                                                                                         \
    static void show_##NAME(const uint8_t *m, size_t n)                                                     \
    {                                                                                                       \
        struct sudolog_##NAME v;                                                                            \
        sudolog_get_##NAME(m, n, &v);                                                                       \
        put_##NAME(m, &v);                                                                                  \
    }
#define ANSWERED(NAME)                                                                                      \
    static int answer_##NAME(bool ranges, const uint8_t *m, size_t n)                                       \
    {                                                                                                       \
        struct sudolog_##NAME v;                                                                            \
        int refusal = ranges ? sudolog_read_##NAME(m, n, &v) : sudolog_decode_##NAME(m, n, &v);             \
        if (refusal == 0) {                                                                                 \
            put_name("{", "value");                                                                         \
            put_##NAME(m, &v);                                                                              \
        }                                                                                                   \
        return refusal;                                                                                     \
    }

SHOWN(string_list)
SHOWN(number_list)

static void put_entry_value(const uint8_t *m, const struct sudolog_entry *v)
{
    const uint8_t *value = m + v->value.offset;
    printf("[%d,", v->kind);
    switch (v->kind) {
    case SUDOLOG_VALUE_NUMBER: printf("%" PRId64, v->number); break;
    case SUDOLOG_VALUE_STRING: put_bytes(m, v->value); break;
    case SUDOLOG_VALUE_STRINGS: show_string_list(value, v->value.length); break;
    case SUDOLOG_VALUE_NUMBERS: show_number_list(value, v->value.length); break;
    }
    putchar(']');
}

static void put_entry(const uint8_t *m, const struct sudolog_entry *v)
{
    put_name("{", "key");
    put_bytes(m, v->key);
    put_name(",", "value");
    if (v->kind == SUDOLOG_VALUE_NONE)
        fputs("null", stdout);
    else
        put_entry_value(m, v);
    putchar('}');
}

static void put_entries(const uint8_t *m, const struct sudolog_entry_list *v)
{
    struct sudolog_entry_list left = *v;
    struct sudolog_entry entry;
    const char *before = "";
    put_name(",", "info_msgs");
    putchar('[');
    while (sudolog_next_entry(&left, &entry)) {
        fputs(before, stdout);
        put_entry(m, &entry);
        before = ",";
    }
    putchar(']');
}

static void put_accept(const uint8_t *m, const struct sudolog_accept *v)
{
    put_name("{", "submit_time");
    put_time(m, &v->submit_time);
    put_entries(m, &v->entries);
    put_name(",", "expect_iobufs");
    put_flag(v->expect_iobufs);
    putchar('}');
}

/* A reject and an alert differ in the name of their time alone. */
static void put_event(const char *name, const struct sudolog_time *moment, const uint8_t *m,
                      struct sudolog_span reason, const struct sudolog_entry_list *entries)
{
    put_name("{", name);
    put_time(m, moment);
    put_name(",", "reason");
    put_bytes(m, reason);
    put_entries(m, entries);
    putchar('}');
}

static void put_reject(const uint8_t *m, const struct sudolog_reject *v)
{
    put_event("submit_time", &v->submit_time, m, v->reason, &v->entries);
}

static void put_alert(const uint8_t *m, const struct sudolog_alert *v)
{
    put_event("alert_time", &v->alert_time, m, v->reason, &v->entries);
}

static void put_exit(const uint8_t *m, const struct sudolog_exit *v)
{
    put_name("{", "run_time");
    put_time(m, &v->run_time);
    printf(",\"exit_value\":%" PRId32, v->exit_value);
    put_name(",", "dumped_core");
    put_flag(v->dumped_core);
    put_name(",", "signal");
    put_bytes(m, v->signal);
    put_name(",", "error");
    put_bytes(m, v->error);
    putchar('}');
}

static void put_restart(const uint8_t *m, const struct sudolog_restart *v)
{
    put_name("{", "log_id");
    put_bytes(m, v->log_id);
    put_name(",", "resume_point");
    put_time(m, &v->resume_point);
    putchar('}');
}

/* An I/O buffer and a suspend event differ in the name of their bytes alone. */
static void put_delayed(const uint8_t *m, const struct sudolog_time *delay, const char *name,
                        struct sudolog_span bytes)
{
    put_name("{", "delay");
    put_time(m, delay);
    put_name(",", name);
    put_bytes(m, bytes);
    putchar('}');
}

static void put_io_buffer(const uint8_t *m, const struct sudolog_io_buffer *v)
{
    put_delayed(m, &v->delay, "data", v->data);
}

static void put_suspend(const uint8_t *m, const struct sudolog_suspend *v)
{
    put_delayed(m, &v->delay, "signal", v->signal);
}

static void put_window_size(const uint8_t *m, const struct sudolog_window_size *v)
{
    put_name("{", "delay");
    put_time(m, &v->delay);
    printf(",\"rows\":%" PRId32 ",\"cols\":%" PRId32 "}", v->rows, v->cols);
}

static void put_client_hello(const uint8_t *m, const struct sudolog_client_hello *v)
{
    put_name("{", "client_id");
    put_bytes(m, v->client_id);
    putchar('}');
}

static void put_server_hello(const uint8_t *m, const struct sudolog_server_hello *v)
{
    put_name("{", "server_id");
    put_bytes(m, v->server_id);
    put_name(",", "redirect");
    put_bytes(m, v->redirect);
    put_name(",", "servers");
    put_string_list(m, &v->servers);
    put_name(",", "subcommands");
    put_flag(v->subcommands);
    putchar('}');
}

SHOWN(accept)
SHOWN(reject)
SHOWN(exit)
SHOWN(restart)
SHOWN(alert)
SHOWN(io_buffer)
SHOWN(window_size)
SHOWN(suspend)
SHOWN(client_hello)
SHOWN(server_hello)

static void put_client_member(int member, const uint8_t *m, struct sudolog_span content)
{
    static void (*const show[])(const uint8_t *, size_t) = {
        [SUDOLOG_FROM_CLIENT_ACCEPT] = show_accept,
        [SUDOLOG_FROM_CLIENT_REJECT] = show_reject,
        [SUDOLOG_FROM_CLIENT_EXIT] = show_exit,
        [SUDOLOG_FROM_CLIENT_RESTART] = show_restart,
        [SUDOLOG_FROM_CLIENT_ALERT] = show_alert,
        [SUDOLOG_FROM_CLIENT_TTYIN] = show_io_buffer,
        [SUDOLOG_FROM_CLIENT_TTYOUT] = show_io_buffer,
        [SUDOLOG_FROM_CLIENT_STDIN] = show_io_buffer,
        [SUDOLOG_FROM_CLIENT_STDOUT] = show_io_buffer,
        [SUDOLOG_FROM_CLIENT_STDERR] = show_io_buffer,
        [SUDOLOG_FROM_CLIENT_WINDOW_SIZE] = show_window_size,
        [SUDOLOG_FROM_CLIENT_SUSPEND] = show_suspend,
        [SUDOLOG_FROM_CLIENT_HELLO] = show_client_hello,
    };
    printf("{\"type\":[%d,", member);
    if (member >= 1 && member <= SUDOLOG_FROM_CLIENT_HELLO)
        show[member](m + content.offset, content.length);
    fputs("]}", stdout);
}

static void put_client_message(const uint8_t *m, const struct sudolog_client_message *v)
{
    put_client_member(v->member, m, v->content);
}

static void put_server_message(const uint8_t *m, const struct sudolog_server_message *v)
{
    printf("{\"type\":[%d,", v->member);
    if (v->member == SUDOLOG_FROM_SERVER_HELLO)
        show_server_hello(m + v->content.offset, v->content.length);
    else if (v->member == SUDOLOG_FROM_SERVER_COMMIT_POINT)
        put_time(m, &v->commit_point);
    else
        put_bytes(m, v->content);
    fputs("]}", stdout);
}

ANSWERED(time)
ANSWERED(string_list)
ANSWERED(number_list)
ANSWERED(entry)
ANSWERED(accept)
ANSWERED(reject)
ANSWERED(exit)
ANSWERED(restart)
ANSWERED(alert)
ANSWERED(io_buffer)
ANSWERED(window_size)
ANSWERED(suspend)
ANSWERED(client_hello)
ANSWERED(server_hello)
ANSWERED(client_message)
ANSWERED(server_message)

/* ---- requests ---- */

static const struct {
    const char *name;
    int (*answer)(bool ranges, const uint8_t *m, size_t n);
} messages[] = {
    { "ClientMessage", answer_client_message },
    { "ServerMessage", answer_server_message },
    { "AcceptMessage", answer_accept },
    { "RejectMessage", answer_reject },
    { "ExitMessage", answer_exit },
    { "RestartMessage", answer_restart },
    { "AlertMessage", answer_alert },
    { "IoBuffer", answer_io_buffer },
    { "ChangeWindowSize", answer_window_size },
    { "CommandSuspend", answer_suspend },
    { "ClientHello", answer_client_hello },
    { "ServerHello", answer_server_hello },
    { "InfoMessage", answer_entry },
    { "StringList", answer_string_list },
    { "NumberList", answer_number_list },
    { "TimeSpec", answer_time },
};

void *memory(size_t n)
{
    void *m = malloc(n);
    if (m == NULL)
        exit(2);
    return m;
}

static void end_answer(int refusal)
{
    if (refusal != 0)
        printf("{\"refused\":%d", refusal);
    fputs("}\n", stdout);
}

static bool answer_frame(struct bytes in)
{
    size_t count;
    switch (sudolog_cut_frame(in.m, in.n, &count)) {
    case SUDOLOG_FRAME_WHOLE: printf("{\"frame\":%zu", count); break;
    case SUDOLOG_FRAME_WAIT: printf("{\"wait\":%zu", count); break;
    case SUDOLOG_FRAME_REFUSED: printf("{\"refused\":1"); break;
    }
    end_answer(0);
    return true;
}

static bool answer_message(const char *name, bool ranges, struct bytes in)
{
    size_t i;
    for (i = 0; i < sizeof messages / sizeof messages[0]; i++)
        if (strcmp(name, messages[i].name) == 0) {
            end_answer(messages[i].answer(ranges, in.m, in.n));
            return true;
        }
    return false;
}

static void put_scan(const uint8_t *m, const struct sudolog_client_scan *v)
{
    if (v->member >= SUDOLOG_FROM_CLIENT_TTYIN && v->member <= SUDOLOG_FROM_CLIENT_STDERR) {
        struct sudolog_io_buffer io = { .delay = v->delay, .data = v->content };
        printf("{\"type\":[%d,", v->member);
        put_io_buffer(m, &io);
        fputs("]}", stdout);
    } else {
        put_client_member(v->member, m, v->content);
    }
}

static bool answer_scan(struct bytes in)
{
    struct sudolog_client_scan scan;
    int refusal = sudolog_scan_client(in.m, in.n, &scan);
    if (refusal == 0) {
        put_name("{", "value");
        put_scan(in.m, &scan);
    }
    end_answer(refusal);
    return true;
}

static unsigned digit(char c)
{
    return (unsigned)(c <= '9' ? c - '0' : c - 'a' + 10);
}

/* Each request's bytes get memory of exactly their size, so that a memory checker sees a read beyond. */
struct bytes from_hex(const char *hex)
{
    struct bytes out = { NULL, strlen(hex) / 2 };
    size_t i;
    if (out.n == 0)
        return out;
    out.m = memory(out.n);
    for (i = 0; i < out.n; i++)
        out.m[i] = (uint8_t)(digit(hex[2 * i]) << 4 | digit(hex[2 * i + 1]));
    return out;
}

/* ---- requests to write ---- */

#define PLACE g->framed, g->out, g->room
#define NUMBER(I) g->number[I]
#define FLAG(I) (uint8_t)g->number[I]
#define SLICE(I) SUDOLOG_LEND(g->slice[I].m, g->slice[I].n)
#define ENDS SUDOLOG_LEND_ENDS(g->list.ends, g->list.n)
#define NUMBERS SUDOLOG_LEND_NUMBERS(g->list.numbers, g->list.n)
#define WRITER(NAME, ...)                                                                                   \
    static uint64_t write_##NAME(const struct given *g)                                                     \
    {                                                                                                       \
        return sudolog_write_##NAME(g->member, __VA_ARGS__, PLACE);                                         \
    }

WRITER(client_hello, SLICE(0))
WRITER(accept, NUMBER(0), NUMBER(1), SLICE(0), FLAG(2))
WRITER(report, NUMBER(0), NUMBER(1), SLICE(0), SLICE(1))
WRITER(exit, NUMBER(0), NUMBER(1), NUMBER(2), FLAG(3), SLICE(0), SLICE(1))
WRITER(restart, SLICE(0), NUMBER(0), NUMBER(1))
WRITER(io, NUMBER(0), NUMBER(1), SLICE(0))
WRITER(window_size, NUMBER(0), NUMBER(1), NUMBER(2), NUMBER(3))
WRITER(suspend, NUMBER(0), NUMBER(1), SLICE(0))
WRITER(server_hello, SLICE(0), SLICE(1), SLICE(2), ENDS, FLAG(0))
WRITER(time, NUMBER(0), NUMBER(1))
WRITER(note, SLICE(0))

/* These two are no member of any message. */
static uint64_t write_string_list(const struct given *g)
{
    return sudolog_write_string_list(SLICE(0), ENDS, PLACE);
}

static uint64_t write_number_list(const struct given *g)
{
    return sudolog_write_number_list(NUMBERS, PLACE);
}

WRITER(entry_number, SLICE(0), NUMBER(0))
WRITER(entry_string, SLICE(0), SLICE(1))
WRITER(entry_strings, SLICE(0), SLICE(1), ENDS)
WRITER(entry_numbers, SLICE(0), NUMBERS)

/* A writer's arguments in their order: n a number or flag, s a slice, l a list. */
static const struct {
    const char *name;
    const char *takes;
    uint64_t (*write)(const struct given *g);
} writers[] = {
    { "client_hello", "s", write_client_hello },
    { "accept", "nnsn", write_accept },
    { "reject", "nnss", write_report },
    { "alert", "nnss", write_report },
    { "exit", "nnnnss", write_exit },
    { "restart", "snn", write_restart },
    { "io", "nns", write_io },
    { "window_size", "nnnn", write_window_size },
    { "suspend", "nns", write_suspend },
    { "server_hello", "sssln", write_server_hello },
    { "time", "nn", write_time },
    { "note", "s", write_note },
    { "string_list", "sl", write_string_list },
    { "number_list", "l", write_number_list },
    { "entry_number", "sn", write_entry_number },
    { "entry_string", "ss", write_entry_string },
    { "entry_strings", "ssl", write_entry_strings },
    { "entry_numbers", "sl", write_entry_numbers },
};

/* -1 is the 64 bits of -1. */
uint64_t from_decimal(const char *word)
{
    return word[0] == '-' ? -strtoull(word + 1, NULL, 10) : strtoull(word, NULL, 10);
}

static struct list from_list(char *word)
{
    struct list out = { NULL, NULL, 0 };
    const char *c;
    size_t i;
    if (word[0] == '\0')
        return out;
    for (c = word, out.n = 1; *c != '\0'; c++)
        out.n += *c == ',';
    out.numbers = memory(out.n * sizeof *out.numbers);
    out.ends = memory(out.n * sizeof *out.ends);
    for (i = 0; i < out.n; i++) {
        uint64_t number = from_decimal(strsep(&word, ","));
        out.numbers[i] = sudolog_int64(number);
        out.ends[i] = (size_t)number;
    }
    return out;
}

/* The arguments in `words`; false where there are more or fewer than the writer takes. */
static bool from_words(struct given *g, const char *takes, char *words)
{
    size_t numbers = 0, slices = 0;
    for (; *takes != '\0'; takes++) {
        char *word = strsep(&words, " ");
        if (word == NULL)
            return false;
        switch (*takes) {
        case 'n': g->number[numbers++] = from_decimal(word); break;
        case 's': g->slice[slices++] = from_hex(word); break;
        case 'l': g->list = from_list(word); break;
        }
    }
    return words == NULL;
}

static void free_given(struct given *g)
{
    size_t i;
    for (i = 0; i < sizeof g->slice / sizeof g->slice[0]; i++)
        free(g->slice[i].m);
    free(g->list.numbers);
    free(g->list.ends);
}

/* Bytes before and behind the room, in which nothing may be written either. */
enum { FENCE = 32 };

/* What one call returned, and the buffer that it was lent, fences included. */
struct outcome {
    uint64_t written;
    uint8_t *buffer;
    bool touched; /* a byte was changed beyond the size that it returned */
};

static bool is_filled(const uint8_t *m, size_t n, uint8_t fill)
{
    size_t i;
    for (i = 0; i < n; i++)
        if (m[i] != fill)
            return false;
    return true;
}

static struct outcome written_over(uint8_t fill, uint64_t (*write)(const struct given *), struct given *g)
{
    size_t n = FENCE + g->room + FENCE, end;
    struct outcome out;
    out.buffer = memory(n);
    memset(out.buffer, fill, n);
    g->out = out.buffer + FENCE;
    out.written = write(g);
    end = FENCE + sudolog_written_size(out.written);
    out.touched = !is_filled(out.buffer, FENCE, fill) || end > n || !is_filled(out.buffer + end, n - end, fill);
    return out;
}

static void put_written(const uint8_t *room_start, size_t room, uint64_t written)
{
    struct sudolog_span all = { 0, sudolog_written_size(written) };
    if (sudolog_written_refusal(written) == 0 && all.length <= room) {
        put_name("{", "written");
        put_bytes(room_start, all);
        return;
    }
    printf("{\"refused\":%d", sudolog_written_refusal(written));
    if (all.length != 0) /* a refusal with a size, or a size beyond the room */
        printf(",\"size\":%zu", all.length);
}

/* Writes twice, over two fills that differ in every bit, so that no byte is written unseen. */
void answer_written(uint64_t (*write)(const struct given *), struct given *g)
{
    struct outcome one = written_over(0xA5, write, g), other = written_over(0x5A, write, g);
    size_t size = sudolog_written_size(one.written);
    put_written(one.buffer + FENCE, g->room, one.written);
    if (one.touched || other.touched)
        fputs(",\"touched\":true", stdout);
    if (one.written != other.written || (size <= g->room && memcmp(one.buffer + FENCE, other.buffer + FENCE, size) != 0))
        fputs(",\"differs\":true", stdout);
    free(one.buffer);
    free(other.buffer);
    end_answer(0);
}

static bool answer_write(char *words)
{
    struct given g;
    const char *name = strsep(&words, " "), *member = strsep(&words, " ");
    const char *framed = strsep(&words, " "), *room = strsep(&words, " ");
    bool known = false;
    size_t i;
    if (room == NULL)
        return false;
    memset(&g, 0, sizeof g);
    g.member = from_decimal(member);
    g.framed = (uint8_t)from_decimal(framed);
    g.room = (size_t)from_decimal(room);
    for (i = 0; i < sizeof writers / sizeof writers[0]; i++)
        if (strcmp(name, writers[i].name) == 0 && from_words(&g, writers[i].takes, words)) {
            answer_written(writers[i].write, &g);
            known = true;
        }
    free_given(&g);
    return known;
}

static bool answer_slice(const char *ask, const char *name, struct bytes in)
{
    if (strcmp(ask, "decode") == 0 || strcmp(ask, "read") == 0)
        return answer_message(name, strcmp(ask, "read") == 0, in);
    if (strcmp(ask, "frame") == 0)
        return answer_frame(in);
    return strcmp(ask, "scan") == 0 && answer_scan(in);
}

static bool answer_line(char *line)
{
    const char *ask = strsep(&line, " ");
    bool named = strcmp(ask, "decode") == 0 || strcmp(ask, "read") == 0;
    const char *name;
    struct bytes in;
    bool known;
    if (strcmp(ask, "write") == 0)
        return answer_write(line);
    if (answer_session(ask, line) || answer_records(ask, line))
        return true;
    name = named ? strsep(&line, " ") : "";
    in = from_hex(line != NULL ? line : "");
    known = answer_slice(ask, name, in);
    free(in.m);
    return known;
}

int main(void)
{
    char *line = NULL;
    size_t room = 0;
    ssize_t length;
    while ((length = getline(&line, &room, stdin)) > 0) {
        line[strcspn(line, "\n")] = '\0';
        if (!answer_line(line)) {
            fprintf(stderr, "driver: unknown request\n");
            return 2;
        }
        fflush(stdout);
    }
    free(line);
    return 0;
}
