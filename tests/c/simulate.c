/*
 * simulate.c: demand 3's lists, run by the library. A sender with a recording, a line that breaks at any byte, a host
 * that cuts frames and hands whole messages to a session, ticks, answers that arrive or are lost. After every list
 * each area's used bytes have to be the recording's first n records, n being the book's count; every whole restart
 * is taken exactly when the file carries no exit.
 *
 * usage: simulate [--lists N] [--seed S] [--every-byte] [--fault NAME]
 *
 *   --lists N      how many random lists (20000)
 *   --seed S       where they begin (1)
 *   --every-byte   also, for 40 recordings, one break at each byte of the stream, resumed
 *   --fault NAME   a world with a fault, which the comparison has to find: tick-total (a tick gives the present
 *                  total), break-keeps (a break keeps the bytes of a frame cut in part), resend-from (the sender
 *                  resends from T on, not past it), book-goes-on (the book counts on after the exit)
 *
 * Last line: 'N passed, M failed'; exit status 1 on a failure. The records are packed here by hand, not by the library.
 */
#include "sudolog.h"

#include <stdio.h>
#include <stdlib.h>
#include <string.h>

enum { RECORDS = 24, AREAS = 64, SIZE = 4096, LINE = 8192, ANSWERS = 256, FRAME = 600 };
enum fault { NO_FAULT, TICK_TOTAL, BREAK_KEEPS, RESEND_FROM, BOOK_GOES_ON };

static enum fault fault;
static uint64_t state;

/* A number below n. */
static uint64_t below(uint64_t n)
{
    state ^= state << 13;
    state ^= state >> 7;
    state ^= state << 17;
    return (state >> 11) % n;
}

/* ---- a recording: message 0 is the accept, the last one the exit ---- */

struct recording {
    size_t n;                         /* how many records */
    uint8_t message[RECORDS][FRAME];  /* the ClientMessage of each */
    size_t message_n[RECORDS];
    uint64_t total[RECORDS];          /* the total after each, in nanoseconds */
    uint8_t file[RECORDS * FRAME];    /* the records one after the other, as document 01 packs them */
    size_t end[RECORDS + 1];          /* end[n]: where the first n records end */
};

static void add_record(struct recording *r, unsigned kind, uint64_t seconds, uint64_t nanos, const uint8_t *m, size_t n)
{
    uint8_t *at = r->file + r->end[r->n];
    unsigned __int128 header = (unsigned __int128)kind << 84 | (unsigned __int128)seconds << 52
                               | (unsigned __int128)nanos << 22 | n;
    int i;
    for (i = 10; i >= 0; i--, header >>= 8)
        at[i] = (uint8_t)header;
    memcpy(at + 11, m, n);
    r->n++;
    r->end[r->n] = r->end[r->n - 1] + 11 + n;
}

static void wrote(struct recording *r, uint64_t written)
{
    if (sudolog_written_refusal(written) != 0)
        abort();
    r->message_n[r->n] = sudolog_written_size(written);
}

static void add_accept(struct recording *r)
{
    static const char *const keys[] = { "command", "runuser", "submithost", "submituser" };
    uint8_t run[256], value[8];
    size_t run_n = 0, i, j;
    for (i = 0; i < 4; i++) {
        for (j = 0; j < sizeof value; j++)
            value[j] = (uint8_t)('a' + below(26));
        if (sudolog_add_written(sudolog_write_entry_string(SUDOLOG_ENTRY_OF_ACCEPT, SUDOLOG_LEND_STRING(keys[i]),
                                                           value, below(sizeof value), 0, run + run_n,
                                                           sizeof run - run_n),
                                &run_n)
            != 0)
            abort();
    }
    wrote(r, sudolog_write_accept(SUDOLOG_FROM_CLIENT_ACCEPT, below(1u << 31), below(1000000000), run, run_n, 1, 0,
                                  r->message[0], FRAME));
    /* the AcceptMessage stands behind the member's tag and length of two or three bytes */
    i = r->message_n[0] < 130 ? 2 : 3;
    r->total[0] = 0;
    add_record(r, 1, 0, 0, r->message[0] + i, r->message_n[0] - i);
}

/* Delays are small, so that totals meet often, and often zero. */
static void add_timed(struct recording *r)
{
    uint64_t seconds = below(3) == 0 ? below(3) : 0, nanos = below(2) == 0 ? below(3) : 0;
    uint8_t bytes[48], *m = r->message[r->n];
    size_t n = below(sizeof bytes), i;
    unsigned kind = 6 + (unsigned)below(7);
    for (i = 0; i < n; i++)
        bytes[i] = (uint8_t)below(256);
    if (kind == 11) {
        uint64_t rows = below(65536), cols = below(65536);
        wrote(r, sudolog_write_window_size(kind, seconds, nanos, rows, cols, 0, m, FRAME));
        bytes[0] = (uint8_t)(rows >> 8), bytes[1] = (uint8_t)rows;
        bytes[2] = (uint8_t)(cols >> 8), bytes[3] = (uint8_t)cols;
        n = 4;
    } else if (kind == 12) {
        n = 1 + below(6);
        wrote(r, sudolog_write_suspend(kind, seconds, nanos, SUDOLOG_LEND_TEXT("TSTP12", n), 0, m, FRAME));
        memcpy(bytes, "TSTP12", n);
    } else {
        wrote(r, sudolog_write_io(kind, seconds, nanos, bytes, n, 0, m, FRAME));
    }
    r->total[r->n] = r->total[r->n - 1] + seconds * 1000000000 + nanos;
    add_record(r, kind, seconds, nanos, bytes, n);
}

static void add_exit(struct recording *r)
{
    uint64_t seconds = below(100), nanos = below(1000000000), value = below(256), core = below(2);
    uint8_t bytes[16];
    size_t signal = below(4), error = below(6);
    wrote(r, sudolog_write_exit(SUDOLOG_FROM_CLIENT_EXIT, seconds, nanos, value, (uint8_t)core,
                                SUDOLOG_LEND_TEXT("HUP", signal), SUDOLOG_LEND_TEXT("wrong", error), 0, r->message[r->n],
                                FRAME));
    bytes[0] = (uint8_t)value;
    bytes[1] = (uint8_t)(core << 7 | signal);
    memcpy(bytes + 2, "HUP", signal);
    memcpy(bytes + 2 + signal, "wrong", error);
    r->total[r->n] = r->total[r->n - 1];
    add_record(r, 3, seconds, nanos, bytes, 2 + signal + error);
}

static void make_recording(struct recording *r)
{
    size_t timed = below(RECORDS - 2);
    r->n = 0;
    r->end[0] = 0;
    add_accept(r);
    while (timed-- > 0)
        add_timed(r);
    add_exit(r);
}

/* How many records, the exit apart, have a total of at most t. */
static size_t up_to(const struct recording *r, uint64_t t)
{
    size_t n = 0;
    while (n < r->n - 1 && r->total[n] <= t)
        n++;
    return n;
}

/* ---- the world ---- */

struct answer {
    enum { TICK, MESSAGE } to;
    int refusal;
    bool has_point;
    uint64_t point;
};

struct world {
    const struct recording *recording;
    uint8_t area[AREAS][SIZE];
    size_t used[AREAS];
    size_t book[AREAS];
    bool stopped;                /* the sender has stopped */
    bool has_latest;             /* the latest commit point that it received, and its area */
    uint64_t latest;
    size_t latest_area;
    bool connected;
    size_t current;              /* the connection's area */
    struct sudolog_session session;
    uint8_t line[LINE];          /* lined up by the sender */
    size_t line_at, line_n;
    uint8_t part[LINE];          /* at the host, a frame cut in part */
    size_t part_n;
    struct answer answers[ANSWERS];
    size_t answers_at, answers_n;
    size_t wrong;                /* whole restarts that were not taken as they should */
};

static uint64_t nanoseconds(struct sudolog_time time)
{
    return (uint64_t)time.seconds * 1000000000 + (uint64_t)time.nanoseconds;
}

static void answer(struct world *w, struct answer a)
{
    if (w->answers_n == ANSWERS)
        abort();
    w->answers[w->answers_n++] = a;
}

static void line_up(struct world *w, const uint8_t *m, size_t n)
{
    uint8_t *at = w->line + w->line_n;
    at[0] = 0, at[1] = 0, at[2] = (uint8_t)(n >> 8), at[3] = (uint8_t)n;
    memcpy(at + 4, m, n);
    w->line_n += 4 + n;
}

static void line_up_restart(struct world *w)
{
    uint8_t m[64];
    uint64_t written = sudolog_write_restart(SUDOLOG_FROM_CLIENT_RESTART, SUDOLOG_LEND_STRING("log"),
                                             w->latest / 1000000000, w->latest % 1000000000, 0, m, sizeof m);
    line_up(w, m, sudolog_written_size(written));
}

static void opening(struct world *w)
{
    const struct recording *r = w->recording;
    size_t next = 0;
    if (w->connected || w->stopped)
        return;
    w->connected = true;
    w->session = sudolog_new_session();
    w->line_at = w->line_n = w->answers_at = w->answers_n = 0;
    if (below(2) == 0)
        line_up(w, (const uint8_t *)"\x6A\x03\x0A\x01\x68", 5); /* a hello of the client "h" */
    if (w->has_latest) {
        w->current = w->latest_area;
        line_up_restart(w);
        next = up_to(r, w->latest);
        while (fault == RESEND_FROM && next > 1 && r->total[next - 1] == w->latest)
            next--;
    } else {
        /* a fresh area, whatever was lined up for it before */
        for (w->current = 0; w->used[w->current] != 0; w->current++)
            if (w->current == AREAS - 1)
                abort();
    }
    for (; next < r->n; next++)
        line_up(w, r->message[next], r->message_n[next]);
}

/* The book: "Once the exit is counted n stays." */
static void count(struct world *w, const uint8_t *m, size_t n)
{
    const struct recording *r = w->recording;
    uint64_t member = sudolog_member(SUDOLOG_CLIENT_MESSAGE, m, n);
    struct sudolog_restart restart;
    size_t *book = &w->book[w->current];
    if (*book == r->n && fault != BOOK_GOES_ON)
        return;
    if (member == SUDOLOG_FROM_CLIENT_HELLO)
        return;
    if (member == SUDOLOG_FROM_CLIENT_RESTART) {
        sudolog_get_restart(m + 2, n - 2, &restart);
        *book = up_to(r, nanoseconds(restart.resume_point));
        return;
    }
    *book += 1;
}

static void whole_message(struct world *w, const uint8_t *m, size_t n)
{
    size_t a = w->current;
    bool carried = sudolog_check_file(w->area[a], SIZE, w->used[a]) == SUDOLOG_FILE_FINISHED;
    struct sudolog_answer given;
    struct answer out;
    int refusal = sudolog_take_message(&w->session, m, n, w->area[a], SIZE, w->used[a], &given);
    w->used[a] = given.used;
    if (sudolog_member(SUDOLOG_CLIENT_MESSAGE, m, n) == SUDOLOG_FROM_CLIENT_RESTART && (refusal == 0) == carried)
        w->wrong++;
    count(w, m, n);
    out.to = MESSAGE;
    out.refusal = refusal;
    out.has_point = given.has_point;
    out.point = nanoseconds(given.point);
    answer(w, out);
}

static void bytes(struct world *w, size_t k)
{
    size_t done = 0, length;
    if (!w->connected)
        return;
    if (k > w->line_n - w->line_at)
        k = w->line_n - w->line_at;
    memcpy(w->part + w->part_n, w->line + w->line_at, k);
    w->part_n += k;
    w->line_at += k;
    while (sudolog_cut_frame(w->part + done, w->part_n - done, &length) == SUDOLOG_FRAME_WHOLE) {
        whole_message(w, w->part + done + 4, length);
        done += 4 + length;
    }
    memmove(w->part, w->part + done, w->part_n - done);
    w->part_n -= done;
}

static void tick(struct world *w)
{
    struct sudolog_time point;
    struct answer a = { TICK, 0, true, 0 };
    if (!w->connected || !sudolog_tick(&w->session, &point))
        return;
    a.point = fault == TICK_TOTAL ? sudolog_big_endian(w->session.bytes + 16) : nanoseconds(point);
    answer(w, a);
}

static void arrival(struct world *w)
{
    struct answer a;
    if (!w->connected || w->answers_at == w->answers_n)
        return;
    a = w->answers[w->answers_at++];
    if (a.to == TICK) {
        w->has_latest = true;
        w->latest = a.point;
        w->latest_area = w->current;
    } else if (a.has_point || a.refusal == 13) {
        w->stopped = true;
    }
}

static void all_arrive(struct world *w)
{
    while (w->connected && w->answers_at < w->answers_n)
        arrival(w);
}

static void break_line(struct world *w)
{
    w->connected = false;
    if (fault != BREAK_KEEPS)
        w->part_n = 0;
}

/* ---- lists ---- */

static struct recording recording;
static struct world world;
static unsigned long passed, failed;

static void begin(struct world *w)
{
    size_t a;
    make_recording(&recording);
    memset(w, 0, sizeof *w);
    for (a = 0; a < AREAS; a++)
        memset(w->area[a], (int)below(256), SIZE); /* fresh is a used length of 0, whatever bytes stand there */
    w->recording = &recording;
}

static bool holds(const struct world *w)
{
    const struct recording *r = w->recording;
    size_t a;
    if (w->wrong != 0)
        return false;
    for (a = 0; a < AREAS; a++) {
        if (w->book[a] > r->n || w->used[a] != r->end[w->book[a]])
            return false;
        if (memcmp(w->area[a], r->file, w->used[a]) != 0)
            return false;
        if ((sudolog_check_file(w->area[a], SIZE, w->used[a]) == SUDOLOG_FILE_FINISHED) != (w->book[a] == r->n))
            return false;
    }
    return true;
}

static void judge(const struct world *w, unsigned long list)
{
    if (holds(w)) {
        passed++;
        return;
    }
    failed++;
    if (fault == NO_FAULT)
        printf("simulate: list %lu: an area is not the recording's first n records, or a restart was taken wrongly\n", list);
}

static void any_event(struct world *w)
{
    switch (below(16)) {
    case 0: break_line(w); break;
    case 1: opening(w); break;
    case 2: opening(w); break;
    case 3: tick(w); break;
    case 4: tick(w); break;
    case 5: arrival(w); break;
    case 6: all_arrive(w); break; /* every message is answered, so a tick's answer has many before it */
    case 7: bytes(w, 1); break;
    default: bytes(w, below(120)); break;
    }
}

static void random_list(unsigned long list)
{
    size_t events = 20 + below(200);
    begin(&world);
    while (events-- > 0)
        any_event(&world);
    judge(&world, list);
}

/* The sender's way to a finished file: it opens, all its bytes come, the answers arrive. */
static void go_on_to_the_end(struct world *w)
{
    int tries;
    for (tries = 0; tries < 8 && !w->stopped; tries++) {
        opening(w);
        bytes(w, LINE);
        all_arrive(w);
        break_line(w);
    }
}

/* One break at the byte k, after a tick whose answer arrives; then to the end: the sender has to come to its stop. */
static void break_at(size_t k, uint64_t seed)
{
    state = seed;
    begin(&world);
    opening(&world);
    bytes(&world, k);
    tick(&world);
    all_arrive(&world);
    break_line(&world);
    judge(&world, (unsigned long)k);
    go_on_to_the_end(&world);
    judge(&world, (unsigned long)k);
    if (!world.stopped) {
        failed++;
        printf("simulate: a break at byte %zu: the sender does not come to its end\n", k);
    }
}

static void every_byte(uint64_t seed)
{
    size_t r, k, length;
    for (r = 1; r <= 40; r++) {
        state = seed + r * 7919;
        begin(&world);
        opening(&world);
        length = world.line_n;
        for (k = 0; k <= length; k++)
            break_at(k, seed + r * 7919);
    }
}

static bool named(const char *word, const char *name, const char *value, unsigned long *number)
{
    if (strcmp(word, name) != 0 || value == NULL)
        return false;
    *number = strtoul(value, NULL, 10);
    return true;
}

static bool fault_named(const char *name)
{
    static const char *const names[] = { "none", "tick-total", "break-keeps", "resend-from", "book-goes-on" };
    size_t i;
    for (i = 1; i < sizeof names / sizeof names[0]; i++)
        if (strcmp(name, names[i]) == 0)
            fault = (enum fault)i;
    return fault != NO_FAULT;
}

int main(int argc, char **argv)
{
    unsigned long lists = 20000, seed = 1, list;
    bool every = false;
    int i;
    for (i = 1; i < argc; i++) {
        if (strcmp(argv[i], "--every-byte") == 0) {
            every = true;
        } else if (named(argv[i], "--lists", argv[i + 1], &lists) || named(argv[i], "--seed", argv[i + 1], &seed)) {
            i++;
        } else if (strcmp(argv[i], "--fault") == 0 && argv[i + 1] != NULL && fault_named(argv[i + 1])) {
            i++;
        } else {
            fprintf(stderr, "usage: simulate [--lists N] [--seed S] [--every-byte] [--fault NAME]\n");
            return 2;
        }
    }
    for (list = 0; list < lists; list++) {
        state = (seed * 1000003 + list) * 2654435761u + 88172645463325252u;
        random_list(list);
    }
    if (every)
        every_byte(seed * 104729 + 17);
    printf("%lu passed, %lu failed\n", passed, failed);
    return failed != 0;
}
