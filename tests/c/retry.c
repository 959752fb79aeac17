/*
 * retry.c: a client whose line breaks, and the host of host.c.
 *
 *   retry [STREAM...]
 *
 * Wherever the line breaks, and however its bytes come in pieces: the client resumes at the latest commit point that
 * it received, and its file is at the end byte for byte that of an unbroken run, so it holds every record once. A
 * restart of another client that is refused does not cut its line. Each STREAM, a recorded client, is run in the same
 * way. Prints what is stored where the customer's collector failed, a line for each check that fails, and at the end
 * 'N passed, M failed'; exit status 1 on a failure.
 */
#include "check.h"
#include "host.h"

#include <stdio.h>
#include <stdlib.h>
#include <string.h>

/* ==== the client ==== */

enum { FRAMES = 65536, MESSAGES = 1024, SECOND = 1000000000 };

static void give_up(const char *why, const char *what)
{
    fprintf(stderr, "retry: %s%s\n", why, what);
    exit(1);
}

/* What a client has to send: frames of an accept with I/O, timed records and an exit, and the total of each. */
struct recording {
    uint8_t frames[FRAMES];
    size_t ends[MESSAGES];
    uint64_t totals[MESSAGES]; /* in nanoseconds; the exit's is the whole recording's */
    size_t count;
};

/* A client, and what it knows: its log id and the latest commit point that came. */
struct client {
    const struct recording *recording;
    char log_id[64];
    bool has_point;
    uint64_t point;
    bool done;
    uint8_t line[FRAMES + 256]; /* what it sends on this connection: */
    size_t greeting;            /* a hello and perhaps a restart, */
    size_t lined_up;            /* then messages of the recording */
};

static uint64_t nanoseconds(struct sudolog_time time)
{
    return (uint64_t)time.seconds * SECOND + (uint64_t)time.nanoseconds;
}

static uint8_t *frame_room(struct recording *r)
{
    return r->frames + (r->count == 0 ? 0 : r->ends[r->count - 1]);
}

static void add_frame(struct recording *r, size_t n, uint64_t delay)
{
    size_t start = (size_t)(frame_room(r) - r->frames);
    if (r->count == MESSAGES || n > FRAMES - start)
        give_up("recording too long", "");
    r->ends[r->count] = start + n;
    r->totals[r->count] = delay + (r->count == 0 ? 0 : r->totals[r->count - 1]);
    r->count++;
}

static void add_written(struct recording *r, uint64_t written, uint64_t delay)
{
    CHECK(sudolog_written_refusal(written) == 0);
    add_frame(r, sudolog_written_size(written), delay);
}

static void add_entry(uint8_t *run, size_t room, size_t *n, const char *key, const char *value)
{
    CHECK(sudolog_add_written(sudolog_write_entry_string(SUDOLOG_ENTRY_OF_ACCEPT, SUDOLOG_LEND_STRING(key),
                                                         SUDOLOG_LEND_STRING(value), false, run + *n, room - *n),
                              n)
          == 0);
}

/* The command's words: "vi", "page". */
static void add_words(uint8_t *run, size_t room, size_t *n)
{
    static const size_t ends[] = { 2, 6 };
    CHECK(sudolog_add_written(sudolog_write_entry_strings(SUDOLOG_ENTRY_OF_ACCEPT, SUDOLOG_LEND_STRING("runargv"),
                                                          SUDOLOG_LEND_STRING("vipage"), ends, 2, false, run + *n,
                                                          room - *n),
                              n)
          == 0);
}

static void add_accept(struct recording *r)
{
    uint8_t run[256];
    size_t n = 0;
    add_entry(run, sizeof run, &n, "command", "/usr/bin/vi");
    add_words(run, sizeof run, &n);
    add_entry(run, sizeof run, &n, "runuser", "root");
    add_entry(run, sizeof run, &n, "submithost", "press1");
    add_entry(run, sizeof run, &n, "submituser", "ann");
    add_written(r, sudolog_write_accept(SUDOLOG_FROM_CLIENT_ACCEPT, 1700000000, 0, run, n, true, true, frame_room(r),
                                        512),
                0);
}

static void add_output(struct recording *r, uint64_t seconds, const char *text)
{
    add_written(r, sudolog_write_io(SUDOLOG_FROM_CLIENT_TTYOUT, seconds, 0, SUDOLOG_LEND_STRING(text), true,
                                    frame_room(r), 512),
                seconds * SECOND);
}

static void add_exit(struct recording *r, uint64_t seconds)
{
    add_written(r, sudolog_write_exit(SUDOLOG_FROM_CLIENT_EXIT, seconds, 0, 0, false, SUDOLOG_LEND_STRING(NULL),
                                      SUDOLOG_LEND_STRING(NULL), true, frame_room(r), 512),
                0);
}

/* The customer's case: delays 1, 0, 0, 2, 1. */
static void make_recording(struct recording *r)
{
    r->count = 0;
    add_accept(r);
    add_output(r, 1, "A1");
    add_output(r, 0, "B2");
    add_output(r, 0, "C3");
    add_output(r, 2, "D4");
    add_output(r, 1, "E5");
    add_exit(r, 4);
}

/* A timed record's delay; 0 of other messages. */
static uint64_t delay_in(const uint8_t *m, size_t n)
{
    struct sudolog_client_message message;
    struct sudolog_io_buffer io; /* its delay is field 1, as a window size's and a suspend's */
    if (sudolog_read_client_message(m, n, &message) != 0)
        give_up("a message that is refused", "");
    if (message.member < SUDOLOG_FROM_CLIENT_TTYIN || message.member > SUDOLOG_FROM_CLIENT_SUSPEND)
        return 0;
    sudolog_get_io_buffer(m + message.content.offset, message.content.length, &io);
    return nanoseconds(io.delay);
}

/* The recording in a stream of a hello, an accept with I/O, timed records and an exit. */
static void read_recording(struct recording *r, const char *path)
{
    static uint8_t stream[FRAMES];
    FILE *file = fopen(path, "rb");
    size_t n, count, at = 0;
    if (file == NULL)
        give_up("can't open ", path);
    n = fread(stream, 1, sizeof stream, file);
    fclose(file);
    r->count = 0;
    if (sudolog_cut_frame(stream, n, &count) == SUDOLOG_FRAME_WHOLE)
        at = 4 + count; /* the client sends a hello of its own */
    while (sudolog_cut_frame(stream + at, n - at, &count) == SUDOLOG_FRAME_WHOLE) {
        memcpy(frame_room(r), stream + at, 4 + count);
        add_frame(r, 4 + count, delay_in(stream + at + 4, count));
        at += 4 + count;
    }
    if (at != n || n == sizeof stream || r->count < 2)
        give_up("no recording: ", path);
}

/* Where the messages begin that follow a point: all records with a greater total, and the exit. */
static size_t start_after(const struct recording *r, uint64_t point)
{
    size_t k = 0;
    while (k + 2 < r->count && r->totals[k + 1] <= point)
        k++;
    return r->ends[k];
}

static void open_client(struct client *client, const struct recording *r)
{
    client->recording = r;
    client->log_id[0] = '\0';
    client->has_point = false;
    client->point = 0;
    client->done = false;
    client->greeting = 0;
    client->lined_up = 0;
}

/* What the client sends on a new connection: everything, or a restart at its latest point and all that follows it. */
static void line_up(struct client *client)
{
    const struct recording *r = client->recording;
    struct sudolog_time point = sudolog_time_of(client->point);
    size_t n = 0, from = 0, end = r->ends[r->count - 1];
    CHECK(sudolog_add_written(sudolog_write_client_hello(SUDOLOG_FROM_CLIENT_HELLO, SUDOLOG_LEND_STRING("client"), true,
                                                         client->line, 128),
                              &n)
          == 0);
    if (client->has_point) {
        CHECK(sudolog_add_written(sudolog_write_restart(SUDOLOG_FROM_CLIENT_RESTART, SUDOLOG_LEND_STRING(client->log_id),
                                                        (uint64_t)point.seconds, (uint64_t)point.nanoseconds, true,
                                                        client->line + n, 128),
                                  &n)
              == 0);
        from = start_after(r, client->point);
    }
    memcpy(client->line + n, r->frames + from, end - from);
    client->greeting = n;
    client->lined_up = n + end - from;
}

/* An answer of the host. The client stops at its exit's point, which no tick gives, or at the refusal "finished". */
static void hear(struct client *client, const uint8_t *m, size_t n)
{
    const struct recording *r = client->recording;
    struct sudolog_server_message message;
    CHECK(sudolog_read_server_message(m, n, &message) == 0);
    if (message.member == SUDOLOG_FROM_SERVER_LOG_ID) {
        snprintf(client->log_id, sizeof client->log_id, "%.*s", (int)message.content.length,
                 (const char *)m + message.content.offset);
    } else if (message.member == SUDOLOG_FROM_SERVER_COMMIT_POINT) {
        client->has_point = true;
        client->point = nanoseconds(message.commit_point);
        client->done = client->point == r->totals[r->count - 1];
    } else if (message.member == SUDOLOG_FROM_SERVER_ERROR) {
        const char *finished = sudolog_refusal_text(SUDOLOG_FINISHED_FILE);
        client->done = message.content.length == strlen(finished)
                       && memcmp(m + message.content.offset, finished, message.content.length) == 0;
        CHECK(client->done); /* no other refusal meets this client */
    }
}

/* The oldest answer under way comes to the client; false where there is none. */
static bool arrive(struct client *client, struct connection *c)
{
    size_t count;
    if (sudolog_cut_frame(c->answers, c->answered, &count) != SUDOLOG_FRAME_WHOLE)
        return false;
    hear(client, c->answers + 4, count);
    c->answered -= 4 + count;
    memmove(c->answers, c->answers + 4 + count, c->answered);
    return true;
}

static void arrive_all(struct client *client, struct connection *c)
{
    while (arrive(client, c))
        continue;
}

/* ==== what is checked ==== */

static const size_t NEVER = SIZE_MAX; /* no break */

static struct host host;
static struct client client;
static struct connection old_line, new_line;

/* Below a limit; the same numbers in every run. */
static size_t some_number(size_t limit)
{
    static uint64_t seed = 1;
    seed = seed * 6364136223846793005u + 1442695040888963407u;
    return (size_t)(seed >> 33) % limit;
}

/* How many of the bytes left come at once: a piece, or any number for piece 0. */
static size_t next_piece(size_t piece, size_t left)
{
    size_t n = piece != 0 ? piece : 1 + some_number(64);
    return n < left ? n : left;
}

/* Whether something happens now: always with a fixed piece, one time in two otherwise. */
static bool happens(size_t piece)
{
    return piece != 0 || some_number(2) == 0;
}

/* One connection, until all is said or the line breaks after `limit` bytes. What is under way then is lost: bytes of
 * a frame that was not whole, and answers. */
static void run_line(size_t piece, size_t limit)
{
    struct connection *c = &new_line;
    size_t at = 0, n, end;
    line_up(&client);
    end = limit < client.lined_up ? limit : client.lined_up;
    open_connection(c, &host);
    while (c->open && at < end) {
        while (happens(piece) && arrive(&client, c))
            continue;
        n = next_piece(piece, end - at);
        receive(c, client.line + at, n);
        at += n;
        if (happens(piece))
            tick(c);
    }
    if (limit == NEVER)
        arrive_all(&client, c);
    hang_up(c);
}

static void start_over(const struct recording *r)
{
    open_host(&host);
    open_client(&client, r);
}

static struct file *clients_file(void)
{
    struct file *file = file_of(&host, SUDOLOG_LEND_STRING(client.log_id));
    if (file == NULL)
        give_up("the client has no file", "");
    return file;
}

/* The client's file is the whole one; a file that it began without ever hearing of a point is a beginning of it. */
static void check_files(const struct file *whole)
{
    const struct file *mine = clients_file();
    size_t k;
    CHECK(client.done);
    CHECK(mine->used == whole->used && memcmp(mine->area, whole->area, whole->used) == 0);
    CHECK(sudolog_check_file(mine->area, AREA, mine->used) == SUDOLOG_FILE_FINISHED);
    for (k = 0; k < FILES; k++)
        CHECK(host.files[k].used <= whole->used && memcmp(host.files[k].area, whole->area, host.files[k].used) == 0);
}

/* A stored record: docs/FORMAT.md. */
struct record {
    int kind;
    uint64_t delay; /* in nanoseconds */
    const uint8_t *data;
    size_t n;
};

/* The record at a place of a valid file, and the place of the next one. */
static size_t read_record(const struct file *file, size_t at, struct record *out)
{
    const uint8_t *h = file->area + at;
    uint64_t high = sudolog_big_endian(h);
    uint64_t seconds = high >> 28 & 0xFFFFFFFF, nanos = (high & 0xFFFFFFF) << 2 | h[8] >> 6;
    out->kind = (int)(high >> 60);
    out->delay = seconds * SECOND + nanos;
    out->n = (size_t)(h[8] & 63) << 16 | (size_t)h[9] << 8 | h[10];
    out->data = h + 11;
    return at + 11 + out->n;
}

/* The file of an unbroken run holds a record for each message. */
static void make_whole(const struct recording *r, struct file *whole)
{
    struct record record;
    size_t at = 0, count = 0;
    start_over(r);
    run_line(4096, NEVER);
    CHECK(client.done);
    *whole = *clients_file();
    CHECK(sudolog_check_file(whole->area, AREA, whole->used) == SUDOLOG_FILE_FINISHED);
    for (; at < whole->used; count++)
        at = read_record(whole, at, &record);
    CHECK(at == whole->used && count == r->count);
}

/* However the bytes come in pieces, the file is the same. */
static void test_pieces(const struct recording *r, const struct file *whole)
{
    static const size_t pieces[] = { 1, 2, 3, 5, 64, 1000, FRAMES };
    size_t k;
    for (k = 0; k < sizeof pieces / sizeof pieces[0]; k++) {
        start_over(r);
        run_line(pieces[k], NEVER);
        check_files(whole);
    }
}

/* The line breaks at each byte, the last one included: then the exit is stored and its point lost. */
static void test_each_break(const struct recording *r, const struct file *whole)
{
    size_t limit, length;
    start_over(r);
    line_up(&client);
    length = client.lined_up;
    for (limit = 0; limit <= length; limit++) {
        start_over(r);
        run_line(17, limit);
        CHECK(!client.done);
        run_line(17, NEVER);
        check_files(whole);
    }
}

/* Breaks, pieces, ticks and arrivals as they fall. */
static void test_many_breaks(const struct recording *r, const struct file *whole)
{
    int run, breaks;
    for (run = 0; run < 1000; run++) {
        start_over(r);
        for (breaks = 0; breaks < 10 && !client.done; breaks++)
            run_line(0, some_number(r->ends[r->count - 1] + 64));
        if (!client.done)
            run_line(0, NEVER);
        check_files(whole);
    }
}

/* The client is back while its old connection still stands. The host hangs that one up: bytes that come late on it
 * are not handed to a session. */
static void test_late_bytes(const struct recording *r, const struct file *whole)
{
    enum { LATE = 5 };
    uint8_t late[LATE];
    start_over(r);
    line_up(&client);
    memcpy(late, client.line + client.lined_up - LATE, LATE);
    open_connection(&old_line, &host);
    receive(&old_line, client.line, client.lined_up - LATE);
    tick(&old_line);
    arrive_all(&client, &old_line);
    line_up(&client);
    open_connection(&new_line, &host);
    receive(&new_line, client.line, client.greeting);
    CHECK(new_line.open && old_line.open == !client.has_point); /* without a point it begins in another file */
    receive(&old_line, late, LATE);
    receive(&new_line, client.line + client.greeting, client.lined_up - client.greeting);
    arrive_all(&client, &new_line);
    check_files(whole);
}

static bool ends_with_error(const struct connection *c, int refusal)
{
    uint8_t note[128];
    size_t n = 0;
    CHECK(sudolog_add_written(sudolog_write_note(SUDOLOG_FROM_SERVER_ERROR,
                                                 SUDOLOG_LEND_STRING(sudolog_refusal_text(refusal)), true, note,
                                                 sizeof note),
                              &n)
          == 0);
    return c->answered >= n && memcmp(c->answers + c->answered - n, note, n) == 0;
}

/* Are these the bytes of a client that is refused, gets the reason and is hung up. */
static bool is_refused(const uint8_t *bytes, size_t n, int refusal)
{
    open_connection(&new_line, &host);
    receive(&new_line, bytes, n);
    return !new_line.open && ends_with_error(&new_line, refusal);
}

/* A refusal ends the connection and leaves every file as it was. */
static void test_refusals(const struct recording *r, const struct file *whole)
{
    static const uint8_t too_long[] = { 0x00, 0x20, 0x00, 0x01 }, empty[] = { 0, 0, 0, 0 };
    uint8_t restart[64];
    size_t n = 0;
    start_over(r);
    run_line(17, NEVER);
    CHECK(is_refused(too_long, sizeof too_long, SUDOLOG_TOO_LONG));
    CHECK(is_refused(empty, sizeof empty, 6));
    CHECK(is_refused(r->frames + r->ends[0], r->ends[1] - r->ends[0], 9)); /* a record before the accept */
    CHECK(sudolog_add_written(sudolog_write_restart(SUDOLOG_FROM_CLIENT_RESTART, SUDOLOG_LEND_STRING("file-99"), 0, 0,
                                                    true, restart, sizeof restart),
                              &n)
          == 0);
    CHECK(is_refused(restart, n, 15)); /* no such file: no area is lent */
    check_files(whole);
}

/* Adds a restart of a log id to a client's bytes. */
static void add_restart(uint8_t *bytes, size_t room, size_t *n, const char *log_id, uint64_t seconds)
{
    CHECK(sudolog_add_written(sudolog_write_restart(SUDOLOG_FROM_CLIENT_RESTART, SUDOLOG_LEND_STRING(log_id), seconds, 0,
                                                    true, bytes + *n, room - *n),
                              n)
          == 0);
}

/* Adds a hello, or an accept without I/O: what a client may send before a restart. */
static void add_first(uint8_t *bytes, size_t room, size_t *n, bool accepted)
{
    uint8_t run[256];
    size_t run_n = 0;
    uint64_t written;
    if (accepted) {
        add_entry(run, sizeof run, &run_n, "command", "/bin/true");
        add_entry(run, sizeof run, &run_n, "runuser", "root");
        add_entry(run, sizeof run, &run_n, "submithost", "press2");
        add_entry(run, sizeof run, &run_n, "submituser", "bob");
        written = sudolog_write_accept(SUDOLOG_FROM_CLIENT_ACCEPT, 1700000000, 0, run, run_n, false, true, bytes + *n,
                                       room - *n);
    } else {
        written = sudolog_write_client_hello(SUDOLOG_FROM_CLIENT_HELLO, SUDOLOG_LEND_STRING("other"), true, bytes + *n,
                                             room - *n);
    }
    CHECK(sudolog_add_written(written, n) == 0);
}

/* The client is in the middle of its recording, and its file has the log id that it heard. */
static void begin_recording(const struct recording *r)
{
    start_over(r);
    line_up(&client);
    open_connection(&old_line, &host);
    receive(&old_line, client.line, client.greeting + r->ends[1]);
    arrive_all(&client, &old_line);
    CHECK(old_line.open && clients_file()->user == &old_line);
}

/* Another client's bytes end in a restart of this client's file that is refused: its line stands, its file is lent to
 * it as before, and it goes on to its exit. */
static void check_kept_line(const struct recording *r, const struct file *whole, const uint8_t *bytes, size_t n, int refusal)
{
    size_t at = client.greeting + r->ends[1], used = clients_file()->used;
    CHECK(is_refused(bytes, n, refusal));
    CHECK(old_line.open && clients_file()->user == &old_line && clients_file()->used == used);
    receive(&old_line, client.line + at, client.lined_up - at);
    arrive_all(&client, &old_line);
    check_files(whole);
}

/* A restart that is refused takes no file away from its present user: one out of turn, in a session in events only or
 * as a session's second one, or one at a point that the file has not. */
static void test_refused_takeover(const struct recording *r, const struct file *whole)
{
    uint8_t bytes[1024];
    size_t n = 0;
    const struct file *own;

    begin_recording(r);
    add_first(bytes, sizeof bytes, &n, true);
    add_restart(bytes, sizeof bytes, &n, client.log_id, 0);
    check_kept_line(r, whole, bytes, n, SUDOLOG_NOT_ITS_TURN);

    begin_recording(r);
    n = 0;
    add_first(bytes, sizeof bytes, &n, false);
    add_restart(bytes, sizeof bytes, &n, client.log_id, 4000000000);
    check_kept_line(r, whole, bytes, n, SUDOLOG_NO_SUCH_POINT);

    /* The other client has a file of its own: the accept of this recording, and then its line broke. */
    begin_recording(r);
    open_connection(&new_line, &host);
    receive(&new_line, r->frames, r->ends[0]);
    own = new_line.file;
    if (own == NULL || own == clients_file())
        give_up("the other client has no file of its own", "");
    hang_up(&new_line);
    n = 0;
    add_restart(bytes, sizeof bytes, &n, own->log_id, 0);
    add_restart(bytes, sizeof bytes, &n, client.log_id, 0);
    check_kept_line(r, whole, bytes, n, SUDOLOG_NOT_ITS_TURN);
}

/* A file's records: the first two bytes of their data and their total. */
static void show(const char *when, const struct file *file)
{
    const char *comma = "";
    struct record record;
    uint64_t total = 0;
    size_t at = read_record(file, 0, &record); /* the accept */
    printf("%s", when);
    while (at < file->used) {
        at = read_record(file, at, &record);
        if (record.kind == SUDOLOG_FROM_CLIENT_EXIT) {
            printf("%sexit", comma);
        } else {
            total += record.delay;
            printf("%s%.2s at %d s", comma, (const char *)record.data, (int)(total / SECOND));
        }
        comma = ", ";
    }
    printf("\n");
}

static void show_point(const char *when, uint64_t point)
{
    printf("%s%d s\n", when, (int)(point / SECOND));
}

/* Delays 1, 0, 0, 2, 1; a tick after the fourth record; the line breaks within the exit's frame; a restart at the
 * point that the tick gave. */
static void test_customers_retry(const struct recording *r, const struct file *whole)
{
    struct sudolog_time point;
    size_t ticked, broken;
    start_over(r);
    line_up(&client);
    ticked = client.greeting + r->ends[4];
    broken = client.greeting + r->ends[5] + 7;
    open_connection(&old_line, &host);
    receive(&old_line, client.line, ticked);
    tick(&old_line);
    arrive_all(&client, &old_line);
    CHECK(client.has_point && client.point == SECOND);
    receive(&old_line, client.line + ticked, broken - ticked);
    show("stored when the line breaks: ", clients_file());
    CHECK(sudolog_tick(&old_line.session, &point));
    show_point("a tick then gives:           ", nanoseconds(point));
    hang_up(&old_line);

    line_up(&client);
    open_connection(&new_line, &host);
    receive(&new_line, client.line, client.greeting);
    show("kept by the restart at 1 s:  ", clients_file());
    receive(&new_line, client.line + client.greeting, client.lined_up - client.greeting);
    arrive_all(&client, &new_line);
    show("stored at the end:           ", clients_file());
    show_point("sent at the end:             ", client.point);
    CHECK(client.point == 4 * (uint64_t)SECOND);
    check_files(whole);
}

static void test_recording(const struct recording *r)
{
    static struct file whole;
    make_whole(r, &whole);
    test_pieces(r, &whole);
    test_each_break(r, &whole);
    test_many_breaks(r, &whole);
    test_late_bytes(r, &whole);
    test_refusals(r, &whole);
    test_refused_takeover(r, &whole);
}

int main(int count, char **arguments)
{
    static struct recording recording;
    static struct file whole;
    int k;
    make_recording(&recording);
    make_whole(&recording, &whole);
    test_customers_retry(&recording, &whole);
    test_recording(&recording);
    for (k = 1; k < count; k++) {
        read_recording(&recording, arguments[k]);
        test_recording(&recording);
    }
    return checked();
}
