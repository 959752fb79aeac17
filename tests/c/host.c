/*
 * host.c: a small host over memory, as docs/HOST.md explains it: files that outlive connections, and connections that
 * receive bytes in any pieces. From below: hanging up, answers, files, messages, bytes, the timer.
 */
#include "host.h"

#include <stdio.h>
#include <string.h>

void open_host(struct host *host)
{
    size_t k;
    for (k = 0; k < FILES; k++) {
        snprintf(host->files[k].log_id, sizeof host->files[k].log_id, "file-%zu", k);
        host->files[k].used = 0;
        host->files[k].user = NULL;
    }
}

void hang_up(struct connection *c)
{
    c->open = false;
    if (c->file != NULL)
        c->file->user = NULL;
    c->file = NULL;
}

/* What a writer wrote goes to the client. A client that leaves no room for answers has stopped reading them. */
static void answer(struct connection *c, uint64_t written)
{
    if (sudolog_add_written(written, &c->answered) != 0)
        hang_up(c);
}

/* `subcommands` stays false: a session takes no second accept. */
static void send_hello(struct connection *c)
{
    answer(c, sudolog_write_server_hello(SUDOLOG_FROM_SERVER_HELLO, SUDOLOG_LEND_STRING("host.c"), SUDOLOG_LEND_STRING(NULL),
                                         SUDOLOG_LEND_STRING(NULL), SUDOLOG_LEND_ENDS(NULL, 0), false, true,
                                         c->answers + c->answered, sizeof c->answers - c->answered));
}

static void send_note(struct connection *c, enum sudolog_from_server member, const char *text)
{
    answer(c, sudolog_write_note(member, SUDOLOG_LEND_STRING(text), true, c->answers + c->answered,
                                 sizeof c->answers - c->answered));
}

/* The client forgets what comes before a commit point: a host with a disk has written it there before it sends one. */
static void send_point(struct connection *c, struct sudolog_time point)
{
    answer(c, sudolog_write_time(SUDOLOG_FROM_SERVER_COMMIT_POINT, (uint64_t)point.seconds, (uint64_t)point.nanoseconds,
                                 true, c->answers + c->answered, sizeof c->answers - c->answered));
}

/* The session is closed and its file as it was: the client may come back for it on a new connection. */
static void refuse(struct connection *c, int refusal)
{
    send_note(c, SUDOLOG_FROM_SERVER_ERROR, sudolog_refusal_text(refusal));
    hang_up(c);
}

void open_connection(struct connection *c, struct host *host)
{
    c->open = true;
    c->host = host;
    c->session = sudolog_new_session();
    c->file = NULL;
    c->received = 0;
    c->answered = 0;
    send_hello(c);
}

/* A file for a new recording; NULL where all are taken. */
static struct file *fresh_file(struct host *host)
{
    size_t k;
    for (k = 0; k < FILES; k++)
        if (host->files[k].used == 0 && host->files[k].user == NULL)
            return &host->files[k];
    return NULL;
}

struct file *file_of(struct host *host, const uint8_t *log_id, size_t n)
{
    size_t k;
    for (k = 0; k < FILES; k++) {
        struct file *file = &host->files[k];
        if (file->used != 0 && strlen(file->log_id) == n && memcmp(file->log_id, log_id, n) == 0)
            return file;
    }
    return NULL;
}

/* The file that a message needs: an accept with I/O a fresh one, a restart its own; NULL for every other. */
static struct file *file_for(struct host *host, const uint8_t *m, size_t n)
{
    struct sudolog_client_message message;
    struct sudolog_accept accept;
    struct sudolog_restart restart;
    if (sudolog_decode_client_message(m, n, &message) != 0)
        return NULL; /* the session refuses it */
    m += message.content.offset;
    if (message.member == SUDOLOG_FROM_CLIENT_ACCEPT) {
        sudolog_get_accept(m, message.content.length, &accept);
        return accept.expect_iobufs ? fresh_file(host) : NULL;
    }
    if (message.member == SUDOLOG_FROM_CLIENT_RESTART) {
        sudolog_get_restart(m, message.content.length, &restart);
        return file_of(host, m + restart.log_id.offset, restart.log_id.length);
    }
    return NULL;
}

/* Lends a file to a connection whose message was taken. Another one that still has it was given up by its client. */
static void lend_file(struct connection *c, struct file *file)
{
    if (file->user != NULL && file->user != c)
        hang_up(file->user);
    file->user = c;
    c->file = file;
}

/* Hands a message to the session, over a file or over no area at all, and keeps the used length. */
static int hand_over(struct connection *c, struct file *file, const uint8_t *m, size_t n, struct sudolog_answer *out)
{
    int refusal;
    if (file == NULL)
        return sudolog_take_message(&c->session, m, n, NULL, 0, 0, out);
    refusal = sudolog_take_message(&c->session, m, n, file->area, AREA, file->used, out);
    file->used = out->used;
    return refusal;
}

/* One whole message of a connection. */
static void take_message(struct connection *c, const uint8_t *m, size_t n)
{
    struct file *file = c->file != NULL ? c->file : file_for(c->host, m, n);
    bool begins = file != NULL && file->used == 0;
    struct sudolog_answer out;
    int refusal = hand_over(c, file, m, n, &out);
    if (refusal != 0) {
        refuse(c, refusal);
        return;
    }
    if (file != NULL)
        lend_file(c, file);
    if (begins)
        send_note(c, SUDOLOG_FROM_SERVER_LOG_ID, file->log_id);
    if (out.has_point)
        send_point(c, out.point);
    if (out.state == SUDOLOG_STATE_CLOSED)
        hang_up(c);
}

/* The window holds one frame and never more: what is missing to it is taken, then the frame is cut. */
void receive(struct connection *c, const uint8_t *bytes, size_t n)
{
    size_t count;
    while (c->open) {
        enum sudolog_frame frame = sudolog_cut_frame(c->window, c->received, &count);
        if (frame == SUDOLOG_FRAME_WHOLE) {
            c->received = 0;
            take_message(c, c->window + 4, count);
        } else if (frame == SUDOLOG_FRAME_REFUSED) {
            refuse(c, SUDOLOG_TOO_LONG);
        } else if (n == 0) {
            return;
        } else {
            count = count < n ? count : n;
            memcpy(c->window + c->received, bytes, count);
            c->received += count;
            bytes += count;
            n -= count;
        }
    }
}

void tick(struct connection *c)
{
    struct sudolog_time point;
    if (c->open && sudolog_tick(&c->session, &point))
        send_point(c, point);
}
