/*
 * host.h: a small host over memory. docs/HOST.md explains it, host.c is the host, retry.c runs it with a client whose
 * line breaks.
 */
#ifndef HOST_H
#define HOST_H

#include "sudolog.h"

enum {
    WINDOW = SUDOLOG_FRAME_MAX,
    AREA = 65536, /* for one file; the library takes up to SUDOLOG_AREA_MAX */
    FILES = 16,
    ANSWERS = 65536
};

struct connection;

/* A recording's file. It stays when a connection ends; a used length of 0 is a file that nobody has begun. */
struct file {
    char log_id[16];
    uint8_t area[AREA];
    size_t used;
    struct connection *user; /* the one connection that it is lent to; NULL for none */
};

struct host {
    struct file files[FILES];
};

/* A connection. Nothing of it stays when it ends. */
struct connection {
    bool open;
    struct host *host;
    struct sudolog_session session;
    struct file *file;        /* NULL until an accept with I/O or a restart came */
    uint8_t window[WINDOW];   /* the next frame, as far as it has come */
    size_t received;
    uint8_t answers[ANSWERS]; /* on their way to the client */
    size_t answered;
};

/* No file is begun. */
void open_host(struct host *host);

/* The file with a log id. It comes from the client: only ids that were given out are found, NULL for every other. */
struct file *file_of(struct host *host, const uint8_t *log_id, size_t n);

/* A client connects. */
void open_connection(struct connection *c, struct host *host);

/* Bytes of the client, in whatever pieces they come. */
void receive(struct connection *c, const uint8_t *bytes, size_t n);

/* The host's timer, for each connection. */
void tick(struct connection *c);

/* The connection ends, here or at the other end. What was not a whole frame is lost, the file stays. */
void hang_up(struct connection *c);

#endif
