/*
 * bench.h: what the parts of the benchmark share. work.c makes the works; the contenders stand in protobuf_c.c,
 * protobuf_cpp.cc, by_hand.c and library.c; main.c compares their answers and times them.
 */
#ifndef BENCH_H
#define BENCH_H

#include <stdbool.h>
#include <stddef.h>
#include <stdint.h>

#ifdef __cplusplus
extern "C" {
#endif

#define INLINE static inline __attribute__((always_inline))

/* ---- works ---- */

enum kind {
    STREAM,  /* messages that are read, and stored in an area */
    RECORDS, /* a file that is checked, and restarted */
    POINTS,  /* commit points that are written */
    PAIRS    /* two files that are compared */
};

struct message {
    const uint8_t *bytes;
    size_t n;
};

/* The bytes from stream[offset] on. */
struct span {
    uint32_t offset;
    uint32_t length;
};

struct point {
    uint64_t seconds;
    uint64_t nanoseconds;
};

struct work {
    const char *id;
    char title[64];
    enum kind kind;
    size_t count;  /* messages, records, points or pairs of records in one pass */
    size_t rounds; /* how often a pass goes through the stream or the points; the area goes on from round to round */

    /* STREAM: frames one after the other. The session is opened by the accept `opening`; where that is empty each
     * message is an accept itself, and opens a session over what is left of the area. */
    uint8_t *stream;
    size_t stream_n;
    struct message opening;
    struct message opening_data; /* what is stored of it */
    struct span *stored;         /* what is stored of each message */
    size_t frames;

    /* RECORDS: the file has `used` bytes of the area; the restart is at `resume` nanoseconds. */
    size_t used;
    uint64_t resume;
    struct message restart;

    struct point *points;
    size_t points_n;

    /* PAIRS: the area has room for the entries and no more. */
    struct message first;
    struct message second;
    bool differ;

    uint8_t *area;
    size_t area_n;
};

/* The works that there are, and one of them made; it ends the program where it can't. */
enum { WORKS = 13 };
const char *work_id(size_t which);
struct work make_work(size_t which);
void drop_work(struct work *w);

/* The frame at a place of the stream, cut by hand in every contender: cutting is not what is measured. */
INLINE bool next_message(const struct work *w, size_t *at, struct message *m)
{
    const uint8_t *p = w->stream + *at;
    if (*at == w->stream_n)
        return false;
    m->n = (size_t)p[0] << 24 | (size_t)p[1] << 16 | (size_t)p[2] << 8 | (size_t)p[3];
    m->bytes = p + 4;
    *at += 4 + m->n;
    return true;
}

/* ---- what a reader finds ----
 *
 * It is given to a listener. In the timed passes the listener adds up numbers, lengths and first bytes, so that they are
 * found and used; in the comparison it hashes everything. Readers are inlined, so which of the two is known when they
 * are compiled. */

struct listener {
    uint64_t sum;
    bool whole;
};

INLINE void hear(struct listener *to, uint64_t number)
{
    to->sum = to->whole ? (to->sum ^ number) * 1099511628211u : to->sum + number;
}

INLINE void hear_bytes(struct listener *to, const void *bytes, size_t n)
{
    const uint8_t *b = (const uint8_t *)bytes;
    size_t i, heard = to->whole || n == 0 ? n : 1;
    hear(to, n);
    for (i = 0; i < heard; i++)
        hear(to, b[i]);
}

INLINE void hear_time(struct listener *to, int64_t seconds, int32_t nanoseconds)
{
    hear(to, (uint64_t)seconds);
    hear(to, (uint64_t)nanoseconds);
}

/* A refusal: of these works none has one. */
INLINE void hear_refusal(struct listener *to)
{
    hear(to, UINT64_MAX);
}

/* The two uses of a reader, which is handed a message and a listener. */
#define READER(READ)                                                                                                  \
    static uint64_t READ##_pass(const struct work *w)                                                                 \
    {                                                                                                                 \
        struct listener to = { 0, false };                                                                            \
        struct message m;                                                                                             \
        size_t at, round;                                                                                             \
        for (round = 0; round < w->rounds; round++)                                                                   \
            for (at = 0; next_message(w, &at, &m);)                                                                   \
                READ(m, &to);                                                                                         \
        return to.sum;                                                                                                \
    }                                                                                                                 \
    static uint64_t READ##_digest(struct message m)                                                                   \
    {                                                                                                                 \
        struct listener to = { 0, true };                                                                             \
        READ(m, &to);                                                                                                 \
        return to.sum;                                                                                                \
    }

/* ---- contenders ---- */

/* What a pass returns. Contenders with the same answer return the same sum; readers have the same digest of each
 * message besides, and the others leave the same bytes in the area. */
enum answer {
    MEMBERS,   /* STREAM: of an I/O buffer its member, delay and data; of an accept only that it is one */
    VALUES,    /* STREAM: the same, and of an accept all values of all entries */
    STORED,    /* STREAM: the records in the area, and their length */
    CHECKED,   /* RECORDS: what the file is */
    RESTARTED, /* RECORDS: what a restart keeps */
    WRITTEN,   /* POINTS: the frames in the area, and their length */
    COMPARED   /* PAIRS: an entry for each record in the area, and their length */
};

struct contender {
    const char *id;
    const char *row;   /* what it does, for a group of rows in the table */
    const char *title; /* who does it */
    enum answer answer;
    bool accepts_only; /* with I/O buffers it does no other work than a contender before it */
    bool data_only;    /* knows no records: lays no headers and no entries into the area, can't say in what files differ */
    uint64_t (*pass)(const struct work *w);
    uint64_t (*digest)(struct message m); /* of a reader */
};

/* Each ends with one that has no id. */
extern const struct contender protobuf_c[], protobuf_cpp[], by_hand[], library[];
#ifdef BESIDE
extern const struct contender library_beside[];
#endif

#define READS "read"
#define READS_ALL "read, every value of every entry visited"
#define STORES "read and stored"
#define CHECKS "file check"
#define RESTARTS "restart in the middle"
#define WRITES "commit points written"
#define COMPARES "two files compared"

#ifdef __cplusplus
}
#endif

#endif
