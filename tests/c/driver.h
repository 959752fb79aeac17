/* What the parts of the driver share: words of a request as values. */
#ifndef DRIVER_H
#define DRIVER_H

#include <stdbool.h>
#include <stddef.h>
#include <stdint.h>

struct bytes {
    uint8_t *m; /* NULL where n is 0: the header takes that */
    size_t n;
};

struct list {
    int64_t *numbers; /* NULL where n is 0, as ends */
    size_t *ends;     /* the same numbers */
    size_t n;
};

/* What a call that writes is given. The arguments stand in the order of the header's parameters, by their kind. */
struct given {
    uint64_t member;
    uint8_t framed;
    uint64_t number[4];
    struct bytes slice[3];
    struct list list;
    uint8_t *out;
    size_t room;
};

void *memory(size_t n);
struct bytes from_hex(const char *hex);
uint64_t from_decimal(const char *word);

/* Answers with what a call writes, as the request `write` does. */
void answer_written(uint64_t (*write)(const struct given *), struct given *g);

/* Answers a request about areas, sessions and files (driver_sessions.c); false where it is none. */
bool answer_session(const char *ask, char *words);

/* The area that the next word names. */
struct bytes area_named(char **words);

/* Answers a request about the records of files (driver_files.c); false where it is none. */
bool answer_records(const char *ask, char *words);

#endif
