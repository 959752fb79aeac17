/*
 * data.h: whether a call leaves the program's own data as it was, every byte from the first to the end of the last page. What the
 * header lends in the place of NULL is a static among them. AddressSanitizer does not watch the library: this sees what it writes
 * beside that static.
 */
#ifndef DATA_H
#define DATA_H

#include "check.h"

#include <stddef.h>
#include <stdint.h>
#include <stdlib.h>

extern char __data_start[], _end[]; /* the linker's names for the first byte and for the end */

static size_t data_size(void)
{
    enum { PAGE = 4096 };
    return ((uintptr_t)_end + PAGE - 1) / PAGE * PAGE - (uintptr_t)__data_start;
}

/* The guards that AddressSanitizer lays between statics are read, too: it is told to look away. */
#define UNWATCHED __attribute__((no_sanitize("address", "undefined")))

/* A copy of the data as it is now. */
UNWATCHED static uint8_t *data_now(void)
{
    const volatile char *from = __data_start;
    size_t n = data_size(), i;
    uint8_t *copy = (uint8_t *)malloc(n);
    if (copy == NULL)
        exit(2);
    for (i = 0; i < n; i++)
        copy[i] = (uint8_t)from[i];
    return copy;
}

/* Is the data the copy's, which goes. */
UNWATCHED static bool data_is(uint8_t *copy)
{
    const volatile char *from = __data_start;
    size_t n = data_size(), i = 0;
    while (i < n && copy[i] == (uint8_t)from[i])
        i++;
    free(copy);
    return i == n;
}

/* A call that changes nothing of it. No check may be inside: it counts. */
#define DATA_STAYS(CALL)                                                                                    \
    do {                                                                                                    \
        uint8_t *data_before = data_now();                                                                  \
        CALL;                                                                                               \
        check(data_is(data_before), "the program's data stays: " #CALL, __FILE__, __func__, __LINE__);      \
    } while (0)

#endif
