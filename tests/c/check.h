/* Checks that are counted: a line for each that fails, with its place, and at the end 'N passed, M failed'. */
#ifndef CHECK_H
#define CHECK_H

#include <stdbool.h>
#include <stdio.h>

static int passed, failed;

static void check(bool holds, const char *what, const char *file, const char *where, int line)
{
    if (holds) {
        passed++;
        return;
    }
    failed++;
    printf("%s:%d: %s: %s\n", file, line, where, what);
}

#define CHECK(WHAT) check((WHAT), #WHAT, __FILE__, __func__, __LINE__)

/* The last line, and the exit status. */
static int checked(void)
{
    printf("%d passed, %d failed\n", passed, failed);
    return failed != 0;
}

#endif
