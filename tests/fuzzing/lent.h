/*
 * lent.h: memory as fuzz.c lends it to the library.
 *
 * A ground is whole pages between two pages that can't be touched. A slice is at one end of it, so that a byte read
 * or written too far at that end faults at once; on the other side stands a margin of known bytes, which is looked at
 * after the call. Each call is made twice, with its slices at the upper and at the lower ends. So every write outside a
 * slice is found that goes less than the margin's length or as far as the next page, and every read past either end
 * that goes no further than the page there. What is not seen: a read inside the margin's side of one call (the other
 * call sees it), and reads or writes that land in memory of the program far away.
 *
 * A slice that the library may only read is lent through a second view of the same pages, which can't be written.
 *
 * The library is not compiled with AddressSanitizer, so that sees none of its loads and stores. It calls memmove, for what it
 * copies, and nothing else of the C library. The margins are poisoned all the same: the header's second
 * part is compiled with it.
 */
#ifndef LENT_H
#define LENT_H

#include <sanitizer/asan_interface.h>
#include <stdbool.h>
#include <stddef.h>
#include <stdint.h>
#include <stdio.h>
#include <stdlib.h>
#include <string.h>
#include <sys/mman.h>
#include <unistd.h>

enum { PAGE = 4096, MARGIN = 64, MARGIN_BYTE = 0xC5, FILL = 0xEE };

struct ground {
    uint8_t *write; /* where the test writes */
    uint8_t *lend;  /* where the library reads, and writes if it may */
    size_t size;    /* whole pages */
    size_t at, n;   /* the slice that was lent last */
};

/* Slices are at the lower ends of their grounds, otherwise at the upper ends. */
static bool at_lower_end;

static uint8_t *mapped(uint8_t *at, size_t n, int may, int how, int file)
{
    void *pages = mmap(at, n, may, how, file, 0);
    if (pages == MAP_FAILED) {
        perror("fuzz: mmap");
        exit(2);
    }
    return (uint8_t *)pages;
}

/* Two views of the same pages: one to write, and one between untouchable pages, to be read alone or written as well. */
static struct ground ground_of(size_t size, bool writable)
{
    struct ground g;
    int file = memfd_create("lent", 0);
    uint8_t *around;
    memset(&g, 0, sizeof g);
    g.size = (size + PAGE - 1) / PAGE * PAGE;
    if (file < 0 || ftruncate(file, (off_t)g.size) != 0) {
        perror("fuzz: memfd_create");
        exit(2);
    }
    around = mapped(NULL, g.size + 2 * PAGE, PROT_NONE, MAP_PRIVATE | MAP_ANONYMOUS | MAP_NORESERVE, -1);
    g.lend = mapped(around + PAGE, g.size, writable ? PROT_READ | PROT_WRITE : PROT_READ, MAP_SHARED | MAP_FIXED, file);
    g.write = mapped(NULL, g.size, PROT_READ | PROT_WRITE, MAP_SHARED, file);
    close(file);
    return g;
}

/* The margin beside the slice that was lent last: its place and length. */
static size_t margin_at(const struct ground *g)
{
    return g->at == 0 ? g->n : g->at - (g->at < MARGIN ? g->at : MARGIN);
}

static size_t margin_n(const struct ground *g)
{
    size_t rest = g->size - g->n;
    return rest < MARGIN ? rest : MARGIN;
}

/* A slice of n bytes with these contents; FILL where there are none. Length 0 is a place beside an untouchable page. */
static uint8_t *lend(struct ground *g, const void *contents, size_t n)
{
    if (n > g->size)
        abort();
    ASAN_UNPOISON_MEMORY_REGION(g->lend + margin_at(g), margin_n(g));
    g->n = n;
    g->at = at_lower_end ? 0 : g->size - n;
    if (contents != NULL)
        memcpy(g->write + g->at, contents, n);
    else
        memset(g->write + g->at, FILL, n);
    memset(g->write + margin_at(g), MARGIN_BYTE, margin_n(g));
    ASAN_POISON_MEMORY_REGION(g->lend + margin_at(g), margin_n(g));
    return g->lend + g->at;
}

/* What the slice holds now, to be looked at. */
static const uint8_t *held(const struct ground *g)
{
    return g->write + g->at;
}

/* Without a loop: libFuzzer would get each comparison. */
static bool all_are(const uint8_t *bytes, size_t n, uint8_t byte)
{
    return n == 0 || (bytes[0] == byte && memcmp(bytes, bytes + 1, n - 1) == 0);
}

static bool margin_holds(const struct ground *g)
{
    return all_are(g->write + margin_at(g), margin_n(g), MARGIN_BYTE);
}

#endif
