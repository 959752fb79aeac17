/*
 * base.h: what all parts of tests/fuzzing/fuzz.c use: counts, what libFuzzer gets, the faults, the grounds that slices are
 * lent from, the program that an input is, and the host's memory.
 */
#ifndef BASE_H
#define BASE_H

#include "lent.h"
#include "model.h"

#include <signal.h>
#include <ucontext.h>

/* ---- counting, and what libFuzzer gets ---- */

static struct {
    unsigned long inputs, calls, properties;
    unsigned long read[17], written[17], handed[17];  /* answers by refusal */
    unsigned long state[5], mark[2], member[14], file[16], ticks[2], key[4], restarts;
    unsigned long compared[17], flags[17], stepped[17], escaped[17];
} tally;

enum { SEEN = 1 << 15, BLOCKS = 1 << 13 };
__attribute__((section("__libfuzzer_extra_counters"))) static uint8_t seen[SEEN + BLOCKS];

/* An answer that counts as something new to libFuzzer. */
static void saw(unsigned call, uint64_t a, uint64_t b)
{
    uint64_t mixed = (call * 0x9E3779B97F4A7C15u) ^ (a * 0xC2B2AE3D27D4EB4Fu) ^ (b * 0x165667B19E3779F9u);
    uint8_t *at = &seen[(mixed ^ mixed >> 29) * 0xBF58476D1CE4E5B9u >> 49];
    if (*at < 255)
        ++*at;
}

/* The length of a number in bits: close numbers are one to saw(). */
static unsigned bits(uint64_t n)
{
    unsigned b = 0;
    for (; n != 0; n >>= 1)
        b++;
    return b;
}

static const char *call_name = "none"; /* the call that is looked at */

static void holds(bool it_does, const char *what, const char *file, int line)
{
    tally.properties++;
    if (it_does)
        return;
    fprintf(stderr, "fuzz: does not hold after %s: %s (%s:%d)\n", call_name, what, file, line);
    abort();
}

#define HOLDS(WHAT, TEXT) holds((WHAT), TEXT, __FILE__, __LINE__)

/* ---- blocks: which of the library's code was reached ----
 *
 * tests/fuzz lists the places in this program at which a block of the library's code begins: entries, targets of jumps,
 * what stands behind a jump. At each a trap is set; the first input that runs into it is something new to libFuzzer, and
 * the trap is taken away. So code that no input has reached yet guides the search, and nothing is slowed down behind. */

static struct {
    size_t n, reached;
    uint8_t *at[BLOCKS];
    uint8_t was[BLOCKS];
} blocks;

static void reach_block(int signal_number, siginfo_t *info, void *context)
{
    greg_t *next = &((ucontext_t *)context)->uc_mcontext.gregs[REG_RIP];
    size_t from = 0, to = blocks.n;
    (void)info;
    while (to - from > 1) {
        size_t middle = from + (to - from) / 2;
        if ((greg_t)(uintptr_t)blocks.at[middle] <= *next - 1)
            from = middle;
        else
            to = middle;
    }
    if (to == 0 || (greg_t)(uintptr_t)blocks.at[from] != *next - 1) {
        signal(signal_number, SIG_DFL); /* no trap of ours */
        return;
    }
    *blocks.at[from] = blocks.was[from];
    *next -= 1;
    blocks.reached++;
    seen[SEEN + from] = 1;
}

/* The places stand in a file in rising order, in hex, one to a line. */
static void set_traps(const char *name)
{
    struct sigaction action;
    FILE *file = fopen(name, "r");
    unsigned long at;
    size_t i;
    memset(&action, 0, sizeof action);
    action.sa_sigaction = reach_block;
    action.sa_flags = SA_SIGINFO;
    if (file == NULL || sigaction(SIGTRAP, &action, NULL) != 0) {
        perror(name);
        exit(2);
    }
    while (blocks.n < BLOCKS && fscanf(file, "%lx", &at) == 1)
        blocks.at[blocks.n++] = (uint8_t *)at;
    fclose(file);
    for (i = 0; i < blocks.n; i++) {
        uint8_t *page = (uint8_t *)((uintptr_t)blocks.at[i] / PAGE * PAGE);
        if (mprotect(page, PAGE, PROT_READ | PROT_WRITE | PROT_EXEC) != 0) {
            perror("fuzz: mprotect");
            exit(2);
        }
        blocks.was[i] = *blocks.at[i];
        *blocks.at[i] = 0xCC;
    }
}

/* ---- faults: what this test has to find when it is there ---- */

enum fault {
    NO_FAULT, READ_PAST, READ_BEFORE, WRITE_INPUT, WRITE_PAST, WRITE_BEFORE, WRITE_SLACK, WRITE_REFUSED, OTHER_VALUE,
    OTHER_SIZE, UNSTEADY, AREA_REFUSED, OPEN_REFUSED, USED_REFUSED, OTHER_NUMBER, OTHER_RECORD, OTHER_POINT, TICK_TOTAL,
    RESTART_REFUSED, FILE_OPEN, FRAME_EARLY, OTHER_MEMBER, LIST_STOPS, NO_ROOM_OPEN, SHORTER_DATA, RAW_DELETE, FAULTS
};

static const char *const faults[FAULTS] = {
    "none",
    "read-past",       /* a reader looks at the byte behind its slice */
    "read-before",     /* and at the one before it */
    "write-input",     /* a reader writes into its slice, the byte that stands there */
    "write-past",      /* a writer writes behind its room */
    "write-before",    /* and before it */
    "write-slack",     /* a writer changes a byte of its room behind what it wrote */
    "write-refused",   /* a writer that refuses changes a byte */
    "other-value",     /* a writer writes another second than it was handed */
    "other-size",      /* a writer returns a byte less */
    "unsteady",        /* a field's number is another at each call */
    "area-refused",    /* a message that is refused changes the area */
    "open-refused",    /* or leaves the session open */
    "used-refused",    /* or changes the used length */
    "other-number",    /* a message out of its turn is refused with 10 */
    "other-record",    /* a stored record has another delay */
    "other-point",     /* an exit returns a point that is 1 ns later */
    "tick-total",      /* a tick gives the present total */
    "restart-refused", /* a restart at a point that was given is refused with 14 */
    "file-open",       /* a finished file is checked as unfinished */
    "frame-early",     /* a frame is whole one byte early */
    "other-member",    /* the one walk finds another member */
    "list-stops",      /* a list ends before its last element */
    "no-room-open",    /* the session stays open though its answer has no room */
    "shorter-data",    /* data of two files are compared up to the shorter length alone */
    "raw-delete",      /* byte 127 is shown as it is */
};

static enum fault fault;

/* The faults stand for code that is not instrumented: AddressSanitizer must not be what finds them. */
__attribute__((no_sanitize("address"))) static void touch(const uint8_t *at)
{
    (void)*(const volatile uint8_t *)at;
}

__attribute__((no_sanitize("address"))) static void change(const uint8_t *at, uint8_t by)
{
    *(volatile uint8_t *)(uintptr_t)at ^= by;
}

/* ---- the grounds that slices are lent from ---- */

enum {
    SMALL = 20000,            /* messages, but for the large ones */
    SPARE = 1 << 16,
    AREA_MOST = LARGEST + SPARE,
    TEXT = 5000,
    LIST = 16
};

static struct ground input, first, second, third, list, kept_session, kept_area, answer;
static struct ground read_session, read_area;
static uint8_t *vast; /* more than 1 GiB that can't be written */

static void make_grounds(void)
{
    input = ground_of(LARGEST + SPARE, false);
    first = ground_of(LARGEST + SPARE, false);
    second = ground_of(TEXT, false);
    third = ground_of(TEXT, false);
    list = ground_of(LIST * sizeof(uint64_t), false);
    read_session = ground_of(64, false);
    read_area = ground_of(AREA_MOST, false);
    kept_session = ground_of(64, true);
    kept_area = ground_of(AREA_MOST, true);
    answer = ground_of(LARGEST + SPARE, true);
    vast = mapped(NULL, (size_t)LARGEST_AREA + PAGE, PROT_READ, MAP_PRIVATE | MAP_ANONYMOUS | MAP_NORESERVE, -1);
}

/* ---- the program that an input is ---- */

struct program {
    const uint8_t *p;
    size_t n, at;
};

static uint8_t byte(struct program *p)
{
    return p->at < p->n ? p->p[p->at++] : 0;
}

static size_t place(struct program *p, size_t most)
{
    size_t high = byte(p);
    return (high << 8 | byte(p)) % (most + 1);
}

/* A number: small, at a limit, or any. */
static uint64_t number(struct program *p)
{
    static const uint64_t limits[] = {
        127, 128, 255, 256, 4095, 4096, 16383, 16384, 65535, 65536, 999999998, 999999999, 1000000000, 2097152, 2097153,
        INT32_MAX, 2147483648u, 4294967294u, 4294967295u, 4294967296u, 1073741824, 1073741825, MOST, MOST + 1, INT64_MAX,
        9223372036854775808u, UINT64_MAX - 1, UINT64_MAX, 18446744071562067967u, 18446744071562067968u
    };
    enum { LIMITS = sizeof limits / sizeof limits[0] };
    uint8_t how = byte(p);
    uint64_t any = 0;
    int i;
    if (how < 128)
        return how;
    if (how < 128 + LIMITS)
        return limits[how - 128];
    for (i = 0; i < (how < 208 ? 2 : 8); i++)
        any = any << 8 | byte(p);
    return any;
}

/* Bytes: a few of the program's own, or as many as a limit says. */
static size_t text(struct program *p, uint8_t *out)
{
    static const size_t limits[] = { 127, 128, 129, 255, 256, 4094, 4095, 4096 };
    uint8_t how = byte(p);
    size_t n = how < 248 ? how % 40u : limits[how - 248], i;
    for (i = 0; i < n; i++)
        out[i] = how < 248 ? byte(p) : (uint8_t)('a' + i % 26);
    return n;
}

/* ---- the host ---- */

static struct {
    uint8_t session[64];
    uint8_t area[AREA_MOST];
    size_t area_n, used;
    uint8_t message[LARGEST + SPARE];
    size_t n;
    uint8_t spare[SMALL]; /* a message set aside */
    size_t spare_n;
    size_t records;       /* that the file should have */
    bool honest;          /* the host has done its duties since the area was fresh */
    bool has_point;       /* a commit point was given */
    uint64_t point;
    bool large_done;
} host;

static void set_message(const uint8_t *m, size_t n)
{
    host.n = n < SMALL ? n : SMALL;
    memmove(host.message, m, host.n);
}

#endif
