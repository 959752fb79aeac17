/*
 * fuzz.c: bad input by the thousand for every call of include/sudolog.h, for libFuzzer. tests/fuzz builds and runs it.
 *
 * An input is a small program. Its bytes choose messages and values, damage what was written, and choose calls: reading,
 * writing, cutting frames, a host with a session and an area whose messages, lengths, session bytes and file may
 * all be wrong, and that file beside an earlier copy. Every call is made over memory between pages that can't be touched
 * (lent.h). What sessions, ticks, file checks and the calls for stored files answer is compared with model.h, all of it: refusal,
 * answer, session and every byte of the area.
 * Of the readers and writers the header's promises are checked.
 *
 * What guides libFuzzer: the branches of this program and of the model, the answers that are handed to saw(), and the blocks
 * of the library's own code that an input reaches first (base.h). The library is not instrumented: AddressSanitizer
 * and UndefinedBehaviorSanitizer watch this program and the header's second part; the pages watch the library.
 *
 * A failed property prints a line and ends the program; libFuzzer keeps the input. With --fault=NAME the calls answer
 * wrongly, each in a way that has to be found.
 */
#define _GNU_SOURCE
#include "files.h"
#include "reading.h"
#include "session.h"
#include "writing.h"

static bool all_asked;

static void run_program(struct program *p)
{
    static void (*const steps[])(struct program *) = {
        write_message, write_message, raw_message, damage, damage, read_message, cut_frames, hand_over, hand_over,
        hand_wrongly, tick, connect, restart, fresh_area, bend, check_and_compare, send_one, send_one, send_one,
        whole_session, large_or_files
    };
    int left = 64;
    while (p->at < p->n && left-- > 0)
        steps[byte(p) % (sizeof steps / sizeof steps[0])](p);
}

static void begin(void)
{
    static const struct program none = { NULL, 0, 0 };
    struct program p = none;
    at_lower_end = false;
    host.n = host.spare_n = 0;
    host.large_done = false;
    copy.n = copy.used = 0;
    memset(host.session, 0, sizeof host.session);
    fresh_area(&p);
    host.area_n = 2000;
    memset(host.area, 0, host.area_n);
}

/* How often each number came. With --all those in the mask have to have come: a run that reaches little shows little. */
static void print_counts(const char *what, const unsigned long *counts, size_t n, unsigned mask)
{
    size_t i;
    printf("%s:", what);
    for (i = 0; i < n; i++)
        if (counts[i] != 0)
            printf(" %zu:%lu", i, counts[i]);
    printf("\n");
    for (i = 0; i < n; i++)
        if (all_asked && counts[i] == 0 && (mask >> i & 1) != 0)
            printf("not reached: %zu of the %s\n", i, what);
}

static void print_tally(void)
{
    print_counts("readers' refusals", tally.read, 17, 0xFD);
    print_counts("writers' refusals", tally.written, 17, 0xBF);
    print_counts("sessions' refusals", tally.handed, 17, 0xFFFF);
    print_counts("keys of refusal 8", tally.key, 4, 0xF);
    print_counts("members handed over", tally.member, 14, 0x3FFF);
    print_counts("states afterwards", tally.state, 5, 0x1F);
    print_counts("states without and with a restart's point", tally.mark, 2, 3);
    print_counts("ticks without and with a point", tally.ticks, 2, 3);
    print_counts("file checks", tally.file, 16, 0x8003);
    print_counts("comparisons' refusals", tally.compared, 17, 0x9001);
    print_counts("sums of flags", tally.flags, 17, 0x101FF);
    print_counts("steps to a record", tally.stepped, 17, 0x9003);
    print_counts("texts' refusals", tally.escaped, 17, 0x1001);
    printf("restarts taken: %lu\n", tally.restarts);
    if (blocks.n != 0)
        printf("blocks of the library's code: %zu of %zu reached\n", blocks.reached, blocks.n);
    printf("%lu inputs, %lu calls: %lu passed, 0 failed\n", tally.inputs, tally.calls, tally.properties);
}

static void choose_fault(const char *name)
{
    int i;
    for (i = 1; i < FAULTS; i++)
        if (strcmp(name, faults[i]) == 0)
            fault = (enum fault)i;
    if (fault != NO_FAULT)
        return;
    for (i = 1; i < FAULTS; i++)
        printf("%s\n", faults[i]);
    exit(strcmp(name, "list") == 0 ? 0 : 2);
}

int LLVMFuzzerInitialize(int *argc, char ***argv);
int LLVMFuzzerTestOneInput(const uint8_t *bytes, size_t n);

int LLVMFuzzerInitialize(int *argc, char ***argv)
{
    int i;
    for (i = 1; i < *argc; i++) {
        if (strncmp((*argv)[i], "--fault=", 8) == 0)
            choose_fault((*argv)[i] + 8);
        if (strncmp((*argv)[i], "--blocks=", 9) == 0)
            set_traps((*argv)[i] + 9);
        all_asked = all_asked || strcmp((*argv)[i], "--all") == 0;
    }
    make_grounds();
    atexit(print_tally);
    return 0;
}

int LLVMFuzzerTestOneInput(const uint8_t *bytes, size_t n)
{
    struct program p = { bytes, n, 0 };
    tally.inputs++;
    begin();
    run_program(&p);
    return 0;
}
