/*
 * main.c: compares the contenders' answers, times them and prints the tables. bench/run builds and calls it:
 *
 *   bench time REPETITIONS TIMES     all tables; each single time in nanoseconds goes to the file TIMES
 *   bench compare                    no times: only whether the contenders answer the same, work by work
 *   bench pairs                      a line for each work and contender whose instructions are counted, with tabs between:
 *                                    what is counted, work, contender, how many a pass has, the table's words for them
 *   bench once WORK CONTENDER        one pass inside the function `counted`, after one that warms up
 *
 * Times are the processor's time of this thread, so that waiting for the processor on a busy machine does not count.
 */
#define _POSIX_C_SOURCE 200809L
#include "bench.h"

#include <stdio.h>
#include <stdlib.h>
#include <string.h>
#include <time.h>

enum { MOST = 32, ANSWERS = COMPARED + 1 };

struct result {
    bool timed;
    double median;
    double best;
};

static const struct contender *all[MOST];
static size_t all_n;
static struct work made[WORKS]; /* of a work that was timed only the title, the kind and the count are left */
static struct result results[WORKS][MOST];
static uint64_t sink;

static void stop(const char *what, const char *work, const char *contender)
{
    fprintf(stderr, "bench: %s: %s, %s\n", what, work, contender);
    exit(1);
}

/* ---- contenders ---- */

static void gather_row(const char *row, const struct contender *c)
{
    for (; c->id != NULL; c++)
        if (strcmp(c->row, row) == 0 && all_n < MOST)
            all[all_n++] = c;
}

/* In the order of the tables' rows. */
static void gather(void)
{
    static const char *const rows[] = { READS, READS_ALL, STORES, CHECKS, RESTARTS, COMPARES, WRITES };
    size_t i;
    for (i = 0; i < sizeof rows / sizeof rows[0]; i++) {
        gather_row(rows[i], protobuf_c);
        gather_row(rows[i], protobuf_cpp);
        gather_row(rows[i], by_hand);
        gather_row(rows[i], library);
#ifdef BESIDE
        gather_row(rows[i], library_beside);
#endif
    }
}

static enum kind kind_of(enum answer answer)
{
    static const enum kind kinds[ANSWERS] = { STREAM, STREAM, STREAM, RECORDS, RECORDS, POINTS, PAIRS };
    return kinds[answer];
}

static bool takes(const struct contender *c, const struct work *w)
{
    return kind_of(c->answer) == w->kind && !(c->data_only && w->differ);
}

/* Is it timed: not where it does the same as another contender. */
static bool is_timed(const struct contender *c, const struct work *w)
{
    return takes(c, w) && !(c->accepts_only && w->opening.n != 0);
}

static size_t contender_of(const char *id)
{
    size_t i;
    for (i = 0; i < all_n; i++)
        if (strcmp(all[i]->id, id) == 0)
            return i;
    stop("no such contender", "-", id);
    return 0;
}

/* ---- the comparison ---- */

/* The contender that others with the same answer are held against: protobuf-c, or the library where it has none. A library beside may
 * be from before the comparison of files: there it is C by hand. */
static const struct contender *reference_for(enum answer answer)
{
    static const char *const ids[ANSWERS] = { "protobuf-c",      "protobuf-c-values", "library-store", "library-check",
                                              "library-restart", "protobuf-c-pack",   "hand-compare" };
    return all[contender_of(ids[answer])];
}

static void compare_digests(const struct work *w, const struct contender *c, const struct contender *reference)
{
    struct message m;
    size_t at;
    for (at = 0; next_message(w, &at, &m);)
        if (c->digest(m) != reference->digest(m))
            stop("finds other values", w->id, c->id);
}

/* What a pass of the reference leaves in the area, a pass of c leaves too. */
static void compare_areas(const struct work *w, const struct contender *c, const struct contender *reference)
{
    uint64_t n = reference->pass(w);
    uint8_t *bytes = malloc(n);
    if (bytes == NULL || n > w->area_n)
        stop("no memory", w->id, c->id);
    memcpy(bytes, w->area, n);
    if (!c->data_only)
        memset(w->area, 0xA5, w->area_n);
    if (c->pass(w) != n || memcmp(bytes, w->area, n) != 0)
        stop("leaves other bytes", w->id, c->id);
    free(bytes);
}

/* A sum of 0 is a refusal, but of a file check the answer "unfinished". It returns how many contenders it held against another. */
static size_t compare(const struct work *w)
{
    size_t i, held = 0;
    for (i = 0; i < all_n; i++) {
        const struct contender *c = all[i], *reference = reference_for(c->answer);
        uint64_t sum;
        if (!takes(c, w))
            continue;
        sum = c->pass(w);
        if (sum != reference->pass(w) || (sum == 0) != (c->answer == CHECKED))
            stop("answers another sum", w->id, c->id);
        if (c->digest != NULL)
            compare_digests(w, c, reference);
        if (c->answer == STORED || c->answer == WRITTEN || c->answer == COMPARED)
            compare_areas(w, c, reference);
        held += c != reference;
    }
    return held;
}

static int compare_all(void)
{
    size_t which, held = 0;
    for (which = 0; which < WORKS; which++) {
        made[which] = make_work(which);
        held += compare(&made[which]);
        drop_work(&made[which]);
    }
    printf("%zu passed, 0 failed\n", held);
    return 0;
}

/* ---- the times ---- */

static double now(void)
{
    struct timespec t;
    clock_gettime(CLOCK_THREAD_CPUTIME_ID, &t);
    return (double)t.tv_sec * 1e9 + (double)t.tv_nsec;
}

static double time_pass(const struct contender *c, const struct work *w)
{
    double start = now();
    sink += c->pass(w);
    return now() - start;
}

static int by_size(const void *a, const void *b)
{
    double x = *(const double *)a, y = *(const double *)b;
    return (x > y) - (x < y);
}

static struct result result_of(double *times, size_t n)
{
    struct result r = { true, 0, 0 };
    qsort(times, n, sizeof times[0], by_size);
    r.best = times[0];
    r.median = n % 2 != 0 ? times[n / 2] : (times[n / 2 - 1] + times[n / 2]) / 2;
    return r;
}

/* Each repetition runs every contender once, after one that is not counted. */
static void time_work(size_t which, size_t repetitions, FILE *log)
{
    const struct work *w = &made[which];
    double *times = calloc(MOST * repetitions, sizeof times[0]);
    size_t i, k;
    if (times == NULL)
        stop("no memory", w->id, "-");
    for (k = 0; k <= repetitions; k++)
        for (i = 0; i < all_n; i++)
            if (is_timed(all[i], w)) {
                double t = time_pass(all[i], w);
                if (k == 0)
                    continue;
                times[i * repetitions + k - 1] = t;
                fprintf(log, "%s\t%s\t%zu\t%.0f\n", w->id, all[i]->id, k, t);
            }
    for (i = 0; i < all_n; i++)
        if (is_timed(all[i], w))
            results[which][i] = result_of(times + i * repetitions, repetitions);
    free(times);
}

static void run_work(size_t which, size_t repetitions, FILE *log)
{
    fprintf(stderr, "bench: %s\n", work_id(which));
    made[which] = make_work(which);
    compare(&made[which]);
    time_work(which, repetitions, log);
    drop_work(&made[which]);
}

/* ---- the tables ---- */

static void print_figure(double figure)
{
    printf(figure >= 100 ? "%.0f" : figure >= 10 ? "%.1f" : "%.2f", figure);
}

/* What a table's cells say: how many times as fast as the base, how many times its time, or nanoseconds for each in a pass. */
enum measure { SPEED, TIME, EACH };

static double figure(double time, double base, size_t count, enum measure measure)
{
    return measure == SPEED ? base / time : time / (measure == TIME ? base : (double)count);
}

/* By medians, and by bests. */
static void print_cell(size_t which, size_t i, size_t base, enum measure measure)
{
    const struct result *r = &results[which][i], *b = &results[which][base];
    if (!r->timed || !b->timed) {
        printf(" - |");
        return;
    }
    printf(" ");
    print_figure(figure(r->median, b->median, made[which].count, measure));
    printf(" (");
    print_figure(figure(r->best, b->best, made[which].count, measure));
    printf(") |");
}

static void print_head(const char *first, enum kind kind)
{
    size_t which;
    printf("\n| %s | |", first);
    for (which = 0; which < WORKS; which++)
        if (made[which].kind == kind)
            printf(" %s |", made[which].title);
    printf("\n|---|---|");
    for (which = 0; which < WORKS; which++)
        if (made[which].kind == kind)
            printf("---|");
    printf("\n");
}

static void print_row(size_t i, enum kind kind, size_t base, enum measure measure)
{
    bool first = i == 0 || strcmp(all[i]->row, all[i - 1]->row) != 0;
    size_t which;
    printf("| %s | %s |", first ? all[i]->row : "", all[i]->title);
    for (which = 0; which < WORKS; which++)
        if (made[which].kind == kind)
            print_cell(which, i, base, measure);
    printf("\n");
}

/* The contenders with these answers, beside one of them. */
static void print_table(const char *first, enum answer least, enum answer most, const char *base, enum measure measure)
{
    enum kind kind = kind_of(least);
    size_t i;
    print_head(first, kind);
    for (i = 0; i < all_n; i++)
        if (least <= all[i]->answer && all[i]->answer <= most)
            print_row(i, kind, contender_of(base), measure);
}

/* The contenders of a file's work against the one by hand that has the same answer. */
static void print_file_times(void)
{
    size_t i;
    print_head("time, as a multiple of the walk by hand", RECORDS);
    for (i = 0; i < all_n; i++)
        if (kind_of(all[i]->answer) == RECORDS)
            print_row(i, RECORDS, contender_of(all[i]->answer == CHECKED ? "hand-check" : "hand-restart"), TIME);
}

static int time_all(size_t repetitions, const char *path)
{
    FILE *log = fopen(path, "w");
    size_t which;
    if (log == NULL || repetitions == 0)
        stop("no repetitions, or no file for the times", "-", path);
    for (which = 0; which < WORKS; which++)
        run_work(which, repetitions, log);
    fclose(log);
    print_table("speed, as a multiple of protobuf-c's unpack", MEMBERS, STORED, "protobuf-c", SPEED);
    print_table("speed, as a multiple of memcpy into the same area", STORED, STORED, "memcpy", SPEED);
    print_file_times();
    print_table("speed, as a multiple of memcmp of both files", COMPARED, COMPARED, "memcmp", SPEED);
    print_table("time, as a multiple of the comparison by hand", COMPARED, COMPARED, "hand-compare", TIME);
    print_table("nanoseconds for each pair of records", COMPARED, COMPARED, "hand-compare", EACH);
    print_table("speed, as a multiple of protobuf-c's pack", WRITTEN, WRITTEN, "protobuf-c-pack", SPEED);
    fprintf(stderr, "bench: all answers together: %llu\n", (unsigned long long)sink);
    return 0;
}

/* ---- instructions ---- */

/* Not the works that are long to make under valgrind. */
static bool is_counted(size_t which)
{
    static const char *const left_out[] = { "large", "file", "file-empty", "pair-large", "pair" };
    size_t i;
    for (i = 0; i < sizeof left_out / sizeof left_out[0]; i++)
        if (strcmp(work_id(which), left_out[i]) == 0)
            return false;
    return true;
}

/* The work with one round to a pass: counts need no length. */
static struct work make_short(size_t which)
{
    struct work w = make_work(which);
    if (w.rounds > 1)
        w.count /= w.rounds;
    w.rounds = 1;
    return w;
}

static void print_pair(const struct contender *c, const struct work *w)
{
    static const char *const units[] = { "message", "record", "commit point", "pair of records" };
    printf("%s\t%s\t%s\t%zu\t%s\t%s\t%s\n", units[w->kind], w->id, c->id, w->count, w->title, c->row, c->title);
}

static int print_pairs(void)
{
    size_t which, i;
    for (which = 0; which < WORKS; which++)
        if (is_counted(which))
            made[which] = make_short(which);
    for (i = 0; i < all_n; i++)
        for (which = 0; which < WORKS; which++)
            if (is_counted(which) && is_timed(all[i], &made[which]))
                print_pair(all[i], &made[which]);
    for (which = 0; which < WORKS; which++)
        drop_work(&made[which]);
    return 0;
}

__attribute__((noipa)) static void counted(const struct contender *c, const struct work *w)
{
    sink += c->pass(w);
}

static int run_once(const char *work, const char *contender)
{
    const struct contender *c = all[contender_of(contender)];
    struct work w;
    size_t which = 0;
    while (which < WORKS && strcmp(work_id(which), work) != 0)
        which++;
    if (which == WORKS)
        stop("no such work", work, contender);
    w = make_short(which);
    if (!takes(c, &w))
        stop("does not do this work", work, contender);
    sink += c->pass(&w);
    counted(c, &w);
    fprintf(stderr, "bench: %llu\n", (unsigned long long)sink);
    drop_work(&w);
    return 0;
}

int main(int argc, char **argv)
{
    gather();
    if (argc == 4 && strcmp(argv[1], "time") == 0)
        return time_all(strtoul(argv[2], NULL, 10), argv[3]);
    if (argc == 2 && strcmp(argv[1], "compare") == 0)
        return compare_all();
    if (argc == 2 && strcmp(argv[1], "pairs") == 0)
        return print_pairs();
    if (argc == 4 && strcmp(argv[1], "once") == 0)
        return run_once(argv[2], argv[3]);
    fprintf(stderr, "usage: bench time REPETITIONS TIMES | compare | pairs | once WORK CONTENDER\n");
    return 2;
}
