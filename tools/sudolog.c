/*
 * sudolog.c: stored files on a terminal: whether they are valid, their records, what two of them differ in.
 *
 * It reads files into memory (no mmap: a daemon may still write them), calls the library through include/sudolog.h, prints
 * lines. What is a file or a record, and what differs, is the library's answer. Every byte that comes from outside, a file's or
 * a file name's, is printed through sudolog_escape, so that none reaches the terminal as it is. From below: output, reading,
 * the walk over a file, a record's line, the three commands. The script ./sudolog builds and runs it.
 */
#define _DEFAULT_SOURCE

#include "sudolog.h"

#include <errno.h>
#include <fcntl.h>
#include <inttypes.h>
#include <stdio.h>
#include <stdlib.h>
#include <sys/mman.h>
#include <sys/stat.h>
#include <unistd.h>

/* The script prints these lines too, without building the program: it takes what stands between the quotes. */
static const char usage[] =
    "usage: ./sudolog check FILE...\n"
    "       ./sudolog list FILE\n"
    "       ./sudolog compare FIRST SECOND\n"
    "Shows recordings as the collector stored them. A FILE named - is standard input.\n"
    "  check    a line for each file: whether it is valid and finished, its records, bytes and total time\n"
    "  list     a line for each record, below the accept its entries; the last line as check\n"
    "  compare  each record number at which the two differ: in what, and the record of each; the last line says how many\n"
    "Exit status: 0 all are valid, or no difference; 1 a file is refused, or there are differences; 2 wrong usage, or a file\n"
    "can't be read, or the output can't be written.\n";

enum status {
    STATUS_FINE = 0,
    STATUS_FOUND = 1, /* a file that is refused, a difference */
    STATUS_FAILED = 2
};

enum {
    SHOWN = 48, /* of a record's data, in bytes */
    BEFORE = 8  /* of them before the place where two data part */
};

static const uint64_t second = 1000000000;
static const uint64_t greatest_total = 4294967295999999999; /* document 01's limit, in nanoseconds */

/* ---- output ---- */

/* At the failed write itself: later, errno may be another's. */
static void stop_unwritten(void)
{
    fprintf(stderr, "sudolog: can't write: %s\n", strerror(errno));
    exit(STATUS_FAILED);
}

static void flush_output(void)
{
    if (fflush(stdout) != 0 || ferror(stdout))
        stop_unwritten();
}

static void end_line(void)
{
    putchar('\n');
    if (ferror(stdout))
        stop_unwritten();
}

/* In pieces: a byte's text does not depend on its neighbours. */
static void put_escaped(FILE *to, const uint8_t *data, size_t n)
{
    uint8_t text[4096];
    const size_t most = sizeof text / 4;
    size_t at = 0;
    while (at < n) {
        size_t piece = n - at < most ? n - at : most;
        fwrite(text, 1, sudolog_written_size(sudolog_escape(data + at, piece, text, sizeof text)), to);
        at += piece;
    }
}

static void put_name(FILE *to, const char *name)
{
    put_escaped(to, SUDOLOG_LEND_STRING(name));
}

static void put_count(size_t n, const char *what)
{
    printf("%zu %s%s", n, what, n == 1 ? "" : "s");
}

/* Nanoseconds that are none, which only an accept's time can have, are printed as the number that they are. */
static void put_time(struct sudolog_time time)
{
    int digits = time.nanoseconds >= 0 && time.nanoseconds < 1000000000 ? 9 : 1;
    printf("%" PRId64 ".%.*" PRId32, time.seconds, digits, time.nanoseconds);
}

static void put_total(uint64_t total)
{
    fputs("total ", stdout);
    if (total > greatest_total)
        fputs("too great", stdout);
    else
        put_time(sudolog_time_of(total));
}

/* ---- reading ---- */

struct file {
    const char *name;
    uint8_t *bytes;
    size_t length;
};

/* One byte more than the greatest area: such a file is refused, and need not be read further. */
static const size_t most_bytes = (size_t)SUDOLOG_AREA_MAX + 1;

static bool is_standard_input(const char *name)
{
    return strcmp(name, "-") == 0;
}

/* One byte more than the file has, so that its end is found without growing. */
static size_t first_room(int from)
{
    struct stat about;
    if (fstat(from, &about) != 0 || about.st_size <= 0)
        return 65536;
    return (uintmax_t)about.st_size < most_bytes ? (size_t)about.st_size + 1 : most_bytes;
}

/* Most of the time for a large file is the first touch of its pages: so large ones, where the system has them. It is a wish, and
 * may fail. */
static void wish_large_pages(uint8_t *bytes, size_t room)
{
#ifdef MADV_HUGEPAGE
    const size_t worth = 4194304;
    uintptr_t page = (uintptr_t)sysconf(_SC_PAGESIZE);
    uintptr_t from = ((uintptr_t)bytes + page - 1) / page * page, to = ((uintptr_t)bytes + room) / page * page;
    if (room >= worth)
        madvise((void *)from, to - from, MADV_HUGEPAGE);
#else
    (void)bytes;
    (void)room;
#endif
}

static bool grow(struct file *file, size_t room)
{
    uint8_t *bytes = realloc(file->bytes, room);
    if (bytes == NULL)
        return false;
    file->bytes = bytes;
    wish_large_pages(bytes, room);
    return true;
}

/* True at the end of the file or of most_bytes; false with errno set. */
static bool read_bytes(int from, struct file *file)
{
    size_t room = first_room(from);
    ssize_t got;
    if (!grow(file, room))
        return false;
    do {
        if (file->length == room) {
            room = room < most_bytes / 2 ? 2 * room : most_bytes;
            if (!grow(file, room))
                return false;
        }
        got = read(from, file->bytes + file->length, room - file->length);
        if (got > 0)
            file->length += (size_t)got;
    } while (file->length < most_bytes && (got > 0 || (got < 0 && errno == EINTR)));
    return got >= 0;
}

/* errno says why not. */
static void tell_unread(const char *name)
{
    int reason = errno;
    flush_output();
    fputs("sudolog: can't read ", stderr);
    put_name(stderr, name);
    fprintf(stderr, ": %s\n", strerror(reason));
}

/* Whether it was read: then the bytes are to be freed. */
static bool read_file(const char *name, struct file *file)
{
    int from = is_standard_input(name) ? STDIN_FILENO : open(name, O_RDONLY);
    bool done;
    file->name = name;
    file->bytes = NULL;
    file->length = 0;
    done = from >= 0 && read_bytes(from, file);
    if (!done) {
        tell_unread(name);
        free(file->bytes);
    }
    if (from >= 0 && !is_standard_input(name))
        close(from);
    return done;
}

/* ---- the walk over a file ---- */

struct walk {
    struct sudolog_records left;
    struct sudolog_record record; /* the present one, number count - 1 */
    size_t count;
    uint64_t total; /* in nanoseconds, one more than greatest_total where it is beyond */
};

static struct walk walk_of(const struct file *file)
{
    struct walk walk;
    memset(&walk, 0, sizeof walk);
    walk.left = sudolog_records_of(file->bytes, file->length, file->length);
    return walk;
}

static bool is_timed(int kind)
{
    return kind >= SUDOLOG_FROM_CLIENT_TTYIN && kind <= SUDOLOG_FROM_CLIENT_SUSPEND;
}

static bool next_record(struct walk *walk)
{
    if (sudolog_walk_records(&walk->left, &walk->record) != 1)
        return false;
    walk->count++;
    if (is_timed(walk->record.kind))
        walk->total += (uint64_t)walk->record.delay.seconds * second + (uint64_t)walk->record.delay.nanoseconds;
    if (walk->total > greatest_total)
        walk->total = greatest_total + 1;
    return true;
}

static const uint8_t *data_of(const struct walk *walk)
{
    return walk->left.area + walk->record.data.offset;
}

/* ---- a record's line ---- */

/* What data show from the place start on. */
static void put_text(const uint8_t *data, size_t n, size_t start)
{
    size_t shown = n - start < SHOWN ? n - start : SHOWN;
    put_escaped(stdout, data + start, shown);
    if (n - start > shown)
        fputs("..", stdout);
}

static void put_data(const uint8_t *data, size_t n, size_t start)
{
    put_count(n, "byte");
    if (start > 0)
        printf(", from %zu", start);
    if (start < n) {
        fputs(": ", stdout);
        put_text(data, n, start);
    }
}

static void put_exit(const uint8_t *data, size_t n, const struct sudolog_exit *ended, size_t start)
{
    put_count(n, "byte");
    printf(": value %" PRId32 "%s", ended->exit_value, ended->dumped_core ? ", core dumped" : "");
    if (ended->signal.length > 0) {
        fputs(", signal ", stdout);
        put_escaped(stdout, data + ended->signal.offset, ended->signal.length);
    }
    if (ended->error.length > 0) {
        fputs(", error ", stdout);
        if (start > ended->error.offset)
            printf("from %zu: ", start);
        put_text(data, n, start > ended->error.offset ? start : ended->error.offset);
    }
}

static void put_window_size(const struct sudolog_window_size *size)
{
    fputs("4 bytes: ", stdout);
    put_count((size_t)size->rows, "row");
    fputs(", ", stdout);
    put_count((size_t)size->cols, "column");
}

/* The data in the words of their kind, or as they are where they have no such form. */
static void put_contents(const struct walk *walk, size_t start)
{
    const struct sudolog_record *record = &walk->record;
    const uint8_t *data = data_of(walk);
    struct sudolog_exit ended;
    struct sudolog_window_size size;
    if (record->kind == SUDOLOG_FROM_CLIENT_EXIT && sudolog_get_stored_exit(data, record->data.length, record->delay, &ended))
        put_exit(data, record->data.length, &ended, start);
    else if (record->kind == SUDOLOG_FROM_CLIENT_WINDOW_SIZE &&
             sudolog_get_stored_window_size(data, record->data.length, record->delay, &size))
        put_window_size(&size);
    else
        put_data(data, record->data.length, start);
}

static void put_delay(const char *what, struct sudolog_time delay)
{
    printf(", %s ", what);
    put_time(delay);
}

/* Kind and times. An accept that has a delay stands in no valid file. */
static void put_head(const struct walk *walk)
{
    const struct sudolog_record *record = &walk->record;
    if (record->kind == SUDOLOG_FROM_CLIENT_ACCEPT) {
        fputs("accept", stdout);
        if (record->delay.seconds != 0 || record->delay.nanoseconds != 0)
            put_delay("delay", record->delay);
    } else if (record->kind == SUDOLOG_FROM_CLIENT_EXIT) {
        fputs("exit", stdout);
        put_delay("run time", record->delay);
    } else {
        if (is_timed(record->kind))
            fputs(sudolog_kind_name(record->kind), stdout);
        else
            printf("kind %d", record->kind);
        put_delay("delay", record->delay);
        fputs(", ", stdout);
        put_total(walk->total);
    }
    fputs(", ", stdout);
}

/* ---- an accept's entries, in list alone ---- */

static void put_strings(const uint8_t *list, size_t n)
{
    struct sudolog_string_list left;
    struct sudolog_span string;
    const char *before = ": ";
    size_t count = 0;
    sudolog_get_string_list(list, n, &left);
    while (sudolog_next_string(&left, &string))
        count++;
    put_count(count, "string");
    sudolog_get_string_list(list, n, &left);
    while (sudolog_next_string(&left, &string)) {
        fputs(before, stdout);
        put_escaped(stdout, list + string.offset, string.length);
        before = ", ";
    }
}

static void put_numbers(const uint8_t *list, size_t n)
{
    struct sudolog_number_list left;
    const char *before = ": ";
    int64_t number;
    size_t count = 0;
    sudolog_get_number_list(list, n, &left);
    while (sudolog_next_int64(&left, &number))
        count++;
    put_count(count, "number");
    sudolog_get_number_list(list, n, &left);
    while (sudolog_next_int64(&left, &number)) {
        printf("%s%" PRId64, before, number);
        before = ", ";
    }
}

static void put_entry(const uint8_t *accept, const struct sudolog_entry *entry)
{
    const uint8_t *value = accept + entry->value.offset;
    fputs("  ", stdout);
    put_escaped(stdout, accept + entry->key.offset, entry->key.length);
    fputs(": ", stdout);
    switch (entry->kind) {
    case SUDOLOG_VALUE_NUMBER: printf("%" PRId64, entry->number); break;
    case SUDOLOG_VALUE_STRING: put_escaped(stdout, value, entry->value.length); break;
    case SUDOLOG_VALUE_STRINGS: put_strings(value, entry->value.length); break;
    case SUDOLOG_VALUE_NUMBERS: put_numbers(value, entry->value.length); break;
    default: fputs("no value", stdout);
    }
    end_line();
}

static void put_entries(const uint8_t *data, struct sudolog_accept *accept)
{
    struct sudolog_entry entry;
    fputs("  submitted: ", stdout);
    put_time(accept->submit_time);
    end_line();
    while (sudolog_next_entry(&accept->entries, &entry))
        put_entry(data, &entry);
}

/* ---- the commands: each returns the exit status ---- */

/* What the records are that the walk, at its end, went over. */
static void put_sums(const struct walk *walk)
{
    put_count(walk->count, "record");
    fputs(", ", stdout);
    put_count(walk->left.at, "byte");
    fputs(", ", stdout);
    put_total(walk->total);
}

static void put_refused(const struct file *file, const struct walk *walk)
{
    size_t behind = file->length - walk->left.at;
    printf("refused %d, no valid file: ", SUDOLOG_NO_VALID_FILE);
    if (file->length > SUDOLOG_AREA_MAX) {
        printf("longer than %d bytes", SUDOLOG_AREA_MAX);
        return;
    }
    put_sums(walk);
    if (behind > 0) {
        fputs(", and ", stdout);
        put_count(behind, "byte");
        fputs(" behind them", stdout);
    }
}

/* The line of check, for a walk that is at its end. */
static enum status put_verdict(const struct file *file, const struct walk *walk)
{
    int verdict = sudolog_check_file(file->bytes, file->length, file->length);
    put_name(stdout, file->name);
    fputs(": ", stdout);
    if (verdict == SUDOLOG_FILE_REFUSED) {
        put_refused(file, walk);
    } else {
        printf("valid, %s, ", verdict == SUDOLOG_FILE_FINISHED ? "finished" : "unfinished");
        put_sums(walk);
    }
    end_line();
    return verdict == SUDOLOG_FILE_REFUSED ? STATUS_FOUND : STATUS_FINE;
}

static enum status judge(const struct file *file)
{
    struct walk walk = walk_of(file);
    while (next_record(&walk))
        ;
    return put_verdict(file, &walk);
}

static enum status check_one(const char *name)
{
    struct file file;
    enum status status;
    if (!read_file(name, &file))
        return STATUS_FAILED;
    status = judge(&file);
    free(file.bytes);
    return status;
}

static enum status check(int count, char **names)
{
    enum status greatest = STATUS_FINE;
    int k;
    for (k = 0; k < count; k++) {
        enum status status = check_one(names[k]);
        greatest = status > greatest ? status : greatest;
    }
    return greatest;
}

static void put_listed(const struct walk *walk)
{
    const struct sudolog_record *record = &walk->record;
    struct sudolog_accept accept;
    printf("record %zu: ", walk->count - 1);
    put_head(walk);
    if (record->kind == SUDOLOG_FROM_CLIENT_ACCEPT && sudolog_decode_accept(data_of(walk), record->data.length, &accept) == 0) {
        put_count(record->data.length, "byte");
        end_line();
        put_entries(data_of(walk), &accept);
    } else {
        put_contents(walk, 0);
        end_line();
    }
}

static enum status list(const char *name)
{
    struct file file;
    struct walk walk;
    enum status status;
    if (!read_file(name, &file))
        return STATUS_FAILED;
    walk = walk_of(&file);
    while (next_record(&walk))
        put_listed(&walk);
    status = put_verdict(&file, &walk);
    free(file.bytes);
    return status;
}

static void put_what_differs(struct sudolog_difference difference)
{
    const char *between = "";
    if (difference.flags & SUDOLOG_FIRST_ONLY)
        fputs("first file only", stdout);
    if (difference.flags & SUDOLOG_SECOND_ONLY)
        fputs("second file only", stdout);
    if (difference.flags & SUDOLOG_DIFFERS_KIND) {
        fputs("kind", stdout);
        between = ", ";
    }
    if (difference.flags & SUDOLOG_DIFFERS_TIME) {
        printf("%stime", between);
        between = ", ";
    }
    if (difference.flags & SUDOLOG_DIFFERS_DATA)
        printf("%sdata from offset %" PRIu32, between, difference.offset);
}

/* The record with this number, which the walk has not passed. */
static void put_side(const char *side, struct walk *walk, size_t number, size_t start)
{
    while (walk->count <= number && next_record(walk))
        ;
    fputs(side, stdout);
    put_head(walk);
    put_contents(walk, start);
    end_line();
}

static void put_difference(struct sudolog_difference difference, size_t number, struct walk *first, struct walk *other)
{
    size_t start = difference.offset > BEFORE ? difference.offset - BEFORE : 0;
    printf("record %zu: ", number);
    put_what_differs(difference);
    end_line();
    if (!(difference.flags & SUDOLOG_SECOND_ONLY))
        put_side("  first:  ", first, number, start);
    if (!(difference.flags & SUDOLOG_FIRST_ONLY))
        put_side("  second: ", other, number, start);
}

/* The walks go on to records that differ alone, so that equal files are not walked. */
static size_t put_differences(const struct file *files, const uint8_t *entries, size_t count)
{
    struct walk first = walk_of(&files[0]), other = walk_of(&files[1]);
    size_t number, found = 0;
    for (number = 0; number < count; number++) {
        struct sudolog_difference difference = sudolog_difference_at(entries, number);
        if (difference.flags != 0) {
            put_difference(difference, number, &first, &other);
            found++;
        }
    }
    return found;
}

static enum status put_end(size_t first_count, size_t second_count, size_t found)
{
    fputs("end: ", stdout);
    put_count(first_count, "record");
    printf(" and %zu, ", second_count);
    if (found == 0)
        fputs("no difference", stdout);
    else
        printf("%zu %s", found, found == 1 ? "differs" : "differ");
    end_line();
    return found == 0 ? STATUS_FINE : STATUS_FOUND;
}

static enum status judge_refused(const struct file *files)
{
    int k;
    for (k = 0; k < 2; k++)
        if (sudolog_check_file(files[k].bytes, files[k].length, files[k].length) == SUDOLOG_FILE_REFUSED)
            judge(&files[k]);
    return STATUS_FOUND;
}

static size_t count_records(const struct file *file)
{
    return sudolog_written_size(sudolog_count_records(file->bytes, file->length, file->length));
}

static enum status compare_files(const struct file *files)
{
    size_t first_count = count_records(&files[0]), second_count = count_records(&files[1]);
    size_t room = 8 * (first_count > second_count ? first_count : second_count);
    uint8_t *entries = malloc(room + 1); /* never of no bytes: that may give NULL */
    uint64_t written;
    enum status status;
    if (entries == NULL) {
        flush_output();
        fprintf(stderr, "sudolog: can't compare: %s\n", strerror(errno));
        return STATUS_FAILED;
    }
    written = sudolog_compare_files(files[0].bytes, files[0].length, files[0].length,
                                    files[1].bytes, files[1].length, files[1].length, entries, room);
    if (sudolog_written_refusal(written) != 0)
        status = judge_refused(files);
    else
        status = put_end(first_count, second_count, put_differences(files, entries, sudolog_written_size(written) / 8));
    free(entries);
    return status;
}

static enum status compare(char **names)
{
    struct file files[2];
    bool first_read = read_file(names[0], &files[0]), second_read = read_file(names[1], &files[1]);
    enum status status = first_read && second_read ? compare_files(files) : STATUS_FAILED;
    if (first_read)
        free(files[0].bytes);
    if (second_read)
        free(files[1].bytes);
    return status;
}

/* ---- the call ---- */

static bool names_input_once(int count, char **names)
{
    int k, times = 0;
    for (k = 0; k < count; k++)
        times += is_standard_input(names[k]);
    return times <= 1;
}

static enum status run(int count, char **words)
{
    if (count == 1 && (strcmp(words[0], "-h") == 0 || strcmp(words[0], "--help") == 0)) {
        fputs(usage, stdout);
        return STATUS_FINE;
    }
    if (count >= 2 && names_input_once(count - 1, words + 1)) {
        if (strcmp(words[0], "check") == 0)
            return check(count - 1, words + 1);
        if (count == 2 && strcmp(words[0], "list") == 0)
            return list(words[1]);
        if (count == 3 && strcmp(words[0], "compare") == 0)
            return compare(words + 1);
    }
    fputs(usage, stderr);
    return STATUS_FAILED;
}

int main(int argc, char **argv)
{
    enum status status = run(argc - 1, argv + 1);
    flush_output();
    if (fclose(stdout) != 0)
        stop_unwritten();
    return status;
}
