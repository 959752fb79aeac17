/*
 * work.c: the works. All of them come from one generator with a fixed seed, apart from the accept of a real sudo, which
 * is taken from tests/streams (the program runs in the root of the repository). Messages are made by the library's
 * writers; that the other contenders read the same in them is compared by main.c.
 */
#include "bench.h"
#include "sudolog.h"

#include <stdio.h>
#include <stdlib.h>
#include <string.h>

#define REAL_STREAM "tests/streams/sudo-2-real.client"

enum { HEADER = 11, LONGEST = 65536, AROUND = 64, ACCEPT_ROOM = 4096 };

static void stop(const char *why)
{
    fprintf(stderr, "bench: %s\n", why);
    exit(2);
}

static void *room_for(size_t n)
{
    void *room = malloc(n);
    if (room == NULL)
        stop("no memory");
    memset(room, 0xA5, n); /* so that no pass meets a page for the first time */
    return room;
}

static size_t written(uint64_t answer)
{
    if (sudolog_written_refusal(answer) != 0)
        stop("a writer refused");
    return sudolog_written_size(answer);
}

/* ---- the generator ---- */

static uint64_t chance = 88172645463325252u;

static uint64_t below(uint64_t n)
{
    chance ^= chance << 13;
    chance ^= chance >> 7;
    chance ^= chance << 17;
    return (chance >> 11) % n;
}

static uint64_t between(uint64_t least, uint64_t most)
{
    return least + below(most - least + 1);
}

/* ---- accepts ---- */

enum value { NUMBER, STRING, STRINGS, NUMBERS };

/* 36 entries as sudo names them; the elements of a list stand between spaces. */
static const struct {
    const char *key;
    enum value kind;
    const char *value;
} entries[] = {
    { "clientargv", STRINGS, "sudo -u postgres -- /usr/bin/psql -d accounts -f /srv/jobs/close-month.sql" },
    { "clientpid", NUMBER, "48213" },
    { "clientppid", NUMBER, "48190" },
    { "clientsid", NUMBER, "48190" },
    { "closefrom", NUMBER, "3" },
    { "columns", NUMBER, "132" },
    { "command", STRING, "/usr/bin/psql" },
    { "iolog_compress", NUMBER, "0" },
    { "iolog_path", STRING, "/var/log/sudo-io/00/1F/7Q" },
    { "lines", NUMBER, "50" },
    { "login_class", STRING, "staff" },
    { "noexec", NUMBER, "0" },
    { "preserved_fds", NUMBERS, "0 1 2" },
    { "runargv", STRINGS, "psql -d accounts -f /srv/jobs/close-month.sql" },
    { "runchroot", STRING, "/" },
    { "runcwd", STRING, "/var/lib/postgresql" },
    { "runenv", STRINGS, "LANG=C.UTF-8 TERM=xterm-256color PATH=/usr/sbin:/usr/bin:/sbin:/bin USER=postgres "
                         "HOME=/var/lib/postgresql SHELL=/bin/bash LOGNAME=postgres SUDO_USER=alice SUDO_UID=1000 "
                         "SUDO_GID=1000" },
    { "rungid", NUMBER, "114" },
    { "rungids", NUMBERS, "114 115 1001 100042" },
    { "rungroup", STRING, "postgres" },
    { "runuid", NUMBER, "107" },
    { "runuser", STRING, "postgres" },
    { "source", STRING, "/etc/sudoers.d/20-databases:14:7" },
    { "submitcwd", STRING, "/home/alice/tickets/4711" },
    { "submitenv", STRINGS, "EDITOR=vim PAGER=less" },
    { "submitgid", NUMBER, "1000" },
    { "submitgids", NUMBERS, "4 24 27 1000" },
    { "submitgroup", STRING, "alice" },
    { "submithost", STRING, "bastion-2.example.org" },
    { "submitoptions", NUMBER, "1" },
    { "submituid", NUMBER, "1000" },
    { "submituser", STRING, "alice" },
    { "timeout", NUMBER, "3600" },
    { "ttyname", STRING, "/dev/pts/17" },
    { "umask", NUMBER, "18" },
    { "utmp_user", STRING, "alice" },
};

/* The elements of a list, as the writers want them. */
struct list {
    char joined[512];
    size_t joined_n;
    size_t ends[16];
    uint64_t numbers[16];
    size_t n;
};

static struct list split(const char *value)
{
    struct list list = { .n = 0 };
    while (*value != '\0') {
        size_t n = strcspn(value, " ");
        memcpy(list.joined + list.joined_n, value, n);
        list.joined_n += n;
        list.numbers[list.n] = strtoull(value, NULL, 10);
        list.ends[list.n++] = list.joined_n;
        value += n + (value[n] == ' ');
    }
    return list;
}

static size_t write_entry(size_t which, uint8_t *out, size_t room)
{
    const char *key = entries[which].key, *value = entries[which].value;
    struct list list = split(value);
    switch (entries[which].kind) {
    case NUMBER:
        return written(sudolog_write_entry_number(2, SUDOLOG_LEND_STRING(key), list.numbers[0], 0, out, room));
    case STRING:
        return written(sudolog_write_entry_string(2, SUDOLOG_LEND_STRING(key), SUDOLOG_LEND_STRING(value), 0, out, room));
    case STRINGS:
        return written(sudolog_write_entry_strings(2, SUDOLOG_LEND_STRING(key),
                                                   SUDOLOG_LEND_TEXT(list.joined, list.joined_n), list.ends, list.n, 0,
                                                   out, room));
    default:
        return written(sudolog_write_entry_numbers(2, SUDOLOG_LEND_STRING(key), list.numbers, list.n, 0, out, room));
    }
}

/* The accept with 36 entries, unframed. */
static size_t make_accept(uint8_t *out, size_t room)
{
    uint8_t run[ACCEPT_ROOM];
    size_t i, run_n = 0;
    for (i = 0; i < sizeof entries / sizeof entries[0]; i++)
        run_n += write_entry(i, run + run_n, sizeof run - run_n);
    return written(sudolog_write_accept(SUDOLOG_FROM_CLIENT_ACCEPT, 1700000000, 123456789, run, run_n, true, false, out,
                                        room));
}

/* The accept of the real stream, unframed. */
static size_t real_accept(uint8_t *out, size_t room)
{
    uint8_t start[ACCEPT_ROOM];
    FILE *file = fopen(REAL_STREAM, "rb");
    size_t n, at, count;
    struct sudolog_client_message message;
    if (file == NULL)
        stop("can't open " REAL_STREAM);
    n = fread(start, 1, sizeof start, file);
    fclose(file);
    for (at = 0; sudolog_cut_frame(start + at, n - at, &count) == SUDOLOG_FRAME_WHOLE; at += 4 + count)
        if (sudolog_read_client_message(start + at + 4, count, &message) == 0
            && message.member == SUDOLOG_FROM_CLIENT_ACCEPT && count <= room) {
            memcpy(out, start + at + 4, count);
            return count;
        }
    stop("no accept in " REAL_STREAM);
    return 0;
}

/* ---- I/O buffers ---- */

/* Delays as live sudo sends them: mostly below a second, never zero. */
static uint64_t some_nanoseconds(void)
{
    return between(3000, below(4) == 0 ? 999999999 : 20000000);
}

static uint64_t some_seconds(void)
{
    return below(16) == 0 ? between(1, 9) : 0;
}

/* Mostly what the terminal shows. */
static uint64_t some_member(void)
{
    static const uint8_t members[] = { 7, 7, 7, 7, 7, 6, 9, 10 };
    return members[below(sizeof members)];
}

static uint8_t io_data[LONGEST];

/* With n bytes of the data that are there. */
static size_t write_io_again(size_t n, bool framed, uint8_t *out)
{
    return written(sudolog_write_io(some_member(), some_seconds(), some_nanoseconds(), io_data, n, framed, out, n + AROUND));
}

static size_t write_io(size_t n, bool framed, uint8_t *out)
{
    size_t i;
    for (i = 0; i < n && i < 128; i++)
        io_data[i] = (uint8_t)between(' ', '~');
    return write_io_again(n, framed, out);
}

/* ---- streams ---- */

/* What is stored of a message, as a place in it. */
static struct sudolog_span data_of(const uint8_t *m, size_t n)
{
    struct sudolog_client_scan scan;
    if (sudolog_scan_client(m, n, &scan) != 0)
        stop("a message of the work is refused");
    return scan.content;
}

/* A frame was added to the stream. */
static void add_frame(struct work *w, size_t n)
{
    struct sudolog_span data = data_of(w->stream + w->stream_n + 4, n - 4);
    w->stored[w->frames].offset = (uint32_t)(w->stream_n + 4 + data.offset);
    w->stored[w->frames].length = (uint32_t)data.length;
    w->area_n += w->rounds * (HEADER + data.length);
    w->stream_n += n;
    w->frames++;
    w->count += w->rounds;
}

static void begin_stream(struct work *w, size_t frames, size_t longest, size_t rounds)
{
    w->kind = STREAM;
    w->rounds = rounds;
    w->stream = room_for(frames * (longest + AROUND));
    w->stored = room_for(frames * sizeof w->stored[0]);
}

static void set_opening(struct work *w)
{
    uint8_t *accept = room_for(ACCEPT_ROOM);
    struct sudolog_span data;
    w->opening.bytes = accept;
    w->opening.n = real_accept(accept, ACCEPT_ROOM);
    data = data_of(accept, w->opening.n);
    w->opening_data.bytes = accept + data.offset;
    w->opening_data.n = data.length;
    w->area_n += HEADER + data.length;
}

static void make_io_stream(struct work *w, size_t frames, size_t least, size_t most, size_t rounds)
{
    size_t i;
    begin_stream(w, frames, most, rounds);
    set_opening(w);
    for (i = 0; i < frames; i++)
        add_frame(w, write_io(between(least, most), true, w->stream + w->stream_n));
    w->area = room_for(w->area_n);
}

/* One accept again and again. */
static void make_accept_stream(struct work *w, size_t (*make)(uint8_t *, size_t), size_t frames, size_t rounds)
{
    size_t i;
    begin_stream(w, frames, ACCEPT_ROOM, rounds);
    for (i = 0; i < frames; i++) {
        uint8_t *frame = w->stream + w->stream_n;
        size_t n = make(frame + 4, ACCEPT_ROOM);
        frame[0] = frame[1] = 0;
        frame[2] = (uint8_t)(n >> 8);
        frame[3] = (uint8_t)n;
        add_frame(w, 4 + n);
    }
    w->area = room_for(w->area_n);
    snprintf(w->title + strlen(w->title), sizeof w->title - strlen(w->title), ", %zu bytes", w->stream_n / frames - 4);
}

/* ---- files ---- */

static uint64_t total_of(const struct sudolog_session *session)
{
    return sudolog_big_endian(session->bytes + 16);
}

/* A session and its file. */
struct recording {
    struct sudolog_session session;
    uint8_t *area;
    size_t area_n;
    size_t used;
};

static void take(struct recording *r, const uint8_t *m, size_t n)
{
    struct sudolog_answer answer;
    if (sudolog_take_message(&r->session, m, n, r->area, r->area_n, r->used, &answer) != 0)
        stop("a record of the work is refused");
    r->used = answer.used;
}

static uint8_t message[LONGEST + AROUND];

/* With the accept stored, and room for records with data up to `most` bytes. */
static struct recording begin_recording(size_t records, size_t most)
{
    struct recording r = { .session = sudolog_new_session(), .area_n = ACCEPT_ROOM + records * (HEADER + most) };
    r.area = room_for(r.area_n);
    take(&r, message, real_accept(message, sizeof message));
    return r;
}

/* An unfinished file, and a restart at the total that it has in the middle. */
static void make_file(struct work *w, size_t records, size_t least, size_t most)
{
    struct recording r = begin_recording(records, most);
    uint8_t *restart = room_for(AROUND);
    size_t i;
    for (i = 0; i < records; i++) {
        take(&r, message, write_io(between(least, most), false, message));
        if (i == records / 2)
            w->resume = total_of(&r.session);
    }
    w->kind = RECORDS;
    w->count = records;
    w->area = r.area;
    w->area_n = r.area_n;
    w->used = r.used;
    w->restart.bytes = restart;
    w->restart.n = written(sudolog_write_restart(SUDOLOG_FROM_CLIENT_RESTART, SUDOLOG_LEND_STRING("id"),
                                                 w->resume / 1000000000, w->resume % 1000000000, false, restart,
                                                 AROUND));
}

/* The message of n bytes with data_n bytes of data becomes another: with other data, with the data's beginning, or with one other byte
 * among the last ten, which are data. */
static size_t alter(size_t n, size_t data_n)
{
    switch (below(3)) {
    case 0: return write_io(data_n, false, message);
    case 1: return write_io_again(data_n - 1, false, message);
    default: message[n - 1 - below(10)] ^= 1; return n;
    }
}

/* Two unfinished files, the same or, where they differ, with one record of 16 changed in the second and one left out at its end. */
static void make_pair(struct work *w, size_t records, size_t least, size_t most, bool differ)
{
    struct recording first = begin_recording(records, most), second = begin_recording(records, most);
    size_t i, data_n, n;
    for (i = 0; i < records; i++) {
        data_n = between(least, most);
        n = write_io(data_n, false, message);
        take(&first, message, n);
        if (differ && below(16) == 0)
            n = alter(n, data_n);
        if (!differ || i + 1 < records)
            take(&second, message, n);
    }
    w->kind = PAIRS;
    w->count = records;
    w->differ = differ;
    w->first = (struct message){ first.area, first.used };
    w->second = (struct message){ second.area, second.used };
    w->area_n = 8 * (1 + records);
    w->area = room_for(w->area_n);
}

/* ---- commit points ---- */

static void make_points(struct work *w, size_t n, size_t rounds)
{
    size_t i;
    w->kind = POINTS;
    w->count = n * rounds;
    w->rounds = rounds;
    w->points = room_for(n * sizeof w->points[0]);
    w->points_n = n;
    for (i = 0; i < n; i++) {
        w->points[i].seconds = below(100000);
        w->points[i].nanoseconds = below(1000000000);
    }
    w->area_n = w->count * AROUND;
    w->area = room_for(w->area_n);
}

/* ---- by number ---- */

static const char *const works[WORKS][2] = {
    { "small", "I/O buffers of 10 to 100 bytes" },
    { "large", "I/O buffers of 64 KiB" },
    { "real", "real accept, 11 entries" },
    { "many", "accept with 36 entries" },
    { "file", "1,000,000 records of 10 to 100 bytes" },
    { "file-empty", "1,000,000 without data" },
    { "file-short", "100,000 of 10 to 100 bytes" },
    { "file-large", "100,000 of 2,000 bytes" },
    { "points", "commit points" },
    { "pair-large", "512 records of 64 KiB" },
    { "pair", "1,000,000 of 10 to 100 bytes" },
    { "pair-quarter", "250,000 of 10 to 100 bytes" },
    { "pair-differ", "250,000, one of 16 differs" },
};

const char *work_id(size_t which)
{
    return works[which][0];
}

struct work make_work(size_t which)
{
    struct work w = { .id = works[which][0] };
    snprintf(w.title, sizeof w.title, "%s", works[which][1]);
    switch (which) {
    case 0: make_io_stream(&w, 10000, 10, 100, 4); break;
    case 1: make_io_stream(&w, 16, LONGEST, LONGEST, 64); break;
    case 2: make_accept_stream(&w, real_accept, 1000, 4); break;
    case 3: make_accept_stream(&w, make_accept, 500, 4); break;
    case 4: make_file(&w, 1000000, 10, 100); break;
    case 5: make_file(&w, 1000000, 0, 0); break;
    case 6: make_file(&w, 100000, 10, 100); break;
    case 7: make_file(&w, 100000, 2000, 2000); break;
    case 8: make_points(&w, 10000, 4); break;
    case 9: make_pair(&w, 512, LONGEST, LONGEST, false); break;
    case 10: make_pair(&w, 1000000, 10, 100, false); break;
    case 11: make_pair(&w, 250000, 10, 100, false); break;
    default: make_pair(&w, 250000, 10, 100, true); break;
    }
    return w;
}

void drop_work(struct work *w)
{
    free(w->stream);
    free(w->stored);
    free(w->points);
    free(w->area);
    free((void *)w->opening.bytes);
    free((void *)w->restart.bytes);
    free((void *)w->first.bytes);
    free((void *)w->second.bytes);
}
