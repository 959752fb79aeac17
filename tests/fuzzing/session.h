/*
 * session.h: the session, ticks, restarts and file checks, for fuzz.c: a host that does its duties, or does not, over
 * messages of any kind. Every answer and every byte is compared with model.h.
 */
#ifndef SESSION_H
#define SESSION_H

#include "writing.h"

/* ---- the session ---- */

static int ask_session(size_t session_n, size_t area_n, size_t used, size_t room)
{
    uint8_t *session = lend(&kept_session, host.session, session_n), *area = lend(&kept_area, host.area, area_n);
    const uint8_t *m = lend(&input, host.message, host.n);
    uint8_t *out = lend(&answer, NULL, room);
    bool logging = saved_in(host.session, session_n).state == SUDOLOG_STATE_LOGGING;
    int refusal = sudolog_session_message(session, session_n, m, host.n, area, area_n, used, out, room);
    tally.calls++;
    if (fault == AREA_REFUSED && refusal != 0 && area_n > 0)
        change(area, 1);
    if (fault == OPEN_REFUSED && refusal != 0 && session_n == 40)
        memcpy(session, host.session, 40);
    if (fault == USED_REFUSED && refusal != 0 && room >= 40)
        change(out + 7, 1);
    if (fault == OTHER_NUMBER && refusal == 9)
        refusal = 10;
    if (fault == OTHER_RECORD && refusal == 0 && logging && used + 11 < area_n)
        change(area + used + 4, 1);
    if (fault == OTHER_POINT && refusal == 0 && room >= 40 && out[23] == 1)
        change(out + 31, 1);
    if (fault == RESTART_REFUSED && refusal == 0 && session_n == 40 && session[7] == 10 && !logging)
        refusal = 14;
    if (fault == NO_ROOM_OPEN && room < 40 && session_n == 40)
        memcpy(session, host.session, 40);
    return refusal;
}

/* The five numbers and what is behind them. */
static void check_answer(const struct outcome *o, size_t room)
{
    uint8_t expected[40];
    put_number(expected, o->used);
    put_number(expected + 8, o->key);
    put_number(expected + 16, o->has_point);
    put_number(expected + 24, o->point);
    put_number(expected + 32, o->session.state);
    HOLDS(memcmp(held(&answer), expected, 40) == 0, "the answer is the model's: used length, key, point and state");
    HOLDS(all_are(held(&answer) + 40, room - 40, FILL) && margin_holds(&answer), "nothing is written behind the answer");
}

/* The area is as it was, but for the record that was stored. */
static void check_area(const struct outcome *o, size_t area_n, size_t used)
{
    const uint8_t *area = held(&kept_area);
    size_t end = used + o->record_n;
    HOLDS(margin_holds(&kept_area), "nothing is written beside the area");
    if (o->record_n == 0) {
        HOLDS(memcmp(area, host.area, area_n) == 0, "an area in which nothing is stored stays as it was");
        return;
    }
    HOLDS(memcmp(area, host.area, used) == 0 && memcmp(area + end, host.area + end, area_n - end) == 0,
          "the bytes before and behind a stored record stay");
    HOLDS(memcmp(area + used, o->record, o->record_n) == 0, "the record is stored as document 01 packs it");
}

static void hand_once(const struct outcome *o, size_t session_n, size_t area_n, size_t used, size_t room)
{
    uint8_t bytes[64];
    int refusal = ask_session(session_n, area_n, used, room);
    call_name = "sudolog_session_message";
    memcpy(bytes, host.session, sizeof bytes);
    if (room < 40) {
        HOLDS(refusal == 12 && all_are(held(&answer), room, FILL) && margin_holds(&answer), "without room the answer is 12");
        HOLDS(memcmp(held(&kept_area), host.area, area_n) == 0 && margin_holds(&kept_area), "and nothing is stored");
        if (session_n == 40) {
            struct saved closed = saved_in(host.session, session_n);
            closed.state = SUDOLOG_STATE_CLOSED;
            put_saved(&closed, bytes);
        }
    } else {
        HOLDS(refusal == o->refusal, "the refusal is the model's");
        check_answer(o, room);
        check_area(o, area_n, used);
        if (session_n == 40)
            put_saved(&o->session, bytes);
    }
    HOLDS(memcmp(held(&kept_session), bytes, session_n) == 0 && margin_holds(&kept_session), "the session is the model's");
}

/* The header's struct, with NULL for no message and no area. */
static void hand_struct(const struct outcome *o, size_t area_n, size_t used)
{
    struct sudolog_session session;
    struct sudolog_answer out;
    uint8_t *area = lend(&kept_area, host.area, area_n), expected[40];
    int refusal;
    memcpy(session.bytes, host.session, 40);
    refusal = sudolog_take_message(&session, host.n == 0 ? NULL : host.message, host.n, area_n == 0 ? NULL : area, area_n,
                                   used, &out);
    tally.calls++;
    call_name = "sudolog_take_message";
    HOLDS(refusal == o->refusal && out.refusal == refusal && out.key == (int)o->key && out.used == o->used,
          "the struct has the refusal, the key and the used length");
    HOLDS(out.has_point == o->has_point && moment_of(out.point) == o->point && out.state == o->session.state,
          "and the point and the state");
    put_saved(&o->session, expected);
    HOLDS(memcmp(session.bytes, expected, 40) == 0, "the session is the model's");
    check_area(o, area_n, used);
}

static void check_file_of(size_t area_n, size_t used);
static void check_tick(size_t session_n);

/* With a host that does its duties: what the session carries is what its file says. */
static void check_honest(const struct outcome *o)
{
    struct file f = file_in(host.area, host.used, UINT64_MAX);
    call_name = "sudolog_session_message";
    if (o->session.state == SUDOLOG_STATE_LOGGING) {
        HOLDS(f.kind == SUDOLOG_FILE_UNFINISHED && o->session.used == host.used, "a session in logging has an unfinished file");
        HOLDS(f.total == o->session.total && f.low == o->session.low, "the totals that a session carries are its file's");
    }
    HOLDS(host.used == 0 || f.records == host.records, "the file has the records that were taken");
    check_file_of(host.area_n, host.used);
    check_tick(40);
}

static void keep_book(const struct outcome *o, const uint8_t *area)
{
    struct file f;
    if (o->refusal != 0)
        return;
    if (o->member == SUDOLOG_FROM_CLIENT_RESTART) {
        f = file_in(area, o->used, UINT64_MAX);
        host.records = f.records;
        tally.restarts++;
        if (host.has_point && host.point > o->session.total)
            host.point = o->session.total; /* the client resumed behind it */
    } else if (o->record_n > 0) {
        host.records = o->member == SUDOLOG_FROM_CLIENT_ACCEPT ? 1 : host.records + 1;
    }
    if (o->has_point)
        host.has_point = false;
}

static void count_outcome(const struct outcome *o, unsigned before)
{
    tally.handed[o->refusal]++;
    tally.state[o->session.state]++;
    tally.mark[o->session.marked]++;
    tally.member[o->member]++;
    if (o->refusal == 8)
        tally.key[o->key]++;
    saw(70, (uint64_t)o->refusal << 8 | o->key << 4 | before, (uint64_t)o->member << 8 | o->session.state << 1 | o->session.marked);
    saw(71, bits(o->used), o->record_n > 0 ? bits(o->record_n) : 0);
    saw(72, bits(o->session.total), bits(o->session.low));
}

/* The message to the session, over the area or its first bytes, with any used length, twice. */
static void hand(size_t session_n, size_t area_n, size_t used, size_t room)
{
    static struct outcome o;
    unsigned before = saved_in(host.session, session_n).state;
    predict(&o, host.session, session_n, host.message, host.n, host.area, area_n, used);
    at_lower_end = false;
    hand_once(&o, session_n, area_n, used, room);
    at_lower_end = true;
    hand_once(&o, session_n, area_n, used, room);
    if (room < 40)
        return;
    if (session_n == 40)
        hand_struct(&o, area_n, used);
    count_outcome(&o, before);
    if (o.record_n > 0) /* the used length may be anything where nothing is stored */
        memcpy(host.area + used, o.record, o.record_n);
    if (session_n == 40)
        put_saved(&o.session, host.session);
    keep_book(&o, host.area);
    host.used = o.used;
    if (host.honest)
        check_honest(&o);
}

static void hand_over(struct program *p)
{
    (void)p;
    hand(40, host.area_n, host.used, 40);
}

/* An area of more than 1 GiB, which can't be written: 15 where a message stores or restarts. */
static void hand_vast(void)
{
    static struct outcome o;
    size_t area_n = (size_t)LARGEST_AREA + 1;
    uint8_t *session = lend(&kept_session, host.session, 40);
    const uint8_t *m = lend(&input, host.message, host.n);
    uint8_t *out = lend(&answer, NULL, 40);
    int refusal = sudolog_session_message(session, 40, m, host.n, vast, area_n, host.used, out, 40);
    tally.calls++;
    predict(&o, host.session, 40, host.message, host.n, vast, area_n, host.used);
    call_name = "sudolog_session_message over more than 1 GiB";
    HOLDS(refusal == o.refusal, "the refusal is the model's");
    check_answer(&o, 40);
    put_saved(&o.session, host.session);
    HOLDS(memcmp(held(&kept_session), host.session, 40) == 0 && margin_holds(&kept_session), "the session is the model's");
}

/* Wrong lengths of all kinds. From here on the host has not done its duties. */
static void hand_wrongly(struct program *p)
{
    uint8_t how = byte(p);
    size_t session_n = 40, area_n = host.area_n, used = host.used, room = 40;
    host.honest = host.honest && how % 7 == 1;
    switch (how % 7) {
    case 0: session_n = byte(p) % 64; break;
    case 1: room = byte(p) % 64; break;
    case 2: area_n = place(p, area_n); break;
    case 3: used = place(p, area_n); break;
    case 4: used = (size_t)number(p); break;
    case 5: used += how < 128 ? 1 : (size_t)-1; break;
    default: hand_vast(); return;
    }
    hand(session_n, area_n, used, room);
    if (host.used > host.area_n)
        host.used = host.area_n;
}

static uint64_t ask_tick(const uint8_t *session, size_t n)
{
    uint64_t point = sudolog_session_tick(session, n);
    tally.calls++;
    if (fault == TICK_TOTAL && point != UINT64_MAX)
        point = sudolog_big_endian(session + 16);
    return point;
}

static void check_tick(size_t session_n)
{
    struct saved s = saved_in(host.session, session_n);
    uint64_t point = point_of(&s);
    struct sudolog_session session;
    struct sudolog_time time;
    at_lower_end = !at_lower_end;
    call_name = "sudolog_session_tick";
    HOLDS(ask_tick(lend(&read_session, host.session, session_n), session_n) == point, "the tick's point is the model's");
    if (session_n == 40) {
        memcpy(session.bytes, host.session, 40);
        HOLDS(sudolog_tick(&session, &time) == (point != UINT64_MAX) && (point == UINT64_MAX || moment_of(time) == point),
              "and the header's call gives it as a time");
        tally.calls++;
    }
    tally.ticks[point != UINT64_MAX]++;
    saw(73, s.state << 1 | s.marked, bits(point));
}

static void tick(struct program *p)
{
    uint8_t how = byte(p);
    struct saved s = saved_in(host.session, 40);
    check_tick(how < 224 ? 40 : how % 64);
    if (host.honest && point_of(&s) != UINT64_MAX) {
        host.has_point = true;
        host.point = point_of(&s);
    }
}

/* ---- connections, restarts, areas ---- */

static void open_session(size_t n)
{
    uint8_t before[64];
    int refusal;
    memset(before, FILL, sizeof before);
    at_lower_end = !at_lower_end;
    refusal = sudolog_session_open(lend(&kept_session, before, n), n);
    tally.calls++;
    call_name = "sudolog_session_open";
    HOLDS(refusal == (n == 40 ? 0 : 12) && margin_holds(&kept_session), "a session needs its 40 bytes and no others");
    HOLDS(all_are(held(&kept_session), n, n == 40 ? 0 : FILL), "a new session is zeros; without 40 bytes nothing is changed");
    if (n == 40) {
        struct sudolog_session session = sudolog_new_session();
        HOLDS(memcmp(session.bytes, held(&kept_session), 40) == 0, "the header's call gives the same new session");
        memcpy(host.session, session.bytes, 40);
    }
}

static void connect(struct program *p)
{
    uint8_t how = byte(p);
    open_session(40);
    if (how >= 240)
        open_session(how % 64);
}

static void fresh_area(struct program *p)
{
    static const size_t sizes[] = { 0, 1, 10, 11, 100, 140, 300, 600, 1000, 2000, 4096, 4097, 16384 };
    uint8_t how = byte(p);
    host.area_n = sizes[how % (sizeof sizes / sizeof sizes[0])];
    memset(host.area, how, host.area_n);
    host.used = 0;
    host.records = 0;
    host.honest = true;
    host.has_point = false;
    open_session(40);
}

static void wrote(uint64_t written)
{
    if (sudolog_written_refusal(written) != 0)
        abort();
    host.n = sudolog_written_size(written);
}

static void make_restart(uint64_t point)
{
    wrote(sudolog_write_restart(SUDOLOG_FROM_CLIENT_RESTART, SUDOLOG_LEND_STRING("log"), point / SECOND, point % SECOND, 0,
                                host.message, SMALL));
}

/* A total that some beginning of the file has. */
static uint64_t some_total(size_t records)
{
    struct record r;
    uint64_t total = 0;
    size_t at = 0;
    while (records-- > 0 && at < host.used && record_at(host.area + at, host.used - at, &r)) {
        total += is_timed(r.kind) ? r.delay : 0;
        at += 11 + r.n;
    }
    return total <= MOST ? total : MOST;
}

/* The client comes back: at the point that it was given, at a total of the file, beside one, or anywhere. */
static void restart(struct program *p)
{
    uint8_t how = byte(p);
    uint64_t point = how < 64 && host.has_point ? host.point : how < 160 ? some_total(how % 32u) : number(p);
    bool given = how < 64 && host.has_point && host.honest;
    int kind = file_kind(host.area, host.area_n, host.used);
    if (how >= 128 && how < 160)
        point++;
    if (how % 2 == 0)
        open_session(40);
    make_restart(point <= MOST ? point : MOST);
    hand(40, host.area_n, host.used, 40);
    call_name = "sudolog_session_message";
    if (given && how % 2 == 0 && kind == SUDOLOG_FILE_UNFINISHED)
        HOLDS(host.session[7] == SUDOLOG_STATE_LOGGING + 8, "a restart at a point that was given is taken");
}

/* A host that does not do its duties: other session bytes, another file. */
static void bend(struct program *p)
{
    uint8_t how = byte(p);
    if (how % 3 == 0) {
        host.session[byte(p) % 40] ^= (uint8_t)(1 << how % 8);
    } else if (how % 3 == 1) {
        put_number(host.session + 8 * (byte(p) % 5u), number(p));
    } else if (host.area_n > 0) {
        host.area[place(p, (host.used > 0 ? host.used : host.area_n) - 1)] ^= (uint8_t)(1 << how % 8);
    }
    host.honest = false;
}

static int ask_file(const uint8_t *area, size_t area_n, size_t used)
{
    int kind = sudolog_check_file(area, area_n, used);
    tally.calls++;
    if (fault == FILE_OPEN && kind == SUDOLOG_FILE_FINISHED)
        kind = SUDOLOG_FILE_UNFINISHED;
    return kind;
}

static void check_file_of(size_t area_n, size_t used)
{
    int kind = file_kind(host.area, area_n, used);
    at_lower_end = !at_lower_end;
    call_name = "sudolog_check_file";
    HOLDS(ask_file(lend(&read_area, host.area, area_n), area_n, used) == kind, "the file is what the model says");
    tally.file[kind]++;
    saw(74, (uint64_t)kind, bits(used));
}

static void check_files(struct program *p)
{
    uint8_t how = byte(p);
    check_file_of(host.area_n, host.used);
    if (how >= 128)
        check_file_of(host.area_n, how < 192 ? place(p, host.area_n) : (size_t)number(p));
    if (how >= 224) {
        call_name = "sudolog_check_file of more than 1 GiB";
        HOLDS(sudolog_check_file(vast, (size_t)LARGEST_AREA + 1 + byte(p), host.used) == SUDOLOG_FILE_REFUSED, "it is 15");
        HOLDS(sudolog_check_file(vast, LARGEST_AREA, 0) == SUDOLOG_FILE_REFUSED, "an empty file is 15");
        tally.calls += 2;
    }
}

/* ---- a client as it should be, so that the states behind it are reached often ---- */

static void make_accept(struct program *p, uint8_t how)
{
    static uint8_t run[SMALL];
    static const uint8_t all[] = { 0, 0 };
    struct program whole = { all, sizeof all, 0 };
    bool good;
    size_t n = make_run(how < 224 ? &whole : p, 2, run, &good);
    wrote(good ? sudolog_write_accept(SUDOLOG_FROM_CLIENT_ACCEPT, 1700000000, how, run, n, how % 16 != 15, 0, host.message, SMALL)
               : sudolog_write_client_hello(SUDOLOG_FROM_CLIENT_HELLO, run, 0, 0, host.message, SMALL));
}

/* Delays are often zero and often the same, so that moments are shared. */
static uint64_t delay(struct program *p)
{
    uint8_t how = byte(p);
    uint64_t any = how < 128 ? how % 4u * SECOND : how < 192 ? how % 4u : how < 224 ? MOST - how % 4u : number(p);
    return any <= MOST ? any : MOST;
}

static void make_timed(struct program *p)
{
    uint8_t kind = (uint8_t)(6 + byte(p) % 7), bytes[TEXT];
    uint64_t d = delay(p);
    size_t n = text(p, bytes);
    if (kind == 11)
        wrote(sudolog_write_window_size(kind, d / SECOND, d % SECOND, bytes[0] * n % 65536, n, 0, host.message, SMALL));
    else if (kind == 12)
        wrote(sudolog_write_suspend(kind, d / SECOND, d % SECOND, SUDOLOG_LEND_TEXT("TSTPCONT", 1 + n % 8), 0, host.message,
                                    SMALL));
    else
        wrote(sudolog_write_io(kind, d / SECOND, d % SECOND, bytes, n, 0, host.message, SMALL));
}

static void make_exit(struct program *p)
{
    uint8_t how = byte(p), bytes[TEXT];
    size_t n = text(p, bytes);
    wrote(sudolog_write_exit(SUDOLOG_FROM_CLIENT_EXIT, how, how, how, how % 2, SUDOLOG_LEND_TEXT("SIGTERM", how % 8), bytes, n, 0,
                             host.message, SMALL));
}

/* After a refusal: a new connection that begins a file, or goes on with the one that is there. */
static void come_back(uint8_t how)
{
    static const struct program none = { NULL, 0, 0 };
    struct program p = none;
    open_session(40);
    if (host.used == 0)
        make_accept(&p, 0);
    else
        make_restart(how % 2 == 0 && host.has_point ? host.point : some_total(how));
    hand(40, host.area_n, host.used, 40);
}

/* One message of a client, handed over; in the order of a session if the bytes are 0, 1, 2, 2, .. 3. */
static void send_one(struct program *p)
{
    uint8_t how = byte(p);
    if (how >= 64 && saved_in(host.session, 40).state == SUDOLOG_STATE_CLOSED)
        come_back(how / 8);
    switch (how % 8) {
    case 0:
        wrote(sudolog_write_client_hello(SUDOLOG_FROM_CLIENT_HELLO, SUDOLOG_LEND_STRING("sudo"), 0, host.message, SMALL));
        break;
    case 1: make_accept(p, how); break;
    case 3: make_exit(p); break;
    case 4: make_restart(some_total(how / 8)); break;
    default: make_timed(p); break;
    }
    hand(40, host.area_n, host.used, 40);
}

static void whole_session(struct program *p)
{
    uint8_t how = byte(p);
    size_t records = how % 8, i;
    fresh_area(p);
    make_accept(p, byte(p));
    hand(40, host.area_n, host.used, 40);
    for (i = 0; i < records; i++) {
        make_timed(p);
        hand(40, host.area_n, host.used, 40);
    }
    if (how >= 192) {
        make_exit(p);
        hand(40, host.area_n, host.used, 40);
    }
}

/* ---- the largest messages. They take long: once for each input ---- */

static uint8_t *put_long(uint8_t *at, size_t number)
{
    int i;
    for (i = 0; i < 4; i++, number >>= 7)
        *at++ = (uint8_t)((number & 127) | (i < 3 ? 128u : 0u));
    return at;
}

/* A ttyout with a delay of 1 s, its lengths in four bytes each, of 14 bytes and its data. */
static void make_long_io(size_t data_n, uint8_t fill)
{
    uint8_t *at = host.message;
    *at++ = 0x3A;
    at = put_long(at, 9 + data_n);
    memcpy(at, "\x0A\x02\x08\x01\x12", 5);
    at = put_long(at + 5, data_n);
    memset(at, fill, data_n);
    host.n = 14 + data_n;
}

/* To a session: a message of 2,097,152 bytes and around it, in an area with room, or with just enough or too little. */
static void hand_large(struct program *p, uint8_t how)
{
    size_t data_n = LARGEST - 14 - 16 + byte(p) % 32u;
    static const struct program none = { NULL, 0, 0 };
    struct program rest = none;
    make_long_io(data_n, how);
    host.area_n = how < 192 ? AREA_MOST - byte(p) : host.used + 11 + data_n - 1 + byte(p) % 3u;
    memset(host.area + host.used, how, sizeof host.area - host.used);
    hand(40, host.area_n, host.used, 40);
    host.n = 0;
    fresh_area(&rest);
}

static void write_large(struct program *p, uint8_t how)
{
    static uint8_t data[LARGEST + 64];
    static struct values v;
    memset(&v, 0, sizeof v);
    memset(data, how, sizeof data);
    v.writer = how % 2 == 0 ? IO : NOTE;
    v.member = how % 2 == 0 ? 7 : 4;
    v.x = data;
    v.x_n = LARGEST + 4 - byte(p) % 32u;
    v.framed = how % 4 < 2;
    at_lower_end = how % 8 < 4;
    write_once(&v, how);
}

static void large(struct program *p)
{
    uint8_t how;
    if (host.large_done)
        return;
    host.large_done = true;
    how = byte(p);
    if (how < 128)
        write_large(p, how);
    else
        hand_large(p, how);
}

#endif
