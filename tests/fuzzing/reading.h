/*
 * reading.h: the reading calls and the cutting of frames, for fuzz.c. A message's bytes are read as any message; the
 * header's promises are checked, and that both places at which they are lent give the same answers.
 */
#ifndef READING_H
#define READING_H

#include "base.h"

/* ---- reading ---- */

enum { FIELDS = 17, ANSWERS = 4096 };

/* The answers to one message, to be compared with those to the same bytes elsewhere. */
struct answers {
    uint64_t of[ANSWERS];
    size_t n;
};

static void note(struct answers *a, uint64_t answered)
{
    if (a->n < ANSWERS)
        a->of[a->n++] = answered;
}

static int ask_decode(uint8_t message, const uint8_t *s, size_t n)
{
    int refusal = sudolog_decode(message, s, n);
    tally.calls++;
    if (fault == READ_PAST)
        touch(s + n);
    if (fault == READ_BEFORE)
        touch(s - 1);
    if (fault == WRITE_INPUT && n > 0)
        change(s, 0);
    return refusal;
}

static uint64_t ask_number(uint64_t field, const uint8_t *s, size_t n)
{
    static uint64_t turn;
    tally.calls++;
    return sudolog_number(field, s, n) + (fault == UNSTEADY && n > 0 ? turn++ : 0);
}

/* Where the next element is, and its length. */
static uint64_t ask_next(uint64_t field, const uint8_t *s, size_t n, size_t at, uint64_t *length)
{
    uint64_t offset = sudolog_next_offset(field, s, n, at);
    *length = sudolog_next_length(field, s, n, at);
    tally.calls += 2;
    if (fault == LIST_STOPS && at > 0) {
        *length = 0;
        return UINT64_MAX;
    }
    return offset;
}

static int ask_client(const uint8_t *s, size_t n, uint8_t *out, size_t room)
{
    int refusal = sudolog_client(s, n, out, room);
    tally.calls++;
    if (fault == OTHER_MEMBER && refusal == 0)
        change(out + 7, 1);
    return refusal;
}

/* Is a field a string, bytes or an embedded message wherever this message is taken. Of other fields (unknown ones, and a
 * NumberList's numbers) a number may follow bytes, and then sudolog_offset returns what it does for an absent one. */
static bool is_part(uint8_t message, uint64_t field)
{
    static const uint16_t parts[16] = { 0x3FFE, 0x6, 0xE, 0x32, 0x6, 0xE, 0x6, 0x2, 0x6, 0x2, 0, 0x3A, 0x2, 0, 0x3E, 0xE };
    return message < 16 && field < 16 && (parts[message] >> field & 1) != 0;
}

/* The numbers, spans and list elements of one field number; `part` where it can only be bytes. */
static void read_field(uint64_t field, const uint8_t *s, size_t n, bool part, struct answers *out)
{
    uint64_t offset = sudolog_offset(field, s, n), length = sudolog_length(field, s, n);
    uint64_t last_offset = 0, last_length = 0;
    size_t at = 0, steps = 0;
    tally.calls += 2;
    call_name = "sudolog_offset and sudolog_length";
    HOLDS(offset <= n && length <= n - offset, "a field's bytes are in the slice");
    note(out, ask_number(field, s, n));
    note(out, offset);
    note(out, length);
    call_name = "sudolog_next_offset and sudolog_next_length";
    for (;;) {
        uint64_t next_length, next = ask_next(field, s, n, at, &next_length);
        if (next == UINT64_MAX) {
            HOLDS(next_length == 0, "no element has length 0");
            break;
        }
        HOLDS(next >= at && next <= n && next_length <= n - next, "an element is in the slice, behind those before it");
        HOLDS(++steps <= n, "a list has no more elements than bytes");
        last_offset = next;
        last_length = next_length;
        at = (size_t)(next + next_length);
        note(out, next);
    }
    if (part)
        HOLDS(last_offset == offset && last_length == length, "the last element is the field's bytes");
}

/* The numbers of a NumberList from a cursor on. */
static void read_numbers(const uint8_t *s, size_t n, size_t at, size_t end, size_t room, struct answers *out)
{
    size_t steps = 0;
    call_name = "sudolog_next_number";
    for (;;) {
        uint8_t *numbers = lend(&answer, NULL, room);
        int found = sudolog_next_number(s, n, at, end, numbers, room);
        size_t written = found == 1 ? 24 : 0;
        tally.calls++;
        HOLDS(found == 0 || found == (room < 24 ? 12 : 1), "a number is found, or none, or there is no room");
        HOLDS(all_are(held(&answer) + written, room - written, FILL) && margin_holds(&answer),
              "only the three numbers are written");
        note(out, (uint64_t)found);
        if (found != 1)
            return;
        note(out, sudolog_big_endian(held(&answer)));
        at = (size_t)sudolog_big_endian(held(&answer) + 8);
        end = (size_t)sudolog_big_endian(held(&answer) + 16);
        HOLDS(at <= n && ++steps <= n, "the cursor stays in the slice and comes to an end");
    }
}

/* A ClientMessage in one walk: what the other calls say of it. */
static void read_client(const uint8_t *s, size_t n, int decoded, size_t room, struct answers *out)
{
    uint8_t *numbers = lend(&answer, NULL, room);
    int refusal = ask_client(s, n, numbers, room);
    size_t written = refusal == 0 ? 40 : 0;
    uint64_t field, offset, length;
    struct sudolog_client_scan scan;
    call_name = "sudolog_client";
    HOLDS(refusal == (decoded != 0 ? decoded : room < 40 ? 12 : 0), "the one walk refuses as sudolog_decode, then 12");
    HOLDS(all_are(held(&answer) + written, room - written, FILL) && margin_holds(&answer), "only the five numbers are written");
    note(out, (uint64_t)refusal);
    if (refusal != 0)
        return;
    HOLDS(sudolog_scan_client(s, n, &scan) == 0, "and so does the header's call");
    field = sudolog_big_endian(held(&answer));
    offset = sudolog_big_endian(held(&answer) + 8);
    length = sudolog_big_endian(held(&answer) + 16);
    HOLDS(field == sudolog_member(SUDOLOG_CLIENT_MESSAGE, s, n), "the one walk finds the member");
    HOLDS(offset <= n && length <= n - offset, "the one walk's place is in the slice");
    HOLDS((uint64_t)scan.member == field && scan.content.offset == offset && scan.content.length == length, "the struct says it");
    if (field < 6 || field > 10) {
        HOLDS(offset == sudolog_offset(field, s, n) && length == sudolog_length(field, s, n), "the one walk finds its message");
    } else {
        struct sudolog_span io = sudolog_field_span(field, s, n);
        struct sudolog_span time = sudolog_field_span(1, s + io.offset, io.length);
        const uint8_t *delay = s + io.offset + time.offset;
        HOLDS(length == sudolog_length(2, s + io.offset, io.length), "the one walk finds the data's length");
        HOLDS(length == 0 || offset == io.offset + sudolog_offset(2, s + io.offset, io.length), "and its place");
        HOLDS(sudolog_big_endian(held(&answer) + 24) == sudolog_number(1, delay, time.length), "and its seconds");
        HOLDS(sudolog_big_endian(held(&answer) + 32) == sudolog_number(2, delay, time.length), "and its nanoseconds");
    }
}

/* Both readers of a struct: the refusals of the calls below them, and a refusal leaves the struct as it was. The getter
 * may be handed any slice; of one that was refused what it fills in has no meaning, and it has to come back. */
#define READ_STRUCT(NAME)                                                                                   \
    do {                                                                                                    \
        struct sudolog_##NAME out, before;                                                                  \
        memset(&out, 0xA5, sizeof out);                                                                     \
        memset(&before, 0xA5, sizeof before);                                                               \
        call_name = "sudolog_decode_" #NAME;                                                                \
        HOLDS(sudolog_decode_##NAME(s, n, &out) == decoded, "the struct's reader refuses as the call below it"); \
        HOLDS(decoded == 0 || memcmp(&out, &before, sizeof out) == 0, "a refusal leaves the struct");       \
        memset(&out, 0xA5, sizeof out);                                                                     \
        call_name = "sudolog_read_" #NAME;                                                                  \
        HOLDS(sudolog_read_##NAME(s, n, &out) == ranged, "the struct's reader refuses as the call below it"); \
        HOLDS(ranged == 0 || memcmp(&out, &before, sizeof out) == 0, "a refusal leaves the struct");        \
        sudolog_get_##NAME(s, n, &out);                                                                     \
        tally.calls += 3;                                                                                   \
    } while (0)

static void read_struct(uint8_t message, const uint8_t *s, size_t n, int decoded, int ranged)
{
    switch (message) {
    case SUDOLOG_CLIENT_MESSAGE: READ_STRUCT(client_message); break;
    case SUDOLOG_ACCEPT_MESSAGE: READ_STRUCT(accept); break;
    case SUDOLOG_REJECT_MESSAGE: READ_STRUCT(reject); break;
    case SUDOLOG_EXIT_MESSAGE: READ_STRUCT(exit); break;
    case SUDOLOG_RESTART_MESSAGE: READ_STRUCT(restart); break;
    case SUDOLOG_ALERT_MESSAGE: READ_STRUCT(alert); break;
    case SUDOLOG_IO_BUFFER: READ_STRUCT(io_buffer); break;
    case SUDOLOG_CHANGE_WINDOW_SIZE: READ_STRUCT(window_size); break;
    case SUDOLOG_COMMAND_SUSPEND: READ_STRUCT(suspend); break;
    case SUDOLOG_CLIENT_HELLO: READ_STRUCT(client_hello); break;
    case SUDOLOG_TIME_SPEC: READ_STRUCT(time); break;
    case SUDOLOG_INFO_MESSAGE: READ_STRUCT(entry); break;
    case SUDOLOG_STRING_LIST: READ_STRUCT(string_list); break;
    case SUDOLOG_NUMBER_LIST: READ_STRUCT(number_list); break;
    case SUDOLOG_SERVER_MESSAGE: READ_STRUCT(server_message); break;
    case SUDOLOG_SERVER_HELLO: READ_STRUCT(server_hello); break;
    default: break;
    }
}

/* The refusals that a message may have. */
static void check_refusals(uint8_t message, const uint8_t *s, size_t n, int decoded, int ranged, uint64_t member)
{
    bool has_member = message == SUDOLOG_CLIENT_MESSAGE || message == SUDOLOG_SERVER_MESSAGE;
    call_name = "sudolog_decode";
    HOLDS(decoded == 0 || (decoded >= 2 && decoded <= 5) || (decoded == 6 && has_member), "a documented refusal");
    HOLDS(!has_member || decoded == 6 || decoded != 0 || member != 0, "a message that is taken has a member");
    call_name = "sudolog_read";
    HOLDS(decoded != 0 ? ranged == decoded : ranged == 0 || ranged == 7, "the same refusal, or 7");
    if (message == SUDOLOG_CLIENT_MESSAGE && decoded == 0) {
        struct sudolog_span content = sudolog_field_span(member, s, n);
        struct said said = said_by((int)member, s + content.offset, content.length);
        HOLDS(said.fits == (ranged == 0), "7 where the model finds a value out of its range");
    }
}

/* What the program chooses beside the message. */
struct reading {
    uint8_t message;
    uint64_t field;
    size_t at, end, room;
};

static void read_once(const struct reading *r, struct answers *out)
{
    const uint8_t *s = lend(&input, host.message, host.n);
    size_t n = host.n;
    int decoded = ask_decode(r->message, s, n), ranged = sudolog_read(r->message, s, n);
    uint64_t member = sudolog_member(r->message, s, n), field;
    tally.calls += 2;
    out->n = 0;
    note(out, (uint64_t)decoded);
    note(out, (uint64_t)ranged);
    note(out, member);
    check_refusals(r->message, s, n, decoded, ranged, member);
    for (field = 0; field < FIELDS; field++)
        read_field(field, s, n, decoded == 0 && is_part(r->message, field), out);
    read_field(r->field, s, n, false, out);
    note(out, sudolog_next_offset(r->field, s, n, r->at));
    note(out, sudolog_next_length(r->field, s, n, r->at));
    tally.calls += 2;
    read_numbers(s, n, 0, 0, 24, out);
    read_numbers(s, n, r->at, r->end, r->room, out);
    read_client(s, n, r->message == SUDOLOG_CLIENT_MESSAGE ? decoded : sudolog_decode(SUDOLOG_CLIENT_MESSAGE, s, n), r->room, out);
    read_struct(r->message, n == 0 && at_lower_end ? NULL : s, n, decoded, ranged);
    tally.read[ranged]++;
    saw(1 + r->message, (uint64_t)ranged, member);
    saw(20, bits(n), (uint64_t)decoded);
}

static void read_message(struct program *p)
{
    static struct answers upper, lower;
    struct reading r;
    uint8_t how = byte(p);
    r.message = how < 192 ? how % 16 : how == 192 ? 16 : how; /* 16: what a packed list holds */
    r.field = number(p);
    r.at = (size_t)number(p);
    r.end = (size_t)number(p);
    r.room = byte(p) % 64u;
    at_lower_end = false;
    read_once(&r, &upper);
    at_lower_end = true;
    read_once(&r, &lower);
    call_name = "the reading calls";
    HOLDS(upper.n == lower.n && memcmp(upper.of, lower.of, upper.n * sizeof upper.of[0]) == 0,
          "the same bytes have the same answers");
}

/* ---- frames ---- */

static int ask_frame(const uint8_t *s, size_t n)
{
    int state = sudolog_frame_state(s, n);
    tally.calls++;
    if (fault == FRAME_EARLY && state == SUDOLOG_FRAME_WAIT && sudolog_frame_count(s, n) == 1 && n > 4)
        state = SUDOLOG_FRAME_WHOLE;
    return state;
}

/* What stands at the start of n bytes, by hand. */
static void check_frame(const uint8_t *s, size_t n)
{
    uint64_t length = n < 4 ? 0 : (uint64_t)s[0] << 24 | (uint64_t)s[1] << 16 | (uint64_t)s[2] << 8 | s[3];
    int state = SUDOLOG_FRAME_WHOLE;
    uint64_t count = length;
    size_t cut;
    if (n < 4) {
        state = SUDOLOG_FRAME_WAIT;
        count = 4 - n;
    } else if (length > LARGEST) {
        state = SUDOLOG_FRAME_REFUSED;
        count = 0;
    } else if (n - 4 < length) {
        state = SUDOLOG_FRAME_WAIT;
        count = length - (n - 4);
    }
    call_name = "sudolog_frame_state and sudolog_frame_count";
    HOLDS(ask_frame(s, n) == state && sudolog_frame_count(s, n) == count, "the frame is whole, refused, or to be waited for");
    HOLDS((int)sudolog_cut_frame(n == 0 ? NULL : s, n, &cut) == state && cut == count, "and the header's call says the same");
    tally.calls += 2;
    saw(21, (uint64_t)state, bits(count));
}

/* The message as a frame, its length right or wrong, cut anywhere. */
static void cut_frames(struct program *p)
{
    static uint8_t frame[SMALL + 4];
    uint8_t how = byte(p);
    size_t n = host.n < SMALL ? host.n : SMALL, whole = 4 + n;
    uint64_t length = how < 128 ? n : how < 160 ? n + 1 : number(p);
    int i;
    for (i = 0; i < 4; i++)
        frame[i] = (uint8_t)(length >> (24 - 8 * i));
    memcpy(frame + 4, host.message, n);
    n = how % 4 == 0 ? place(p, whole) : how % 4 == 1 ? whole - 1 : whole;
    at_lower_end = false;
    check_frame(lend(&input, frame, n), n);
    at_lower_end = true;
    check_frame(lend(&input, frame, n), n);
}

#endif
