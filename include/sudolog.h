/*
 * sudolog.h: the proved core of a sudo log collector, as a C program calls it.
 *
 * The first part declares what libsudolog.a exports: functions on numbers and byte slices (a pointer
 * and a length). None of them trusts its caller: every slice of every length has an answer, nothing is
 * kept between calls, nothing is allocated, and a refusal writes nothing, but that a session's own 40 bytes
 * are closed by one, and its answer is laid in `out`. The slices of one call must not overlap. No pointer
 * may be NULL, even with length 0: where one might be, SUDOLOG_LEND and its like, in the second part, lend
 * it. The functions that give values are meant for slices that sudolog_decode or sudolog_read takes; of any
 * other slice they give those of the fields before the first that can't be read. Message number 16 names
 * what a packed list of numbers holds, varints and no fields; a number above 16 a message with no fields:
 * all are skipped.
 *
 * The second part is written over the first, in C: a struct for each message of sudo_logsrv.proto and
 * a reader that fills it, and what a C program needs beside the writers. There a slice whose pointer is NULL
 * is an empty one, whatever length is given with it.
 *
 * Refusals are document 01's numbers, enum sudolog_refusal (docs/FORMAT.md has the table); 0 says: no refusal.
 */
#ifndef SUDOLOG_H
#define SUDOLOG_H

#include <stdbool.h>
#include <stddef.h>
#include <stdint.h>
#include <string.h>

#ifdef __cplusplus
extern "C" {
#endif

/* The library that this header belongs to. It changes whenever a call does: a program that finds another
 * number in the archive was compiled for another one.
 *
 *   if (sudolog_version() != SUDOLOG_VERSION)
 *       stop; */
#define SUDOLOG_VERSION 1

/* Document 01's limits, and what a host plans its memory by. */
#define SUDOLOG_MESSAGE_MAX 2097152      /* a message's bytes */
#define SUDOLOG_FRAME_MAX 2097156        /* with its frame's four */
#define SUDOLOG_AREA_MAX 1073741824      /* an area's bytes */
#define SUDOLOG_SESSION_SIZE 40          /* a session's bytes */
#define SUDOLOG_ANSWER_SIZE 40           /* the room that sudolog_session_message and sudolog_client want */
#define SUDOLOG_RECORD_EXTRA 13          /* a stored record is at most so much longer than its message */

/* Why something was refused. sudolog_refusal_text says it in words. */
enum sudolog_refusal {
    SUDOLOG_TAKEN = 0,                /* no refusal */
    SUDOLOG_TOO_LONG = 1,             /* a frame's or a message's length is above its limit */
    SUDOLOG_BAD_VARINT = 2,           /* a varint ends past its part, or is too long */
    SUDOLOG_PAST_END = 3,             /* a length or a fixed field goes past the end */
    SUDOLOG_BAD_TAG = 4,              /* a tag that is none, or an unknown wire type */
    SUDOLOG_OTHER_WIRE_TYPE = 5,      /* a known field with another wire type */
    SUDOLOG_NO_MEMBER = 6,            /* a ClientMessage or ServerMessage that holds nothing */
    SUDOLOG_OUT_OF_RANGE = 7,         /* a value outside its range */
    SUDOLOG_ENTRY_MISSING = 8,        /* command, runuser, submithost or submituser is not there */
    SUDOLOG_NOT_ITS_TURN = 9,         /* the session's state does not take this message */
    SUDOLOG_TOTAL_TOO_GREAT = 10,     /* the delays' sum would pass its limit */
    SUDOLOG_ZERO_AT_RESTART = 11,     /* a delay of zero right after a restart */
    SUDOLOG_NO_ROOM = 12,             /* the buffer or the area that was lent is full */
    SUDOLOG_FINISHED_FILE = 13,       /* a restart of a file that has its exit */
    SUDOLOG_NO_SUCH_POINT = 14,       /* no beginning of the file has the resume point */
    SUDOLOG_NO_VALID_FILE = 15        /* the used bytes are no file, or the lengths are wrong */
};

/* The messages of sudo_logsrv.proto. */
enum sudolog_message {
    SUDOLOG_CLIENT_MESSAGE = 0,
    SUDOLOG_ACCEPT_MESSAGE = 1,
    SUDOLOG_REJECT_MESSAGE = 2,
    SUDOLOG_EXIT_MESSAGE = 3,
    SUDOLOG_RESTART_MESSAGE = 4,
    SUDOLOG_ALERT_MESSAGE = 5,
    SUDOLOG_IO_BUFFER = 6,
    SUDOLOG_CHANGE_WINDOW_SIZE = 7,
    SUDOLOG_COMMAND_SUSPEND = 8,
    SUDOLOG_CLIENT_HELLO = 9,
    SUDOLOG_TIME_SPEC = 10,
    SUDOLOG_INFO_MESSAGE = 11,
    SUDOLOG_STRING_LIST = 12,
    SUDOLOG_NUMBER_LIST = 13,
    SUDOLOG_SERVER_MESSAGE = 14,
    SUDOLOG_SERVER_HELLO = 15
};

/* What stands at the start of a stream: what sudolog_frame_state returns. */
enum sudolog_frame {
    SUDOLOG_FRAME_WHOLE = 0,   /* four bytes of length, then the whole message */
    SUDOLOG_FRAME_REFUSED = 1, /* refusal 1: the length is above 2,097,152 */
    SUDOLOG_FRAME_WAIT = 2     /* too few bytes to decide yet */
};

/* What the used bytes of an area are: what sudolog_check_file returns. Its 1 is no refusal. */
enum sudolog_file {
    SUDOLOG_FILE_UNFINISHED = 0, /* a valid file without an exit */
    SUDOLOG_FILE_FINISHED = 1,   /* a valid file with its exit */
    SUDOLOG_FILE_REFUSED = 15    /* no valid file; or a length beyond the area, or an area beyond 1 GiB */
};

/* ---- exported by the library ---- */

/* The number that SUDOLOG_VERSION had when this archive was made. */
uint64_t sudolog_version(void);

/* The frame at the start of s: one of enum sudolog_frame. */
uint8_t sudolog_frame_state(const uint8_t *s, size_t n);

/* Of a whole frame: the length of its message, which starts at s + 4. Of a frame to wait for: how many
 * bytes are missing to the next decision (to four, then to the whole frame). Of a refused one: 0. */
uint64_t sudolog_frame_count(const uint8_t *s, size_t n);

/* Reads a message: 0, or refusal 2 to 5 of the leftmost place that fails, embedded messages and
 * overwritten members included, or 6 for a ClientMessage or ServerMessage with no member. */
uint8_t sudolog_decode(uint8_t message, const uint8_t *s, size_t n);

/* The same, and then 7 where a value that counts is outside its range. */
uint8_t sudolog_read(uint8_t message, const uint8_t *s, size_t n);

/* The member that a ClientMessage's, ServerMessage's or InfoMessage's oneof holds, by its field number;
 * 0 where none is set, and for every other message. */
uint64_t sudolog_member(uint8_t message, const uint8_t *s, size_t n);

/* The last number given for a field, 0 where it is absent: the 64 bits of an int64; an int32 is the low
 * 32 of them; a bool is true for all but 0. */
uint64_t sudolog_number(uint64_t field, const uint8_t *s, size_t n);

/* Where the last string, bytes or embedded message given for a field is in s; 0 and 0 where it is
 * absent, which reads as empty. Where a field may be given as a number and as bytes (field 1 of a
 * NumberList, and a field that the message does not know), the last one given decides, and the other
 * call returns what it does for an absent one. */
uint64_t sudolog_offset(uint64_t field, const uint8_t *s, size_t n);
uint64_t sudolog_length(uint64_t field, const uint8_t *s, size_t n);

/* Lists of strings and of messages, one element after the other: where the first one given for a field
 * at or after the place `at` is; UINT64_MAX (and length 0) where there is none. Begin with at 0; the
 * next place is offset + length. */
uint64_t sudolog_next_offset(uint64_t field, const uint8_t *s, size_t n, size_t at);
uint64_t sudolog_next_length(uint64_t field, const uint8_t *s, size_t n, size_t at);

/* A NumberList's numbers, one after the other, packed or not: 1 and three numbers of 8 bytes in `out`,
 * most significant byte first (the number's 64 bits, the next `at`, the next `end`); 0 where there is
 * none left; 12 where there is one and `room` is below 24. Begin with at 0 and end 0. */
uint8_t sudolog_next_number(const uint8_t *s, size_t n, size_t at, size_t end, uint8_t *out, size_t room);

/* Reads a ClientMessage in one walk: as sudolog_decode, then 12 where `room` is below 40, and on 0 five
 * numbers of 8 bytes in `out`, most significant byte first: the member's field number; an offset and a
 * length in s, of the I/O buffers 6 to 10 those of their data, of other members those of their message;
 * and the seconds and nanoseconds of an I/O buffer's delay as sudolog_number gives them, 0 and 0 of other
 * members. */
uint8_t sudolog_client(const uint8_t *s, size_t n, uint8_t *out, size_t room);

/* Reads a ServerMessage: as sudolog_decode, then 12 where `room` is below 24, and on 0 three numbers of 8
 * bytes in `out`, most significant byte first: the member's field number, and the offset and the length in s
 * of its message or string. */
uint8_t sudolog_server(const uint8_t *s, size_t n, uint8_t *out, size_t room);

/* ---- writing ----
 *
 * Each function writes one message into `out`, from its start, in the one form that document 01 gives it, and
 * returns a number: its low 32 bits are how many bytes were written, the bits above them a refusal's number, 0
 * for none. Refusals come in this order: 2 to 5 and 7 of the run of entries that was lent; 7 for a value outside
 * its range; 1 for a message above 2,097,152 bytes; 12 where the message and its frame have no room. A refusal
 * writes nothing.
 *
 * `member` is the field number of the message around it (a ClientMessage's or ServerMessage's member; for
 * an entry 2 in an accept, 3 in a reject or an alert), or 0 to write the message by itself; any other is 7.
 * `framed` puts the frame's four bytes before the message where it is not 0. Numbers are their 64 bits:
 * cast an int64_t or an int32_t to uint64_t. Flags are true where they are not 0. A list of strings is lent as the
 * strings joined and the place where each one ends; ends that fall, or a last one other than the joined length (0
 * for none), are 7. A run of entries is what the entry writers wrote, one after the other, unframed and with the
 * `member` that an entry has in that message. */
uint64_t sudolog_write_client_hello(uint64_t member, const uint8_t *client_id, size_t client_id_n,
                                    uint8_t framed, uint8_t *out, size_t room);
uint64_t sudolog_write_accept(uint64_t member, uint64_t seconds, uint64_t nanos, const uint8_t *run, size_t run_n,
                              uint8_t expect_iobufs, uint8_t framed, uint8_t *out, size_t room);
/* A RejectMessage (member 2) or an AlertMessage (member 5): their fields are the same. */
uint64_t sudolog_write_report(uint64_t member, uint64_t seconds, uint64_t nanos, const uint8_t *reason, size_t reason_n,
                              const uint8_t *run, size_t run_n, uint8_t framed, uint8_t *out, size_t room);
uint64_t sudolog_write_exit(uint64_t member, uint64_t seconds, uint64_t nanos, uint64_t exit_value, uint8_t dumped_core,
                            const uint8_t *signal, size_t signal_n, const uint8_t *error, size_t error_n,
                            uint8_t framed, uint8_t *out, size_t room);
uint64_t sudolog_write_restart(uint64_t member, const uint8_t *log_id, size_t log_id_n, uint64_t seconds, uint64_t nanos,
                               uint8_t framed, uint8_t *out, size_t room);
uint64_t sudolog_write_io(uint64_t member, uint64_t seconds, uint64_t nanos, const uint8_t *data, size_t data_n,
                          uint8_t framed, uint8_t *out, size_t room);
uint64_t sudolog_write_window_size(uint64_t member, uint64_t seconds, uint64_t nanos, uint64_t rows, uint64_t cols,
                                   uint8_t framed, uint8_t *out, size_t room);
uint64_t sudolog_write_suspend(uint64_t member, uint64_t seconds, uint64_t nanos, const uint8_t *signal, size_t signal_n,
                               uint8_t framed, uint8_t *out, size_t room);
uint64_t sudolog_write_server_hello(uint64_t member, const uint8_t *server_id, size_t server_id_n,
                                    const uint8_t *redirect, size_t redirect_n, const uint8_t *servers, size_t servers_n,
                                    const size_t *ends, size_t ends_n, uint8_t subcommands,
                                    uint8_t framed, uint8_t *out, size_t room);
/* A TimeSpec: member 0 by itself, of any int64_t seconds and any int32_t nanoseconds (a negative one as its cast to uint64_t; other
 * numbers of nanoseconds are 7); 2 a ServerMessage's commit_point, with its range. */
uint64_t sudolog_write_time(uint64_t member, uint64_t seconds, uint64_t nanos, uint8_t framed, uint8_t *out, size_t room);
/* A ServerMessage's log_id (member 3), error (4) or abort (5). Such a string is no message by itself: member 0 is 7. */
uint64_t sudolog_write_note(uint64_t member, const uint8_t *text, size_t text_n, uint8_t framed, uint8_t *out, size_t room);
uint64_t sudolog_write_string_list(const uint8_t *strings, size_t strings_n, const size_t *ends, size_t ends_n,
                                   uint8_t framed, uint8_t *out, size_t room);
uint64_t sudolog_write_number_list(const uint64_t *numbers, size_t numbers_n,
                                   uint8_t framed, uint8_t *out, size_t room);
uint64_t sudolog_write_entry_number(uint64_t member, const uint8_t *key, size_t key_n, uint64_t value,
                                    uint8_t framed, uint8_t *out, size_t room);
uint64_t sudolog_write_entry_string(uint64_t member, const uint8_t *key, size_t key_n, const uint8_t *value, size_t value_n,
                                    uint8_t framed, uint8_t *out, size_t room);
uint64_t sudolog_write_entry_strings(uint64_t member, const uint8_t *key, size_t key_n, const uint8_t *strings, size_t strings_n,
                                     const size_t *ends, size_t ends_n, uint8_t framed, uint8_t *out, size_t room);
uint64_t sudolog_write_entry_numbers(uint64_t member, const uint8_t *key, size_t key_n, const uint64_t *numbers, size_t numbers_n,
                                     uint8_t framed, uint8_t *out, size_t room);

/* ---- the session ----
 *
 * A session is kept in 40 bytes that the caller lends to each call, five numbers of 8 bytes, most significant
 * byte first:
 *
 *    0  the state: 0 new, 1 greeted, 2 logging, 3 events only, 4 closed; 8 more while the point of a restart stands
 *    8  the used length of the area
 *   16  the total: the sum of the delays of the records stored, in nanoseconds
 *   24  the greatest total below it that a beginning of the file has, in nanoseconds
 *   32  the point of the restart in nanoseconds; 0 where none stands
 *
 * Bytes that are no session (another length than 40, a state that is none, a number beyond its limit) count
 * as a closed session. The area is the bytes lent for the session's file, `used` how many of them the file has.
 * The slices of one call must not overlap. */

/* Keeps a new session in the 40 bytes: 0; or 12 where session_n is not 40, and then nothing is changed. */
uint8_t sudolog_session_open(uint8_t *session, size_t session_n);

/* Hands one message, without its frame's four bytes, to the session: 0, or its refusal. A refusal closes the
 * session and leaves the area as it was. In `out` five numbers of 8 bytes, most significant byte first: the used
 * length afterwards; the key that refusal 8 names (0 command, 1 runuser, 2 submithost, 3 submituser), otherwise
 * 0; whether the answer has a commit point, 1 or 0; the point in nanoseconds, otherwise 0; the state that the
 * session is in. Where `room` is below 40 the answer is 12 before the message is looked at: the session is closed,
 * and area, used length and `out` stay as they were; a slice of another length than 40 stays as well. A record that
 * is stored costs time in its own length; a restart one pass over the file's record headers. */
uint8_t sudolog_session_message(uint8_t *session, size_t session_n, const uint8_t *message, size_t n,
                                uint8_t *area, size_t area_n, size_t used, uint8_t *out, size_t room);

/* The commit point of the host's tick, in nanoseconds; UINT64_MAX where there is none. It changes nothing. */
uint64_t sudolog_session_tick(const uint8_t *session, size_t session_n);

/* What the used bytes of an area are as a file: one of enum sudolog_file. One pass over the record headers. */
uint8_t sudolog_check_file(const uint8_t *area, size_t area_n, size_t used);

/* ---- stored files ----
 *
 * A file is lent as sudolog_check_file takes it: an area, and how many of its bytes the file has. A length beyond the
 * area, or an area beyond 1 GiB, is 15. */

/* What two files differ in (request 9 of document 02). For each record number from 0, as many as the longer file has
 * records, 8 bytes in `out`, two numbers of 4 bytes, most significant byte first: the sum of what differs, by enum
 * sudolog_differs; and where 4 is in it the first offset within the data at which they differ, the shorter length where
 * one is the other's beginning; otherwise 0. Returns as the writers do: in the low 32 bits how many bytes were written,
 * above them the refusal: 15 where one of the two is no valid file, then 12 where `room` is below 8 bytes for each. */
uint64_t sudolog_compare_files(const uint8_t *first, size_t first_n, size_t first_used,
                               const uint8_t *second, size_t second_n, size_t second_used,
                               uint8_t *out, size_t room);

/* How many records a valid file has, in the low 32 bits; above them refusal 15 where it is none. */
uint64_t sudolog_count_records(const uint8_t *area, size_t area_n, size_t used);

/* The record at a place of a file: 1 and five numbers of 8 bytes in `out`, most significant byte first: the kind, the
 * delay in nanoseconds (of an exit its run_time), the offset of the data in the area, their length, and the next place.
 * 0 at the file's end; 15 where no whole record is there; then 12 where `room` is below 40. Begin with at 0. It looks at
 * this record alone: that a file is valid, sudolog_check_file says. */
uint8_t sudolog_next_record(const uint8_t *area, size_t area_n, size_t used, size_t at, uint8_t *out, size_t room);

/* Recorded bytes as text that a terminal can be sent: bytes 32 to 126 as they are, but \ as \\; 10, 13 and 9 as \n, \r and
 * \t; all others as \xHH. Different bytes have different texts. Returns as the writers do; 12 where the text has no room
 * or more than 4,294,967,295 bytes. 4 bytes of room for each byte are enough. No zero is written behind the text. */
uint64_t sudolog_escape(const uint8_t *data, size_t n, uint8_t *out, size_t room);

#ifdef __cplusplus
}
#endif

/* ---- second part: the messages as C structs ----
 *
 * Each message of sudo_logsrv.proto has a struct sudolog_NAME and three functions:
 *
 *   int  sudolog_read_NAME(m, n, &out)    0 and out filled, or refusal 2 to 7 and out untouched
 *   int  sudolog_decode_NAME(m, n, &out)  the same without the ranges: 0, or refusal 2 to 6
 *   void sudolog_get_NAME(m, n, &out)     fills out from a slice that was read already: a reader has
 *                                         looked at all parts of its message, so a part needs no second
 *                                         reading. Of other slices what is filled in has no meaning.
 *
 *   NAME            the message               NAME          the message
 *   client_message  ClientMessage             io_buffer     IoBuffer
 *   server_message  ServerMessage             window_size   ChangeWindowSize
 *   accept          AcceptMessage             suspend       CommandSuspend
 *   reject          RejectMessage             entry         InfoMessage
 *   exit            ExitMessage               string_list   InfoMessage.StringList
 *   restart         RestartMessage            number_list   InfoMessage.NumberList
 *   alert           AlertMessage              time          TimeSpec
 *   client_hello    ClientHello               server_hello  ServerHello
 *
 * (m, n) is the message without its frame's four bytes; where m is NULL it is an empty message, whatever
 * n is. Nothing is copied and nothing is allocated: strings, bytes and embedded messages come back as spans
 * of the slice that was handed in, lists as small structs that point into it and are walked with a `next`
 * function. "In range" beside a member is what sudolog_read_NAME takes; after sudolog_decode_NAME it may
 * hold any value of its type.
 *
 *   struct sudolog_client_message message;
 *   struct sudolog_accept accept;
 *   struct sudolog_entry entry;
 *   int refusal = sudolog_read_client_message(m, n, &message);
 *   if (refusal == 0 && message.member == SUDOLOG_FROM_CLIENT_ACCEPT) {
 *       const uint8_t *a = m + message.content.offset;
 *       sudolog_get_accept(a, message.content.length, &accept);
 *       while (sudolog_next_entry(&accept.entries, &entry))
 *           print_key(a + entry.key.offset, entry.key.length);
 *   }
 */

/* The bytes m[offset] to m[offset + length - 1] of the slice m that was handed in. What is absent has
 * length 0, as what is there and empty: the protocol makes no difference between the two. */
struct sudolog_span {
    size_t offset;
    size_t length;
};

/* TimeSpec. An absent one is 0 s 0 ns. It has no range of its own; the messages that hold it say theirs. */
struct sudolog_time {
    int64_t seconds;
    int32_t nanoseconds;
};

/* What is left of a list of strings or messages. For the functions below only. */
struct sudolog_parts {
    const uint8_t *m;
    size_t n;
    size_t at;
    uint64_t field;
};

/* What is left of a list: walk it with sudolog_next_string, sudolog_next_entry, sudolog_next_int64. To
 * walk it twice, copy the struct first. It points into the slice, which must stay where it is. */
struct sudolog_string_list {
    struct sudolog_parts parts;
};
struct sudolog_entry_list {
    struct sudolog_parts parts;
};
struct sudolog_number_list {
    const uint8_t *m;
    size_t n;
    size_t at;  /* where the next number is looked for */
    size_t end; /* where the packed part that `at` is in ends */
};

/* What an entry's value is: the field number in InfoMessage. */
enum sudolog_value {
    SUDOLOG_VALUE_NONE = 0, /* refused by sudolog_read_entry (7), taken by sudolog_decode_entry */
    SUDOLOG_VALUE_NUMBER = 2,
    SUDOLOG_VALUE_STRING = 3,
    SUDOLOG_VALUE_STRINGS = 4,
    SUDOLOG_VALUE_NUMBERS = 5
};

/* One key and its value. */
struct sudolog_entry {
    struct sudolog_span key;   /* in range: not empty */
    int kind;                  /* one of enum sudolog_value */
    int64_t number;            /* of SUDOLOG_VALUE_NUMBER; otherwise 0 */
    struct sudolog_span value; /* of a string its bytes; of a list what sudolog_get_string_list or
                                  sudolog_get_number_list takes; otherwise length 0 */
};

struct sudolog_accept {
    struct sudolog_time submit_time;   /* wall clock; in range: any seconds, 0 to 999,999,999 ns */
    bool expect_iobufs;                /* absent: false */
    struct sudolog_entry_list entries; /* info_msgs, each in range */
};

struct sudolog_reject {
    struct sudolog_time submit_time; /* as of an accept */
    struct sudolog_span reason;
    struct sudolog_entry_list entries;
};

struct sudolog_alert {
    struct sudolog_time alert_time; /* as an accept's submit_time */
    struct sudolog_span reason;
    struct sudolog_entry_list entries;
};

struct sudolog_exit {
    struct sudolog_time run_time; /* in range: 0 to 4,294,967,295 s, 0 to 999,999,999 ns */
    int32_t exit_value;           /* in range: 0 to 255; absent: 0 */
    bool dumped_core;             /* absent: false */
    struct sudolog_span signal;   /* the name without SIG; in range: at most 127 bytes */
    struct sudolog_span error;
};

struct sudolog_restart {
    struct sudolog_span log_id;       /* in range: 1 to 4,095 bytes */
    struct sudolog_time resume_point; /* in range: as an exit's run_time */
};

struct sudolog_io_buffer {
    struct sudolog_time delay; /* in range: as an exit's run_time */
    struct sudolog_span data;
};

struct sudolog_window_size {
    struct sudolog_time delay; /* in range: as an exit's run_time */
    int32_t rows;              /* in range: 0 to 65,535; absent: 0 */
    int32_t cols;              /* the same */
};

struct sudolog_suspend {
    struct sudolog_time delay;  /* in range: as an exit's run_time */
    struct sudolog_span signal; /* the name without SIG; in range: 1 to 127 bytes */
};

struct sudolog_client_hello {
    struct sudolog_span client_id;
};

struct sudolog_server_hello {
    struct sudolog_span server_id;
    struct sudolog_span redirect;
    struct sudolog_string_list servers;
    bool subcommands; /* absent: false */
};

/* What a ClientMessage holds: the member's field number. */
enum sudolog_from_client {
    SUDOLOG_FROM_CLIENT_ACCEPT = 1,
    SUDOLOG_FROM_CLIENT_REJECT = 2,
    SUDOLOG_FROM_CLIENT_EXIT = 3,
    SUDOLOG_FROM_CLIENT_RESTART = 4,
    SUDOLOG_FROM_CLIENT_ALERT = 5,
    SUDOLOG_FROM_CLIENT_TTYIN = 6, /* 6 to 10: an IoBuffer */
    SUDOLOG_FROM_CLIENT_TTYOUT = 7,
    SUDOLOG_FROM_CLIENT_STDIN = 8,
    SUDOLOG_FROM_CLIENT_STDOUT = 9,
    SUDOLOG_FROM_CLIENT_STDERR = 10,
    SUDOLOG_FROM_CLIENT_WINDOW_SIZE = 11,
    SUDOLOG_FROM_CLIENT_SUSPEND = 12,
    SUDOLOG_FROM_CLIENT_HELLO = 13
};

/* What a ServerMessage holds: the member's field number. */
enum sudolog_from_server {
    SUDOLOG_FROM_SERVER_HELLO = 1,
    SUDOLOG_FROM_SERVER_COMMIT_POINT = 2,
    SUDOLOG_FROM_SERVER_LOG_ID = 3,
    SUDOLOG_FROM_SERVER_ERROR = 4,
    SUDOLOG_FROM_SERVER_ABORT = 5
};

struct sudolog_client_message {
    int member;                  /* one of enum sudolog_from_client: the last one given */
    struct sudolog_span content; /* the member's message: hand it to its sudolog_get_NAME */
};

struct sudolog_server_message {
    int member;                       /* one of enum sudolog_from_server: the last one given */
    struct sudolog_span content;      /* log_id, error, abort: the string; hello, commit_point: the message */
    struct sudolog_time commit_point; /* of that member, in range as an exit's run_time; otherwise 0 s 0 ns */
};

/* A ClientMessage as sudolog_scan_client finds it. */
struct sudolog_client_scan {
    int member;                  /* as in sudolog_client_message */
    struct sudolog_span content; /* of the members 6 to 10 their data; otherwise as in sudolog_client_message */
    struct sudolog_time delay;   /* of the members 6 to 10; otherwise 0 s 0 ns */
};

/* The eight bytes at p as a number, most significant byte first: how the library writes numbers. */
static inline uint64_t sudolog_big_endian(const uint8_t *p)
{
    return (uint64_t)p[0] << 56 | (uint64_t)p[1] << 48 | (uint64_t)p[2] << 40 | (uint64_t)p[3] << 32 |
           (uint64_t)p[4] << 24 | (uint64_t)p[5] << 16 | (uint64_t)p[6] << 8 | (uint64_t)p[7];
}

/* ---- what the library is lent ----
 *
 * Each of these is the two arguments that a function of the first part takes for a slice: a pointer that is not
 * NULL, and a length.
 *
 *   SUDOLOG_LEND(m, n)                n bytes: const uint8_t *
 *   SUDOLOG_LEND_TEXT(text, n)        n bytes: const char *
 *   SUDOLOG_LEND_STRING(text)         a C string without its closing zero
 *   SUDOLOG_LEND_ENDS(ends, n)        n ends of a list of strings: const size_t *
 *   SUDOLOG_LEND_NUMBERS(numbers, n)  n numbers of a list: const int64_t *
 *   SUDOLOG_LEND_ROOM(out, n)         n bytes that may be written, a writer's room or an area: uint8_t *
 *
 * NULL is lent with length 0, whatever n is: no bytes, an empty list, no room. The functions below lend all that
 * they are handed in this way, so NULL gives what an empty slice gives: refusal 6 for a ClientMessage or a
 * ServerMessage, also in a session; of other messages absent fields; a frame to wait for. Into a NULL room or area
 * nothing is written: that is refusal 12, and 15 for a restart and where the used length is above 0.
 *
 * An array is never NULL and may be handed over as it is. The pointer is evaluated twice. */
#define SUDOLOG_LEND(m, n) sudolog_lend(m), sudolog_lent(m, n)
#define SUDOLOG_LEND_TEXT(text, n) sudolog_text(text), sudolog_lent(text, n)
#define SUDOLOG_LEND_STRING(text) sudolog_text(text), sudolog_text_length(text)
#define SUDOLOG_LEND_ENDS(ends, n) sudolog_lend_ends(ends), sudolog_lent(ends, n)
#define SUDOLOG_LEND_NUMBERS(numbers, n) sudolog_lend_numbers(numbers), sudolog_lent(numbers, n)
#define SUDOLOG_LEND_ROOM(out, n) sudolog_lend_room(out), sudolog_lent(out, n)

/* The length that goes with a pointer. */
static inline size_t sudolog_lent(const void *pointer, size_t n)
{
    return pointer != NULL ? n : 0;
}

static inline size_t sudolog_text_length(const char *text)
{
    return text != NULL ? strlen(text) : 0;
}

/* The pointers. Of NULL they make one that goes with length 0 alone: use the macros. */
static inline const uint8_t *sudolog_lend(const uint8_t *m)
{
    return m != NULL ? m : (const uint8_t *)"";
}

static inline const uint8_t *sudolog_text(const char *text)
{
    return sudolog_lend((const uint8_t *)text);
}

static inline const size_t *sudolog_lend_ends(const size_t *ends)
{
    static const size_t none = 0;
    return ends != NULL ? ends : &none;
}

static inline const uint64_t *sudolog_lend_numbers(const int64_t *numbers)
{
    static const uint64_t none = 0;
    return numbers != NULL ? (const uint64_t *)numbers : &none;
}

static inline uint8_t *sudolog_lend_room(uint8_t *out)
{
    static uint8_t none = 0;
    return out != NULL ? out : &none;
}

/* Two's complement by hand: C leaves the conversion of large numbers to the compiler. */
static inline int64_t sudolog_int64(uint64_t bits)
{
    return bits <= INT64_MAX ? (int64_t)bits : -1 - (int64_t)(UINT64_MAX - bits);
}

static inline int32_t sudolog_int32(uint64_t bits)
{
    uint32_t low = (uint32_t)bits;
    return low <= INT32_MAX ? (int32_t)low : -1 - (int32_t)(UINT32_MAX - low);
}

/* The frame at the start of s: the state, and in count the message's length (SUDOLOG_FRAME_WHOLE; it
 * starts at s + 4), how many bytes are missing to the next decision (SUDOLOG_FRAME_WAIT), or 0. */
static inline enum sudolog_frame sudolog_cut_frame(const uint8_t *s, size_t n, size_t *count)
{
    *count = (size_t)sudolog_frame_count(SUDOLOG_LEND(s, n));
    return (enum sudolog_frame)sudolog_frame_state(SUDOLOG_LEND(s, n));
}

/* ---- fields of a message that was read ---- */

static inline struct sudolog_span sudolog_field_span(uint64_t field, const uint8_t *m, size_t n)
{
    struct sudolog_span span;
    span.offset = (size_t)sudolog_offset(field, SUDOLOG_LEND(m, n));
    span.length = (size_t)sudolog_length(field, SUDOLOG_LEND(m, n));
    return span;
}

static inline int64_t sudolog_field_int64(uint64_t field, const uint8_t *m, size_t n)
{
    return sudolog_int64(sudolog_number(field, SUDOLOG_LEND(m, n)));
}

static inline int32_t sudolog_field_int32(uint64_t field, const uint8_t *m, size_t n)
{
    return sudolog_int32(sudolog_number(field, SUDOLOG_LEND(m, n)));
}

static inline bool sudolog_field_flag(uint64_t field, const uint8_t *m, size_t n)
{
    return sudolog_number(field, SUDOLOG_LEND(m, n)) != 0;
}

static inline struct sudolog_parts sudolog_field_parts(uint64_t field, const uint8_t *m, size_t n)
{
    struct sudolog_parts parts;
    parts.m = sudolog_lend(m);
    parts.n = sudolog_lent(m, n);
    parts.at = 0;
    parts.field = field;
    return parts;
}

static inline void sudolog_get_time(const uint8_t *m, size_t n, struct sudolog_time *out)
{
    out->seconds = sudolog_field_int64(1, m, n);
    out->nanoseconds = sudolog_field_int32(2, m, n);
}

static inline struct sudolog_time sudolog_field_time(uint64_t field, const uint8_t *m, size_t n)
{
    struct sudolog_span span = sudolog_field_span(field, m, n);
    struct sudolog_time moment;
    sudolog_get_time(sudolog_lend(m) + span.offset, span.length, &moment);
    return moment;
}

/* ---- each message's fields ---- */

static inline void sudolog_get_string_list(const uint8_t *m, size_t n, struct sudolog_string_list *out)
{
    out->parts = sudolog_field_parts(1, m, n);
}

static inline void sudolog_get_number_list(const uint8_t *m, size_t n, struct sudolog_number_list *out)
{
    out->m = sudolog_lend(m);
    out->n = sudolog_lent(m, n);
    out->at = 0;
    out->end = 0;
}

static inline void sudolog_get_entry(const uint8_t *m, size_t n, struct sudolog_entry *out)
{
    uint64_t field = sudolog_member(SUDOLOG_INFO_MESSAGE, SUDOLOG_LEND(m, n));
    out->key = sudolog_field_span(1, m, n);
    out->kind = (int)field;
    out->number = field == SUDOLOG_VALUE_NUMBER ? sudolog_field_int64(field, m, n) : 0;
    out->value = sudolog_field_span(field, m, n);
}

static inline void sudolog_get_accept(const uint8_t *m, size_t n, struct sudolog_accept *out)
{
    out->submit_time = sudolog_field_time(1, m, n);
    out->entries.parts = sudolog_field_parts(2, m, n);
    out->expect_iobufs = sudolog_field_flag(3, m, n);
}

static inline void sudolog_get_reject(const uint8_t *m, size_t n, struct sudolog_reject *out)
{
    out->submit_time = sudolog_field_time(1, m, n);
    out->reason = sudolog_field_span(2, m, n);
    out->entries.parts = sudolog_field_parts(3, m, n);
}

static inline void sudolog_get_alert(const uint8_t *m, size_t n, struct sudolog_alert *out)
{
    out->alert_time = sudolog_field_time(1, m, n);
    out->reason = sudolog_field_span(2, m, n);
    out->entries.parts = sudolog_field_parts(3, m, n);
}

static inline void sudolog_get_exit(const uint8_t *m, size_t n, struct sudolog_exit *out)
{
    out->run_time = sudolog_field_time(1, m, n);
    out->exit_value = sudolog_field_int32(2, m, n);
    out->dumped_core = sudolog_field_flag(3, m, n);
    out->signal = sudolog_field_span(4, m, n);
    out->error = sudolog_field_span(5, m, n);
}

static inline void sudolog_get_restart(const uint8_t *m, size_t n, struct sudolog_restart *out)
{
    out->log_id = sudolog_field_span(1, m, n);
    out->resume_point = sudolog_field_time(2, m, n);
}

static inline void sudolog_get_io_buffer(const uint8_t *m, size_t n, struct sudolog_io_buffer *out)
{
    out->delay = sudolog_field_time(1, m, n);
    out->data = sudolog_field_span(2, m, n);
}

static inline void sudolog_get_window_size(const uint8_t *m, size_t n, struct sudolog_window_size *out)
{
    out->delay = sudolog_field_time(1, m, n);
    out->rows = sudolog_field_int32(2, m, n);
    out->cols = sudolog_field_int32(3, m, n);
}

static inline void sudolog_get_suspend(const uint8_t *m, size_t n, struct sudolog_suspend *out)
{
    out->delay = sudolog_field_time(1, m, n);
    out->signal = sudolog_field_span(2, m, n);
}

static inline void sudolog_get_client_hello(const uint8_t *m, size_t n, struct sudolog_client_hello *out)
{
    out->client_id = sudolog_field_span(1, m, n);
}

static inline void sudolog_get_server_hello(const uint8_t *m, size_t n, struct sudolog_server_hello *out)
{
    out->server_id = sudolog_field_span(1, m, n);
    out->redirect = sudolog_field_span(2, m, n);
    out->servers.parts = sudolog_field_parts(3, m, n);
    out->subcommands = sudolog_field_flag(4, m, n);
}

static inline void sudolog_get_client_message(const uint8_t *m, size_t n, struct sudolog_client_message *out)
{
    uint64_t field = sudolog_member(SUDOLOG_CLIENT_MESSAGE, SUDOLOG_LEND(m, n));
    out->member = (int)field;
    out->content = sudolog_field_span(field, m, n);
}

/* The commit point where the member and its place are filled in: 0 s 0 ns of another member. */
static inline void sudolog_get_commit_point(const uint8_t *m, struct sudolog_server_message *out)
{
    bool committed = out->member == SUDOLOG_FROM_SERVER_COMMIT_POINT;
    sudolog_get_time(sudolog_lend(m) + out->content.offset, committed ? out->content.length : 0, &out->commit_point);
}

static inline void sudolog_get_server_message(const uint8_t *m, size_t n, struct sudolog_server_message *out)
{
    uint64_t field = sudolog_member(SUDOLOG_SERVER_MESSAGE, SUDOLOG_LEND(m, n));
    out->member = (int)field;
    out->content = sudolog_field_span(field, m, n);
    sudolog_get_commit_point(m, out);
}

/* ---- reading: sudolog_decode_NAME and sudolog_read_NAME of every message ---- */

#define SUDOLOG_READERS(NAME, MESSAGE)                                                                      \
    static inline int sudolog_decode_##NAME(const uint8_t *m, size_t n, struct sudolog_##NAME *out)         \
    {                                                                                                       \
        int refusal = sudolog_decode(MESSAGE, SUDOLOG_LEND(m, n));                                          \
        if (refusal == 0)                                                                                   \
            sudolog_get_##NAME(m, n, out);                                                                  \
        return refusal;                                                                                     \
    }                                                                                                       \
    static inline int sudolog_read_##NAME(const uint8_t *m, size_t n, struct sudolog_##NAME *out)           \
    {                                                                                                       \
        int refusal = sudolog_read(MESSAGE, SUDOLOG_LEND(m, n));                                            \
        if (refusal == 0)                                                                                   \
            sudolog_get_##NAME(m, n, out);                                                                  \
        return refusal;                                                                                     \
    }

SUDOLOG_READERS(client_message, SUDOLOG_CLIENT_MESSAGE)
SUDOLOG_READERS(accept, SUDOLOG_ACCEPT_MESSAGE)
SUDOLOG_READERS(reject, SUDOLOG_REJECT_MESSAGE)
SUDOLOG_READERS(exit, SUDOLOG_EXIT_MESSAGE)
SUDOLOG_READERS(restart, SUDOLOG_RESTART_MESSAGE)
SUDOLOG_READERS(alert, SUDOLOG_ALERT_MESSAGE)
SUDOLOG_READERS(io_buffer, SUDOLOG_IO_BUFFER)
SUDOLOG_READERS(window_size, SUDOLOG_CHANGE_WINDOW_SIZE)
SUDOLOG_READERS(suspend, SUDOLOG_COMMAND_SUSPEND)
SUDOLOG_READERS(client_hello, SUDOLOG_CLIENT_HELLO)
SUDOLOG_READERS(server_hello, SUDOLOG_SERVER_HELLO)
SUDOLOG_READERS(entry, SUDOLOG_INFO_MESSAGE)
SUDOLOG_READERS(string_list, SUDOLOG_STRING_LIST)
SUDOLOG_READERS(number_list, SUDOLOG_NUMBER_LIST)
SUDOLOG_READERS(time, SUDOLOG_TIME_SPEC)

#undef SUDOLOG_READERS

/* The readers of a ServerMessage, by sudolog_server. */
static inline int sudolog_decode_server_message(const uint8_t *m, size_t n, struct sudolog_server_message *out)
{
    uint8_t numbers[24];
    int refusal = sudolog_server(SUDOLOG_LEND(m, n), numbers, sizeof numbers);
    if (refusal != 0)
        return refusal;
    out->member = (int)sudolog_big_endian(numbers);
    out->content.offset = (size_t)sudolog_big_endian(numbers + 8);
    out->content.length = (size_t)sudolog_big_endian(numbers + 16);
    sudolog_get_commit_point(m, out);
    return 0;
}

static inline int sudolog_read_server_message(const uint8_t *m, size_t n, struct sudolog_server_message *out)
{
    int refusal = sudolog_read(SUDOLOG_SERVER_MESSAGE, SUDOLOG_LEND(m, n));
    return refusal != 0 ? refusal : sudolog_decode_server_message(m, n, out);
}

/* A ClientMessage in one walk over its bytes, for a collector's main loop: 0 and out filled, or refusal 2
 * to 6 and out untouched, as sudolog_decode_client_message. Ranges are not looked at: a delay may be
 * negative here. */
static inline int sudolog_scan_client(const uint8_t *m, size_t n, struct sudolog_client_scan *out)
{
    uint8_t numbers[40];
    int refusal = sudolog_client(SUDOLOG_LEND(m, n), numbers, sizeof numbers);
    if (refusal != 0)
        return refusal;
    out->member = (int)sudolog_big_endian(numbers);
    out->content.offset = (size_t)sudolog_big_endian(numbers + 8);
    out->content.length = (size_t)sudolog_big_endian(numbers + 16);
    out->delay.seconds = sudolog_int64(sudolog_big_endian(numbers + 24));
    out->delay.nanoseconds = sudolog_int32(sudolog_big_endian(numbers + 32));
    return 0;
}

/* ---- walking lists: 1 and the next element in out, or 0 and out untouched where none is left ---- */

static inline int sudolog_next_part(struct sudolog_parts *left, struct sudolog_span *out)
{
    uint64_t offset = sudolog_next_offset(left->field, SUDOLOG_LEND(left->m, left->n), left->at);
    if (offset == UINT64_MAX)
        return 0;
    out->offset = (size_t)offset;
    out->length = (size_t)sudolog_next_length(left->field, SUDOLOG_LEND(left->m, left->n), left->at);
    left->at = out->offset + out->length;
    return 1;
}

/* out is a span of the slice that the list was read from: the StringList's, or the ServerHello's. */
static inline int sudolog_next_string(struct sudolog_string_list *left, struct sudolog_span *out)
{
    return sudolog_next_part(&left->parts, out);
}

/* The entry's spans are spans of the accept, reject or alert that the list was read from. */
static inline int sudolog_next_entry(struct sudolog_entry_list *left, struct sudolog_entry *out)
{
    struct sudolog_span part;
    if (!sudolog_next_part(&left->parts, &part))
        return 0;
    sudolog_get_entry(sudolog_lend(left->parts.m) + part.offset, part.length, out);
    out->key.offset += part.offset;
    out->value.offset += part.offset;
    return 1;
}

static inline int sudolog_next_int64(struct sudolog_number_list *left, int64_t *out)
{
    uint8_t numbers[24];
    if (sudolog_next_number(SUDOLOG_LEND(left->m, left->n), left->at, left->end, numbers, sizeof numbers) != 1)
        return 0;
    *out = sudolog_int64(sudolog_big_endian(numbers));
    left->at = (size_t)sudolog_big_endian(numbers + 8);
    left->end = (size_t)sudolog_big_endian(numbers + 16);
    return 1;
}

/* ---- beside the writers ----
 *
 * What they answer, taken apart. An accept with two entries and then a commit point, each as a frame:
 *
 *   static const size_t ends[] = { 2, 4 };
 *   uint8_t run[512], accept[1024], point[64];
 *   size_t run_n = 0, accept_n = 0, point_n = 0;
 *   int refusal = sudolog_add_written(
 *       sudolog_write_entry_string(SUDOLOG_ENTRY_OF_ACCEPT, SUDOLOG_LEND_STRING("command"),
 *                                  SUDOLOG_LEND_STRING("/bin/ls"), 0, run, sizeof run),
 *       &run_n);
 *   if (refusal == 0)
 *       refusal = sudolog_add_written(
 *           sudolog_write_entry_strings(SUDOLOG_ENTRY_OF_ACCEPT, SUDOLOG_LEND_STRING("runargv"),
 *                                       SUDOLOG_LEND_STRING("ls-l"), ends, 2, 0, run + run_n, sizeof run - run_n),
 *           &run_n);
 *   if (refusal == 0)
 *       refusal = sudolog_add_written(
 *           sudolog_write_accept(SUDOLOG_FROM_CLIENT_ACCEPT, 1700000000, 0, run, run_n, true, true,
 *                                accept, sizeof accept),
 *           &accept_n);
 *   if (refusal == 0)
 *       refusal = sudolog_add_written(
 *           sudolog_write_time(SUDOLOG_FROM_SERVER_COMMIT_POINT, 1, 0, true, point, sizeof point), &point_n);
 *
 * Now accept[0] to accept[accept_n - 1] is what a client sends, point[0] to point[point_n - 1] what a
 * server sends; or refusal says what stopped it. */

/* The `member` that an entry is written with: info_msgs' field number in the message that gets the run. */
enum sudolog_entry_of {
    SUDOLOG_ENTRY_OF_ACCEPT = 2,
    SUDOLOG_ENTRY_OF_REJECT = 3,
    SUDOLOG_ENTRY_OF_ALERT = 3
};

/* How many bytes a writer wrote: 0 where it refused. A TimeSpec, a list or a hello may have 0 as well. */
static inline size_t sudolog_written_size(uint64_t written)
{
    return (size_t)(written & UINT32_MAX);
}

/* A refusal in words, for a log; of a number that is none, too. */
static inline const char *sudolog_refusal_text(int refusal)
{
    switch (refusal) {
    case SUDOLOG_TAKEN: return "no refusal";
    case SUDOLOG_TOO_LONG: return "frame or message too long";
    case SUDOLOG_BAD_VARINT: return "broken varint";
    case SUDOLOG_PAST_END: return "length past the end";
    case SUDOLOG_BAD_TAG: return "bad tag or wire type";
    case SUDOLOG_OTHER_WIRE_TYPE: return "known field with another wire type";
    case SUDOLOG_NO_MEMBER: return "message with no member";
    case SUDOLOG_OUT_OF_RANGE: return "value outside its range";
    case SUDOLOG_ENTRY_MISSING: return "required entry missing";
    case SUDOLOG_NOT_ITS_TURN: return "not this state's turn";
    case SUDOLOG_TOTAL_TOO_GREAT: return "total too great";
    case SUDOLOG_ZERO_AT_RESTART: return "delay zero at a restart point";
    case SUDOLOG_NO_ROOM: return "no room";
    case SUDOLOG_FINISHED_FILE: return "restart of a finished file";
    case SUDOLOG_NO_SUCH_POINT: return "no beginning of the file has the resume point";
    case SUDOLOG_NO_VALID_FILE: return "no valid file, or wrong lengths";
    default: return "no refusal of document 01";
    }
}

/* A writer's refusal, 0 for none. */
static inline int sudolog_written_refusal(uint64_t written)
{
    return (int)(written >> 32);
}

/* The refusal, and on 0 the size added to *used: for writing one thing behind the other. */
static inline int sudolog_add_written(uint64_t written, size_t *used)
{
    *used += sudolog_written_size(written);
    return sudolog_written_refusal(written);
}

/* ---- the session, with its 40 bytes in a struct ----
 *
 *   struct sudolog_session session = sudolog_new_session();
 *   struct sudolog_answer answer;
 *   size_t used = 0;
 *   for each whole message (m, n) of the connection {
 *       int refusal = sudolog_take_message(&session, m, n, area, sizeof area, used, &answer);
 *       used = answer.used;
 *       if (answer.has_point)
 *           send a commit point of answer.point;
 *       if (refusal != 0 || answer.state == SUDOLOG_STATE_CLOSED)
 *           hang up;
 *   }
 *   on a timer: if (sudolog_tick(&session, &point)) send a commit point of point;
 *
 * A new session begins each connection; the area and its used length stay from one connection to the next. */

enum sudolog_state {
    SUDOLOG_STATE_NEW = 0,
    SUDOLOG_STATE_GREETED = 1,
    SUDOLOG_STATE_LOGGING = 2,
    SUDOLOG_STATE_EVENTS_ONLY = 3,
    SUDOLOG_STATE_CLOSED = 4
};

struct sudolog_session {
    uint8_t bytes[SUDOLOG_SESSION_SIZE];
};

/* What sudolog_take_message returns beside the refusal. */
struct sudolog_answer {
    int refusal;               /* 0 for none */
    int key;                   /* of refusal 8: 0 command, 1 runuser, 2 submithost, 3 submituser */
    bool has_point;            /* only an exit that was stored has a commit point */
    struct sudolog_time point; /* 0 s 0 ns where it has none */
    enum sudolog_state state;  /* the state afterwards */
    size_t used;               /* the area's used length afterwards */
};

/* Nanoseconds as a TimeSpec. */
static inline struct sudolog_time sudolog_time_of(uint64_t nanoseconds)
{
    struct sudolog_time time;
    time.seconds = (int64_t)(nanoseconds / 1000000000);
    time.nanoseconds = (int32_t)(nanoseconds % 1000000000);
    return time;
}

static inline struct sudolog_session sudolog_new_session(void)
{
    struct sudolog_session session;
    sudolog_session_open(session.bytes, sizeof session.bytes);
    return session;
}

/* The 40 bytes that sudolog_session_message writes, as a struct. */
static inline void sudolog_get_answer(int refusal, const uint8_t *out, struct sudolog_answer *answer)
{
    answer->refusal = refusal;
    answer->used = (size_t)sudolog_big_endian(out);
    answer->key = (int)sudolog_big_endian(out + 8);
    answer->has_point = sudolog_big_endian(out + 16) != 0;
    answer->point = sudolog_time_of(sudolog_big_endian(out + 24));
    answer->state = (enum sudolog_state)sudolog_big_endian(out + 32);
}

/* Hands a message to the session: its refusal, 0 for none. The answer is filled in either way. A NULL area is
 * one of length 0, whatever area_n is: messages that store nothing need no other. */
static inline int sudolog_take_message(struct sudolog_session *session, const uint8_t *m, size_t n,
                                       uint8_t *area, size_t area_n, size_t used, struct sudolog_answer *answer)
{
    uint8_t out[40];
    int refusal = sudolog_session_message(session->bytes, sizeof session->bytes, SUDOLOG_LEND(m, n),
                                          SUDOLOG_LEND_ROOM(area, area_n), used, out, sizeof out);
    sudolog_get_answer(refusal, out, answer);
    return refusal;
}

/* The host's tick: whether there is a commit point to send, and the point. */
static inline bool sudolog_tick(const struct sudolog_session *session, struct sudolog_time *point)
{
    uint64_t at = sudolog_session_tick(session->bytes, sizeof session->bytes);
    if (at == UINT64_MAX)
        return false;
    *point = sudolog_time_of(at);
    return true;
}

/* ---- stored files: their records, and what two of them differ in ----
 *
 *   struct sudolog_records left = sudolog_records_of(area, sizeof area, used);
 *   struct sudolog_record record;
 *   while (sudolog_walk_records(&left, &record) == 1)
 *       print(sudolog_kind_name(record.kind), record.delay, area + record.data.offset, record.data.length);
 */

/* A stored record. */
struct sudolog_record {
    int kind;                  /* of a valid file one of enum sudolog_from_client: accept, exit, or 6 to 12 */
    struct sudolog_time delay; /* of an exit its run_time */
    struct sudolog_span data;  /* in the area */
};

/* What is left of a file's records. It points into the area, which must stay as it is. */
struct sudolog_records {
    const uint8_t *area;
    size_t area_n;
    size_t used;
    size_t at;
};

static inline struct sudolog_records sudolog_records_of(const uint8_t *area, size_t area_n, size_t used)
{
    struct sudolog_records left;
    left.area = sudolog_lend(area);
    left.area_n = sudolog_lent(area, area_n);
    left.used = used;
    left.at = 0;
    return left;
}

/* 1 and the next record in out; 0 at the file's end, 15 where no whole record is left, and out untouched. */
static inline int sudolog_walk_records(struct sudolog_records *left, struct sudolog_record *out)
{
    uint8_t numbers[40];
    int answer = sudolog_next_record(SUDOLOG_LEND(left->area, left->area_n), left->used, left->at, numbers, sizeof numbers);
    if (answer != 1)
        return answer;
    out->kind = (int)sudolog_big_endian(numbers);
    out->delay = sudolog_time_of(sudolog_big_endian(numbers + 8));
    out->data.offset = (size_t)sudolog_big_endian(numbers + 16);
    out->data.length = (size_t)sudolog_big_endian(numbers + 24);
    left->at = (size_t)sudolog_big_endian(numbers + 32);
    return 1;
}

/* A record's kind in words; of a number that is none, too. */
static inline const char *sudolog_kind_name(int kind)
{
    switch (kind) {
    case SUDOLOG_FROM_CLIENT_ACCEPT: return "accept";
    case SUDOLOG_FROM_CLIENT_EXIT: return "exit";
    case SUDOLOG_FROM_CLIENT_TTYIN: return "ttyin";
    case SUDOLOG_FROM_CLIENT_TTYOUT: return "ttyout";
    case SUDOLOG_FROM_CLIENT_STDIN: return "stdin";
    case SUDOLOG_FROM_CLIENT_STDOUT: return "stdout";
    case SUDOLOG_FROM_CLIENT_STDERR: return "stderr";
    case SUDOLOG_FROM_CLIENT_WINDOW_SIZE: return "window size";
    case SUDOLOG_FROM_CLIENT_SUSPEND: return "suspend";
    default: return "no kind of record";
    }
}

/* The stored data (data, n) of an exit, whose record has the run_time: true and out filled, its spans in the data; false
 * and out untouched where they are no exit's, which no valid file has. */
static inline bool sudolog_get_stored_exit(const uint8_t *data, size_t n, struct sudolog_time run_time, struct sudolog_exit *out)
{
    const uint8_t *d = sudolog_lend(data);
    size_t length = sudolog_lent(data, n);
    size_t signal_n = length >= 2 ? (size_t)(d[1] & 127) : 0;
    if (length < 2 + signal_n)
        return false;
    out->run_time = run_time;
    out->exit_value = d[0];
    out->dumped_core = d[1] >= 128;
    out->signal.offset = 2;
    out->signal.length = signal_n;
    out->error.offset = 2 + signal_n;
    out->error.length = length - 2 - signal_n;
    return true;
}

/* The same of a window size, whose record has the delay. */
static inline bool sudolog_get_stored_window_size(const uint8_t *data, size_t n, struct sudolog_time delay,
                                                  struct sudolog_window_size *out)
{
    const uint8_t *d = sudolog_lend(data);
    if (sudolog_lent(data, n) != 4)
        return false;
    out->delay = delay;
    out->rows = d[0] << 8 | d[1];
    out->cols = d[2] << 8 | d[3];
    return true;
}

/* What the records of one number differ in, in two files: the sum of 1, 2 and 4; or 8 or 16 alone; 0 where they are equal. */
enum sudolog_differs {
    SUDOLOG_DIFFERS_KIND = 1,
    SUDOLOG_DIFFERS_TIME = 2, /* the delay field */
    SUDOLOG_DIFFERS_DATA = 4,
    SUDOLOG_FIRST_ONLY = 8,
    SUDOLOG_SECOND_ONLY = 16
};

struct sudolog_difference {
    uint32_t flags;  /* of enum sudolog_differs */
    uint32_t offset; /* of SUDOLOG_DIFFERS_DATA: where the data part; otherwise 0 */
};

/* What sudolog_compare_files wrote of the records with number i, which is below an eighth of the bytes written. */
static inline struct sudolog_difference sudolog_difference_at(const uint8_t *out, size_t i)
{
    struct sudolog_difference difference;
    uint64_t entry = sudolog_big_endian(out + 8 * i);
    difference.flags = (uint32_t)(entry >> 32);
    difference.offset = (uint32_t)(entry & UINT32_MAX);
    return difference;
}

#endif
