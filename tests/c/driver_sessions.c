/*
 * driver_sessions.c: the driver's requests about areas, sessions and files. Areas and sessions have numbers; they
 * stay from one request to the next.
 *
 *   area A SIZE HEX      the area A gets SIZE bytes: these, then zeros. {"size":n}
 *   bytes A FROM TO      the area's bytes from FROM up to TO. {"bytes":HEX}
 *   open S               sudolog_new_session. {"state":..}
 *   keep S HEX           the session's bytes are these, whatever they are. {"state":..}
 *   kept S               {"bytes":HEX}
 *   message S A USED HEX sudolog_session_message: {"taken":MEMBER,"point":..} or {"refused":n,"key":..}, with "used"
 *                        and "state"
 *   tick S               sudolog_tick: {"point":[seconds,nanoseconds]} or {"point":null}
 *   file A USED          sudolog_check_file: {"finished":..} or {"refused":15}
 */
#define _DEFAULT_SOURCE
#include "driver.h"
#include "sudolog.h"

#include <inttypes.h>
#include <stdio.h>
#include <stdlib.h>
#include <string.h>
#include <sys/mman.h>

enum { AREAS = 64, SESSIONS = 1024 };

static struct bytes areas[AREAS];
static struct {
    uint8_t bytes[64]; /* a session's slice may be lent with another length than its own */
    size_t n;
} sessions[SESSIONS];

static const char *const states[] = { "new", "greeted", "logging", "events", "closed" };

/* A number below a limit from the next word. */
static size_t next_number(char **words, size_t limit)
{
    const char *word = strsep(words, " ");
    uint64_t number = word != NULL ? from_decimal(word) : limit;
    if (number >= limit) {
        fprintf(stderr, "driver: bad number\n");
        exit(2);
    }
    return (size_t)number;
}

struct bytes area_named(char **words)
{
    return areas[next_number(words, AREAS)];
}

/* An area is mapped and touched only where it is used: some are a GiB and more. */
static void answer_area(char *words)
{
    struct bytes *area = &areas[next_number(&words, AREAS)];
    size_t size = next_number(&words, SIZE_MAX);
    struct bytes start = from_hex(words != NULL ? words : "");
    if (area->n != 0)
        munmap(area->m, area->n);
    area->m = NULL;
    area->n = size;
    if (size != 0) {
        area->m = mmap(NULL, size, PROT_READ | PROT_WRITE, MAP_PRIVATE | MAP_ANONYMOUS | MAP_NORESERVE, -1, 0);
        if (area->m == MAP_FAILED || start.n > size) {
            fprintf(stderr, "driver: no area of %zu bytes\n", size);
            exit(2);
        }
    }
    if (start.n != 0)
        memcpy(area->m, start.m, start.n);
    free(start.m);
    printf("{\"size\":%zu}\n", size);
}

static void put_hex(const uint8_t *m, size_t n)
{
    size_t i;
    printf("{\"bytes\":\"");
    for (i = 0; i < n; i++)
        printf("%02x", m[i]);
    printf("\"}\n");
}

static void answer_bytes(char *words)
{
    struct bytes area = area_named(&words);
    size_t from = next_number(&words, SIZE_MAX), to = next_number(&words, SIZE_MAX);
    if (to > area.n || from > to)
        exit(2);
    put_hex(area.m + from, to - from);
}

static void answer_open(char *words)
{
    size_t k = next_number(&words, SESSIONS);
    struct sudolog_session session = sudolog_new_session();
    memcpy(sessions[k].bytes, session.bytes, sizeof session.bytes);
    sessions[k].n = sizeof session.bytes;
    printf("{\"state\":\"new\"}\n");
}

static void answer_keep(char *words)
{
    size_t k = next_number(&words, SESSIONS);
    struct bytes given = from_hex(words != NULL ? words : "");
    if (given.n > sizeof sessions[k].bytes)
        exit(2);
    if (given.n != 0)
        memcpy(sessions[k].bytes, given.m, given.n);
    sessions[k].n = given.n;
    free(given.m);
    printf("{\"size\":%zu}\n", given.n);
}

static void put_point(bool given, struct sudolog_time point)
{
    if (given)
        printf("\"point\":[%" PRId64 ",%" PRId32 "]", point.seconds, point.nanoseconds);
    else
        printf("\"point\":null");
}

/* Through the library itself: the header's struct has 40 bytes, and the slice may have another length here. */
static struct sudolog_answer take(size_t k, struct bytes m, struct bytes area, size_t used)
{
    struct sudolog_answer answer;
    uint8_t out[40];
    int refusal = sudolog_session_message(sessions[k].bytes, sessions[k].n, SUDOLOG_LEND(m.m, m.n),
                                          SUDOLOG_LEND_ROOM(area.m, area.n), used, out, sizeof out);
    sudolog_get_answer(refusal, out, &answer);
    return answer;
}

static void answer_message_in(char *words)
{
    size_t k = next_number(&words, SESSIONS);
    struct bytes area = area_named(&words);
    size_t used = next_number(&words, SIZE_MAX);
    struct bytes m = from_hex(words != NULL ? words : "");
    struct sudolog_answer answer = take(k, m, area, used);
    if (answer.refusal == 0) {
        printf("{\"taken\":%" PRIu64 ",", sudolog_member(SUDOLOG_CLIENT_MESSAGE, SUDOLOG_LEND(m.m, m.n)));
        put_point(answer.has_point, answer.point);
    } else if (answer.refusal == 8) {
        printf("{\"refused\":8,\"key\":%d", answer.key);
    } else {
        printf("{\"refused\":%d,\"key\":null", answer.refusal);
    }
    /* nothing may be returned beside what the answer's kind has */
    if ((answer.refusal != 8 && answer.key != 0) || (answer.refusal != 0 && answer.has_point)
        || (!answer.has_point && (answer.point.seconds != 0 || answer.point.nanoseconds != 0)))
        printf(",\"stray\":true");
    printf(",\"used\":%zu,\"state\":\"%s\"}\n", answer.used, states[answer.state]);
    free(m.m);
}

static void answer_tick(char *words)
{
    size_t k = next_number(&words, SESSIONS);
    uint64_t at = sudolog_session_tick(sessions[k].bytes, sessions[k].n);
    printf("{");
    put_point(at != UINT64_MAX, sudolog_time_of(at));
    printf("}\n");
}

static void answer_file(char *words)
{
    struct bytes area = area_named(&words);
    size_t used = next_number(&words, SIZE_MAX);
    uint8_t is = sudolog_check_file(SUDOLOG_LEND(area.m, area.n), used);
    if (is == SUDOLOG_FILE_UNFINISHED || is == SUDOLOG_FILE_FINISHED)
        printf("{\"finished\":%s}\n", is == SUDOLOG_FILE_FINISHED ? "true" : "false");
    else
        printf("{\"refused\":%d}\n", is);
}

static void answer_kept(char *words)
{
    size_t k = next_number(&words, SESSIONS);
    put_hex(sessions[k].bytes, sessions[k].n);
}

static const struct {
    const char *ask;
    void (*answer)(char *words);
} requests[] = {
    { "area", answer_area }, { "bytes", answer_bytes },      { "open", answer_open }, { "keep", answer_keep },
    { "kept", answer_kept }, { "message", answer_message_in }, { "tick", answer_tick }, { "file", answer_file },
};

bool answer_session(const char *ask, char *words)
{
    size_t i;
    for (i = 0; i < sizeof requests / sizeof requests[0]; i++)
        if (strcmp(ask, requests[i].ask) == 0) {
            requests[i].answer(words);
            return true;
        }
    return false;
}
