/*
 * driver_files.c: the driver's requests about the records of files, over the areas of driver_sessions.c. What is written is
 * answered as of the request `write`.
 *
 *   compare A USED B USED ROOM   sudolog_compare_files: {"written":HEX} or {"refused":n}
 *   count A USED                 sudolog_count_records: {"records":n} or {"refused":n}
 *   next A USED AT ROOM          sudolog_next_record: {"written":HEX}, with no bytes at the file's end; or {"refused":n}
 *   escape ROOM HEX              sudolog_escape: {"written":HEX} or {"refused":n}
 */
#define _DEFAULT_SOURCE
#include "driver.h"
#include "sudolog.h"

#include <stdio.h>
#include <stdlib.h>
#include <string.h>

enum { RECORD_SIZE = 40 }; /* the five numbers of sudolog_next_record */

/* Any number that the next word is. */
static uint64_t next_of(char **words)
{
    const char *word = strsep(words, " ");
    if (word == NULL) {
        fprintf(stderr, "driver: a number is missing\n");
        exit(2);
    }
    return from_decimal(word);
}

#define SLICE(I) SUDOLOG_LEND(g->slice[I].m, g->slice[I].n)

static uint64_t compare(const struct given *g)
{
    return sudolog_compare_files(SLICE(0), g->number[0], SLICE(1), g->number[1], g->out, g->room);
}

/* As the writers answer: 1 has written the numbers, 0 nothing. */
static uint64_t next(const struct given *g)
{
    uint64_t answer = sudolog_next_record(SLICE(0), g->number[0], g->number[1], g->out, g->room);
    return answer == 1 ? RECORD_SIZE : answer << 32;
}

static uint64_t escape(const struct given *g)
{
    return sudolog_escape(SLICE(0), g->out, g->room);
}

static void answer_compare(char *words)
{
    struct given g;
    memset(&g, 0, sizeof g);
    g.slice[0] = area_named(&words);
    g.number[0] = next_of(&words);
    g.slice[1] = area_named(&words);
    g.number[1] = next_of(&words);
    g.room = (size_t)next_of(&words);
    answer_written(compare, &g);
}

static void answer_count(char *words)
{
    struct bytes area = area_named(&words);
    uint64_t counted = sudolog_count_records(SUDOLOG_LEND(area.m, area.n), (size_t)next_of(&words));
    if (sudolog_written_refusal(counted) == 0)
        printf("{\"records\":%zu}\n", sudolog_written_size(counted));
    else /* nothing may stand beside a refusal */
        printf("{\"refused\":%d%s}\n", sudolog_written_refusal(counted), sudolog_written_size(counted) != 0 ? ",\"stray\":true" : "");
}

static void answer_next(char *words)
{
    struct given g;
    memset(&g, 0, sizeof g);
    g.slice[0] = area_named(&words);
    g.number[0] = next_of(&words);
    g.number[1] = next_of(&words);
    g.room = (size_t)next_of(&words);
    answer_written(next, &g);
}

static void answer_escape(char *words)
{
    struct given g;
    memset(&g, 0, sizeof g);
    g.room = (size_t)next_of(&words);
    g.slice[0] = from_hex(words != NULL ? words : "");
    answer_written(escape, &g);
    free(g.slice[0].m);
}

static const struct {
    const char *ask;
    void (*answer)(char *words);
} requests[] = {
    { "compare", answer_compare }, { "count", answer_count }, { "next", answer_next }, { "escape", answer_escape },
};

bool answer_records(const char *ask, char *words)
{
    size_t i;
    for (i = 0; i < sizeof requests / sizeof requests[0]; i++)
        if (strcmp(ask, requests[i].ask) == 0) {
            requests[i].answer(words);
            return true;
        }
    return false;
}
