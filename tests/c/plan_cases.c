/*
 * `plan_cases FILE`: the calls of rackplan_plan that rust/checks' program
 * `cases` wrote to the file, held to the answers of the second implementation.
 *
 * Every buffer is allocated for its call, with just the length that the call is
 * told, and not filled: so memcheck sees an access outside it, and a use of old
 * content. Prints how many calls had each outcome; returns 1 on a difference.
 */
#include "expected.h"

#include <stdio.h>
#include <stdlib.h>
#include <string.h>

/* A call, with what it shall answer and the program shall print. */
typedef struct {
    size_t durations, ends, waits, starts, copies, out;
    rackplan_plan_result answer;
    size_t sheet_len, text_len;
} plan_case;

/* What is lent for a call. */
typedef struct {
    uint8_t *sheet;
    uint32_t *durations, *ends, *waits, *starts;
    rackplan_copy *copies;
    uint8_t *out;
} lent;

static void stop(const char *why)
{
    fprintf(stderr, "plan_cases: %s\n", why);
    exit(2);
}

static void *allocate(size_t bytes)
{
    void *memory = malloc(bytes);
    if (memory == NULL) {
        stop("no memory");
    }
    return memory;
}

/* The 17 numbers of a line; returns 0 at the end of the file. */
static int read_line(FILE *file, unsigned long n[17])
{
    size_t at;
    for (at = 0; at < 17; at++) {
        if (fscanf(file, "%lu", &n[at]) != 1) {
            if (at == 0 && feof(file)) {
                return 0;
            }
            stop("the file has another form");
        }
    }
    if (fgetc(file) != '\n') {
        stop("the file has another form");
    }
    return 1;
}

/* Returns 0 at the end of the file. */
static int read_numbers(FILE *file, plan_case *c)
{
    rackplan_plan_result *a = &c->answer;
    unsigned long n[17];
    size_t at;
    if (!read_line(file, n)) {
        return 0;
    }
    c->durations = n[0];
    c->ends = n[1];
    c->waits = n[2];
    c->starts = n[3];
    c->copies = n[4];
    c->out = n[5];
    a->fault = (uint32_t)n[6];
    a->line = (uint32_t)n[7];
    a->finish = (uint32_t)n[8];
    for (at = 0; at < 4; at++) {
        a->boards[at] = (uint32_t)n[9 + at];
    }
    a->copies = (uint32_t)n[13];
    a->printed = n[14];
    c->sheet_len = n[15];
    c->text_len = n[16];
    return 1;
}

/* Bytes of the file. */
static uint8_t *read_bytes(FILE *file, size_t length)
{
    uint8_t *bytes = (uint8_t *)allocate(length);
    if (fread(bytes, 1, length, file) != length) {
        stop("the file is too short");
    }
    return bytes;
}

/* The next number of a sheet, and the place behind it. */
static uint32_t next_number(const uint8_t **at)
{
    uint32_t number = 0;
    while (**at < '0' || **at > '9') {
        (*at)++;
    }
    while (**at >= '0' && **at <= '9') {
        number = 10 * number + (uint32_t)(**at - '0');
        (*at)++;
    }
    return number;
}

/* Whether the tables contain the sheet, whose lines are all good. */
static int holds_sheet(const uint8_t *sheet, const lent *l)
{
    const uint32_t kinds = next_number(&sheet), stages = next_number(&sheet);
    const uint32_t edges = next_number(&sheet);
    uint32_t i, e, h, k;
    int same = 1;
    for (h = 0; h < kinds; h++) {
        next_number(&sheet); /* a clearing time, which no table has */
    }
    for (i = 0; i < stages; i++) {
        same &= next_number(&sheet) == i;
        for (h = 0; h < kinds; h++) {
            same &= l->durations[4 * i + h] == next_number(&sheet);
        }
    }
    for (e = 0; e < edges; e++) {
        same &= l->ends[2 * e] == next_number(&sheet);
        same &= l->ends[2 * e + 1] == next_number(&sheet);
        for (h = 0; h < kinds; h++) {
            for (k = 0; k < kinds; k++) {
                same &= l->waits[16 * e + 4 * h + k] == next_number(&sheet);
            }
        }
    }
    return same;
}

/* Whether records, durations and starts are those of the printed plan. */
static int holds_plan(const uint8_t *text, size_t length, const lent *l)
{
    const uint8_t *end = text + length, *line = text;
    const rackplan_copy *copy = l->copies;
    int same = 1;
    for (;;) {
        char expected[64];
        size_t bytes, place;
        line = (const uint8_t *)memchr(line, '\n', (size_t)(end - line)) + 1;
        if (line == end) {
            return same;
        }
        place = 4 * copy->stage + copy->kind;
        sprintf(expected, "C,%lu,%lu,%lu,%lu,%lu\n", (unsigned long)copy->stage,
                (unsigned long)copy->kind, (unsigned long)copy->board, (unsigned long)copy->start,
                (unsigned long)copy->start + l->durations[place]);
        bytes = strlen(expected);
        same &= (size_t)(end - line) >= bytes && memcmp(line, expected, bytes) == 0;
        same &= l->starts[place] == copy->start;
        copy++;
    }
}

/* What is wrong with a call, or NULL. */
static const char *judge(const plan_case *c, rackplan_plan_result answer, const lent *l,
                         const uint8_t *text)
{
    const uint32_t fault = c->answer.fault;
    if (!same_plan(answer, c->answer)) {
        return "the answer";
    }
    if ((fault == RACKPLAN_OK || fault >= RACKPLAN_REPEATED_EDGE) && !holds_sheet(l->sheet, l)) {
        return "durations, ends or waits";
    }
    if ((fault == RACKPLAN_OK || fault == RACKPLAN_SHORT_OUTPUT) &&
        !holds_plan(text, c->text_len, l)) {
        return "starts or copies";
    }
    if (fault == RACKPLAN_OK &&
        (answer.printed != c->text_len || memcmp(l->out, text, c->text_len) != 0)) {
        return "the output";
    }
    return NULL;
}

static const char *run(const plan_case *c, uint8_t *sheet, const uint8_t *text)
{
    rackplan_plan_result answer;
    const char *wrong;
    lent l;
    l.sheet = sheet;
    l.durations = (uint32_t *)allocate(c->durations * sizeof(uint32_t));
    l.ends = (uint32_t *)allocate(c->ends * sizeof(uint32_t));
    l.waits = (uint32_t *)allocate(c->waits * sizeof(uint32_t));
    l.starts = (uint32_t *)allocate(c->starts * sizeof(uint32_t));
    l.copies = (rackplan_copy *)allocate(c->copies * sizeof(rackplan_copy));
    l.out = (uint8_t *)allocate(c->out);
    answer = rackplan_plan(l.sheet, c->sheet_len, l.durations, c->durations, l.ends, c->ends,
                           l.waits, c->waits, l.starts, c->starts, l.copies, c->copies, l.out,
                           c->out);
    wrong = judge(c, answer, &l, text);
    free(l.durations);
    free(l.ends);
    free(l.waits);
    free(l.starts);
    free(l.copies);
    free(l.out);
    return wrong;
}

int main(int argc, char **argv)
{
    unsigned long outcomes[9] = {0, 0, 0, 0, 0, 0, 0, 0, 0}, calls = 0, failures = 0;
    FILE *file = argc == 2 ? fopen(argv[1], "rb") : NULL;
    plan_case c;
    size_t outcome;
    if (file == NULL) {
        stop("usage: plan_cases FILE");
    }
    for (; read_numbers(file, &c); calls++) {
        uint8_t *sheet = read_bytes(file, c.sheet_len), *text = read_bytes(file, c.text_len);
        const char *wrong = run(&c, sheet, text);
        if (wrong != NULL) {
            printf("not ok call %lu: %s\n", calls, wrong);
            failures++;
        }
        outcomes[c.answer.fault]++;
        free(sheet);
        free(text);
    }
    fclose(file);
    for (outcome = 0; outcome < 9; outcome++) {
        printf("%lu calls with fault %lu\n", outcomes[outcome], (unsigned long)outcome);
        failures += outcomes[outcome] == 0;
    }
    return failures == 0 ? 0 : 1;
}
