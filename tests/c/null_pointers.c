/*
 * Null pointers with length 0, from C and C++: each buffer of both calls in
 * turn, and all at once. They are taken as empty: an empty sheet is fault 3, a
 * table or list without entries 1, an output without bytes 8. Prints a line for
 * each call; returns 1 on another answer.
 */
#include "expected.h"

#include <stdio.h>

#define READ_BUFFERS 4
#define PLAN_BUFFERS 7

static const char *const names[PLAN_BUFFERS] = {"sheet",  "durations", "ends",  "waits",
                                                "starts", "copies",    "output"};
/* of a call in which this one alone is null */
static const uint32_t faults[PLAN_BUFFERS] = {
    RACKPLAN_BAD_FORM,    RACKPLAN_SHORT_TABLE, RACKPLAN_SHORT_TABLE,  RACKPLAN_SHORT_TABLE,
    RACKPLAN_SHORT_TABLE, RACKPLAN_SHORT_TABLE, RACKPLAN_SHORT_OUTPUT,
};

static tables lent;
static uint32_t starts[RACKPLAN_STARTS_LEN];
static rackplan_copy copies[RACKPLAN_COPIES_LEN];
static uint8_t out[RACKPLAN_PLAN_MAX];
static int failures = 0;

static void report(const char *call, const char *name, uint32_t fault, uint32_t line,
                   uint32_t wanted)
{
    const int good = fault == wanted && line == (wanted == RACKPLAN_BAD_FORM ? 1u : 0u);
    printf("%s %s, null: %s\n", good ? "ok" : "not ok", call, name);
    failures += !good;
}

/* The pointer, or null where this buffer is to be null; its length likewise. */
#define POINTER(type, buffer, at) (nulls & 1u << (at) ? (type *)NULL : (buffer))
#define LENGTH(length, at) (nulls & 1u << (at) ? (size_t)0 : (size_t)(length))

static void check_read(const char *name, unsigned nulls, uint32_t wanted)
{
    const rackplan_read_result r = rackplan_read(
        POINTER(const uint8_t, (const uint8_t *)listing, 0), LENGTH(strlen(listing), 0),
        POINTER(uint32_t, lent.durations, 1), LENGTH(RACKPLAN_DURATIONS_LEN, 1),
        POINTER(uint32_t, lent.ends, 2), LENGTH(RACKPLAN_ENDS_LEN, 2),
        POINTER(uint32_t, lent.waits, 3), LENGTH(RACKPLAN_WAITS_LEN, 3));
    report("rackplan_read", name, r.fault, r.line, wanted);
}

static void check_plan(const char *name, unsigned nulls, uint32_t wanted)
{
    const rackplan_plan_result r = rackplan_plan(
        POINTER(const uint8_t, (const uint8_t *)listing, 0), LENGTH(strlen(listing), 0),
        POINTER(uint32_t, lent.durations, 1), LENGTH(RACKPLAN_DURATIONS_LEN, 1),
        POINTER(uint32_t, lent.ends, 2), LENGTH(RACKPLAN_ENDS_LEN, 2),
        POINTER(uint32_t, lent.waits, 3), LENGTH(RACKPLAN_WAITS_LEN, 3),
        POINTER(uint32_t, starts, 4), LENGTH(RACKPLAN_STARTS_LEN, 4),
        POINTER(rackplan_copy, copies, 5), LENGTH(RACKPLAN_COPIES_LEN, 5), POINTER(uint8_t, out, 6),
        LENGTH(RACKPLAN_PLAN_MAX, 6));
    report("rackplan_plan", name, r.fault, r.line, wanted);
}

int main(void)
{
    unsigned at;
    check_read("none", 0, RACKPLAN_OK);
    check_plan("none", 0, RACKPLAN_OK);
    for (at = 0; at < PLAN_BUFFERS; at++) {
        if (at < READ_BUFFERS) {
            check_read(names[at], 1u << at, faults[at]);
        }
        check_plan(names[at], 1u << at, faults[at]);
    }
    check_read("all", ~0u, RACKPLAN_SHORT_TABLE);
    check_plan("all", ~0u, RACKPLAN_SHORT_TABLE);
    return failures == 0 ? 0 : 1;
}
