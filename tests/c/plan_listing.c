/*
 * The call rackplan_plan from C (and, as it is in both languages, from C++):
 * the listing (SPEC 11.1) with outputs of several lengths, sheets with clearing
 * times (SPEC 11.12 to 11.14), and a sheet for each fault. Every entry, record
 * and byte of every buffer is compared. Prints a line for each call; returns 1
 * on a difference.
 */
#include "expected.h"

#include <stdio.h>
#include <string.h>

typedef struct {
    tables sheet;
    uint32_t starts[RACKPLAN_STARTS_LEN];
    rackplan_copy copies[RACKPLAN_COPIES_LEN];
    uint8_t out[RACKPLAN_PLAN_MAX];
} buffers;

/* Lengths that a call is told. */
typedef struct {
    size_t durations, ends, waits, starts, copies, out;
} lengths;

static const lengths exact = {RACKPLAN_DURATIONS_LEN, RACKPLAN_ENDS_LEN,   RACKPLAN_WAITS_LEN,
                              RACKPLAN_STARTS_LEN,    RACKPLAN_COPIES_LEN, RACKPLAN_PLAN_MAX};

static const char listing_plan[] = "P,3,1,1\nC,0,0,0,0,1\nC,0,1,0,0,1\nC,1,0,0,1,3\nC,2,1,0,1,3\n";
static const char circular[] = "J,1,1,1\nG,0\nT,0,5\nE,0,0,9\n";

/* Too large for the stack of some systems. */
static buffers expected, actual;
static uint8_t long_sheet[RACKPLAN_SHEET_MAX + 1];
static int failures = 0;

static void clear(buffers *b)
{
    memset(b, 0xff, sizeof *b);
}

static void expect_copy(size_t at, uint32_t stage, uint32_t kind, uint32_t board, uint32_t start)
{
    const rackplan_copy copy = {stage, kind, board, start};
    expected.copies[at] = copy;
    expected.starts[4 * stage + kind] = start;
}

/* All that success puts into tables and list. */
static void expect_listing_planned(void)
{
    expect_listing(&expected.sheet);
    expect_copy(0, 0, 0, 0, 0);
    expect_copy(1, 0, 1, 0, 0);
    expect_copy(2, 1, 0, 0, 1);
    expect_copy(3, 2, 1, 0, 1);
    /* where the stage has no copy */
    expected.starts[4 * 1 + 1] = 1;
    expected.starts[4 * 2 + 0] = 1;
}

static void print_result(const char *word, rackplan_plan_result r)
{
    printf("    %s: fault %lu, line %lu, finish %lu, boards %lu %lu %lu %lu, copies %lu, "
           "printed %lu\n",
           word, (unsigned long)r.fault, (unsigned long)r.line, (unsigned long)r.finish,
           (unsigned long)r.boards[0], (unsigned long)r.boards[1], (unsigned long)r.boards[2],
           (unsigned long)r.boards[3], (unsigned long)r.copies, (unsigned long)r.printed);
}

static void report(const char *name, rackplan_plan_result result, rackplan_plan_result wanted)
{
    int result_same = same_plan(result, wanted);
    int buffers_same = memcmp(&actual, &expected, sizeof(buffers)) == 0;
    if (result_same && buffers_same) {
        printf("ok %s\n", name);
        return;
    }
    failures++;
    printf("not ok %s\n", name);
    if (!result_same) {
        print_result("result", result);
        print_result("wanted", wanted);
    }
    if (!buffers_same) {
        printf("    the buffers differ\n");
    }
}

/* Plans a sheet; `expected` has what the buffers shall contain, and is cleared. */
static void check(const char *name, const void *sheet, size_t length, lengths l,
                  rackplan_plan_result wanted)
{
    rackplan_plan_result result;
    clear(&actual);
    result = rackplan_plan((const uint8_t *)sheet, length, actual.sheet.durations, l.durations,
                           actual.sheet.ends, l.ends, actual.sheet.waits, l.waits, actual.starts,
                           l.starts, actual.copies, l.copies, actual.out, l.out);
    report(name, result, wanted);
    clear(&expected);
}

static void check_fault(const char *name, const char *sheet, lengths l, uint32_t fault,
                        uint32_t line)
{
    rackplan_plan_result wanted = {0, 0, 0, {0, 0, 0, 0}, 0, 0};
    wanted.fault = fault;
    wanted.line = line;
    check(name, sheet, strlen(sheet), l, wanted);
}

/* Outputs of these lengths: as long as the plan, longer, as long as any. */
static void check_planned(void)
{
    const size_t printed = strlen(listing_plan);
    const rackplan_plan_result wanted = {RACKPLAN_OK, 0, 3, {1, 1, 0, 0}, 4, printed};
    const size_t outs[3] = {printed, printed + 1, RACKPLAN_PLAN_MAX};
    size_t at;
    for (at = 0; at < 3; at++) {
        lengths l = exact;
        l.out = outs[at];
        expect_listing_planned();
        memcpy(expected.out, listing_plan, printed);
        check("the listing", listing, strlen(listing), l, wanted);
    }
}

/* Stage 1 behind stage 0, each of which takes 5, on boards of one kind. */
static void check_cleared(const char *name, const char *sheet, uint32_t wait, uint32_t boards,
                          const char *plan)
{
    const uint32_t start = 5 + wait;
    rackplan_plan_result wanted = {RACKPLAN_OK, 0, 0, {0, 0, 0, 0}, 2, 0};
    wanted.finish = start + 5;
    wanted.boards[0] = boards;
    wanted.printed = strlen(plan);
    expect_stage(&expected.sheet, 0, 5, 0, 0, 0);
    expect_stage(&expected.sheet, 1, 5, 0, 0, 0);
    expected.sheet.ends[0] = 0;
    expected.sheet.ends[1] = 1;
    expected.sheet.waits[0] = wait;
    expect_copy(0, 0, 0, 0, 0);
    expect_copy(1, 1, 0, boards - 1, start);
    memcpy(expected.out, plan, strlen(plan));
    check(name, sheet, strlen(sheet), exact, wanted);
}

static void check_clearing(void)
{
    check_cleared("a board that has not cleared", "J,1,2,1\nG,1\nT,0,5\nT,1,5\nE,0,1,0\n", 0, 2,
                  "P,10,2\nC,0,0,0,0,5\nC,1,0,1,5,10\n");
    check_cleared("a board that has just cleared", "J,1,2,1\nG,1\nT,0,5\nT,1,5\nE,0,1,1\n", 1, 1,
                  "P,11,1\nC,0,0,0,0,5\nC,1,0,0,6,11\n");
}

/* Two stages on each kind, the second when the first ends: kind 0 clears for 1,
   kind 1 in no time. */
static void check_clearing_by_kind(void)
{
    static const char sheet[] = "J,2,4,2\nG,1,0\nT,0,1,9\nT,1,1,9\nT,2,9,1\nT,3,9,1\n"
                                "E,0,1,0,9,9,0\nE,2,3,0,9,9,0\n";
    static const char plan[] = "P,2,2,1\nC,0,0,0,0,1\nC,2,1,0,0,1\nC,1,0,1,1,2\nC,3,1,0,1,2\n";
    const rackplan_plan_result wanted = {RACKPLAN_OK, 0, 2, {2, 1, 0, 0}, 4, strlen(plan)};
    expect_stage(&expected.sheet, 0, 1, 9, 0, 0);
    expect_stage(&expected.sheet, 1, 1, 9, 0, 0);
    expect_stage(&expected.sheet, 2, 9, 1, 0, 0);
    expect_stage(&expected.sheet, 3, 9, 1, 0, 0);
    expect_edge(&expected.sheet, 0, 0, 1, 0, 9, 9, 0);
    expect_edge(&expected.sheet, 1, 2, 3, 0, 9, 9, 0);
    expect_copy(0, 0, 0, 0, 0);
    expect_copy(1, 2, 1, 0, 0);
    expect_copy(2, 1, 0, 1, 1);
    expect_copy(3, 3, 1, 0, 1);
    /* where the stage has no copy */
    expected.starts[4 * 0 + 1] = 0;
    expected.starts[4 * 1 + 1] = 9;
    expected.starts[4 * 2 + 0] = 0;
    expected.starts[4 * 3 + 0] = 9;
    memcpy(expected.out, plan, strlen(plan));
    check("each kind has its own clearing time", sheet, strlen(sheet), exact, wanted);
}

/* Fault 8: all but the output is as after success. */
static void check_short_output(void)
{
    const size_t printed = strlen(listing_plan);
    const size_t outs[3] = {printed - 1, 1, 0};
    size_t at;
    for (at = 0; at < 3; at++) {
        lengths l = exact;
        l.out = outs[at];
        expect_listing_planned();
        check_fault("fault 8: a short output", listing, l, RACKPLAN_SHORT_OUTPUT, 0);
    }
}

/* Fault 1: each table, and the list, in turn is one short. */
static void check_short_tables(void)
{
    size_t table;
    for (table = 0; table < 5; table++) {
        lengths l = exact;
        l.durations -= table == 0;
        l.ends -= table == 1;
        l.waits -= table == 2;
        l.starts -= table == 3;
        l.copies -= table == 4;
        check_fault("fault 1: a short table", listing, l, RACKPLAN_SHORT_TABLE, 0);
    }
}

static void check_refused(void)
{
    const rackplan_plan_result too_long = {RACKPLAN_LONG_SHEET, 0, 0, {0, 0, 0, 0}, 0, 0};
    memset(long_sheet, '\n', sizeof long_sheet);
    check("fault 2: 65001 bytes", long_sheet, sizeof long_sheet, exact, too_long);
    check_fault("fault 3: an empty sheet", "", exact, RACKPLAN_BAD_FORM, 1);
    check_fault("fault 3: no byte 10 at the end", "J,1,1,0\nG,0\nT,0,5", exact, RACKPLAN_BAD_FORM,
                3);
    check_fault("fault 3: no clearing times", "J,1,1,0\nT,0,5\n", exact, RACKPLAN_BAD_FORM, 2);
    check_fault("fault 4: a clearing time of 1000001", "J,1,1,0\nG,1000001\nT,0,5\n", exact,
                RACKPLAN_OUT_OF_RANGE, 2);
    check_fault("fault 4: a duration of 0", "J,1,1,0\nG,0\nT,0,0\n", exact, RACKPLAN_OUT_OF_RANGE,
                3);
    check_fault("fault 5: a stage out of turn", "J,1,2,0\nG,0\nT,0,5\nT,2,5\n", exact,
                RACKPLAN_BAD_STAGE, 4);

    /* the first three tables contain the sheet, nothing else is changed */
    expect_repeated(&expected.sheet);
    check_fault("fault 6: an edge twice", repeated, exact, RACKPLAN_REPEATED_EDGE, 7);
    expected.sheet.durations[0] = 5;
    expected.sheet.ends[0] = 0;
    expected.sheet.ends[1] = 0;
    expected.sheet.waits[0] = 9;
    check_fault("fault 7: an edge from a stage to itself", circular, exact, RACKPLAN_CIRCULAR, 0);
}

int main(void)
{
    clear(&expected);
    check_planned();
    check_clearing();
    check_clearing_by_kind();
    check_short_output();
    check_short_tables();
    check_refused();
    return failures == 0 ? 0 : 1;
}
