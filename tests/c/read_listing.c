/*
 * The call rackplan_read from C (and, as it is in both languages, from C++):
 * the listing (SPEC 11.1), and a sheet for each fault. Every entry of every
 * table is compared. Prints a line for each sheet; returns 1 on a difference.
 */
#include "expected.h"

#include <stdio.h>
#include <string.h>

/* Too large for the stack of some systems. */
static tables expected, actual;
static uint8_t long_sheet[RACKPLAN_SHEET_MAX + 1];
static int failures = 0;

/* with different waits, so that rows and columns cannot be confused */
static const char four_kinds[] =
    "J,4,2,1\nG,0,9,99,1000000\nT,0,1,2,3,4\nT,1,5,6,7,1000000\n"
    "E,1,0,100,101,102,103,110,111,112,113,120,121,122,123,130,131,132,1000000\n";

static int same_result(rackplan_read_result a, rackplan_read_result b)
{
    return a.fault == b.fault && a.line == b.line && a.kinds == b.kinds && a.stages == b.stages &&
           a.edges == b.edges;
}

static void print_result(const char *word, rackplan_read_result r)
{
    printf("    %s: fault %lu, line %lu, K %lu, N %lu, M %lu\n", word, (unsigned long)r.fault,
           (unsigned long)r.line, (unsigned long)r.kinds, (unsigned long)r.stages,
           (unsigned long)r.edges);
}

static void report(const char *name, rackplan_read_result result, rackplan_read_result wanted)
{
    int result_same = same_result(result, wanted);
    int tables_same = memcmp(&actual, &expected, sizeof(tables)) == 0;
    if (result_same && tables_same) {
        printf("ok %s\n", name);
        return;
    }
    failures++;
    printf("not ok %s\n", name);
    if (!result_same) {
        print_result("result", result);
        print_result("wanted", wanted);
    }
    if (!tables_same) {
        printf("    the tables differ\n");
    }
}

/* Reads a sheet; `expected` has what the tables shall contain, and is cleared. */
static void check(const char *name, const void *sheet, size_t length, rackplan_read_result wanted)
{
    rackplan_read_result result;
    clear_tables(&actual);
    result = rackplan_read((const uint8_t *)sheet, length, actual.durations, RACKPLAN_DURATIONS_LEN,
                           actual.ends, RACKPLAN_ENDS_LEN, actual.waits, RACKPLAN_WAITS_LEN);
    report(name, result, wanted);
    clear_tables(&expected);
}

static void check_text(const char *name, const char *sheet, uint32_t fault, uint32_t line)
{
    rackplan_read_result wanted = {0, 0, 0, 0, 0};
    wanted.fault = fault;
    wanted.line = line;
    check(name, sheet, strlen(sheet), wanted);
}

static void check_accepted(void)
{
    const rackplan_read_result listing_sizes = {RACKPLAN_OK, 0, 2, 3, 2};
    const rackplan_read_result four_kinds_sizes = {RACKPLAN_OK, 0, 4, 2, 1};
    uint32_t h, k;

    expect_listing(&expected);
    check("the listing", listing, strlen(listing), listing_sizes);

    expect_stage(&expected, 0, 1, 2, 3, 4);
    expect_stage(&expected, 1, 5, 6, 7, 1000000);
    expected.ends[0] = 1;
    expected.ends[1] = 0;
    for (h = 0; h < 4; h++) {
        for (k = 0; k < 4; k++) {
            expected.waits[4 * h + k] = 100 + 10 * h + k;
        }
    }
    expected.waits[15] = 1000000;
    check("four kinds", four_kinds, strlen(four_kinds), four_kinds_sizes);
}

/* Fault 1: each table in turn is an entry short. */
static void check_short_tables(void)
{
    const rackplan_read_result wanted = {RACKPLAN_SHORT_TABLE, 0, 0, 0, 0};
    size_t table;
    for (table = 0; table < 3; table++) {
        rackplan_read_result result;
        clear_tables(&actual);
        result = rackplan_read((const uint8_t *)listing, strlen(listing), actual.durations,
                               RACKPLAN_DURATIONS_LEN - (table == 0 ? 1u : 0u), actual.ends,
                               RACKPLAN_ENDS_LEN - (table == 1 ? 1u : 0u), actual.waits,
                               RACKPLAN_WAITS_LEN - (table == 2 ? 1u : 0u));
        report("fault 1: a short table", result, wanted);
    }
}

static void check_refused(void)
{
    const rackplan_read_result too_long = {RACKPLAN_LONG_SHEET, 0, 0, 0, 0};
    const rackplan_read_result bad_first_line = {RACKPLAN_BAD_FORM, 1, 0, 0, 0};
    memset(long_sheet, '\n', sizeof long_sheet);
    check("fault 2: 65001 bytes", long_sheet, sizeof long_sheet, too_long);
    check("fault 3: 65000 bytes", long_sheet, RACKPLAN_SHEET_MAX, bad_first_line);
    check_text("fault 3: an empty sheet", "", RACKPLAN_BAD_FORM, 1);
    check_text("fault 3: no byte 10 at the end", "J,1,1,0\nG,0\nT,0,5", RACKPLAN_BAD_FORM, 3);
    check_text("fault 3: an extra line", "J,1,1,0\nG,0\nT,0,5\nT,1,5\n", RACKPLAN_BAD_FORM, 4);
    check_text("fault 3: no clearing times", "J,1,1,0\nT,0,5\n", RACKPLAN_BAD_FORM, 2);
    check_text("fault 3: a clearing time too few", "J,2,1,0\nG,0\nT,0,5,5\n", RACKPLAN_BAD_FORM, 2);
    check_text("fault 4: five kinds", "J,5,1,0\nG,0\nT,0,5\n", RACKPLAN_OUT_OF_RANGE, 1);
    check_text("fault 4: a clearing time of 1000001", "J,1,1,0\nG,1000001\nT,0,5\n",
               RACKPLAN_OUT_OF_RANGE, 2);
    check_text("fault 4: a duration of 0", "J,1,1,0\nG,0\nT,0,0\n", RACKPLAN_OUT_OF_RANGE, 3);
    check_text("fault 5: a stage out of turn", "J,1,2,0\nG,0\nT,0,5\nT,2,5\n", RACKPLAN_BAD_STAGE,
               4);
    check_text("fault 5: an edge to no stage", "J,1,1,1\nG,0\nT,0,5\nE,0,1,0\n",
               RACKPLAN_BAD_STAGE, 4);

    /* the tables contain the sheet, the repeated edge too */
    expect_repeated(&expected);
    check_text("fault 6: an edge twice", repeated, RACKPLAN_REPEATED_EDGE, 7);
}

int main(void)
{
    clear_tables(&expected);
    check_accepted();
    check_short_tables();
    check_refused();
    return failures == 0 ? 0 : 1;
}
