/*
 * Plans a survey sheet: prints the boards to buy, and where and when each copy
 * of a stage runs. The sheet is in the file named on the command line, or else
 * on standard input.
 *
 *     gcc -std=c99 -O2 -I include -o target/plan-c examples/c/plan.c target/staticlib/librackplan.a
 *     target/plan-c examples/tray.sheet
 *
 * Exit status 1: the sheet is refused, and standard error says why and in which
 * line. 2: it can't be read, or the plan can't be written.
 */
#include "rackplan.h"

#include <inttypes.h>
#include <stdio.h>

static const char *const causes[] = {
    [RACKPLAN_SHORT_TABLE] = "a table is too short",
    [RACKPLAN_LONG_SHEET] = "the sheet has more than 65000 bytes",
    [RACKPLAN_BAD_FORM] = "the line is missing, one too many, or of another form",
    [RACKPLAN_OUT_OF_RANGE] = "a number is outside its range",
    [RACKPLAN_BAD_STAGE] = "the stage is not the next one, or there is no such stage",
    [RACKPLAN_REPEATED_EDGE] = "an earlier edge has the same two stages",
    [RACKPLAN_CIRCULAR] = "the edges contain a closed path",
    [RACKPLAN_SHORT_OUTPUT] = "the output is too short",
};

/* Some systems' stacks are too small for these. The sheet has room for one byte
   too many, so that a sheet that is too long is seen to be. */
static uint8_t sheet[RACKPLAN_SHEET_MAX + 1], out[RACKPLAN_PLAN_MAX];
static uint32_t durations[RACKPLAN_DURATIONS_LEN], ends[RACKPLAN_ENDS_LEN];
static uint32_t waits[RACKPLAN_WAITS_LEN], starts[RACKPLAN_STARTS_LEN];
static rackplan_copy copies[RACKPLAN_COPIES_LEN];

static void print_refusal(const char *name, uint32_t fault, uint32_t line)
{
    if (line != 0) {
        fprintf(stderr, "%s: line %" PRIu32 ": %s\n", name, line, causes[fault]);
    } else {
        fprintf(stderr, "%s: %s\n", name, causes[fault]);
    }
}

static void print_plan(const rackplan_plan_result *plan)
{
    printf("All is done after %" PRIu32 " microseconds. Boards to buy:\n", plan->finish);
    for (int kind = 0; kind < RACKPLAN_KINDS_MAX; kind++) {
        if (plan->boards[kind] != 0) {
            printf("    %" PRIu32 " of kind %d\n", plan->boards[kind], kind);
        }
    }
    printf("Copies, by their start:\n");
    for (uint32_t at = 0; at < plan->copies; at++) {
        const rackplan_copy c = copies[at];
        printf("    stage %" PRIu32 " on board %" PRIu32 " of kind %" PRIu32 ", from %" PRIu32
               " to %" PRIu32 "\n",
               c.stage, c.board, c.kind, c.start, c.start + durations[4 * c.stage + c.kind]);
    }
}

int main(int argc, char **argv)
{
    const char *name = argc > 1 ? argv[1] : "standard input";
    FILE *file = argc > 1 ? fopen(name, "rb") : stdin;
    if (file == NULL) {
        perror(name);
        return 2;
    }
    const size_t length = fread(sheet, 1, sizeof sheet, file);
    if (ferror(file)) {
        perror(name);
        return 2;
    }
    const rackplan_plan_result plan =
        rackplan_plan(sheet, length, durations, RACKPLAN_DURATIONS_LEN, ends, RACKPLAN_ENDS_LEN,
                      waits, RACKPLAN_WAITS_LEN, starts, RACKPLAN_STARTS_LEN, copies,
                      RACKPLAN_COPIES_LEN, out, sizeof out);
    if (plan.fault != RACKPLAN_OK) {
        print_refusal(name, plan.fault, plan.line);
        return 1;
    }
    print_plan(&plan);
    if (fflush(stdout) != 0 || ferror(stdout)) {
        perror("standard output");
        return 2;
    }
    return 0;
}
