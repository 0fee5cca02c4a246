/*
 * What the programs here share: the listing (SPEC 11.1), tables of old content
 * and the entries that a sheet puts there, and results compared.
 */
#ifndef EXPECTED_H
#define EXPECTED_H

#include "rackplan.h"

#include <string.h>

/* Content that no sheet has. */
#define OLD 0xffffffffu

typedef struct {
    uint32_t durations[RACKPLAN_DURATIONS_LEN];
    uint32_t ends[RACKPLAN_ENDS_LEN];
    uint32_t waits[RACKPLAN_WAITS_LEN];
} tables;

static const char listing[] = "J,2,3,2\nG,0,0\nT,0,1,1\nT,1,2,9\nT,2,9,2\n"
                              "E,0,1,0,5,5,0\nE,0,2,0,5,5,0\n";
/* the listing with its first edge again, and other waits */
static const char repeated[] = "J,2,3,2\nG,0,0\nT,0,1,1\nT,1,2,9\nT,2,9,2\n"
                               "E,0,1,0,5,5,0\nE,0,1,7,0,0,8\n";

static inline void fill(uint32_t *entries, size_t length)
{
    size_t at;
    for (at = 0; at < length; at++) {
        entries[at] = OLD;
    }
}

static inline void clear_tables(tables *t)
{
    fill(t->durations, RACKPLAN_DURATIONS_LEN);
    fill(t->ends, RACKPLAN_ENDS_LEN);
    fill(t->waits, RACKPLAN_WAITS_LEN);
}

/* The entries of stage i; 0 for a kind that the sheet does not have. */
static inline void expect_stage(tables *t, size_t i, uint32_t d0, uint32_t d1, uint32_t d2,
                                uint32_t d3)
{
    const uint32_t row[4] = {d0, d1, d2, d3};
    size_t h;
    for (h = 0; h < 4; h++) {
        t->durations[4 * i + h] = row[h] == 0 ? OLD : row[h];
    }
}

/* The entries of edge e on two kinds. */
static inline void expect_edge(tables *t, size_t e, uint32_t i, uint32_t j, uint32_t w00,
                               uint32_t w01, uint32_t w10, uint32_t w11)
{
    t->ends[2 * e] = i;
    t->ends[2 * e + 1] = j;
    t->waits[16 * e] = w00;
    t->waits[16 * e + 1] = w01;
    t->waits[16 * e + 4] = w10;
    t->waits[16 * e + 5] = w11;
}

/* The stages of the listing, on two kinds, and its first edge. */
static inline void expect_listing_but_last(tables *t)
{
    expect_stage(t, 0, 1, 1, 0, 0);
    expect_stage(t, 1, 2, 9, 0, 0);
    expect_stage(t, 2, 9, 2, 0, 0);
    expect_edge(t, 0, 0, 1, 0, 5, 5, 0);
}

static inline void expect_listing(tables *t)
{
    expect_listing_but_last(t);
    expect_edge(t, 1, 0, 2, 0, 5, 5, 0);
}

static inline void expect_repeated(tables *t)
{
    expect_listing_but_last(t);
    expect_edge(t, 1, 0, 1, 7, 0, 0, 8);
}

static inline int same_plan(rackplan_plan_result a, rackplan_plan_result b)
{
    return a.fault == b.fault && a.line == b.line && a.finish == b.finish &&
           memcmp(a.boards, b.boards, sizeof a.boards) == 0 && a.copies == b.copies &&
           a.printed == b.printed;
}

#endif
