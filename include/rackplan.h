/*
 * Rack planner, for C99 and C++: plans a survey sheet, or reads it into
 * tables.
 *
 * Link librackplan.a (x86-64 Linux). Its functions keep no state, allocate
 * nothing and call nothing of the system, so any number of threads may call
 * them at once, each with tables of its own. The archive links to memcpy and
 * memset of the C library, and to nothing else.
 *
 * A sheet is a text of lines, each ended by byte 10, of numbers with commas
 * between them; kinds, stages and edges count from 0, lines from 1, and times
 * are whole microseconds:
 *
 *   line    form        what it says
 *   1       J,K,N,M     K kinds of boards, 1 to 4; N stages, 1 to 256; M edges,
 *                       0 to 1024
 *   2       G,g..       the clearing time of each kind, 0 to 1000000
 *   i+3     T,i,d..     stage i, and its duration on each kind, 1 to 1000000
 *   N+e+3   E,i,j,w..   edge e: stage i comes before stage j, with K*K waits, 0
 *                       to 1000000, row by row: first those from kind 0 of i to
 *                       each kind of j
 *
 * When a copy has ended, its board clears for the clearing time of its kind
 * (removal time). From then on, at that very time too, it is free again for
 * another copy. Of a plan nothing but boards depends on clearing times.
 *
 * docs/SPEC.md of the repository has all of it.
 */
#ifndef RACKPLAN_H
#define RACKPLAN_H

#include <stddef.h>
#include <stdint.h>

#ifdef __cplusplus
extern "C" {
#endif

/* The version of this header and of the library that belongs to it. */
#define RACKPLAN_VERSION_MAJOR 0
#define RACKPLAN_VERSION_MINOR 2
#define RACKPLAN_VERSION_PATCH 0
#define RACKPLAN_VERSION "0.2.0"

/* More bytes than this are fault 2. */
#define RACKPLAN_SHEET_MAX 65000

/* The most that a sheet can have of each. */
#define RACKPLAN_KINDS_MAX 4
#define RACKPLAN_STAGES_MAX 256
#define RACKPLAN_EDGES_MAX 1024

/*
 * The tables: entries that a call needs in each. A longer table will do.
 *
 *   durations   stage i on kind h at 4*i + h
 *   ends        first and second stage of edge e at 2*e and 2*e + 1
 *   waits       of edge e, on the way from kind h, for its first stage, to
 *               kind k, for its second, at 16*e + 4*h + k
 *   starts      the earliest start of stage i on kind h, at 4*i + h
 *
 * The places do not depend on the sheet's number of kinds. Every entry that is
 * not of the sheet's own stages, kinds and edges keeps what it held. No table
 * has the clearing times: rackplan_plan takes them from the sheet.
 */
#define RACKPLAN_DURATIONS_LEN 1024
#define RACKPLAN_ENDS_LEN 2048
#define RACKPLAN_WAITS_LEN 16384
#define RACKPLAN_STARTS_LEN 1024

/* A copy of a stage. */
typedef struct {
    uint32_t stage;
    uint32_t kind;
    uint32_t board; /* counted from 0 per kind */
    uint32_t start; /* in microseconds; it ends at start + duration */
} rackplan_copy;

/*
 * The list of copies: records that rackplan_plan needs in it. A longer list
 * will do. Records from the number of copies on keep what they held.
 */
#define RACKPLAN_COPIES_LEN 1024

/* No printed plan has more bytes: this output is always long enough. */
#define RACKPLAN_PLAN_MAX 32796

/*
 * The faults. They are looked for in this order, 3 to 5 line by line: in each
 * line 3, then 4, then 5, and the first bad line ends it. rackplan_read looks
 * for 1 to 6 alone.
 *
 *   number  cause                                   line        changes
 *   1       a table or the list is shorter than     0           nothing
 *           above
 *   2       the sheet has more than 65000 bytes     0           nothing
 *   3       a line is missing, is one too many, or  that line   nothing
 *           has another form
 *   4       K, N, M, a clearing time, a duration    that line   nothing
 *           or a wait is too small or too large
 *   5       a T line's stage is not the next one,   that line   nothing
 *           or a stage of an E line is not below N
 *   6       an earlier edge has the same two        the first   durations,
 *           stages, in the same order               such line   ends, waits
 *   7       the edges contain a closed path, which  0           durations,
 *           may be one edge from a stage to itself              ends, waits
 *   8       the output has fewer bytes than the     0           all but the
 *           printed plan                                        output
 *
 * What is changed contains what success leaves there. Lines count from 1.
 */
#define RACKPLAN_OK 0u
#define RACKPLAN_SHORT_TABLE 1u
#define RACKPLAN_LONG_SHEET 2u
#define RACKPLAN_BAD_FORM 3u
#define RACKPLAN_OUT_OF_RANGE 4u
#define RACKPLAN_BAD_STAGE 5u
#define RACKPLAN_REPEATED_EDGE 6u
#define RACKPLAN_CIRCULAR 7u
#define RACKPLAN_SHORT_OUTPUT 8u

/*
 * What rackplan_read returns. On success fault and line are 0; with a fault
 * kinds, stages and edges are 0.
 */
typedef struct {
    uint32_t fault;  /* RACKPLAN_OK, or the number of the fault */
    uint32_t line;   /* where the fault is, 0 where it has no line */
    uint32_t kinds;  /* K */
    uint32_t stages; /* N */
    uint32_t edges;  /* M */
} rackplan_read_result;

/*
 * Reads a sheet into three tables. Its clearing times are judged and not kept.
 * Closed paths are not looked for.
 *
 * Everything is lent by the caller for the time of the call: the sheet is
 * only read, and no pointer is kept. Lengths count elements: bytes of the
 * sheet, entries of a table.
 *
 * The caller answers for this: every pointer is valid for its length and
 * aligned for its type; the tables overlap neither each other nor the sheet;
 * nothing else writes to the four during the call; about 92 KB of stack are
 * left. All else is checked: any bytes and any lengths may be given. A null
 * pointer with length 0 is taken as empty (that is tested, and not proved).
 */
rackplan_read_result rackplan_read(const uint8_t *sheet, size_t sheet_len,
                                   uint32_t *durations, size_t durations_len,
                                   uint32_t *ends, size_t ends_len,
                                   uint32_t *waits, size_t waits_len);

/*
 * What rackplan_plan returns. On success fault and line are 0; with a fault
 * all fields but these two are 0.
 */
typedef struct {
    uint32_t fault;     /* RACKPLAN_OK, or the number of the fault */
    uint32_t line;      /* where the fault is, 0 where it has no line */
    uint32_t finish;    /* when the last copy ends, in microseconds */
    uint32_t boards[4]; /* of each kind; 0 of those that there are not */
    uint32_t copies;    /* records in the list */
    size_t printed;     /* bytes in the output */
} rackplan_plan_result;

/*
 * Plans a sheet: reads it, computes start times, chooses copies, assigns them
 * to boards and prints the plan. Success leaves
 *
 *   in durations, ends, waits  the sheet, as rackplan_read does;
 *   in starts                  the start of each stage on each kind, also
 *                              where the stage has no copy on it;
 *   in copies                  the copies, by start, and those of one start
 *                              by kind, then by stage;
 *   in out                     the printed plan: a line P,finish,boards.. and
 *                              for each copy, in the same order, a line
 *                              C,stage,kind,board,start,end. No byte 0 ends
 *                              it; the bytes after it keep what they held.
 *
 * Everything is lent by the caller for the time of the call: the sheet is
 * only read, and no pointer is kept. Lengths count elements: bytes of the
 * sheet and the output, entries of a table, records of the list.
 *
 * The caller answers for this: every pointer is valid for its length and
 * aligned for its type; tables, list and output overlap neither each other nor
 * the sheet; nothing else writes to the seven during the call; about 121 KB of
 * stack are left. All else is checked: any bytes and any lengths may be given.
 * A null pointer with length 0 is taken as empty (tested, and not proved).
 */
rackplan_plan_result rackplan_plan(const uint8_t *sheet, size_t sheet_len,
                                   uint32_t *durations, size_t durations_len,
                                   uint32_t *ends, size_t ends_len,
                                   uint32_t *waits, size_t waits_len,
                                   uint32_t *starts, size_t starts_len,
                                   rackplan_copy *copies, size_t copies_len,
                                   uint8_t *out, size_t out_len);

#ifdef __cplusplus
}
#endif

#endif
