/*
 * How much stack the calls touch, on a thread whose stack is marked. Prints it
 * for each call; returns 1 if it is more than rackplan.h says.
 */
#define _XOPEN_SOURCE 700

#include "rackplan.h"

#include <pthread.h>
#include <stdio.h>
#include <stdlib.h>
#include <string.h>

#define STACK_LEN 1048576
#define MARK 0xa5

/* What rackplan.h says, in bytes. */
#define READ_SAID 92000
#define PLAN_SAID 121000

/* It has edges, so that no table of the calls' own is left out. */
static const char sheet[] = "J,2,3,2\nG,0,0\nT,0,1,1\nT,1,2,9\nT,2,9,2\n"
                            "E,0,1,0,5,5,0\nE,0,2,0,5,5,0\n";

static uint32_t durations[RACKPLAN_DURATIONS_LEN], ends[RACKPLAN_ENDS_LEN];
static uint32_t waits[RACKPLAN_WAITS_LEN], starts[RACKPLAN_STARTS_LEN];
static rackplan_copy copies[RACKPLAN_COPIES_LEN];
static uint8_t out[RACKPLAN_PLAN_MAX];

/* Where the thread's stack was before the call, and what the call answered. */
static uintptr_t top;
static uint32_t fault;

static void *call_read(void *unused)
{
    char here;
    top = (uintptr_t)&here;
    fault = rackplan_read((const uint8_t *)sheet, strlen(sheet), durations, RACKPLAN_DURATIONS_LEN,
                          ends, RACKPLAN_ENDS_LEN, waits, RACKPLAN_WAITS_LEN)
                .fault;
    return unused;
}

static void *call_plan(void *unused)
{
    char here;
    top = (uintptr_t)&here;
    fault = rackplan_plan((const uint8_t *)sheet, strlen(sheet), durations, RACKPLAN_DURATIONS_LEN,
                          ends, RACKPLAN_ENDS_LEN, waits, RACKPLAN_WAITS_LEN, starts,
                          RACKPLAN_STARTS_LEN, copies, RACKPLAN_COPIES_LEN, out, sizeof out)
                .fault;
    return unused;
}

/* Runs the function on a marked stack and returns how much of it was touched. */
static size_t touched(void *(*call)(void *))
{
    pthread_attr_t attributes;
    pthread_t thread;
    void *memory = NULL;
    const uint8_t *lowest;
    size_t bytes;
    if (posix_memalign(&memory, 4096, STACK_LEN) != 0) {
        exit(2);
    }
    memset(memory, MARK, STACK_LEN);
    if (pthread_attr_init(&attributes) != 0 ||
        pthread_attr_setstack(&attributes, memory, STACK_LEN) != 0 ||
        pthread_create(&thread, &attributes, call, NULL) != 0 || pthread_join(thread, NULL) != 0) {
        exit(2);
    }
    pthread_attr_destroy(&attributes);
    lowest = (const uint8_t *)memory;
    while (*lowest == MARK) {
        lowest++;
    }
    bytes = (size_t)(top - (uintptr_t)lowest);
    free(memory);
    return bytes;
}

static int check(const char *name, void *(*call)(void *), size_t said)
{
    const size_t bytes = touched(call);
    const int good = fault == RACKPLAN_OK && bytes <= said;
    printf("%s %s touches %lu bytes of stack\n", good ? "ok" : "not ok", name,
           (unsigned long)bytes);
    return good;
}

int main(void)
{
    const int read_good = check("rackplan_read", call_read, READ_SAID);
    const int plan_good = check("rackplan_plan", call_plan, PLAN_SAID);
    return read_good && plan_good ? 0 : 1;
}
