/* The stack that each operation takes, its answer included: called on a painted stack with every FILE
 * and with rows made up, it prints the most bytes of a call, by the name of the header's constant. */
#define _XOPEN_SOURCE 700
#include <stdio.h>
#include <stdlib.h>
#include <string.h>
#include <ucontext.h>

#include "planner.h"

enum { WORDS = 64 * 1024, MOST_PARTS = 16 };
static const uint64_t PAINT = 0x5aa5c33c96690ff0;
static uint64_t stack[WORDS];
static ucontext_t here, there;

/* What a call is handed, and the number that it gives back. */
static uint8_t file[PLANNER_MOST_BYTES + 1], listing[PLANNER_ROOM];
static size_t length, part;
static planner_rows rows;
static uint64_t period, budget, ticks;
static volatile uint64_t number;

static void plan(void) { number = planner_plan(file, length, listing, sizeof listing).number; }
static void chart(void) { number = planner_chart(file, length, listing, sizeof listing).number; }
static void candidates(void) { number = planner_candidates(file, length, part).number; }
static void name(void) { number = planner_name(file, length, part).number; }
static void weigh(void) { number = planner_weigh(rows).number; }
static void weigh_slice(void) { number = planner_weigh_slice(rows.rows, rows.count).number; }
static void supply(void) { number = planner_supply(period, budget, ticks).number; }

static void paint(size_t from) {
    for (size_t word = from; word < WORDS; word++)
        stack[word] = PAINT;
}

/* Calls it on the painted stack, and remembers the most bytes that were changed. */
static void measure(void (*call)(void), size_t *most) {
    size_t untouched = 0;
    if (getcontext(&there) != 0)
        exit(2);
    there.uc_stack.ss_sp = stack;
    there.uc_stack.ss_size = sizeof stack;
    there.uc_link = &here;
    makecontext(&there, call, 0);
    if (swapcontext(&here, &there) != 0)
        exit(2);
    while (untouched < WORDS && stack[untouched] == PAINT)
        untouched++;
    if (untouched < WORDS / 16) {
        fprintf(stderr, "the painted stack is too short\n");
        exit(2);
    }
    paint(untouched);
    if (*most < 8 * (WORDS - untouched))
        *most = 8 * (WORDS - untouched);
}

static void read_file(const char *path) {
    FILE *in = fopen(path, "rb");
    if (in == NULL) {
        perror(path);
        exit(2);
    }
    length = fread(file, 1, sizeof file, in);
    if (ferror(in)) {
        perror(path);
        exit(2);
    }
    fclose(in);
}

/* Numbers from 0 to `most`. */
static uint64_t made_up(uint64_t most) {
    static uint64_t state = 1;
    state = state * 6364136223846793005u + 1442695040888963407u;
    return (state >> 33) % (most + 1);
}

int main(int count, char **paths) {
    size_t by_plan = 0, by_chart = 0, by_candidates = 0, by_name = 0, by_weigh = 0, by_supply = 0;
    paint(0);
    for (int i = 1; i < count; i++) {
        read_file(paths[i]);
        measure(plan, &by_plan);
        measure(chart, &by_chart);
        for (part = 0; part <= MOST_PARTS + 1; part++) {
            measure(candidates, &by_candidates);
            measure(name, &by_name);
        }
    }
    for (int i = 0; i < 2000; i++) {
        uint64_t longest = i % 2 ? 40 : PLANNER_MOST_NUMBER;
        rows.count = made_up(PLANNER_MOST_ROWS);
        for (size_t row = 0; row < PLANNER_MOST_ROWS; row++) {
            period = 1 + made_up(longest);
            budget = made_up(period / PLANNER_MOST_ROWS + 1);
            rows.rows[row] = (planner_row){period, budget, made_up(budget)};
        }
        measure(weigh, &by_weigh);
        measure(weigh_slice, &by_weigh);
        ticks = made_up(longest);
        measure(supply, &by_supply);
    }
    printf("PLAN %zu\nCHART %zu\nCANDIDATES %zu\nNAME %zu\n", by_plan, by_chart, by_candidates, by_name);
    printf("WEIGH %zu\nSUPPLY %zu\n", by_weigh, by_supply);
    return fflush(stdout) != 0 || ferror(stdout);
}
