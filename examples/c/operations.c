/* All six operations: prints the plan of a file, the kept list of each of its parts, of numbers set by
 * hand the bounds, the load and the supply, and the chart of a cycle.
 *
 *     operations [FILE]        without FILE from standard input
 *
 * Status: 0 planned, 1 refused, 2 usage or input, 3 output lost. */
#include <errno.h>
#include <inttypes.h>
#include <stdio.h>
#include <string.h>

#include "planner.h"

/* One byte more than a file may have, so that a longer one is refused and not cut. */
static uint8_t file[PLANNER_MOST_BYTES + 1];
static size_t length;

/* Whether all of the file was read; if not, errno says why. */
static int read_file(const char *path) {
    FILE *in = path == NULL ? stdin : fopen(path, "rb");
    int failed, reason;
    if (in == NULL)
        return 0;
    length = fread(file, 1, sizeof file, in);
    failed = ferror(in);
    reason = errno;
    if (path != NULL)
        fclose(in);
    errno = reason;
    return !failed;
}

static void print_refusal(FILE *out, uint64_t number, uint64_t place) {
    fprintf(out, "refused with %" PRIu64 " at %" PRIu64 ": %s\n", number, place, planner_refusal_text(number));
}

/* Whether the file is planned. */
static int print_plan(void) {
    uint8_t listing[PLANNER_ROOM];
    planner_plan_answer plan = planner_plan(file, length, listing, sizeof listing);
    if (plan.number != 0) {
        fprintf(stderr, "operations: ");
        print_refusal(stderr, plan.number, plan.place);
        return 0;
    }
    fwrite(listing, 1, plan.written, stdout);
    return 1;
}

/* Whether there is such a part. Of a file that cannot be read there is none. */
static int print_part(size_t part) {
    planner_name_answer name = planner_name(file, length, part);
    planner_candidates_answer kept;
    if (name.number != 0)
        return 0;
    printf("%.*s: ", (int)name.length, (const char *)file + name.start);
    kept = planner_candidates(file, length, part);
    if (kept.number != 0) {
        print_refusal(stdout, kept.number, kept.place);
        return 1;
    }
    for (size_t i = 0; i < kept.count; i++)
        printf("(%" PRIu64 ",%" PRIu64 ")", kept.pairs[i].budget, kept.pairs[i].holding);
    printf("\n");
    return 1;
}

static void print_weighing(const planner_row *rows, size_t count) {
    planner_weigh_answer weighed = planner_weigh_slice(rows, count);
    for (size_t i = 0; i < count; i++)
        printf("(%" PRIu64 ",%" PRIu64 ",%" PRIu64 ")", rows[i].period, rows[i].budget, rows[i].holding);
    printf(": ");
    if (weighed.number != 0) {
        print_refusal(stdout, weighed.number, weighed.place);
        return;
    }
    printf("bounds");
    for (size_t i = 0; i < count; i++)
        printf(" %" PRIu64 "/%" PRIu64, weighed.bounds[i].num, weighed.bounds[i].den);
    printf(", load %" PRIu64 "/%" PRIu64 " in row %" PRIu64 "\n", weighed.load.num, weighed.load.den, weighed.row);
}

static void print_supply(uint64_t period, uint64_t budget, uint64_t time) {
    planner_supply_answer supplied = planner_supply(period, budget, time);
    printf("(%" PRIu64 ",%" PRIu64 ") in %" PRIu64 ": ", period, budget, time);
    if (supplied.number != 0)
        print_refusal(stdout, supplied.number, supplied.place);
    else
        printf("%" PRIu64 "\n", supplied.ticks);
}

/* Which part has which tick of a cycle, 60 ticks a line; `.` where a tick is unassigned. */
static void print_chart(void) {
    uint8_t ticks[PLANNER_CYCLE];
    planner_plan_answer chart = planner_chart(file, length, ticks, sizeof ticks);
    if (chart.number != 0) {
        printf("chart: ");
        print_refusal(stdout, chart.number, chart.place);
        return;
    }
    printf("chart:");
    for (size_t tick = 0; tick < chart.written; tick++)
        printf("%s%c", tick % 60 == 0 ? "\n" : "", ".123456789abcdefg"[ticks[tick]]);
    printf("\n");
}

int main(int count, char **words) {
    const char *path = count > 1 ? words[1] : NULL;
    const planner_row rows[] = {{20, 3, 2}, {10, 3, 3}};
    const planner_row crowded[] = {{20, 9, 2}, {10, 3, 3}};
    int planned;
    if (count > 2) {
        fprintf(stderr, "usage: operations [FILE]\n");
        return 2;
    }
    if (!read_file(path)) {
        fprintf(stderr, "operations: %s: %s\n", path == NULL ? "standard input" : path, strerror(errno));
        return 2;
    }
    planned = print_plan();
    for (size_t part = 1; print_part(part); part++) {
    }
    print_weighing(rows, 2);
    print_weighing(crowded, 2);
    print_supply(20, 3, 60);
    print_supply(20, 3, PLANNER_MOST_NUMBER + 1);
    print_chart();
    if (fflush(stdout) != 0 || ferror(stdout)) {
        fprintf(stderr, "operations: cannot write to standard output\n");
        return 3;
    }
    return planned ? 0 : 1;
}
