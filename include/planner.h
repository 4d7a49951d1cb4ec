/* The planner's six operations, for C and C++ on x86-64 Linux: link
 * target/staticlib/libplanner_c.a, which `scripts/build library` writes.
 *
 * Any bytes, any numbers: an answer has number and place 0, or those of a refusal (README.md,
 * "Refusals"). With a refusal every other number is 0, and no byte of `out` is written.
 *
 * Pointers: never null, even where the length is 0; `file` and `out` do not overlap.
 * Threads: nothing is kept between calls. Calls may run at the same time in any threads, as long as
 * nobody writes to the bytes that a call reads, and nobody uses those that it writes.
 * Memory: the archive needs memcpy and memset of the C library and nothing else, so a call
 * allocates nothing, reads and writes no file, and waits for nothing. It needs stack: below.
 */
#ifndef PLANNER_H
#define PLANNER_H

#include <stddef.h>
#include <stdint.h>

/* MAJOR moves when a caller must change something, MINOR when something is new or a rule of the
 * answers has changed, PATCH when neither is so. */
#define PLANNER_VERSION_MAJOR 2
#define PLANNER_VERSION_MINOR 1
#define PLANNER_VERSION_PATCH 0
#define PLANNER_VERSION "2.1.0"

/* The greatest number of a file, and the greatest period, budget, holding time and time set by hand;
 * the most bytes of a file, pairs of a kept list, and rows of a weighing or parts of a file; bytes enough for any
 * listing; the ticks of a cycle, and so the bytes of a chart. */
enum { PLANNER_MOST_NUMBER = 1000000, PLANNER_MOST_BYTES = 32768, PLANNER_MOST_PAIRS = 16 };
enum { PLANNER_MOST_ROWS = 16, PLANNER_ROOM = 8192, PLANNER_CYCLE = 720 };

/* Bytes of stack that a call needs, its answer included. A program that binds memcpy and memset only
 * when they are first called (no -static, no -z now) needs some KB more in that call. */
enum {
    PLANNER_STACK_PLAN = 48 * 1024,
    PLANNER_STACK_CHART = 46 * 1024,
    PLANNER_STACK_CANDIDATES = 36 * 1024,
    PLANNER_STACK_NAME = 32 * 1024,
    PLANNER_STACK_WEIGH = 4 * 1024,
    PLANNER_STACK_SUPPLY = 1 * 1024
};

#ifdef __cplusplus
extern "C" {
#endif

/* The plan of a file: its listing is in the first `written` bytes of `out`, the others stay as they
 * were. PLANNER_ROOM bytes are enough. A lock that just one part of the file names is private: it
 * always has its lowest ceiling, the number of its highest user, and enters no holding time. */
typedef struct {
    uint64_t number, place;
    size_t written;
} planner_plan_answer;
planner_plan_answer planner_plan(const uint8_t *file, size_t length, uint8_t *out, size_t room);

/* The chart of the plan of a file whose periods all divide PLANNER_CYCLE: which part has which tick of
 * a cycle. All parts start together at tick 0, each is due its budget from the start of each of its
 * periods, and a tick goes to the highest part still due. Byte t of `out` is the number of the part
 * that has tick t, a value from 1 to 16 and no digit, or 0: then the tick is unassigned, and free for
 * overruns and switching. `written` is PLANNER_CYCLE, and the bytes behind these stay as they were.
 * Every part has exactly its budget in each of its periods, in this cycle and in each repetition.
 * Refusals as of a plan: 1 to 11; then 19 at the first part with a period that does not divide
 * PLANNER_CYCLE; then 14. */
planner_plan_answer planner_chart(const uint8_t *file, size_t length, uint8_t *out, size_t room);

/* The kept list of a part, counted from 1: budgets Q with holding times X, in falling X; a part has
 * no more of them than tasks. X is that of the part's shared locks, those that another part names
 * too; 0 without any. So the list depends on the part's own lines and on which of its locks the rest
 * of the file names. */
typedef struct {
    uint64_t budget, holding;
} planner_pair;
typedef struct {
    uint64_t number, place;
    planner_pair pairs[PLANNER_MOST_PAIRS];
    size_t count;
} planner_candidates_answer;
planner_candidates_answer planner_candidates(const uint8_t *file, size_t length, size_t part);

/* The name of a part, counted from 1: `length` bytes of the file from `start` on. */
typedef struct {
    uint64_t number, place;
    size_t start, length;
} planner_name_answer;
planner_name_answer planner_name(const uint8_t *file, size_t length, size_t part);

/* The bounds L/t of rows set by hand, lowest priority first, the load, and the first row that
 * reaches it, counted from 1. */
typedef struct {
    uint64_t period, budget, holding;
} planner_row;
typedef struct {
    planner_row rows[PLANNER_MOST_ROWS];
    size_t count;
} planner_rows;
typedef struct {
    uint64_t num, den;
} planner_fraction;
typedef struct {
    uint64_t number, place;
    planner_fraction bounds[PLANNER_MOST_ROWS];
    planner_fraction load;
    uint64_t row;
} planner_weigh_answer;
planner_weigh_answer planner_weigh(planner_rows rows);
/* The same of a list of any length. */
planner_weigh_answer planner_weigh_slice(const planner_row *rows, size_t count);

/* What a budget of `budget` in every `period` ticks supplies in `time` ticks: the fewest ticks that
   the part gets in so many in a row, wherever these start and wherever in each period its budget
   comes. */
typedef struct {
    uint64_t number, place, ticks;
} planner_supply_answer;
planner_supply_answer planner_supply(uint64_t period, uint64_t budget, uint64_t time);

/* What is wrong, by the number of a refusal; 0 is none. README.md says how to mend it. */
static inline const char *planner_refusal_text(uint64_t number) {
    switch (number) {
    case 0:
        return "no refusal";
    case 1:
        return "the file is longer than 32,768 bytes";
    case 2:
        return "the line does not end with byte 10, or has a byte that is neither a tab nor 33 to 126";
    case 3:
        return "the line is not a part, task, lock or end with 3, 5, 3 or 1 fields";
    case 4:
        return "the record is not allowed here, or the file ends without an end line";
    case 5:
        return "the name is not 1 to 8 characters from a-z and 0-9";
    case 6:
        return "the name is not new among the parts of the file, tasks of the part or locks of the task";
    case 7:
        return "a number is not 1 to 1,000,000 in digits without a leading zero";
    case 8:
        return "C <= D <= T does not hold, or the lock is held for longer than its task's C";
    case 9:
        return "there are more than 16 parts, 16 tasks in the part or 8 different lock names in the part";
    case 10:
        return "the part has no permitted setting of ceilings with a budget";
    case 11:
        return "no choice for all parts passes the system test";
    case 12:
        return "a part number, a count of rows or a number set by hand is out of range";
    case 13:
        return "the row has no time t within its period with L(t) <= t";
    case 14:
        return "the listing or the chart does not fit the lent bytes";
    case 19:
        return "the part's period does not divide 720, the ticks of a cycle";
    default:
        return "unknown refusal";
    }
}

#ifdef __cplusplus
}
#endif

#endif
