/* Draws the chart of one cycle of a plan file as a picture, in SVG: for each part a row, the highest part
 * on top, with a bar for each run of its ticks and a thin line at each start of its period; below them the
 * unassigned ticks.
 *
 *     chart [FILE] >chart.svg        without FILE from standard input
 *
 * Status: 0 drawn, 1 refused, 2 usage or input, 3 output lost. */
#include <errno.h>
#include <inttypes.h>
#include <stdio.h>
#include <string.h>

#include "planner.h"

/* Lengths: the ticks of a strip; the width of a tick, of what stands before the first one and behind the
 * last; the heights of a row, of its bars, of the title and of a strip's axis. */
enum { STRIP = 240, TICK = 6, LEFT = 248, RIGHT = 24, ROW = 30, BAR = 18, TITLE = 96, AXIS = 52 };

/* A name has at most eight bytes. */
struct part {
    char name[9];
    unsigned period, budget;
};

/* One byte more than a file may have, so that a longer one is refused and not cut. */
static uint8_t file[PLANNER_MOST_BYTES + 1];
static uint8_t ticks[PLANNER_CYCLE];
static char listing[PLANNER_ROOM + 1];
static struct part parts[PLANNER_MOST_ROWS];
static unsigned count;

/* Eight colours that most people tell apart, also those who see some of them alike; a row has its place too, and its name. */
static const char *const colours[] = {"#0072b2", "#e69f00", "#009e73", "#cc79a7", "#56b4e9", "#d55e00", "#f0e442", "#999999"};
static const char *const letters[] = {"#fff", "#000", "#fff", "#000", "#000", "#fff", "#000", "#000"};
enum { COLOURS = sizeof colours / sizeof *colours };

/* Whether all of the file was read; if not, errno says why. */
static int read_file(const char *path, size_t *length) {
    FILE *in = path == NULL ? stdin : fopen(path, "rb");
    int failed, reason;
    if (in == NULL)
        return 0;
    *length = fread(file, 1, sizeof file, in);
    failed = ferror(in);
    reason = errno;
    if (path != NULL)
        fclose(in);
    errno = reason;
    return !failed;
}

/* Whether the file has a chart; if so, its listing tells the parts. */
static int read_plan(size_t length) {
    planner_plan_answer chart = planner_chart(file, length, ticks, sizeof ticks);
    if (chart.number == 0)
        chart = planner_plan(file, length, (uint8_t *)listing, PLANNER_ROOM);
    if (chart.number != 0) {
        fprintf(stderr, "chart: refused with %" PRIu64 " at %" PRIu64 ": %s\n", chart.number, chart.place,
                planner_refusal_text(chart.number));
        return 0;
    }
    for (const char *line = listing; count < PLANNER_MOST_ROWS && line[0] != 0; line = strchr(line, '\n') + 1)
        if (sscanf(line, "share %8s %u %u", parts[count].name, &parts[count].period, &parts[count].budget) == 3)
            count++;
    return 1;
}

/* How many ticks a part has, or nobody. */
static unsigned ticks_of(unsigned part) {
    unsigned sum = 0;
    for (unsigned tick = 0; tick < PLANNER_CYCLE; tick++)
        sum += ticks[tick] == part;
    return sum;
}

static unsigned strip_height(void) { return (count + 1) * ROW + AXIS; }

/* The title, the load, and below them what a bar and a line mean. */
static void draw_title(void) {
    char name[9] = "";
    unsigned demand = 0, time = 0;
    sscanf(listing, "load %8s %u %u", name, &demand, &time);
    printf("<text x=\"24\" y=\"40\" class=\"title\">Which part has which tick: one cycle of %d ticks</text>\n", PLANNER_CYCLE);
    printf("<text x=\"%d\" y=\"40\" class=\"load\">load %s %u %u</text>\n", LEFT + STRIP * TICK, name, demand, time);
    printf("<rect x=\"24\" y=\"56\" width=\"42\" height=\"%d\" class=\"bar\" fill=\"%s\"/>\n", BAR, colours[0]);
    printf("<text x=\"45\" y=\"69\" class=\"run\" fill=\"%s\">7</text>\n", letters[0]);
    printf("<text x=\"76\" y=\"70\">a part has these ticks (7: as many in a row)</text>\n");
    printf("<path d=\"M456 50v%d\" class=\"start\"/>\n", ROW);
    printf("<text x=\"468\" y=\"70\">its period starts, and its Q of P ticks are due</text>\n");
    printf("<rect x=\"872\" y=\"56\" width=\"42\" height=\"%d\" class=\"bar\" fill=\"url(#free)\"/>\n", BAR);
    printf("<text x=\"924\" y=\"70\">unassigned: free for overruns and switching</text>\n");
}

/* The ticks and their numbers, below the rows of a strip. */
static void draw_axis(unsigned first, unsigned top) {
    unsigned bottom = top + (count + 1) * ROW;
    for (unsigned tick = 0; tick <= STRIP; tick += 10) {
        unsigned x = LEFT + tick * TICK;
        printf("<path d=\"M%u %uv%u\" class=\"%s\"/>\n", x, top, (count + 1) * ROW + (tick % 20 == 0 ? 8 : 4), tick % 20 == 0 ? "grid" : "fine");
        if (tick % 20 == 0)
            printf("<text x=\"%u\" y=\"%u\" class=\"tick\">%u</text>\n", x, bottom + 22, first + tick);
    }
}

/* How many ticks in a row its part has around a tick, also beyond the ends of a strip. */
static unsigned run_around(unsigned tick) {
    unsigned from = tick, to = tick;
    while (from > 0 && ticks[from - 1] == ticks[tick])
        from--;
    while (to < PLANNER_CYCLE && ticks[to] == ticks[tick])
        to++;
    return to - from;
}

/* A row of a strip: its bars, and how many ticks in a row each is part of, where that can be read. */
static void draw_bars(unsigned part, unsigned first, unsigned y) {
    unsigned colour = (part - 1) % COLOURS;
    printf("<g id=\"part%u-%u\" fill=\"%s\">\n", part, first, part == 0 ? "url(#free)" : colours[colour]);
    for (unsigned from = first, to; from < first + STRIP; from = to) {
        for (to = from; to < first + STRIP && ticks[to] == ticks[from]; to++) {
        }
        if (ticks[from] != part)
            continue;
        unsigned x = LEFT + (from - first) * TICK, width = (to - from) * TICK;
        printf("<rect x=\"%u\" y=\"%u\" width=\"%u\" height=\"%d\" class=\"bar\"/>\n", x, y + (ROW - BAR) / 2, width, BAR);
        if (part != 0 && to - from > 2)
            printf("<text x=\"%u\" y=\"%u\" class=\"run\" fill=\"%s\">%u</text>\n", x + width / 2, y + ROW / 2 + 4, letters[colour], run_around(from));
    }
    printf("</g>\n");
}

/* A line at each start of a period. Where these are close together they stop above the bars. */
static void draw_starts(unsigned period, unsigned first, unsigned y) {
    unsigned height = period < 4 ? (ROW - BAR) / 2 : ROW;
    printf("<path d=\"");
    for (unsigned tick = (first + period - 1) / period * period; tick < first + STRIP; tick += period)
        printf("M%u %uv%u", LEFT + (tick - first) * TICK, y, height);
    printf("\" class=\"start\"/>\n");
}

static void draw_strip(unsigned first, unsigned top) {
    unsigned y = top;
    for (unsigned part = count; part > 0; part--, y += ROW)
        if ((count - part) % 2 == 0)
            printf("<rect x=\"12\" y=\"%u\" width=\"%d\" height=\"%d\" class=\"row\"/>\n", y, LEFT - 12 + STRIP * TICK, ROW);
    draw_axis(first, top);
    y = top;
    for (unsigned part = count; part > 0; part--, y += ROW) {
        const struct part *of = &parts[part - 1];
        printf("<text x=\"24\" y=\"%u\" class=\"name\">%s</text>\n", y + 20, of->name);
        printf("<text x=\"%d\" y=\"%u\" class=\"share\">%u of %u</text>\n", LEFT - 12, y + 20, of->budget, of->period);
        draw_bars(part, first, y);
        draw_starts(of->period, first, y);
    }
    printf("<text x=\"24\" y=\"%u\">unassigned</text>\n", y + 20);
    printf("<text x=\"%d\" y=\"%u\" class=\"share\">%u of %d</text>\n", LEFT - 12, y + 20, ticks_of(0), PLANNER_CYCLE);
    draw_bars(0, first, y);
}

static void draw(void) {
    unsigned width = LEFT + STRIP * TICK + RIGHT, height = TITLE + PLANNER_CYCLE / STRIP * strip_height();
    printf("<svg xmlns=\"http://www.w3.org/2000/svg\" viewBox=\"0 0 %u %u\" width=\"%u\" height=\"%u\" ", width, height, width, height);
    printf("font-family=\"sans-serif\" font-size=\"15\">\n");
    printf("<title>Which part has which tick of one cycle</title>\n");
    printf("<style>.title{font-size:24px;font-weight:bold}.load{font-size:20px;text-anchor:end}.name{font-weight:bold}.share{text-anchor:end}.tick{text-anchor:middle;font-size:13px}"
           ".run{text-anchor:middle;font-size:12px}.bar{stroke:#000;stroke-width:.8}.start{stroke:#000;stroke-width:1.6}"
           ".grid{stroke:#bbb}.fine{stroke:#e4e4e4}.row{fill:#f3f3f3}</style>\n");
    printf("<defs><pattern id=\"free\" width=\"6\" height=\"6\" patternUnits=\"userSpaceOnUse\">"
           "<path d=\"M0 6L6 0\" stroke=\"#777\"/></pattern></defs>\n");
    printf("<rect width=\"%u\" height=\"%u\" fill=\"#fff\"/>\n", width, height);
    draw_title();
    for (unsigned strip = 0; strip < PLANNER_CYCLE / STRIP; strip++)
        draw_strip(strip * STRIP, TITLE + strip * strip_height());
    printf("</svg>\n");
}

int main(int words, char **word) {
    const char *path = words > 1 ? word[1] : NULL;
    size_t length;
    if (words > 2) {
        fprintf(stderr, "usage: chart [FILE]\n");
        return 2;
    }
    if (!read_file(path, &length)) {
        fprintf(stderr, "chart: %s: %s\n", path == NULL ? "standard input" : path, strerror(errno));
        return 2;
    }
    if (!read_plan(length))
        return 1;
    draw();
    if (fflush(stdout) != 0 || ferror(stdout)) {
        fprintf(stderr, "chart: cannot write to standard output\n");
        return 3;
    }
    return 0;
}
