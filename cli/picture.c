/* picture SITE: the slot table as an SVG, a lane for each core. */
#include "picture.h"
#include "commands.h"
#include "files.h"
#include <inttypes.h>
#include <stdio.h>
#include <string.h>

/* In pixels. */
enum {
    LEFT = 84,   /* before tick 0 */
    RIGHT = 40,  /* after the span */
    TITLE = 56,  /* above the first axis */
    AXIS = 22,   /* an axis with its numbers */
    LANE = 34,   /* the row of a core */
    STRIP = 15,  /* the jobs of a task */
    GAP = 20,    /* between cores */
    LEGEND = 20, /* a line of the legend */
    NARROWEST = 4,
    WIDEST = 40,          /* a tick */
    WANTED = 1100,        /* the span, as far as a tick's width allows */
    BETWEEN_NUMBERS = 44, /* on the axis, at least */
    BETWEEN_LABELS = 600, /* of one run, at most */
    LEGEND_WIDTH = 800
};

/* Fill and text of each task. */
static const struct {
    const char *fill, *text;
} colours[TOWHEPAMU_MOST_TASKS] = {
    {"#4477aa", "#fff"}, {"#ee7733", "#000"}, {"#228833", "#fff"}, {"#cc3366", "#fff"},
    {"#66ccee", "#000"}, {"#ccbb44", "#000"}, {"#aa88dd", "#000"}, {"#885533", "#fff"},
    {"#aadd88", "#000"}, {"#222255", "#fff"}, {"#ffaabb", "#000"}, {"#008888", "#fff"},
};

static size_t tick_width(size_t span) {
    size_t width = WANTED / span;
    return width < NARROWEST ? NARROWEST : width > WIDEST ? WIDEST : width;
}

static size_t tasks_on(const planned_site *answer, size_t core) {
    size_t tasks = 0;
    for (size_t i = 0; i < answer->site.tasks; i++)
        tasks += core_of(answer, i) == core;
    return tasks;
}

static size_t lane_height(const planned_site *answer, size_t core) {
    return LANE + STRIP * tasks_on(answer, core) + GAP;
}

/* ---- Head and axis ---- */

/* A file's name as text of an SVG. */
static void print_escaped(const char *text) {
    for (; *text != 0; text++) {
        unsigned char byte = (unsigned char)*text;
        const char *name = byte == '&'   ? "&amp;"
                           : byte == '<' ? "&lt;"
                           : byte == '>' ? "&gt;"
                                         : NULL;
        if (name != NULL)
            fputs(name, stdout);
        else
            putchar(byte < ' ' || byte > '~' ? '?' : byte);
    }
}

static void print_head(const planned_site *answer, size_t width, size_t height) {
    printf("<svg xmlns=\"http://www.w3.org/2000/svg\" width=\"%zu\" height=\"%zu\" "
           "viewBox=\"0 0 %zu %zu\" font-family=\"sans-serif\" font-size=\"12\">\n",
           width, height, width, height);
    puts("<defs><pattern id=\"idle\" width=\"6\" height=\"6\" patternUnits=\"userSpaceOnUse\" "
         "patternTransform=\"rotate(45)\"><rect width=\"6\" height=\"6\" fill=\"#ececec\"/>"
         "<rect width=\"1.5\" height=\"6\" fill=\"#b4b4b4\"/></pattern></defs>");
    printf("<rect width=\"%zu\" height=\"%zu\" fill=\"#fff\"/>\n", width, height);
    printf("<text x=\"12\" y=\"22\" font-size=\"15\" font-weight=\"bold\">");
    print_escaped(file_words(answer->site.list.file));
    printf("</text>\n<text x=\"12\" y=\"42\">span %s, energy %s, penalty %s, cost %s</text>\n",
           amount_of(answer->site.span, "tick").text, grouped(answer->price.energy).text,
           grouped(answer->price.penalty).text, grouped(answer->price.cost).text);
}

/* The least of 1, 2, 5, 10, 20, 50 and so on ticks that leaves room for a number. */
static size_t axis_step(size_t tick) {
    size_t step = 1;
    for (size_t i = 0; step * tick < BETWEEN_NUMBERS; i++)
        step = i % 3 == 1 ? step / 2 * 5 : step * 2;
    return step;
}

/* Numbers at the top and lines down to `bottom`; the span's end has its number too. */
static void print_axis(size_t span, size_t tick, size_t top, size_t bottom) {
    size_t step = axis_step(tick);
    for (size_t t = 0; t <= span; t += step) {
        size_t x = LEFT + t * tick;
        printf("<line x1=\"%zu\" y1=\"%zu\" x2=\"%zu\" y2=\"%zu\" stroke=\"#ddd\"/>\n", x, top, x,
               bottom);
        if (t == 0 || (span - t) * tick >= BETWEEN_NUMBERS)
            printf("<text x=\"%zu\" y=\"%zu\" text-anchor=\"middle\" fill=\"#555\">%zu</text>\n", x,
                   top - 5, t);
    }
    size_t end = LEFT + span * tick;
    printf("<line x1=\"%zu\" y1=\"%zu\" x2=\"%zu\" y2=\"%zu\" stroke=\"#888\"/>\n", end, top, end,
           bottom);
    printf("<text x=\"%zu\" y=\"%zu\" text-anchor=\"middle\" fill=\"#555\">%zu</text>\n", end,
           top - 5, span);
    printf("<text x=\"12\" y=\"%zu\" fill=\"#555\">tick</text>\n", top - 5);
}

/* ---- Lanes ---- */

/* A longest run of equal slots, its task's number in it where there is room, in a long run again
   and again. */
static void print_run(size_t core, int task, size_t first, size_t ticks, size_t tick, size_t top) {
    size_t x = LEFT + first * tick, width = ticks * tick, wide = task < 10 ? 10 : 17;
    const char *fill = task == 0 ? "url(#idle)" : colours[task - 1].fill;
    printf("<rect class=\"run\" data-core=\"%zu\" data-task=\"%d\" data-first=\"%zu\" "
           "data-ticks=\"%zu\" "
           "x=\"%zu\" y=\"%zu\" width=\"%zu\" height=\"%d\" fill=\"%s\" stroke=\"%s\" "
           "stroke-width=\"%s\"><title>",
           core, task, first, ticks, x, top, width, LANE, fill, task == 0 ? "#bbb" : "#fff",
           width > 12 ? "1" : "0.5");
    printf("core %zu: ", core);
    if (task == 0)
        printf("idle");
    else
        printf("task %d", task);
    printf(", ticks %zu to %zu</title></rect>\n", first, first + ticks - 1);
    if (task == 0 || width < wide)
        return;
    size_t labels = width / BETWEEN_LABELS + 1;
    for (size_t i = 0; i < labels; i++)
        printf("<text x=\"%zu\" y=\"%zu\" text-anchor=\"middle\" fill=\"%s\" font-weight=\"bold\" "
               "pointer-events=\"none\">%d</text>\n",
               x + width * (2 * i + 1) / (2 * labels), top + LANE / 2 + 4, colours[task - 1].text,
               task);
}

/* The jobs of a task: a bar from release to due tick, a mark at the release, a bar at the due tick.
 */
static void print_jobs(const planned_site *answer, size_t task, size_t tick, size_t top) {
    size_t period = answer->site.task[task].period, wide = answer->site.task[task].deadline * tick;
    const char *fill = colours[task].fill;
    printf("<text x=\"%d\" y=\"%zu\" text-anchor=\"end\" font-size=\"11\">task %zu</text>\n",
           LEFT - 8, top + 12, task + 1);
    printf("<g class=\"jobs\" data-task=\"%zu\" fill=\"%s\">\n", task + 1, fill);
    for (size_t release = 0; release < answer->site.span; release += period) {
        size_t x = LEFT + release * tick, due = x + wide, mark = wide >= 16 ? 8 : wide / 2;
        printf(
            "<path d=\"M%zu %zuv11l%zu -5.5z\"/><path d=\"M%zu %zuh%zuv2h-%zuz\" opacity=\"0.55\"/>"
            "<path d=\"M%zu %zuh2v11h-2z\"/>\n",
            x, top + 3, mark, x, top + 8, due - x - 1, due - x - 1, due - 3, top + 3);
    }
    puts("</g>");
}

static void print_lane(const planned_site *answer, size_t core, size_t tick, size_t top) {
    const uint8_t *row = row_of(answer, core - 1);
    size_t span = answer->site.span;
    printf("<text x=\"%d\" y=\"%zu\" text-anchor=\"end\" font-weight=\"bold\">core %zu</text>\n",
           LEFT - 8, top + LANE / 2 + 4, core);
    for (size_t first = 0, next = 0; first < span; first = next) {
        while (next < span && row[next] == row[first])
            next++;
        print_run(core, row[first], first, next - first, tick, top);
    }
    top += LANE;
    for (size_t i = 0; i < answer->site.tasks; i++)
        if (core_of(answer, i) == core) {
            print_jobs(answer, i, tick, top);
            top += STRIP;
        }
}

/* ---- Legend ---- */

static size_t legend_lines(const planned_site *answer) {
    return 1 + (answer->site.idle_power > 0) + (answer->site.start_ticks > 0) + answer->site.tasks;
}

static void print_legend(const planned_site *answer, size_t top) {
    printf("<text x=\"12\" y=\"%zu\">Under a core the jobs of its tasks: each from the triangle at "
           "its "
           "release to the bar at its due tick. Hatched slots are idle.</text>\n",
           top + 14);
    if (answer->site.idle_power > 0) {
        top += LEGEND;
        printf("<text x=\"12\" y=\"%zu\">", top + 14);
        print_idle_line(answer);
        puts("</text>");
    }
    if (answer->site.start_ticks > 0) {
        top += LEGEND;
        printf("<text x=\"12\" y=\"%zu\">", top + 14);
        print_start_line(answer);
        puts("</text>");
    }
    for (size_t i = 0; i < answer->site.tasks; i++) {
        top += LEGEND;
        bool kept = answer->plan[i] != 0;
        printf("<rect x=\"12\" y=\"%zu\" width=\"26\" height=\"15\" fill=\"%s\" stroke=\"%s\"/>"
               "<text x=\"25\" y=\"%zu\" text-anchor=\"middle\" fill=\"%s\" "
               "font-weight=\"bold\">%zu</text>",
               top + 2, kept ? colours[i].fill : "#fff", kept ? "#fff" : "#999", top + 14,
               kept ? colours[i].text : "#000", i + 1);
        printf("<text x=\"46\" y=\"%zu\">", top + 14);
        print_task_line(answer, i);
        puts("</text>");
    }
}

static void print_svg(const planned_site *answer) {
    size_t span = answer->site.span, tick = tick_width(span), top = TITLE + AXIS;
    size_t lanes = 0, width = LEFT + span * tick + RIGHT;
    for (size_t c = 1; c <= answer->site.cores; c++)
        lanes += lane_height(answer, c);
    print_head(answer, width < LEGEND_WIDTH ? LEGEND_WIDTH : width,
               top + lanes + LEGEND * legend_lines(answer) + 12);
    print_axis(span, tick, top, top + lanes - GAP / 2);
    for (size_t c = 1; c <= answer->site.cores; c++) {
        print_lane(answer, c, tick, top + 4);
        top += lane_height(answer, c);
    }
    print_legend(answer, top);
    puts("</svg>");
}

int run_picture(const arguments *given) {
    static planned_site answer;
    towhepamu_checked why;
    if (!plan_site(given->file[0], &answer, &why))
        return REFUSED;
    if (given->text)
        print_text_picture(&answer);
    else
        print_svg(&answer);
    return WELL;
}
