#include "instances.h"
#include "generate.h"

static uint32_t between(generator *g, uint64_t least, uint64_t most) {
    return (uint32_t)draw_between(g, least, most);
}

static uint32_t clamp(uint64_t number, uint32_t most) {
    return number < 1 ? 1 : number > most ? most : (uint32_t)number;
}

/* ---- Levels ---- */

static void use_xscale(reference_instance *in) {
    static const reference_level xscale[] = {
        {150, 8}, {400, 17}, {600, 40}, {800, 90}, {1000, 160}};
    in->levels = 5;
    for (size_t l = 0; l < 5; l++)
        in->level[l] = xscale[l];
}

/*
 * Eight speeds in even steps up to 8,000, and the power that section 4 of document 000 gives for
 * ideal processors, 0.08 + 1.52 s^3, in units of 5 mW; those of XScale are in units of 10 mW.
 */
static void use_eight_levels(reference_instance *in, uint64_t lowest) {
    uint64_t top = 8000;
    in->levels = 8;
    for (size_t l = 0; l < 8; l++) {
        uint64_t speed = lowest + (top - lowest) * l / 7;
        in->level[l].speed = (uint32_t)speed;
        in->level[l].power = (uint32_t)(16 + 304 * speed * speed * speed / (top * top * top));
    }
}

static const reference_level *top_level(const reference_instance *in) {
    return &in->level[in->levels - 1];
}

/* ---- Tasks ---- */

/* A task that at top speed takes about `load` ticks of the span. */
static reference_task task_of_load(const reference_instance *in, uint32_t period, uint64_t load) {
    uint32_t ticks = clamp(load * period / in->span, period);
    return (reference_task){period, ticks * top_level(in)->speed, MUST, period};
}

static void draw_loads(generator *g, reference_instance *in, uint32_t least, uint32_t most) {
    for (size_t i = 0; i < in->tasks; i++) {
        uint32_t period = i == 0 ? in->span : in->span >> draw(g, 4);
        in->task[i] = task_of_load(in, period, draw_between(g, least, most));
        in->task[i].cycles -= (uint32_t)draw(g, top_level(in)->speed / 2);
    }
}

/* Penalties in percent of what a job costs at top speed. */
static void draw_penalties(generator *g, reference_instance *in, uint32_t least, uint32_t most) {
    for (size_t i = 0; i < in->tasks; i++) {
        uint32_t ticks = in->task[i].cycles / top_level(in)->speed + 1 + in->start_ticks;
        uint64_t energy = (uint64_t)ticks * top_level(in)->power;
        in->task[i].penalty = clamp(energy * draw_between(g, least, most) / 100, 1000000);
    }
}

/* ---- Families: each turns twelve open tasks on four cores in a span of 4,096 into a site ---- */

static void draw_span_filled(generator *g, reference_instance *in, uint32_t least, uint32_t most) {
    draw_loads(g, in, least, most);
    draw_penalties(g, in, 50, 300);
}

static void draw_light(generator *g, reference_instance *in, uint32_t least, uint32_t most) {
    draw_loads(g, in, least, most);
    draw_penalties(g, in, 300, 1000);
}

static void draw_sized(generator *g, reference_instance *in, uint32_t tasks, uint32_t unused) {
    (void)unused;
    in->tasks = tasks;
    draw_loads(g, in, 400, 1000);
    draw_penalties(g, in, 20, 200);
}

static void draw_equal(generator *g, reference_instance *in, uint32_t least, uint32_t most) {
    draw_loads(g, in, least, most);
    draw_penalties(g, in, 100, 100);
    for (size_t i = 1; i < in->tasks; i++)
        in->task[i] = in->task[0];
}

/* A fortieth to a fifth of the span each, so that both cores and levels are scarce. */
static void draw_hard_middle(generator *g, reference_instance *in, uint32_t musts,
                             uint32_t unused) {
    (void)unused;
    use_eight_levels(in, 8000 / between(g, 2, 8));
    draw_loads(g, in, in->span / 40, in->span / 5);
    if (musts == 0)
        draw_penalties(g, in, 300, 1000);
}

/* The same with start ticks, which every job takes besides. */
static void draw_started(generator *g, reference_instance *in, uint32_t least, uint32_t most) {
    in->start_ticks = between(g, least, most);
    draw_hard_middle(g, in, 0, 0);
}

/*
 * Loads of one more than a multiple of four, of which no four fit one core, and three of them add
 * up to 4,095 on each. With four ticks more the sum is that of four full cores, but any three loads
 * still add up to three more than a multiple of four, so that some core would have 4,099.
 */
static void draw_musts(generator *g, reference_instance *in, uint32_t more_ticks, uint32_t unused) {
    (void)unused;
    for (size_t core = 0; core < in->cores; core++) {
        uint32_t first = 4 * between(g, 257, 380) + 1;
        uint32_t second = 4 * between(g, 257, 380) + 1;
        in->task[core] = task_of_load(in, in->span, first);
        in->task[core + 4] = task_of_load(in, in->span, second);
        in->task[core + 8] = task_of_load(in, in->span, 4095 - first - second);
    }
    in->task[11].cycles += more_ticks * top_level(in)->speed;
}

/*
 * After section 4 of document 000: a task has 1 to 20 jobs; its share of the cycles, which add up
 * to all cores at top speed, is drawn; so is its share of the penalties, three times as much. The
 * lowest speed is 0.15 of the top one; energy weighs 0.2, penalties 0.8.
 */
enum mix { PROPORTIONAL, INVERSE, INDEPENDENT };

static void draw_mix(generator *g, reference_instance *in, uint32_t mix, uint32_t cores) {
    static const uint32_t jobs[] = {1, 2, 3, 4, 5, 6, 7, 8, 9, 10, 12, 14, 15, 18, 20};
    uint64_t work[MOST_TASKS], worth[MOST_TASKS], all_work = 0, all_worth = 0;
    if (in->levels == 8)
        use_eight_levels(in, 1200);
    in->cores = cores;
    in->span = 2520;
    in->energy_weight = in->levels == 8 ? 1 : 2;
    in->penalty_weight = 8;
    for (size_t i = 0; i < in->tasks; i++) {
        work[i] = draw_between(g, 1, 1000);
        worth[i] = mix == PROPORTIONAL ? draw_between(g, work[i] + 1, work[i] + 100)
                   : mix == INVERSE    ? draw_between(g, 1, 1000000 / work[i])
                                       : draw_between(g, 1, 1000);
        all_work += work[i];
        all_worth += worth[i];
    }
    for (size_t i = 0; i < in->tasks; i++) {
        uint32_t period = in->span / jobs[i == 0 ? 0 : draw(g, sizeof jobs / sizeof jobs[0])];
        uint64_t cycles = (uint64_t)cores * period * top_level(in)->speed;
        in->task[i].period = period;
        in->task[i].cycles = clamp(cycles * work[i] / all_work, 100000000);
        in->task[i].penalty = clamp(3 * cores * period * 100 * worth[i] / all_worth, 1000000);
        in->task[i].deadline = period;
    }
}

/*
 * Deadlines before the period's end, with 1 to 4 cores and spans of 360 to 4,096. A task has 1 to
 * 12 jobs; all of them together take two tenths to eight tenths of the cores at top speed. A
 * deadline is at least what a job takes there, and any; in the first quarter of what is then left
 * of the period; or what some plan's rows just meet.
 */
enum deadlines { ANY, SHORT, JUST_MET, JUST_MET_MUSTS };

static void draw_timed(generator *g, reference_instance *in, uint32_t deadlines, uint32_t unused) {
    static const uint32_t spans[] = {360, 720, 1440, 2520, 3600, 4096};
    (void)unused;
    in->cores = between(g, 1, 4);
    in->span = spans[draw(g, sizeof spans / sizeof spans[0])];
    use_eight_levels(in, 8000 / between(g, 2, 8));
    for (size_t i = 0; i < in->tasks; i++) {
        uint32_t jobs = i == 0 ? 1 : between(g, 1, 12);
        while (in->span % jobs != 0)
            jobs--;
        uint32_t share = in->cores * in->span / in->tasks;
        in->task[i] = task_of_load(in, in->span / jobs, between(g, share / 5, share * 4 / 5));
    }
    if (deadlines == JUST_MET || deadlines == JUST_MET_MUSTS)
        draw_just_met(g, in);
    for (size_t i = 0; i < in->tasks; i++) {
        uint32_t period = in->task[i].period;
        uint32_t ticks = (uint32_t)reference_ticks(in, i, in->levels - 1);
        if (deadlines == ANY || deadlines == SHORT)
            in->task[i].deadline =
                between(g, ticks, ticks + (period - ticks) / (deadlines == ANY ? 1 : 4));
    }
    if (deadlines != JUST_MET_MUSTS)
        draw_penalties(g, in, 50, 300);
}

static const struct {
    const char *name;
    void (*draw)(generator *, reference_instance *, uint32_t, uint32_t);
    uint32_t levels, first, second;
} family_list[FAMILIES] = {
    {"most sets fit one core", draw_span_filled, 8, 250, 400},
    {"some sets fit one core", draw_span_filled, 8, 500, 900},
    {"few sets fit one core", draw_span_filled, 8, 1000, 2000},
    {"2 tasks", draw_sized, 8, 2, 0},
    {"4 tasks", draw_sized, 8, 4, 0},
    {"8 tasks", draw_sized, 8, 8, 0},
    {"10 tasks", draw_sized, 8, 10, 0},
    {"12 tasks", draw_sized, 8, 12, 0},
    {"mix, proportional, 5 levels", draw_mix, 5, PROPORTIONAL, 4},
    {"mix, proportional, 8 levels", draw_mix, 8, PROPORTIONAL, 4},
    {"mix, inverse, 5 levels", draw_mix, 5, INVERSE, 4},
    {"mix, inverse, 8 levels", draw_mix, 8, INVERSE, 4},
    {"mix, independent, 5 levels", draw_mix, 5, INDEPENDENT, 4},
    {"mix, independent, 8 levels", draw_mix, 8, INDEPENDENT, 4},
    {"mix, independent, 5 levels, 2 cores", draw_mix, 5, INDEPENDENT, 2},
    {"musts that just fit, 5 levels", draw_musts, 5, 0, 0},
    {"musts that just fit, 8 levels", draw_musts, 8, 0, 0},
    {"musts that just do not, 5 levels", draw_musts, 5, 4, 0},
    {"musts that just do not, 8 levels", draw_musts, 8, 4, 0},
    {"light, 5 levels", draw_light, 5, 10, 48},
    {"light, 8 levels", draw_light, 8, 10, 60},
    {"twelve equal tasks, 5 levels", draw_equal, 5, 700, 1300},
    {"twelve equal tasks, 8 levels", draw_equal, 8, 700, 1300},
    {"hard middle", draw_hard_middle, 8, 0, 0},
    {"hard middle, musts", draw_hard_middle, 8, 1, 0},
    {"any deadlines", draw_timed, 8, ANY, 0},
    {"short deadlines", draw_timed, 8, SHORT, 0},
    {"deadlines just met", draw_timed, 8, JUST_MET, 0},
    {"deadlines just met, musts", draw_timed, 8, JUST_MET_MUSTS, 0},
    {"few start ticks", draw_started, 8, 1, 4},
    {"many start ticks", draw_started, 8, 16, 64},
};

const char *family_name(size_t family) {
    return family_list[family].name;
}

const char *idle_name(enum idle idle) {
    static const char *const names[IDLES] = {"none", "low", "high"};
    return names[idle];
}

static uint32_t idle_power(const reference_instance *in, enum idle idle) {
    return idle == NO_IDLE    ? 0
           : idle == LOW_IDLE ? in->level[0].power / 2
                              : 2 * top_level(in)->power;
}

size_t write_site(const reference_instance *in, uint8_t *text) {
    uint32_t words[MOST_INSTANCE_WORDS];
    uint32_t settings = in->start_ticks > 0 ? 5 : in->idle_power > 0 ? 4 : 3;
    written_as as = {settings, reference_has_early(in) ? EACH_DEADLINE : LIST_ENDS};
    generator unused = {1};
    return write_text(&unused, words, list_words(in, as, words), false, text);
}

size_t write_instance(size_t family, size_t number, enum idle idle, uint8_t *text) {
    generator g = {UINT64_C(0x9E3779B97F4A7C15) * (1 + 1000 * family + number)};
    reference_instance in = {1, 1, 4, 0, 0, 0, 12, 4096, {{0, 0}}, {{0, 0, 0, 0}}};
    if (family_list[family].levels == 5)
        use_xscale(&in);
    else
        use_eight_levels(&in, 2000);
    family_list[family].draw(&g, &in, family_list[family].first, family_list[family].second);
    in.idle_power = idle_power(&in, idle);
    return write_site(&in, text);
}
