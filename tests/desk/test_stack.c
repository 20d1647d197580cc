/*
 * The stack that a call takes, measured: each call runs on a stack of its own that was filled with
 * one byte beforehand, and the lowest byte that changed says how far down it went. Fails where that
 * is more than the header promises.
 */
#define _DEFAULT_SOURCE
#include "drawn_calendars.h"
#include <pthread.h>
#include <stdio.h>
#include <stdlib.h>
#include <string.h>
#include <sys/mman.h>

enum { ROOM = 16 << 20, FILL = 0xA5, SITES = 12 };

static uint8_t text[TOWHEPAMU_MOST_TEXT_BYTES], plan[TOWHEPAMU_MOST_TASKS];
static uint8_t table[TOWHEPAMU_MOST_TABLE_BYTES], out[TOWHEPAMU_MOST_LISTING_BYTES];
static uint64_t energies[MOST_CORES];
static uint32_t sleeps[MOST_CORES];
static towhepamu_node node;
static uint8_t calendar[TOWHEPAMU_MOST_TEXT_BYTES];
static size_t text_len, tasks, slots, calendar_len;
static uint8_t *from; /* where the stack stood before the call */

static void *read_text(void *unused) {
    (void)unused;
    from = __builtin_frame_address(0);
    towhepamu_read(text, text_len);
    return NULL;
}

static void *plan_text(void *unused) {
    (void)unused;
    from = __builtin_frame_address(0);
    towhepamu_plan(text, text_len, plan, sizeof plan, table, sizeof table);
    return NULL;
}

static void *check_text(void *unused) {
    (void)unused;
    from = __builtin_frame_address(0);
    towhepamu_check(text, text_len, plan, tasks, table, slots);
    return NULL;
}

static void *check_slots(void *unused) {
    (void)unused;
    from = __builtin_frame_address(0);
    towhepamu_check_slots(text, text_len, plan, tasks, table, slots);
    return NULL;
}

static void *list_text(void *unused) {
    (void)unused;
    from = __builtin_frame_address(0);
    towhepamu_list(text, text_len, out, sizeof out);
    return NULL;
}

static void *sleep_text(void *unused) {
    (void)unused;
    from = __builtin_frame_address(0);
    towhepamu_sleep(text, text_len, plan, tasks, table, slots, 0, 0, energies, MOST_CORES, sleeps,
                    MOST_CORES);
    return NULL;
}

static void *dispatch_text(void *unused) {
    (void)unused;
    static towhepamu_state state;
    from = __builtin_frame_address(0);
    towhepamu_dispatch(text, text_len, plan, tasks, 1, &state, false);
    return NULL;
}

static void *prepare_text(void *unused) {
    (void)unused;
    from = __builtin_frame_address(0);
    towhepamu_prepare(text, text_len, plan, tasks, 1, &node);
    return NULL;
}

static void *tick_node(void *unused) {
    (void)unused;
    from = __builtin_frame_address(0);
    towhepamu_tick(&node, false);
    return NULL;
}

static void *ask_calendar(void *unused) {
    (void)unused;
    from = __builtin_frame_address(0);
    towhepamu_calendar(calendar, calendar_len, 2099, 12, 31, 1439);
    return NULL;
}

static size_t stack_of(void *(*call)(void *)) {
    pthread_attr_t attributes;
    pthread_t thread;
    uint8_t *room = mmap(NULL, ROOM, PROT_READ | PROT_WRITE, MAP_PRIVATE | MAP_ANONYMOUS, -1, 0);
    if (room == MAP_FAILED) {
        perror("stack");
        exit(2);
    }
    memset(room, FILL, ROOM);
    if (pthread_attr_init(&attributes) != 0 ||
        pthread_attr_setstack(&attributes, room, ROOM) != 0 ||
        pthread_create(&thread, &attributes, call, NULL) != 0 || pthread_join(thread, NULL) != 0) {
        fprintf(stderr, "stack: no thread\n");
        exit(2);
    }
    size_t lowest = 0;
    while (room[lowest] == FILL)
        lowest++;
    size_t taken = (size_t)(from - room) - lowest;
    pthread_attr_destroy(&attributes);
    munmap(room, ROOM);
    return taken;
}

static void keep_larger(size_t *kept, size_t other) {
    if (other > *kept)
        *kept = other;
}

int main(void) {
    static const struct {
        const char *name;
        void *(*call)(void *);
    } calls[] = {{"reading", read_text},         {"planning", plan_text},
                 {"checking", check_text},       {"checking slots", check_slots},
                 {"listing", list_text},         {"sleeping", sleep_text},
                 {"dispatching", dispatch_text}, {"preparing", prepare_text},
                 {"a tick", tick_node},          {"asking a calendar", ask_calendar}};
    enum { CALLS = sizeof calls / sizeof calls[0] };
    generator g = {20010911}, of_calendar = {20991231};
    uint32_t words[MOST_DRAWN_WORDS];
    reference_instance in;
    size_t taken[CALLS] = {0}, most = 0;
    size_t calendar_words = draw_calendar(&of_calendar, 150, words);
    calendar_len = write_text(&of_calendar, words, calendar_words, false, calendar);
    for (size_t n = 0; n < SITES; n++) {
        size_t count = draw_site(&g, (site_limits){4, 8, 12, 12, 4096}, words);
        reference_read(words, count, &in);
        text_len = write_text(&g, words, count, false, text);
        tasks = in.tasks;
        slots = in.cores * in.span;
        for (size_t c = 0; c < CALLS; c++)
            keep_larger(&taken[c], stack_of(calls[c].call));
    }
    printf("stack:");
    for (size_t c = 0; c < CALLS; c++) {
        printf(" %s takes %zu bytes,", calls[c].name, taken[c]);
        keep_larger(&most, taken[c]);
    }
    printf(" the header promises %d\n", TOWHEPAMU_STACK_BYTES);
    return most > TOWHEPAMU_STACK_BYTES;
}
