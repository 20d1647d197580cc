/*
 * Towhepamu: plans and slot tables for a node with clock levels, for a program in C.
 *
 * A site file says which cores and clock levels a node has and which tasks wait for them. Reading
 * tells whether a text is one. Planning decides which task runs on which core at which level and
 * which is refused, at the least cost, and draws the slot table of every core. Checking tells
 * whether a given plan and table serve every job, and checking slots whether the table's slots name
 * the right tasks. Reckoning sleeps tells what the gaps of a table are worth where a core may be
 * switched off in them. Dispatching tells, tick by tick and without a table, which task a core of a
 * given plan runs; a core can be prepared for it once. Listing writes the best plan and its table
 * as lines of text. And a store's calendar tells which plan is in force by date and minute.
 *
 * A site file is text, numbers in base ten parted by spaces and line feeds:
 *   3, 4 or 5, energy weight 1 to 1,000, penalty weight 1 to 1,000, cores 1 to 4; after a 4 or 5
 *   also idle power 0 to 65,535, and after a 5 start ticks 0 to 1,000; what is not given is 0;
 *   how many levels, 1 to 8; for each its speed and its power, 1 to 65,535, both rising strictly;
 *   how many tasks, 0 to 12; for each its period in ticks, 1 to 4,096, its cycles a job, 1 to
 *   100,000,000, and its penalty a job, 1 to 1,000,000, or 4,294,967,295 if it may not be refused;
 *   how many deadlines, 0 or as many as there are tasks; each in ticks, 1 to its task's period. The
 *   numbers may end before this count; then, and with a count of 0, each deadline is the period.
 *
 * A job takes its cycles divided by the speed of its level, rounded up, and the start ticks, in
 * which it sets the clock.
 *
 * The span is the least common multiple of the periods, 1 with no task. Job j of a task, from 0, is
 * released at tick j x period and due at tick j x period + deadline. A core fits where its jobs can
 * all have their ticks in time: where by no tick of the span more of their ticks are due than that
 * tick says.
 *
 * In the span a kept task draws jobs x ticks x power of its level. A core that keeps a task draws
 * idle power in each tick of the span that the jobs x ticks of its tasks leave; a core that keeps
 * none is off and draws nothing.
 *
 * A calendar is text of the same kind:
 *   how many entries, 0 to 200; for each its year, 2000 to 2099, month, 1 to 12, and day, 1 to 31,
 *   its opening and its closing minute, 0 to 1,440, the opening one below the closing one, and its
 *   plan number, 1 to 255. Dates are Gregorian; each is later than that of the entry before. It
 *   knows no site: what a plan number stands for, and which clock minutes are read from, is the
 *   caller's.
 *
 * Link with libtowhepamu.a. A call keeps nothing and prints nothing; several threads may call at
 * once as long as they share no result buffer, state or node.
 */
#ifndef TOWHEPAMU_H
#define TOWHEPAMU_H

#include <stdbool.h>
#include <stddef.h>
#include <stdint.h>

#ifdef __cplusplus
extern "C" {
#endif

/* The version of the header and the archive. */
#define TOWHEPAMU_VERSION "1.6.0"
#define TOWHEPAMU_VERSION_MAJOR 1
#define TOWHEPAMU_VERSION_MINOR 6
#define TOWHEPAMU_VERSION_PATCH 0

/* The longest site file or calendar that is read, in bytes. */
#define TOWHEPAMU_MOST_TEXT_BYTES 4096

/* The most tasks of a site: a plan buffer of this length is never too short. */
#define TOWHEPAMU_MOST_TASKS 12

/* The most cores and clock levels of a site, and its longest span, in ticks. */
#define TOWHEPAMU_MOST_CORES 4
#define TOWHEPAMU_MOST_LEVELS 8
#define TOWHEPAMU_MOST_SPAN 4096

/* Four cores of 4,096 slots: a table buffer of this length is never too short. */
#define TOWHEPAMU_MOST_TABLE_BYTES (4 * 4096)

/* The most energy that switching a core off and on again may take, and the most ticks. */
#define TOWHEPAMU_MOST_SWITCHING_ENERGY 1000000
#define TOWHEPAMU_MOST_SWITCHING_TIME 4096

/* The most entries of a calendar, the years that its dates may have, and the minutes of a day. */
#define TOWHEPAMU_MOST_ENTRIES 200
#define TOWHEPAMU_FIRST_YEAR 2000
#define TOWHEPAMU_LAST_YEAR 2099
#define TOWHEPAMU_DAY_MINUTES 1440

/* No site has a longer listing, in bytes: a listing's buffer must have this length. */
#define TOWHEPAMU_MOST_LISTING_BYTES 51200

/* The stack that a call must find free, in bytes. Measured: reading 12,792, planning 1,066,616,
   checking 12,344, checking slots 12,008, listing 1,083,624, sleeping 12,392, dispatching 13,768,
   preparing 13,160, a tick 3,048, asking a calendar 10,616 (tests/desk/test_stack.c, which fails
   where a call takes more than is promised). */
#define TOWHEPAMU_STACK_BYTES (1536 * 1024)

/* Why a call was refused, and what `place` then says. */
enum towhepamu_refusal {
    /* Not refused; the place is 0. */
    TOWHEPAMU_ACCEPTED = 0,

    /* The text has a byte other than a digit, a space or a line feed, a number above 4,294,967,295,
       or a byte beyond the 4,096th. Place: the offset of that byte, or of the number's first digit;
       the lowest of all. A number's digits count only up to the 4,096th byte. */
    TOWHEPAMU_TEXT = 1,

    /* The numbers end early, or some are left over. Place: the index of the first missing or the
       first extra number, from 0. */
    TOWHEPAMU_WORDS = 2,

    /* A number, a count included, is outside its range, or a speed or power does not rise; a number
       after the tasks that is no count of deadlines is one of these, and so is a closing minute
       that is not above the opening one. Place: its index, from 0. */
    TOWHEPAMU_RANGE = 3,

    /* A period brings the span, the least common multiple of the periods, over 4,096. Place: the
       index of that period among the numbers, from 0. */
    TOWHEPAMU_SPAN = 4,

    /* No plan keeps every task that may not be refused with all cores fitting. Place: 0. */
    TOWHEPAMU_NO_PLAN = 5,

    /* A lent result buffer is too short. Place: the length that it needs: in bytes, but for the two
       lists of towhepamu_sleep in entries. */
    TOWHEPAMU_BUFFER = 6,

    /* The given plan has another length than there are tasks; or a choice is above cores x levels,
       or is 0 for a task that may not be refused. Place: the smaller of the two lengths; or the
       first such task's index, from 0. */
    TOWHEPAMU_CHOICES = 7,

    /* A core of a given plan does not fit: by some tick more is due on it than it can have run.
       Only dispatching and preparing return this one. Place: the lowest such core, from 1. */
    TOWHEPAMU_OVERLOAD = 8,

    /* The given table has another length than cores x span; or a slot other than 0 names no task
       that the plan keeps on that slot's core. Place: the smaller of the two lengths; or the first
       such slot's index, from 0. */
    TOWHEPAMU_SLOTS = 9,

    /* A job has more or fewer slots than its ticks between its release and its due tick, or a slot
       between its due tick and its task's next release. Place: the number of the lowest such task,
       from 1. */
    TOWHEPAMU_JOB = 10,

    /* A switching word out of range. Place: 0 for an energy above 1,000,000, 1 for a time above
       4,096. */
    TOWHEPAMU_SWITCHING = 11,

    /* A core to dispatch that is not one of 1 to the number of cores; or a state with more ticks
       left than a job of that task has, any at all for a task that the plan does not keep on that
       core, with a tick not below the span, or with a last task other than 0 that is not kept
       there. Place: 0. */
    TOWHEPAMU_STATE = 12,

    /* An early end is reported after an idle tick or before the first. Place: 0. */
    TOWHEPAMU_EARLY_END = 13,

    /* A date of a calendar does not exist, or is not later than that of the entry before. Place:
       the index of its year among the numbers, from 0. */
    TOWHEPAMU_DATE = 17,

    /* A calendar is asked for a date that does not exist, a year outside 2000 to 2099, or a minute
       above 1,439. Place: 0. */
    TOWHEPAMU_QUESTION = 18
};

/* What reading answers. Where it refuses, tasks, levels, cores and span are 0. */
typedef struct {
    uint64_t refusal; /* an enum towhepamu_refusal; 0 where the text is a site file */
    uint64_t place;   /* what the refusal says of it; 0 where the text is a site file */
    uint64_t tasks;   /* how many; a plan has one byte for each */
    uint64_t levels;  /* how many */
    uint64_t cores;   /* how many */
    uint64_t span;    /* in ticks; a table has cores x span bytes */
} towhepamu_site;

/* What planning answers. Where it refuses, energy, penalty and cost are 0. */
typedef struct {
    uint64_t refusal; /* an enum towhepamu_refusal; 0 where there is a plan */
    uint64_t place;   /* what the refusal says of it; 0 where there is a plan */
    uint64_t energy;  /* of the kept tasks and of idle ticks in one span, not weighted */
    uint64_t penalty; /* of the refused tasks in one span, not weighted */
    uint64_t cost;    /* energy weight x energy + penalty weight x penalty */
} towhepamu_planned;

/* What both checks answer, reckoning sleeps, and preparing a core. */
typedef struct {
    uint64_t refusal; /* an enum towhepamu_refusal; 0 where the call is accepted */
    uint64_t place;   /* what the refusal says of it; 0 where the call is accepted */
} towhepamu_checked;

/* Where the dispatching of a core stands; all zero is a fresh start. */
typedef struct {
    uint32_t tick;                       /* the next tick, below the span */
    uint32_t left[TOWHEPAMU_MOST_TASKS]; /* the ticks left of each task's job, task 1's first */
    uint32_t last;                       /* the task that ran in the tick before; 0 for none */
} towhepamu_state;

/* A core that is prepared for dispatching: its kept tasks. */
typedef struct {
    uint32_t span;                          /* of the site */
    size_t tasks;                           /* how many: so many places are filled, of each */
    uint8_t numbers[TOWHEPAMU_MOST_TASKS];  /* its number, rising, */
    uint32_t periods[TOWHEPAMU_MOST_TASKS]; /* its period, */
    uint32_t windows[TOWHEPAMU_MOST_TASKS]; /* its deadline */
    uint32_t ticks[TOWHEPAMU_MOST_TASKS];   /* and the ticks of a job */
} towhepamu_core;

/* A prepared core, and where its dispatching stands. */
typedef struct {
    towhepamu_core core;
    towhepamu_state state;
} towhepamu_node;

/* What dispatching answers. */
typedef struct {
    uint64_t refusal; /* an enum towhepamu_refusal; 0 where the call is accepted */
    uint64_t place;   /* what the refusal says of it; 0 where the call is accepted */
    uint64_t task;    /* the task to run, from 1; 0 for none, and where it refuses */
} towhepamu_dispatched;

/* What listing answers. */
typedef struct {
    uint64_t refusal; /* an enum towhepamu_refusal; 0 where there is a listing */
    uint64_t place;   /* what the refusal says of it; 0 where there is a listing */
    uint64_t length;  /* of the listing, in bytes; 0 where it refuses */
} towhepamu_listed;

/* What a calendar answers. Where it refuses, plan and days are 0. */
typedef struct {
    uint64_t refusal; /* an enum towhepamu_refusal; 0 where the call is accepted */
    uint64_t place;   /* what the refusal says of it; 0 where the call is accepted */
    uint64_t plan;    /* the number of the plan in force, from 1; 0 for none */
    uint64_t days;    /* to the first entry of a later date, from 1; 0 where none follows */
} towhepamu_ruled;

/*
 * For all calls. `text` is the site file, or the calendar, `text_len` bytes. `plan` has one byte a
 * task: 0 where the task is refused, else (core - 1) x levels + level, cores and levels from 1.
 * `table` has one byte a slot, the span's slots of core 1 first, then those of core 2 and so on:
 * the task that runs in that tick, from 1, or 0 for an idle tick.
 *
 * A pointer with a length points to as many bytes, or entries of a list, as that says, is aligned
 * for them and is not null, even where the length is 0. `state` points to one towhepamu_state and
 * `node` to one towhepamu_node, aligned for it and not null. A result buffer, state or node
 * overlaps no other buffer of the call.
 *
 * What a call answers, and what a buffer, state or node holds after it, is proved. That a call
 * stores nothing where this is said, not even what stands there, is tested.
 */

/*
 * Reads `text`: tells whether it is a site file, and how large its site is.
 *
 * Tested in this order: TEXT; then, number by number, WORDS, RANGE and SPAN.
 */
towhepamu_site towhepamu_read(const uint8_t *text, size_t text_len);

/*
 * Plans the site of `text`: the plan of least cost, among equal costs the one whose first differing
 * choice is smaller, and its table, each core by earliest due tick and then lower task number.
 *
 * Tested in this order: TEXT; then, number by number, WORDS, RANGE and SPAN; BUFFER, the plan's
 * before the table's; NO_PLAN. A refused call stores nothing in `plan` and `table`. An accepted one
 * stores as many bytes of `plan` as there are tasks and cores x span bytes of `table`, each from
 * the front. Into all other bytes nothing is stored, not even what stands there. Reading tells
 * both lengths.
 */
towhepamu_planned towhepamu_plan(const uint8_t *text, size_t text_len, uint8_t *plan,
                                 size_t plan_len, uint8_t *table, size_t table_len);

/*
 * Checks a given plan and table for the site of `text`, wherever they come from. They pass when
 * every job of a kept task has exactly its ticks as slots of its core between its release and its
 * due tick, and every other slot is 0. Rows need not run the earliest due first, nor need the plan
 * be the cheapest.
 *
 * Tested in this order: TEXT; then, number by number, WORDS, RANGE and SPAN; CHOICES and SLOTS,
 * each with the length first; JOB. It stores nothing in the lent buffers.
 */
towhepamu_checked towhepamu_check(const uint8_t *text, size_t text_len, const uint8_t *plan,
                                  size_t plan_len, const uint8_t *table, size_t table_len);

/*
 * Checks only whether the slots of a given table name the right tasks, for the site of `text` and a
 * given plan: the table has cores x span slots, and each slot other than 0 names a task that the
 * plan keeps on that slot's core. A half-drawn table passes: jobs may have any number of slots.
 * What towhepamu_check refuses under CHOICES and SLOTS this call refuses, with the same place.
 *
 * Tested in this order: TEXT; then, number by number, WORDS, RANGE and SPAN; CHOICES and SLOTS,
 * each with the length first. It stores nothing in the lent buffers.
 */
towhepamu_checked towhepamu_check_slots(const uint8_t *text, size_t text_len, const uint8_t *plan,
                                        size_t plan_len, const uint8_t *table, size_t table_len);

/*
 * Reckons, for a given plan and table that pass towhepamu_check, the least idle energy of each core
 * in one span and how often it then sleeps, where switching a core off and on again takes
 * `switching_energy` and `switching_time` ticks. A gap is a longest run of idle slots of a core,
 * joined across the end of the span, because the row repeats. A core sleeps in a gap exactly when
 * the gap is no shorter than the switching time and idle power x its length exceeds the switching
 * energy; it then draws the switching energy there, else idle power x length. An off core has 0 and
 * 0. The energies are not weighted.
 *
 * Tested in this order: TEXT; then, number by number, WORDS, RANGE and SPAN; SWITCHING, the energy
 * before the time; BUFFER, that of `energies` before that of `sleeps`, each of which needs an entry
 * for each core; CHOICES and SLOTS, each with the length first; JOB. A refused call stores nothing
 * in `energies` and `sleeps`. An accepted one stores one entry for each core in both, from the
 * front, core 1 first. Into all other entries nothing is stored, not even what stands there.
 */
towhepamu_checked towhepamu_sleep(const uint8_t *text, size_t text_len, const uint8_t *plan,
                                  size_t plan_len, const uint8_t *table, size_t table_len,
                                  uint32_t switching_energy, uint32_t switching_time,
                                  uint64_t *energies, size_t energies_len, uint32_t *sleeps,
                                  size_t sleeps_len);

/*
 * Dispatches core `core`, from 1, of a given plan for the site of `text`: answers the task that
 * runs in the state's tick and puts the next state in the state's place. `ended` reports that the
 * job which ran in the tick before has ended early: that job runs no more. It has no effect where
 * the job had all its ticks.
 *
 * Let it be called once a tick for the same text, plan and core, of which none is refused, first
 * with a fresh start and then always with the state that the call before has left. Where no early
 * end is reported, the calls answer slot after slot of that core's row, for ever. Where some are,
 * and no call is refused, every job of a task that is kept there has by its due tick run its ticks
 * or been reported ended; it runs in no more ticks than these, and only between its release and its
 * due tick. Neither is promised from other states that are accepted: in tick 1 with no ticks left,
 * say, no job that was released at tick 0 is run. After an accepted call, from any state, the next
 * call without a report is accepted.
 *
 * In one call an early end comes first; then, of each task that is released in this tick, the ticks
 * left become those of a job; then, of the tasks with ticks left, the one whose latest job is due
 * first runs, of equal ones the lower number; after the span's last tick comes tick 0.
 *
 * Tested in this order: TEXT; then, number by number, WORDS, RANGE and SPAN; CHOICES, with the
 * length first; OVERLOAD; STATE; EARLY_END. A refused call leaves `state` as it was.
 */
towhepamu_dispatched towhepamu_dispatch(const uint8_t *text, size_t text_len, const uint8_t *plan,
                                        size_t plan_len, uint32_t core, towhepamu_state *state,
                                        bool ended);

/*
 * Prepares core `core`, from 1, of a given plan for the site of `text`, so that a node can dispatch
 * it tick by tick without reading text and plan again: `node` holds it then, at a fresh start.
 *
 * Tested in this order: TEXT; then, number by number, WORDS, RANGE and SPAN; CHOICES, with the
 * length first; OVERLOAD; STATE, of the core alone. A refused call leaves `node` as it was.
 */
towhepamu_checked towhepamu_prepare(const uint8_t *text, size_t text_len, const uint8_t *plan,
                                    size_t plan_len, uint32_t core, towhepamu_node *node);

/*
 * Dispatches a prepared core: answers what towhepamu_dispatch would answer in the node's state for
 * the text, plan and core that it was prepared from, and puts the next state in the place of the
 * node's. So what is said there of calls from a fresh start holds of these, as long as nothing else
 * has changed the node since it was prepared.
 *
 * Tested in this order: STATE, also where what is prepared is no core's: more tasks than there are
 * places, numbers that do not rise within 1 to 12, or a period of 0; EARLY_END. A refused call
 * leaves `node` as it was.
 */
towhepamu_dispatched towhepamu_tick(towhepamu_node *node, bool ended);

/*
 * Lists the plan of the site of `text`, as lines of text that each end with a line feed, in this
 * order: `span` and the span; `cost`, energy, penalty and cost; for each task `task`, its number,
 * then `core`, `level` and `ticks`, each before its number, or `refused`; for each core `core`, its
 * number and its slots. One space parts the fields. No zero byte ends the listing.
 *
 * Tested in this order: TEXT; then, number by number, WORDS, RANGE and SPAN; BUFFER, whose place is
 * TOWHEPAMU_MOST_LISTING_BYTES however short the site's own listing is; NO_PLAN. A refused call
 * stores nothing in `out`. An accepted one stores the listing's bytes, `length` of them, from the
 * front. Into all other bytes nothing is stored, not even what stands there.
 */
towhepamu_listed towhepamu_list(const uint8_t *text, size_t text_len, uint8_t *out, size_t out_len);

/*
 * Asks the calendar of `text` which plan is in force on a date, `year`, `month` from 1 and `day`
 * from 1, at a minute of that day, 0 to 1,439; and in how many days the next entry comes.
 *
 * An entry rules from its date until the day before the next entry's: the ruling entry is the last
 * whose date is not after the date asked. Its plan is in force from its opening minute up to, but
 * without, its closing one. At other minutes, and before the first entry, the plan is 0. The days
 * go from the date asked to the first entry of a later date; an entry of the date asked is not
 * later.
 *
 * Tested in this order: TEXT; then, number by number, WORDS and RANGE, and DATE of each entry once
 * its six numbers have passed, before those of the next; WORDS, of numbers left over; QUESTION.
 */
towhepamu_ruled towhepamu_calendar(const uint8_t *text, size_t text_len, uint32_t year,
                                   uint32_t month, uint32_t day, uint32_t minute);

#ifdef __cplusplus
}
#endif

#endif
