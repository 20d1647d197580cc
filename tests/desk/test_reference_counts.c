/*
 * The reference's count of one job's slots: known rows; and every row of up to nine slots, with
 * every deadline and number of ticks, against what the paper says of it.
 */
#include "expect.h"

enum { LONGEST = 9 };

static bool is_count(reference_counted counted, reference_count count, uint32_t read) {
    return counted.count == count && counted.read == read;
}

/* One task, the second of two, with one job in the row. */
static reference_instance one_job(uint32_t period, uint32_t deadline) {
    return (reference_instance){
        1, 1, 1, 0, 0, 1, 2, period, {{1, 1}}, {{period, 1, 1, period}, {period, 1, 1, deadline}}};
}

/* ---- Known rows ---- */

static void test_known(void) {
    static const struct {
        const char *row; /* a digit a slot */
        uint32_t deadline;
        uint64_t ticks;
        reference_count count;
        uint32_t read;
    } rows[] = {
        {"2202000000", 10, 3, COUNT_RIGHT, 10},
        {"2202000000", 10, 4, COUNT_SHORT, 10},
        {"2202000000", 10, 2, COUNT_OVER, 4},
        {"2202000000", 10, 1, COUNT_OVER, 2},
        {"2222222222", 10, 3, COUNT_OVER, 4},
        {"0000000000", 10, 1, COUNT_SHORT, 10},
        {"0000000002", 10, 1, COUNT_RIGHT, 10},
        {"2222222222", 10, 10, COUNT_RIGHT, 10},
        /* A slot from the due tick on is too many, also where the job is short before it. */
        {"2202000000", 4, 3, COUNT_RIGHT, 10},
        {"2202000000", 3, 3, COUNT_OVER, 4},
        {"2000200000", 4, 3, COUNT_OVER, 5},
        {"1110000002", 4, 1, COUNT_OVER, 10},
        {"1110000001", 4, 1, COUNT_SHORT, 10},
        {"2220000000", 3, 3, COUNT_RIGHT, 10},
        {"1111111111", 1, 1, COUNT_SHORT, 10},
        {"0200000000", 1, 1, COUNT_OVER, 2},
    };
    for (size_t i = 0; i < sizeof rows / sizeof rows[0]; i++) {
        uint8_t row[10];
        for (size_t t = 0; t < 10; t++)
            row[t] = (uint8_t)(rows[i].row[t] - '0');
        reference_instance in = one_job(10, rows[i].deadline);
        expect(is_count(reference_count_job(&in, 1, rows[i].ticks, row, 0), rows[i].count,
                        rows[i].read),
               "the count", rows[i].row);
    }
    /* Not the first job: slots are counted from its release. */
    static const uint8_t later[] = {2, 2, 2, 0, 0, 2, 2, 0, 0, 0};
    reference_instance in = one_job(5, 3);
    in.span = 10;
    expect(is_count(reference_count_job(&in, 1, 2, later, 5), COUNT_RIGHT, 5), "right", "job 2");
    expect(is_count(reference_count_job(&in, 1, 1, later, 5), COUNT_OVER, 2), "over", "job 2");
}

/* ---- Every row ---- */

/* The first slot, from 1, that is too many; 0 where none is. */
static uint32_t first_too_many(const uint8_t *row, uint32_t period, uint32_t deadline,
                               uint64_t ticks) {
    for (uint32_t t = 0; t < period; t++) {
        uint64_t so_far = 0;
        for (uint32_t s = 0; s <= t; s++)
            so_far += row[s] == 2;
        if (row[t] == 2 && (so_far > ticks || t >= deadline))
            return t + 1;
    }
    return 0;
}

static void test_row(const uint8_t *row, uint32_t period, uint32_t deadline, uint64_t ticks) {
    reference_instance in = one_job(period, deadline);
    reference_counted counted = reference_count_job(&in, 1, ticks, row, 0);
    uint64_t slots = 0;
    for (uint32_t t = 0; t < period; t++)
        slots += row[t] == 2;
    uint32_t over = first_too_many(row, period, deadline, ticks);
    reference_count count = over > 0 ? COUNT_OVER : slots < ticks ? COUNT_SHORT : COUNT_RIGHT;
    expect(is_count(counted, count, over > 0 ? over : period), "the count", "a row");
}

static void test_rows(uint32_t period) {
    uint8_t row[LONGEST];
    for (size_t bits = 0; bits < (size_t)1 << period; bits++) {
        for (uint32_t t = 0; t < period; t++)
            row[t] = bits >> t & 1 ? 2 : 0;
        for (uint32_t deadline = 1; deadline <= period; deadline++)
            for (uint64_t ticks = 1; ticks <= period + 1; ticks++)
                test_row(row, period, deadline, ticks);
    }
}

int main(void) {
    test_known();
    for (uint32_t period = 1; period <= LONGEST; period++)
        test_rows(period);
    printf("reference: counts: %zu tests, %zu fail\n", tests, failures);
    return failures > 0;
}
