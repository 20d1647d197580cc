/* Sleeping through gaps, document 02 (b). */
#include "answers.h"

size_t reference_gaps(const uint8_t *row, size_t span, reference_gap *gaps) {
    size_t busy = 0, count = 0, idle = 0;
    while (busy < span && row[busy] == 0)
        busy++;
    if (busy == span)
        return 0;
    /* From the first busy slot to its next showing, so that no gap is cut and none comes twice. */
    for (size_t t = busy + 1; t <= busy + span; t++) {
        if (row[t % span] == 0) {
            idle++;
            continue;
        }
        if (idle > 0)
            gaps[count++] = (reference_gap){(t - idle) % span, idle};
        idle = 0;
    }
    return count;
}

reference_slept reference_sleep_row(const uint8_t *row, size_t span, uint32_t idle_power,
                                    uint32_t switching_energy, uint32_t switching_time) {
    reference_gap gaps[MOST_GAPS];
    reference_slept slept = {0, 0};
    size_t count = reference_gaps(row, span, gaps);
    for (size_t i = 0; i < count; i++) {
        uint64_t awake = (uint64_t)idle_power * gaps[i].size;
        bool sleeps = gaps[i].size >= switching_time && awake > switching_energy;
        slept.energy += sleeps ? switching_energy : awake;
        slept.sleeps += sleeps;
    }
    return slept;
}

/* Refusals 11 and 6. */
static towhepamu_checked test_lent(const reference_instance *in, uint32_t switching_energy,
                                   uint32_t switching_time, size_t energies_len,
                                   size_t sleeps_len) {
    if (switching_energy > 1000000)
        return refused(TOWHEPAMU_SWITCHING, 0);
    if (switching_time > 4096)
        return refused(TOWHEPAMU_SWITCHING, 1);
    if (energies_len < in->cores || sleeps_len < in->cores)
        return refused(TOWHEPAMU_BUFFER, in->cores);
    return accepted;
}

towhepamu_checked reference_sleep(const uint8_t *text, size_t text_len, const uint8_t *plan,
                                  size_t plan_len, const uint8_t *table, size_t table_len,
                                  uint32_t switching_energy, uint32_t switching_time,
                                  uint64_t *energies, size_t energies_len, uint32_t *sleeps,
                                  size_t sleeps_len) {
    reference_instance in;
    towhepamu_checked test = reference_read_text(text, text_len, &in);
    if (passes(test))
        test = test_lent(&in, switching_energy, switching_time, energies_len, sleeps_len);
    if (passes(test))
        test = reference_check_table(&in, plan, plan_len, table, table_len);
    if (!passes(test))
        return test;
    for (size_t c = 0; c < in.cores; c++) {
        reference_slept slept = reference_sleep_row(table + c * in.span, in.span, in.idle_power,
                                                    switching_energy, switching_time);
        energies[c] = slept.energy;
        sleeps[c] = slept.sleeps;
    }
    return test;
}
