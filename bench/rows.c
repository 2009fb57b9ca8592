/* Phase and arrival lines read, and their records written, through the library's C calls, against plain C of the same rules (plain_rows.h),
   in one run. Built and run by bench/run. Both sides are checked to give the same answers and bytes on every input before anything is timed. */
#include "plain_rows.h"
#include "timing.h"

#define COUNT 4096
#define ROUNDS 100
#define LONGEST ROTMIBEL_ARRIVAL_RECORD

typedef uint64_t call(const uint8_t *, size_t, uint8_t *, size_t);
static uint8_t inputs[COUNT][LONGEST];
static size_t lengths[COUNT];

static double timed(call *one, uint64_t *sum) {
    uint8_t out[LONGEST];
    double best = 1e9;
    for (int round = 0; round < ROUNDS; round++) {
        double t = seconds();
        for (int k = 0; k < COUNT; k++) { *sum += one(inputs[k], lengths[k], out, sizeof out); *sum += out[27]; }
        t = seconds() - t;
        if (t < best) best = t;
    }
    return best;
}

/* Both calls on the same inputs: compared, then timed in turn. 1 on a difference. */
static int measured(const char *what, call *plain, call *library) {
    uint8_t a[LONGEST], b[LONGEST];
    unsigned accepted = 0;
    for (unsigned k = 0; k < COUNT; k++) {
        memset(a, 0xee, sizeof a);
        memset(b, 0xee, sizeof b);
        uint64_t r = library(inputs[k], lengths[k], a, sizeof a);
        if (r != plain(inputs[k], lengths[k], b, sizeof b) || memcmp(a, b, sizeof a)) {
            printf("%s: the two differ on: %.*s\n", what, (int)lengths[k], (const char *)inputs[k]);
            return 1;
        }
        accepted += ROTMIBEL_ANSWER(r) == ROTMIBEL_READ;
    }
    uint64_t sum = 0;
    double c = 1e9, ours = 1e9;
    for (int turn = 0; turn < 3; turn++) {
        double s = timed(plain, &sum), t = timed(library, &sum);
        if (s < c) c = s;
        if (t < ours) ours = t;
    }
    printf("%s: %d, %u accepted, best of %d rounds (sum %llu)\n", what, COUNT, accepted, 3 * ROUNDS, (unsigned long long)sum);
    say_ratio("ns each", 1e9 / COUNT, c, ours);
    return 0;
}

/* Every eighth one damaged. */
static void damage(unsigned k) {
    if (k % 8 == 7) inputs[k][next((unsigned)lengths[k])] ^= (uint8_t)(1 + next(127));
}

/* A format's records written and its lines read. 1 on a difference. */
static int both_ways(const row_format *row, const char *writing, call *plain_write, call *library_write,
                     const char *reading, call *plain_read, call *library_read) {
    for (unsigned k = 0; k < COUNT; k++) {
        make_record(row, inputs[k]);
        lengths[k] = row->size;
        damage(k);
    }
    if (measured(writing, plain_write, library_write)) return 1;
    for (unsigned k = 0; k < COUNT; k++) {
        uint8_t record[LONGEST];
        make_record(row, record);
        lengths[k] = ROTMIBEL_LENGTH(plain_write(record, row->size, inputs[k], sizeof inputs[k]));
        while (k % 3 == 0 && inputs[k][lengths[k] - 1] == ' ') lengths[k]--;
        damage(k);
    }
    return measured(reading, plain_read, library_read);
}

int main(void) {
    int failed = both_ways(&phase_row, "phase records written as lines", plain_write_phase, rotmibel_write_phase,
                           "phase lines read into records", plain_read_phase, rotmibel_read_phase);
    failed |= both_ways(&arrival_row, "arrival records written as lines", plain_write_arrival, rotmibel_write_arrival,
                        "arrival lines read into records", plain_read_arrival, rotmibel_read_arrival);
    return failed;
}
