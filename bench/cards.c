/* Calnet cards read, their records written, and runs of cards written, read and walked through the library's C calls, against plain C of
   the same rules (plain_cards.h, plain_cards_written.h), in one run. Built and run by bench/run. Both sides are checked to give the same
   answers and bytes on every input before anything is timed. */
#include "plain_cards_written.h"
#include "timing.h"

#define COUNT 4096
#define ROUNDS 100

/* ---- records that have a line: about a third of the numbers that may be missing are */

/* How many numbers a card has, how many of them it must have, and their ends; the day's are those of its month. */
typedef struct { unsigned numbers, required; int32_t ends[9][2]; } card_numbers;
static const card_numbers drawn[7] = {
    {8, 6, {{-999, 6070}, {1, 12}, {1, 31}, {0, 23}, {0, 59}, {0, 59999}, {-9999999, 99999999}, {-9999999, 99999999}}},
    {4, 0, {{-90000, 90000}, {-180000, 180000}, {-9999, 99999}, {-9999999, 99999999}}},
    {9, 0, {{-99999, 999999}, {-99999, 999999}, {-99999, 999999}, {-99999, 999999}, {-99999, 999999},
            {-999, 9999}, {-999, 9999}, {-999, 9999}, {-999, 9999}}},
    {2, 0, {{-9999, 99999}, {-99, 999}}},
    {1, 0, {{-9999999, 99999999}}},
    {2, 0, {{-99999, 999999}, {-9999, 99999}}},
    {0, 0, {{0, 0}}},
};

static void make_card(unsigned card, uint8_t *record) {
    static const char texts[] = "ABCDEFGHIJKLMNOPQRSTUVWXYZabcdefgh  0123456789";
    const card_numbers *of = &drawn[card];
    memset(record, 0, card_sizes[card]);
    record[0] = (uint8_t)(FIRST_CARD_KIND + card);
    for (unsigned k = 0; k < of->numbers; k++)
        if (k < of->required || next(3) != 0) keep(record, of->numbers, k, between(of->ends[k][0], of->ends[k][1]));
    if (card == CARD_I) keep(record, 8, 2, between(1, days_in((int)kept(record, 8, 0), (int)kept(record, 8, 1))));
    for (unsigned i = 1 + 9 * of->numbers; i < card_sizes[card]; i++) record[i] = (uint8_t)texts[next(sizeof texts - 1)];
}

/* Cards as an event has them: one I, one L, one E, one M, twenty P, four A, and two R. */
static unsigned card_in_turn(unsigned k) {
    k %= 30;
    return k < 4 ? k : k < 24 ? CARD_P : k < 28 ? CARD_A : CARD_R;
}
static unsigned each_card(unsigned k) { return k % 7; }
static unsigned p_cards(unsigned k) { (void)k; return CARD_P; }
static unsigned i_cards(unsigned k) { (void)k; return CARD_I; }

/* ---- single cards */

typedef uint64_t call(const uint8_t *, size_t, uint8_t *, size_t);
static uint8_t inputs[COUNT][CARD_RECORD];
static size_t lengths[COUNT];

static double timed(call *one, uint64_t *sum) {
    uint8_t out[CARD_RECORD];
    double best = 1e9;
    for (int round = 0; round < ROUNDS; round++) {
        double t = seconds();
        for (int k = 0; k < COUNT; k++) { *sum += one(inputs[k], lengths[k], out, sizeof out); *sum += out[17]; }
        t = seconds() - t;
        if (t < best) best = t;
    }
    return best;
}

/* Both calls on the same inputs: compared, then timed in turn. 1 on a difference. */
static int measured(const char *what, const char *done, call *plain, call *library) {
    uint8_t a[CARD_RECORD], b[CARD_RECORD];
    unsigned accepted = 0;
    for (unsigned k = 0; k < COUNT; k++) {
        memset(a, 0xee, sizeof a);
        memset(b, 0xee, sizeof b);
        uint64_t r = library(inputs[k], lengths[k], a, sizeof a);
        if (r != plain(inputs[k], lengths[k], b, sizeof b) || memcmp(a, b, sizeof a)) {
            printf("%s %s: the two differ on: %.*s\n", what, done, (int)lengths[k], (const char *)inputs[k]);
            return 1;
        }
        accepted += ROTMIBEL_ANSWER(r) == ROTMIBEL_READ;
    }
    uint64_t sum = 0;
    double c = 1e9, ours = 1e9;
    for (int turn = 0; turn < 3; turn++) {
        double s = timed(plain, &sum), t = timed(library, &sum);
        if (s < c) c = s;
        if (t < ours) ours = t;
    }
    printf("%s %s: %d, %u accepted, best of %d rounds (sum %llu)\n", what, done, COUNT, accepted, 3 * ROUNDS, (unsigned long long)sum);
    say_ratio("ns each", 1e9 / COUNT, c, ours);
    return 0;
}

/* Every eighth one damaged. */
static void damage(unsigned k) {
    if (k % 8 == 7) inputs[k][next((unsigned)lengths[k])] ^= (uint8_t)(1 + next(127));
}

/* Records written and lines read of these cards. 1 on a difference. */
static int both_ways(const char *what, unsigned (*which)(unsigned)) {
    uint8_t record[CARD_RECORD];
    for (unsigned k = 0; k < COUNT; k++) {
        make_card(which(k), inputs[k]);
        lengths[k] = card_sizes[which(k)];
        damage(k);
    }
    if (measured(what, "written from records", plain_write_card, rotmibel_write_card)) return 1;
    for (unsigned k = 0; k < COUNT; k++) {
        make_card(which(k), record);
        lengths[k] = ROTMIBEL_LENGTH(plain_write_card(record, sizeof record, inputs[k], sizeof inputs[k]));
        while (k % 3 == 0 && inputs[k][lengths[k] - 1] == ' ') lengths[k]--;
        damage(k);
    }
    return measured(what, "read into records", plain_read_card, rotmibel_read_card);
}

/* ---- runs: one number over all that a call or a walk answers */

static uint8_t run[CARD_RUN], again[CARD_RUN], records[CARD_RUN / 19][CARD_RECORD];
static size_t run_size, run_cards;

typedef uint64_t write_call(const uint8_t *, size_t, uint8_t *, size_t, size_t);
typedef uint64_t line_call(const uint8_t *, size_t, uint64_t);

static uint64_t counted(call *read) {
    uint8_t counts[CARD_COUNTS];
    uint64_t sum = read(run, run_size, counts, sizeof counts);
    for (int i = 0; i < CARD_COUNTS; i++) sum = sum * 31 + counts[i];
    return sum;
}
static uint64_t walked(line_call *line) {
    for (uint64_t sum = 0, r = 0;;) {
        r = line(run, run_size, r);
        sum = sum * 31 + r;
        if (card_of((uint8_t)ROTMIBEL_LINE_KIND(r)) == NO_CARD) return sum;
    }
}
static uint64_t put(write_call *write) {
    size_t at = 0;
    for (size_t k = 0; k < run_cards; k++) at = ROTMIBEL_PLACE(write(records[k], CARD_RECORD, again, sizeof again, at));
    return at;
}

static uint64_t plain_counted(void) { return counted(plain_read_cards); }
static uint64_t library_counted(void) { return counted(rotmibel_read_cards); }
static uint64_t plain_walked(void) { return walked(plain_card_line); }
static uint64_t library_walked(void) { return walked(rotmibel_card_line); }
static uint64_t plain_put(void) { return put(plain_write_card_record); }
static uint64_t library_put(void) { return put(rotmibel_write_card_record); }

typedef uint64_t whole(void);

/* The shortest time of one, of those that half a second has room for. */
static double shortest(whole *one, uint64_t wanted) {
    double best = 1e9;
    for (double all = 0; all < 0.5;) {
        double t = seconds();
        if (one() != wanted) return -1;
        t = seconds() - t;
        all += t;
        if (t < best) best = t;
    }
    return best;
}

static int run_measured(const char *what, whole *plain, whole *library) {
    uint64_t wanted = plain();
    if (library() != wanted) {
        printf("%s: the two differ\n", what);
        return 1;
    }
    double c = shortest(plain, wanted), ours = shortest(library, wanted);
    printf("%s, %zu bytes, best time of half a second\n", what, run_size);
    say_ratio("us a run", 1e6, c, ours);
    return 0;
}

/* As many full cards as a run holds, their records kept. */
static void full_cards(void) {
    uint64_t r;
    for (run_cards = run_size = 0;; run_cards++) {
        make_card(card_in_turn((unsigned)run_cards), records[run_cards]);
        r = plain_write_card_record(records[run_cards], CARD_RECORD, run, sizeof run, run_size);
        if (ROTMIBEL_ANSWER(r) != ROTMIBEL_READ) return;
        run_size = ROTMIBEL_PLACE(r);
    }
}

/* An I card and 32,000 cards of one byte. */
static void short_cards(void) {
    make_card(CARD_I, records[0]);
    run_size = ROTMIBEL_PLACE(plain_write_card_record(records[0], CARD_RECORD, run, sizeof run, 0));
    for (int i = 0; i < 32000; i++) {
        run[run_size++] = 'R';
        run[run_size++] = '\n';
    }
}

int main(void) {
    int failed = both_ways("cards of each letter", each_card);
    failed |= both_ways("I cards", i_cards);
    failed |= both_ways("P cards", p_cards);
    full_cards();
    failed |= run_measured("a run of full cards read", plain_counted, library_counted);
    failed |= run_measured("a run of full cards walked", plain_walked, library_walked);
    failed |= run_measured("a run of full cards written from records", plain_put, library_put);
    if (memcmp(run, again, run_size)) {
        printf("the library wrote another run\n");
        failed = 1;
    }
    short_cards();
    failed |= run_measured("a run of 32,000 cards of one byte read", plain_counted, library_counted);
    failed |= run_measured("a run of 32,000 cards of one byte walked", plain_walked, library_walked);
    return failed;
}
