/* E and LI lines read through the library's C call, against a plain C reader of the same rules that fills the same record, in one run.
   Built and run by bench/run. Both readers are checked to give the same answers and records on every line before anything is timed. */
#include "rotmibel.h"
#include "calendar.h"
#include <stdio.h>
#include <stdlib.h>
#include <string.h>
#include <time.h>

#define LINES 4096
#define ROUNDS 250

/* ---- a plain C reader, as a careful engineer would write it */

typedef struct { uint8_t col, width, required; int32_t lo, hi; } field;
enum { YEAR, MONTH, DAY }; /* where the table has the date; the calendar says which of the 31 days a month has */
static const field fields[19] = {
    {14, 4, 1, -999, 6070}, {18, 2, 1, 1, 12}, {20, 2, 1, 1, 31}, {22, 2, 1, 0, 23}, {24, 2, 1, 0, 59}, {26, 3, 1, 0, 599},
    {29, 7, 1, -900000, 900000}, {36, 8, 1, -1800000, 1800000}, {44, 4, 0, -999, 9999}, {48, 2, 0, -9, 99}, {50, 3, 0, 0, 999},
    {53, 3, 0, 0, 999}, {56, 4, 0, 0, 9999}, {60, 4, 0, 0, 9999}, {64, 4, 0, 0, 9999}, {68, 4, 0, 0, 9999}, {72, 2, 0, 0, 99},
    {75, 2, 0, 0, 99}, {77, 2, 0, 0, 99},
};

static uint64_t refused(unsigned number, unsigned column) { return number | (uint64_t)column << 8; }

/* 0 a value, 1 missing, 2 bad form */
static inline int int_field(const uint8_t *p, int w, int32_t *out) {
    int i = 0, neg = 0;
    while (i < w && p[i] == ' ') i++;
    if (i == w) return 1;
    if (p[i] == '-') { neg = 1; i++; }
    if (i == w) return 2;
    int32_t v = 0;
    for (; i < w; i++) {
        unsigned d = (unsigned)p[i] - '0';
        if (d > 9) return 2;
        v = v * 10 + (int32_t)d;
    }
    *out = neg ? -v : v;
    return 0;
}

/* Fields k to last, their values and flags: 0, or the first refusal. */
static inline uint64_t read_fields(const uint8_t *p, int k, int last, int32_t *values, uint8_t *flags) {
    for (; k <= last; k++) {
        int32_t v = 0;
        int r = int_field(p + fields[k].col - 1, fields[k].width, &v);
        if (r == 1 && fields[k].required) return refused(5, fields[k].col);
        if (r == 2) return refused(6, fields[k].col);
        if (r == 0 && (v < fields[k].lo || v > fields[k].hi)) return refused(7, fields[k].col);
        flags[k] = r == 0;
        values[k] = v;
    }
    return 0;
}

static uint64_t plain_read_link(const uint8_t *p, size_t n, uint8_t *record) {
    if (n < 20 || n > ROTMIBEL_LINE) return refused(1, 0);
    for (size_t i = 0; i < n; i++)
        if (p[i] < 32 || p[i] > 126 || (i >= 2 && i <= 13 && (p[i] == '[' || p[i] == ']'))) return refused(2, (unsigned)i + 1);
    const uint8_t *type = p + 15, *end = p + n, *a = memchr(type, ' ', n - 15);
    if (p[14] != ' ' || !a || a == type || a > type + 16) return refused(6, 15);
    const uint8_t *address = a + 1, *b = memchr(address, ' ', (size_t)(end - address));
    if (!b || b == address || b + 1 == end || b[1] == ' ') return refused(6, 15);
    size_t lengths[3] = {(size_t)(a - type), (size_t)(b - address), (size_t)(end - b - 1)};
    memset(record, 0, ROTMIBEL_RECORD);
    record[0] = ROTMIBEL_LINK;
    for (int k = 0; k < 3; k++) record[ROTMIBEL_LINK_TYPE_LENGTH + k] = (uint8_t)lengths[k];
    memcpy(record + ROTMIBEL_LINK_IDENTIFIER, p + 2, 12);
    memcpy(record + ROTMIBEL_LINK_TYPE, type, lengths[0]);
    memcpy(record + ROTMIBEL_LINK_TYPE + lengths[0], address, lengths[1]);
    memcpy(record + ROTMIBEL_LINK_TYPE + lengths[0] + lengths[1], b + 1, lengths[2]);
    return (uint64_t)ROTMIBEL_RECORD << 24;
}

static uint64_t plain_read(const uint8_t *p, size_t n, uint8_t *record, size_t room) {
    if (room < ROTMIBEL_RECORD) return refused(11, 0);
    if (n < 2) return refused(1, 0);
    if (p[0] == 'L' && p[1] == 'I') return plain_read_link(p, n, record);
    if (!(p[0] == 'E' && p[1] == ' ')) return refused(3, 1);
    if (n != ROTMIBEL_EVENT_LINE) return refused(1, 0);
    uint16_t sum = 0;
    for (int i = 0; i < 79; i++) {
        uint8_t b = p[i];
        if (b < 32 || b > 126 || (i >= 2 && i <= 12 && (b == '[' || b == ']'))) return refused(2, i + 1);
        sum = (uint16_t)((sum >> 1) | (sum << 15));
        sum = (uint16_t)(sum + b);
    }
    if (p[79] != 36 + sum % 91) return refused(9, 80);
    int32_t values[19];
    uint8_t flags[19];
    uint64_t r = read_fields(p, YEAR, DAY, values, flags);
    if (r) return r;
    if (values[DAY] > days_in(values[YEAR], values[MONTH])) return refused(7, fields[DAY].col);
    r = read_fields(p, DAY + 1, 18, values, flags);
    if (r) return r;
    memset(record, 0, ROTMIBEL_RECORD);
    record[0] = ROTMIBEL_EVENT;
    memcpy(record + 1, flags, 19);
    for (int k = 0; k < 19; k++) {
        uint64_t u = (uint64_t)(int64_t)values[k];
        for (int i = 0; i < 8; i++) record[20 + 8 * k + i] = (uint8_t)(u >> (56 - 8 * i));
    }
    memcpy(record + 172, p + 2, 11);
    record[183] = p[73];
    record[184] = p[78];
    return (uint64_t)ROTMIBEL_RECORD << 24;
}

/* ---- lines: two of document 004 with other numbers, and links; every eighth one damaged */

static uint32_t state = 12345;
static unsigned next(unsigned n) { state = state * 1664525u + 1013904223u; return (state >> 8) % n; }

static void seal(char *l) {
    uint16_t sum = 0;
    for (int i = 0; i < 79; i++) { sum = (uint16_t)((sum >> 1) | (sum << 15)); sum = (uint16_t)(sum + (uint8_t)l[i]); }
    l[79] = (char)(36 + sum % 91);
}

typedef size_t maker(char *, unsigned);

static size_t make_event(char *l, unsigned k) {
    unsigned year = 1990 + next(40), month = 1 + next(12), day = 1 + next((unsigned)days_in((int)year, (int)month));
    if (k % 2)
        snprintf(l, ROTMIBEL_LINE + 1, "E %08uCI%c%04u%02u%02u%02u%02u%03u%07d%08d%04u%02u%03u%03u%04u%04u%04u%04u%02uL%02u%02uh ",
                 next(100000000), '0' + next(10), year, month, day, next(24), next(60), next(600), (int)next(1800000) - 900000,
                 (int)next(3600000) - 1800000, next(9999), next(99), next(999), next(999), next(9999), next(9999), next(9999), next(9999),
                 next(99), next(99), next(99));
    else
        snprintf(l, ROTMIBEL_LINE + 1, "E %-8uUS%c%4u%2u%2u%2u%2u%3u%7d%8d%4u%2u%3u%3u%4u%4u        %2uB%2u    ", next(1000000),
                 'A' + next(26), year, month, day, next(24), next(60), next(600), (int)next(1800000) - 900000,
                 (int)next(3600000) - 1800000, next(999), next(99), next(99), next(99), next(9999), next(999), next(99), next(9));
    seal(l);
    if (k % 8 == 7) l[next(80)] ^= (char)(1 + next(7));
    return ROTMIBEL_EVENT_LINE;
}

static size_t make_link(char *l, unsigned k) {
    static const char *const types[4] = {"fm", "map", "shake", "felt-reports"};
    static const char *const texts[4] = {"First motions", "delete:", "Map of the intensities that were reported", "A page"};
    size_t n = (size_t)snprintf(l, ROTMIBEL_LINE + 1, "LI%08uCI%02u %s http://whatever/%u %s", next(100000000), next(100), types[next(4)],
                                next(1000000), texts[next(4)]);
    if (k % 8 == 7) l[next((unsigned)n)] ^= (char)(1 + next(127));
    return n;
}

static double seconds(void) { struct timespec t; clock_gettime(CLOCK_MONOTONIC, &t); return (double)t.tv_sec + 1e-9 * (double)t.tv_nsec; }

typedef uint64_t reader(const uint8_t *, size_t, uint8_t *, size_t);
static char lines[LINES][ROTMIBEL_LINE + 1];
static size_t lengths[LINES];

static double timed(reader *read, uint64_t *sum) {
    uint8_t record[ROTMIBEL_RECORD];
    double best = 1e9;
    for (int round = 0; round < ROUNDS; round++) {
        double t = seconds();
        for (int k = 0; k < LINES; k++) { *sum += read((const uint8_t *)lines[k], lengths[k], record, sizeof record); *sum += record[27]; }
        t = seconds() - t;
        if (t < best) best = t;
    }
    return best;
}

/* Both readers on the same lines: compared, then timed in turn. 1 on a difference. */
static int measured(const char *what, maker *make) {
    uint8_t a[ROTMIBEL_RECORD], b[ROTMIBEL_RECORD];
    unsigned accepted = 0;
    for (unsigned k = 0; k < LINES; k++) {
        const uint8_t *line = (const uint8_t *)lines[k];
        lengths[k] = make(lines[k], k);
        memset(a, 0xee, sizeof a);
        memset(b, 0xee, sizeof b);
        uint64_t r = rotmibel_read_line(line, lengths[k], a, sizeof a);
        if (r != plain_read(line, lengths[k], b, sizeof b) || memcmp(a, b, sizeof a)) {
            printf("the readers differ on: %s\n", lines[k]);
            return 1;
        }
        accepted += ROTMIBEL_ANSWER(r) == ROTMIBEL_READ;
    }
    uint64_t sum = 0;
    double c = timed(plain_read, &sum), ours = timed(rotmibel_read_line, &sum);
    double c2 = timed(plain_read, &sum), ours2 = timed(rotmibel_read_line, &sum);
    if (c2 < c) c = c2;
    if (ours2 < ours) ours = ours2;
    printf("%s lines read into records: %d lines, %u accepted, best of %d rounds (sum %llu)\n", what, LINES, accepted, 2 * ROUNDS,
           (unsigned long long)sum);
    printf("  plain C    %7.1f ns a line\n", 1e9 * c / LINES);
    printf("  library    %7.1f ns a line\n", 1e9 * ours / LINES);
    printf("  ratio      %7.2f\n", ours / c);
    return 0;
}

int main(void) { return measured("E", make_event) || measured("LI", make_link); }
