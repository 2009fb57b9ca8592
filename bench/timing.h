/* What the benchmarks of rows, blocks and cards share: time, drawn numbers, and good records of the formats in plain_rows.h. */
#include <stdint.h>
#include <stdio.h>
#include <string.h>
#include <time.h>

static double seconds(void) { struct timespec t; clock_gettime(CLOCK_MONOTONIC, &t); return (double)t.tv_sec + 1e-9 * (double)t.tv_nsec; }

static uint32_t state = 12345;
static unsigned next(unsigned n) { state = state * 1664525u + 1013904223u; return (unsigned)((uint64_t)(state >> 8) * n >> 24); }
static int32_t between(int32_t lo, int32_t hi) { return lo + (int32_t)next((unsigned)(hi - lo) + 1); }

static void say_ratio(const char *unit, double scale, double plain, double library) {
    printf("  plain C    %7.1f %s\n", scale * plain, unit);
    printf("  library    %7.1f %s\n", scale * library, unit);
    printf("  ratio      %7.2f\n", library / plain);
}

static inline void make_date(int32_t *v) {
    v[0] = between(0, 9999);
    v[1] = between(1, 12);
    v[2] = between(1, days_in(v[0], v[1]));
}

static inline void make_time(int32_t *v) {
    v[0] = between(0, 23);
    v[1] = between(0, 59);
    v[2] = between(0, 59999);
}

/* A record that has a line: about a third of its numbers are missing. */
static inline void make_record(const row_format *row, uint8_t *record) {
    static const char texts[] = "ABCDEFGHIJKLMNOPQRSTUVWXYZabcdefgh  0123456789";
    unsigned number = 0, text = 1 + 9 * row->numbers;
    memset(record, 0, row->size);
    record[0] = (uint8_t)row->kind;
    for (const row_field *f = row->fields; f < row->fields + row->count; f++) {
        unsigned w = f->last - f->first + 1u;
        int32_t v[3];
        switch (f->kind) {
        case DECIMAL:
            if (next(3) != 0) put_number(row, record, number, between(f->lo, f->hi));
            number++;
            continue;
        case DATE:
        case TIME:
            if (next(8) != 0) {
                if (f->kind == DATE) make_date(v); else make_time(v);
                for (unsigned i = 0; i < 3; i++) put_number(row, record, number + i, v[i]);
            }
            number += 3;
            continue;
        }
        for (unsigned i = 0; i < w; i++) record[text + i] = (uint8_t)texts[next(sizeof texts - 1)];
        if (f->kind == STATION || f->kind == NETWORK) record[text] = (uint8_t)texts[next(26)];
        if (f->kind == ARRIVAL_STATION) record[text + w - 1] = (uint8_t)texts[next(26)];
        if (f->kind == NETWORK && next(4) == 0) memset(record + text, ' ', w);
        if (f->kind == LETTER) record[text] = (uint8_t)f->letters[next((unsigned)strlen(f->letters))];
        text += w;
    }
}
