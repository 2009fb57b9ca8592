/* The ISF phase line and the automatic arrival line in plain C, as a careful engineer would write them: the same rules, answers and records
   as the library. One reader and one writer over a table of fields serve both; PER_FORMAT has the compiler make them anew for each format. */
#include "rotmibel.h"
#include "calendar.h"
#include <string.h>

#define PER_FORMAT static inline __attribute__((always_inline))

/* A phase line's station begins with no blank, an arrival line's is not all blank; a network is all blank or begins with no blank. */
enum { STATION, TEXT, DECIMAL, LETTER, TIME, DATE, NETWORK, ARRIVAL_STATION };
typedef struct { uint8_t kind, first, last, decimals; int32_t lo, hi; const char *letters; } row_field;
/* The width of a line and the size of a record. `triples`: the first of the three numbers of a date or time, there or missing together. */
typedef struct { const row_field *fields; unsigned count, width, numbers, size, kind, triples[2]; } row_format;

/* The fields, by first and last column; a decimal with no range of its own has that of its column. */
static const row_field phase_fields[36] = {
    {STATION, 1, 5, 0, 0, 0, 0}, {DECIMAL, 7, 12, 2, 0, 18000, 0}, {DECIMAL, 14, 18, 1, 0, 3600, 0}, {TEXT, 20, 27, 0, 0, 0, 0},
    {TIME, 29, 40, 0, 0, 0, 0}, {DECIMAL, 42, 46, 1, -999, 9999, 0}, {DECIMAL, 48, 52, 1, 0, 3600, 0}, {DECIMAL, 54, 58, 1, -999, 9999, 0},
    {DECIMAL, 60, 65, 1, -9999, 99999, 0}, {DECIMAL, 67, 72, 1, -9999, 99999, 0}, {LETTER, 74, 74, 0, 0, 0, "T_ "},
    {LETTER, 75, 75, 0, 0, 0, "A_ "}, {LETTER, 76, 76, 0, 0, 0, "S_ "}, {DECIMAL, 78, 82, 1, -999, 9999, 0},
    {DECIMAL, 84, 92, 1, -9999999, 99999999, 0}, {DECIMAL, 94, 98, 2, -999, 9999, 0}, {LETTER, 100, 100, 0, 0, 0, "am_ "},
    {LETTER, 101, 101, 0, 0, 0, "cd_ "}, {LETTER, 102, 102, 0, 0, 0, "ieq_ "}, {TEXT, 104, 108, 0, 0, 0, 0},
    {LETTER, 109, 109, 0, 0, 0, "<> "}, {DECIMAL, 110, 113, 1, -99, 999, 0}, {TEXT, 115, 122, 0, 0, 0, 0}, {TEXT, 123, 125, 0, 0, 0, 0},
    {TEXT, 127, 131, 0, 0, 0, 0}, {TEXT, 133, 140, 0, 0, 0, 0}, {TEXT, 142, 143, 0, 0, 0, 0}, {TEXT, 145, 149, 0, 0, 0, 0},
    {TEXT, 151, 155, 0, 0, 0, 0}, {TEXT, 157, 159, 0, 0, 0, 0}, {TEXT, 161, 163, 0, 0, 0, 0}, {TEXT, 165, 165, 0, 0, 0, 0},
    {DECIMAL, 167, 174, 4, -900000, 900000, 0}, {DECIMAL, 176, 184, 4, -1800000, 1800000, 0}, {DECIMAL, 186, 192, 1, -99999, 999999, 0},
    {DECIMAL, 194, 199, 1, -9999, 99999, 0},
};
static const row_field arrival_fields[28] = {
    {NETWORK, 1, 9, 0, 0, 0, 0}, {ARRIVAL_STATION, 11, 15, 0, 0, 0, 0}, {TEXT, 17, 28, 0, 0, 0, 0}, {DATE, 30, 39, 0, 0, 0, 0},
    {TIME, 41, 52, 0, 0, 0, 0}, {TEXT, 54, 61, 0, 0, 0, 0}, {DECIMAL, 63, 67, 1, 0, 3600, 0}, {DECIMAL, 69, 73, 1, -999, 9999, 0},
    {DECIMAL, 75, 79, 1, -999, 9999, 0}, {DECIMAL, 81, 89, 1, -9999999, 99999999, 0}, {DECIMAL, 91, 95, 2, -999, 9999, 0},
    {DECIMAL, 97, 101, 1, -999, 9999, 0}, {DECIMAL, 103, 107, 1, -999, 9999, 0}, {TEXT, 109, 117, 0, 0, 0, 0}, {TEXT, 119, 126, 0, 0, 0, 0},
    {TEXT, 127, 129, 0, 0, 0, 0}, {TEXT, 131, 135, 0, 0, 0, 0}, {TEXT, 137, 144, 0, 0, 0, 0}, {TEXT, 146, 147, 0, 0, 0, 0},
    {TEXT, 149, 153, 0, 0, 0, 0}, {TEXT, 155, 159, 0, 0, 0, 0}, {TEXT, 161, 163, 0, 0, 0, 0}, {TEXT, 165, 167, 0, 0, 0, 0},
    {TEXT, 169, 169, 0, 0, 0, 0}, {DECIMAL, 171, 178, 4, -900000, 900000, 0}, {DECIMAL, 180, 188, 4, -1800000, 1800000, 0},
    {DECIMAL, 190, 196, 1, -99999, 999999, 0}, {DECIMAL, 198, 203, 1, -9999, 99999, 0},
};
static const row_format phase_row = {phase_fields, 36, ROTMIBEL_PHASE_LINE, 18, ROTMIBEL_PHASE_RECORD, ROTMIBEL_PHASE, {2, 2}};
static const row_format arrival_row = {arrival_fields, 28, ROTMIBEL_ARRIVAL_LINE, 17, ROTMIBEL_ARRIVAL_RECORD, ROTMIBEL_ARRIVAL, {0, 3}};

static uint64_t refused(unsigned number, unsigned column) { return number | (uint64_t)column << 8; }

static const uint8_t blanks[12] = {32, 32, 32, 32, 32, 32, 32, 32, 32, 32, 32, 32};
static int blank(const uint8_t *p, unsigned w) { return !memcmp(p, blanks, w); }

/* ---- reading */

/* A number with `d` digits behind a point, or without a point: 0 a value, 1 missing, 2 bad form. */
static inline int number_field(const uint8_t *p, int w, int d, int64_t *out) {
    int i = 0, neg = 0, point = d ? w - d - 1 : w;
    while (i < w && p[i] == ' ') i++;
    if (i == w) return 1;
    if (p[i] == '-') { neg = 1; i++; }
    if (i >= point || (d && p[point] != '.')) return 2;
    int64_t v = 0;
    for (; i < w; i++) {
        unsigned c = (unsigned)p[i] - '0';
        if (i == point) continue;
        if (c > 9) return 2;
        v = v * 10 + (int64_t)c;
    }
    *out = neg ? -v : v;
    return 0;
}

/* The answer for a date, and for a clock time; `there` says whether it is one. */
static unsigned date_field(const uint8_t *p, int64_t *v, int *there) {
    *there = 0;
    if (blank(p, 10)) return 0;
    if (p[4] != '/' || p[7] != '/' || number_field(p, 4, 0, v) || number_field(p + 5, 2, 0, v + 1) || number_field(p + 8, 2, 0, v + 2)) return 6;
    if (v[0] < 0 || v[0] > 9999 || v[1] < 1 || v[1] > 12 || v[2] < 1 || v[2] > days_in((int)v[0], (int)v[1])) return 7;
    *there = 1;
    return 0;
}

static unsigned time_field(const uint8_t *p, int64_t *v, int *there) {
    *there = 0;
    if (blank(p, 12)) return 0;
    if (p[2] != ':' || p[5] != ':' || number_field(p, 2, 0, v) || number_field(p + 3, 2, 0, v + 1) || number_field(p + 6, 6, 3, v + 2)) return 6;
    if (v[0] < 0 || v[0] > 23 || v[1] < 0 || v[1] > 59 || v[2] < 0 || v[2] > 59999) return 7;
    *there = 1;
    return 0;
}

PER_FORMAT void put_number(const row_format *row, uint8_t *record, unsigned k, int64_t v) {
    record[1 + k] = 1;
    for (int i = 0; i < 8; i++) record[1 + row->numbers + 8 * k + i] = (uint8_t)((uint64_t)v >> (56 - 8 * i));
}

PER_FORMAT uint64_t read_row(const row_format *row, const uint8_t *line, size_t n, uint8_t *out, size_t room) {
    if (room < row->size) return refused(11, 0);
    if (n > row->width) return refused(1, 0);
    for (size_t i = 0; i < n; i++)
        if (line[i] < 32 || line[i] > 126) return refused(2, (unsigned)i + 1);
    uint8_t p[ROTMIBEL_ARRIVAL_LINE], record[ROTMIBEL_ARRIVAL_RECORD];
    memcpy(p, line, n);
    memset(p + n, ' ', row->width - n);
    memset(record, 0, row->size);
    record[0] = (uint8_t)row->kind;
    unsigned number = 0, text = 1 + 9 * row->numbers, column = 1;
    for (unsigned k = 0; k < row->count; k++) {
        const row_field *f = &row->fields[k];
        for (; column < f->first; column++)
            if (p[column - 1] != ' ') return refused(4, column);
        const uint8_t *cell = p + f->first - 1;
        unsigned w = f->last - f->first + 1u;
        int64_t v[3] = {0};
        column = f->last + 1u;
        if (f->kind == DECIMAL) {
            int form = number_field(cell, (int)w, f->decimals, v);
            if (form == 2) return refused(6, f->first);
            if (form == 0 && (v[0] < f->lo || v[0] > f->hi)) return refused(7, f->first);
            if (form == 0) put_number(row, record, number, v[0]);
            number++;
            continue;
        }
        if (f->kind == TIME || f->kind == DATE) {
            int there;
            unsigned answer = f->kind == TIME ? time_field(cell, v, &there) : date_field(cell, v, &there);
            if (answer) return refused(answer, f->first);
            for (unsigned i = 0; there && i < 3; i++) put_number(row, record, number + i, v[i]);
            number += 3;
            continue;
        }
        if (f->kind == STATION && cell[0] == ' ') return refused(5, f->first);
        if (f->kind == ARRIVAL_STATION && blank(cell, w)) return refused(5, f->first);
        if (f->kind == NETWORK && cell[0] == ' ' && !blank(cell, w)) return refused(6, f->first);
        if (f->kind == LETTER && !strchr(f->letters, cell[0])) return refused(8, f->first);
        memcpy(record + text, cell, w);
        text += w;
    }
    memcpy(out, record, row->size);
    return (uint64_t)row->size << 24;
}

static inline uint64_t plain_read_phase(const uint8_t *line, size_t n, uint8_t *out, size_t room) {
    return read_row(&phase_row, line, n, out, room);
}
static inline uint64_t plain_read_arrival(const uint8_t *line, size_t n, uint8_t *out, size_t room) {
    return read_row(&arrival_row, line, n, out, room);
}

/* ---- writing */

PER_FORMAT int64_t get_number(const row_format *row, const uint8_t *record, unsigned k) {
    uint64_t u = 0;
    for (int i = 0; i < 8; i++) u = u << 8 | record[1 + row->numbers + 8 * k + i];
    return (int64_t)u;
}

PER_FORMAT int is_record(const row_format *row, const uint8_t *r) {
    const uint8_t *a = r + 1 + row->triples[0], *b = r + 1 + row->triples[1];
    if (r[0] != row->kind || a[0] != a[1] || a[1] != a[2] || b[0] != b[1] || b[1] != b[2]) return 0;
    for (unsigned k = 0; k < row->numbers; k++)
        if (r[1 + k] > 1 || (r[1 + k] == 0 && get_number(row, r, k) != 0)) return 0;
    return 1;
}

static const int64_t tens[10] = {1, 10, 100, 1000, 10000, 100000, 1000000, 10000000, 100000000, 1000000000};
static int too_wide(int64_t v, unsigned w, unsigned d) { return v > tens[w - (d ? 1 : 0)] - 1 || v < 1 - tens[w - (d ? 2 : 1)]; }

/* Right-aligned behind blanks, or behind zeros. */
static void put_field(uint8_t *cell, unsigned w, unsigned d, int64_t v, uint8_t filler) {
    uint64_t u = (uint64_t)(v < 0 ? -v : v);
    unsigned i = w, digits = 0;
    while (digits <= d || u) {
        if (d && digits == d && cell[i] != '.') { cell[--i] = '.'; continue; }
        cell[--i] = (uint8_t)('0' + u % 10);
        u /= 10;
        digits++;
    }
    if (v < 0) cell[--i] = '-';
    while (i) cell[--i] = filler;
}

static unsigned put_date(uint8_t *cell, int64_t y, int64_t m, int64_t d) {
    if (too_wide(y, 4, 0) || too_wide(m, 2, 0) || too_wide(d, 2, 0)) return 10;
    if (y < 0 || y > 9999 || m < 1 || m > 12 || d < 1 || d > days_in((int)y, (int)m)) return 7;
    put_field(cell, 4, 0, y, '0');
    cell[4] = '/';
    put_field(cell + 5, 2, 0, m, '0');
    cell[7] = '/';
    put_field(cell + 8, 2, 0, d, '0');
    return 0;
}

static unsigned put_time(uint8_t *cell, int64_t h, int64_t m, int64_t s) {
    if (too_wide(h, 2, 0) || too_wide(m, 2, 0) || too_wide(s, 6, 3)) return 10;
    if (h < 0 || h > 23 || m < 0 || m > 59 || s < 0 || s > 59999) return 7;
    put_field(cell, 2, 0, h, '0');
    cell[2] = ':';
    put_field(cell + 3, 2, 0, m, '0');
    cell[5] = ':';
    put_field(cell + 6, 6, 3, s, '0');
    return 0;
}

PER_FORMAT uint64_t write_row(const row_format *row, const uint8_t *record, size_t n, uint8_t *out, size_t room) {
    if (n < row->size || !is_record(row, record)) return refused(6, 0);
    if (room < row->width) return refused(11, 0);
    uint8_t line[ROTMIBEL_ARRIVAL_LINE];
    memset(line, ' ', row->width);
    unsigned number = 0, text = 1 + 9 * row->numbers, answer;
    for (unsigned k = 0; k < row->count; k++) {
        const row_field *f = &row->fields[k];
        uint8_t *cell = line + f->first - 1;
        unsigned w = f->last - f->first + 1u;
        if (f->kind == DECIMAL) {
            int64_t v = get_number(row, record, number);
            if (record[1 + number++] == 0) continue;
            if (too_wide(v, w, f->decimals)) return refused(10, f->first);
            if (v < f->lo || v > f->hi) return refused(7, f->first);
            put_field(cell, w, f->decimals, v, ' ');
            continue;
        }
        if (f->kind == TIME || f->kind == DATE) {
            number += 3;
            if (record[number] == 0) continue;
            int64_t a = get_number(row, record, number - 3), b = get_number(row, record, number - 2), c = get_number(row, record, number - 1);
            answer = f->kind == TIME ? put_time(cell, a, b, c) : put_date(cell, a, b, c);
            if (answer) return refused(answer, f->first);
            continue;
        }
        const uint8_t *from = record + text;
        text += w;
        if (f->kind == STATION && from[0] == ' ') return refused(5, f->first);
        if (f->kind == ARRIVAL_STATION && blank(from, w)) return refused(5, f->first);
        if (f->kind == NETWORK && from[0] == ' ' && !blank(from, w)) return refused(6, f->first);
        for (unsigned i = 0; i < w; i++)
            if (from[i] < 32 || from[i] > 126) return refused(2, f->first + i);
        if (f->kind == LETTER && !strchr(f->letters, from[0])) return refused(8, f->first);
        memcpy(cell, from, w);
    }
    memcpy(out, line, row->width);
    return (uint64_t)row->width << 24;
}

static inline uint64_t plain_write_phase(const uint8_t *record, size_t n, uint8_t *out, size_t room) {
    return write_row(&phase_row, record, n, out, room);
}
static inline uint64_t plain_write_arrival(const uint8_t *record, size_t n, uint8_t *out, size_t room) {
    return write_row(&arrival_row, record, n, out, room);
}
