/* The Calnet cards in plain C, as a careful engineer would write them, with the same rules, answers and records as the library: a reader
   by hand for each of the seven, a run of cards read and walked; plain_cards_written.h has the writers. Numbers in columns are those of
   plain_rows.h. */
#include "plain_rows.h"

enum { CARD_RECORD = 82, CARD_LINE = 78, CARD_COUNTS = 14, CARD_RUN = 65536 };
enum { CARD_I, CARD_L, CARD_E, CARD_M, CARD_P, CARD_A, CARD_R, NO_CARD };
static const uint8_t card_widths[7] = {45, 43, 63, 18, 42, 43, 78}, card_sizes[7] = {74, 43, 82, 24, 37, 43, 77};
static const uint8_t card_letters[8] = "ILEMPAR";

#define FIRST_CARD_KIND 6
/* The ends of the range of a number that has none but its column's. */
#define HELD INT64_MIN, INT64_MAX
/* Goes on where a field or a gap is as it should be. */
#define FIELD(answer, column) if ((refusal = (answer))) return refused(refusal, column)
#define GAP(column) if (p[(column) - 1] != ' ') return refused(4, column)

static inline unsigned card_of(uint8_t letter) {
    switch (letter) {
    case 'I': return CARD_I;
    case 'L': return CARD_L;
    case 'E': return CARD_E;
    case 'M': return CARD_M;
    case 'P': return CARD_P;
    case 'A': return CARD_A;
    case 'R': return CARD_R;
    default: return NO_CARD;
    }
}

/* ---- reading: `p` is the line with blanks to its width, `r` the record, of `n` numbers, zero at first */

PER_FORMAT void keep(uint8_t *r, unsigned n, unsigned k, int64_t v) {
    uint64_t u = __builtin_bswap64((uint64_t)v);
    r[1 + k] = 1;
    memcpy(r + 1 + n + 8 * k, &u, 8);
}

/* The k-th number: 0, or what is wrong with it. */
PER_FORMAT unsigned read_any(const uint8_t *p, unsigned first, unsigned w, unsigned d, int needed, int64_t lo, int64_t hi,
                             uint8_t *r, unsigned n, unsigned k) {
    int64_t v = 0;
    int form = number_field(p + first - 1, (int)w, (int)d, &v);
    if (form == 2) return 6;
    if (form == 1) return needed ? 5 : 0;
    if (v < lo || v > hi) return 7;
    keep(r, n, k, v);
    return 0;
}
PER_FORMAT unsigned read_number(const uint8_t *p, unsigned first, unsigned w, unsigned d, int64_t lo, int64_t hi,
                                uint8_t *r, unsigned n, unsigned k) {
    return read_any(p, first, w, d, 0, lo, hi, r, n, k);
}
PER_FORMAT unsigned read_needed(const uint8_t *p, unsigned first, unsigned w, unsigned d, int64_t lo, int64_t hi,
                                uint8_t *r, unsigned n, unsigned k) {
    return read_any(p, first, w, d, 1, lo, hi, r, n, k);
}
PER_FORMAT int64_t kept(const uint8_t *r, unsigned n, unsigned k) {
    uint64_t u;
    memcpy(&u, r + 1 + n + 8 * k, 8);
    return (int64_t)__builtin_bswap64(u);
}

static uint64_t read_i(const uint8_t *p, uint8_t *r) {
    unsigned refusal;
    GAP(2);
    FIELD(read_needed(p, 3, 4, 0, -999, 6070, r, 8, 0), 3);
    GAP(7);
    FIELD(read_needed(p, 8, 2, 0, 1, 12, r, 8, 1), 8);
    GAP(10);
    FIELD(read_needed(p, 11, 2, 0, 1, days_in((int)kept(r, 8, 0), (int)kept(r, 8, 1)), r, 8, 2), 11);
    GAP(13);
    FIELD(read_needed(p, 14, 2, 0, 0, 23, r, 8, 3), 14);
    GAP(16);
    FIELD(read_needed(p, 17, 2, 0, 0, 59, r, 8, 4), 17);
    GAP(19);
    FIELD(read_needed(p, 20, 6, 3, 0, 59999, r, 8, 5), 20);
    GAP(26);
    FIELD(read_number(p, 27, 8, 0, HELD, r, 8, 6), 27);
    GAP(35);
    FIELD(read_number(p, 36, 8, 0, HELD, r, 8, 7), 36);
    GAP(44);
    r[73] = p[44];
    return 0;
}

static uint64_t read_l(const uint8_t *p, uint8_t *r) {
    unsigned refusal;
    GAP(2);
    FIELD(read_number(p, 3, 7, 3, -90000, 90000, r, 4, 0), 3);
    GAP(10);
    FIELD(read_number(p, 11, 8, 3, -180000, 180000, r, 4, 1), 11);
    GAP(19);
    FIELD(read_number(p, 20, 6, 2, HELD, r, 4, 2), 20);
    GAP(26);
    FIELD(read_number(p, 27, 9, 3, HELD, r, 4, 3), 27);
    GAP(36);
    memcpy(r + 37, p + 36, 3);
    GAP(40);
    memcpy(r + 40, p + 40, 3);
    return 0;
}

static uint64_t read_e(const uint8_t *p, uint8_t *r) {
    unsigned refusal;
    GAP(2);
    FIELD(read_number(p, 3, 7, 3, HELD, r, 9, 0), 3);
    GAP(10);
    FIELD(read_number(p, 11, 7, 3, HELD, r, 9, 1), 11);
    GAP(18);
    FIELD(read_number(p, 19, 7, 3, HELD, r, 9, 2), 19);
    GAP(26);
    FIELD(read_number(p, 27, 7, 3, HELD, r, 9, 3), 27);
    GAP(34);
    FIELD(read_number(p, 35, 7, 3, HELD, r, 9, 4), 35);
    GAP(42);
    FIELD(read_number(p, 43, 4, 0, HELD, r, 9, 5), 43);
    GAP(47);
    FIELD(read_number(p, 48, 4, 0, HELD, r, 9, 6), 48);
    GAP(52);
    FIELD(read_number(p, 53, 5, 1, HELD, r, 9, 7), 53);
    GAP(58);
    FIELD(read_number(p, 59, 5, 1, HELD, r, 9, 8), 59);
    return 0;
}

static uint64_t read_m(const uint8_t *p, uint8_t *r) {
    unsigned refusal;
    GAP(2);
    r[19] = p[2];
    GAP(4);
    FIELD(read_number(p, 5, 6, 2, HELD, r, 2, 0), 5);
    FIELD(read_number(p, 11, 3, 0, HELD, r, 2, 1), 11);
    GAP(14);
    memcpy(r + 20, p + 14, 4);
    return 0;
}

static uint64_t read_p(const uint8_t *p, uint8_t *r) {
    unsigned refusal;
    GAP(2);
    memcpy(r + 10, p + 2, 15);
    GAP(18);
    memcpy(r + 25, p + 18, 3);
    GAP(22);
    memcpy(r + 28, p + 22, 6);
    GAP(29);
    memcpy(r + 34, p + 29, 3);
    GAP(33);
    FIELD(read_number(p, 34, 9, 3, HELD, r, 1, 0), 34);
    return 0;
}

static uint64_t read_a(const uint8_t *p, uint8_t *r) {
    unsigned refusal;
    GAP(2);
    memcpy(r + 19, p + 2, 15);
    GAP(18);
    memcpy(r + 34, p + 18, 3);
    GAP(22);
    FIELD(read_number(p, 23, 7, 2, HELD, r, 2, 0), 23);
    GAP(30);
    memcpy(r + 37, p + 30, 6);
    GAP(37);
    FIELD(read_number(p, 38, 6, 2, HELD, r, 2, 1), 38);
    return 0;
}

static uint64_t read_r(const uint8_t *p, uint8_t *r) {
    GAP(2);
    memcpy(r + 1, p + 2, 76);
    return 0;
}

/* What is wrong with a line before its columns; its card. */
static inline uint64_t judge_card(const uint8_t *line, size_t n, unsigned *card) {
    if (n == 0) return refused(1, 0);
    *card = card_of(line[0]);
    if (*card == NO_CARD) return refused(3, 1);
    if (n > card_widths[*card]) return refused(1, 0);
    for (size_t i = 1; i < n; i++)
        if (line[i] < 32 || line[i] > 126) return refused(2, (unsigned)i + 1);
    return 0;
}

static inline uint64_t read_card_columns(unsigned card, const uint8_t *line, size_t n, uint8_t *r) {
    uint8_t p[CARD_LINE];
    memcpy(p, line, n);
    memset(p + n, ' ', card_widths[card] - n);
    memset(r, 0, card_sizes[card]);
    r[0] = (uint8_t)(FIRST_CARD_KIND + card);
    switch (card) {
    case CARD_I: return read_i(p, r);
    case CARD_L: return read_l(p, r);
    case CARD_E: return read_e(p, r);
    case CARD_M: return read_m(p, r);
    case CARD_P: return read_p(p, r);
    case CARD_A: return read_a(p, r);
    default: return read_r(p, r);
    }
}

static inline uint64_t plain_read_card(const uint8_t *line, size_t n, uint8_t *out, size_t room) {
    if (room < CARD_RECORD) return refused(11, 0);
    unsigned card;
    uint8_t record[CARD_RECORD];
    uint64_t refusal = judge_card(line, n, &card);
    if (refusal) return refusal;
    if ((refusal = read_card_columns(card, line, n, record))) return refusal;
    memcpy(out, record, card_sizes[card]);
    return (uint64_t)card_sizes[card] << 24;
}

/* ---- runs */

static inline uint64_t plain_read_cards(const uint8_t *run, size_t size, uint8_t *out, size_t room) {
    unsigned counts[7] = {0};
    if (room < CARD_COUNTS) return refused(11, 0);
    if (size > CARD_RUN) return refused(1, 0);
    uint64_t number = 1;
    for (size_t at = 0; at < size; number++) {
        const uint8_t *line = run + at, *newline = memchr(line, '\n', size - at);
        size_t n = newline ? (size_t)(newline - line) : size - at;
        unsigned card;
        uint8_t record[CARD_RECORD];
        uint64_t refusal = judge_card(line, n, &card);
        if (!refusal && card != CARD_I && counts[CARD_I] == 0) refusal = refused(14, 0);
        if (!refusal) refusal = read_card_columns(card, line, n, record);
        if (refusal) return refusal | number << 24;
        counts[card]++;
        at += n + 1;
    }
    for (int i = 0; i < 7; i++) {
        out[2 * i] = (uint8_t)(counts[i] >> 8);
        out[2 * i + 1] = (uint8_t)counts[i];
    }
    return (uint64_t)counts[CARD_I] << 8 | (uint64_t)CARD_COUNTS << 24;
}

/* The line after the one that `before` tells of. */
static inline uint64_t plain_card_line(const uint8_t *run, size_t size, uint64_t before) {
    if (size > CARD_RUN) return 1;
    if (before && card_of((uint8_t)before) == NO_CARD) return 0;
    uint64_t event = before >> 8 & 0xffff, at = before >> 44;
    if (event > 65534 || at >= size) return 0;
    const uint8_t *line = run + at, *newline = memchr(line, '\n', size - at);
    if (newline == line) return 1;
    if (card_of(*line) == NO_CARD) return 3;
    uint64_t end = newline ? (uint64_t)(newline - run) : size;
    return *line | (event + (*line == 'I')) << 8 | end << 24 | (end + (newline != 0)) << 44;
}
