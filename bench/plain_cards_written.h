/* The Calnet cards in plain C, as in plain_cards.h: records written as cards, by themselves and from a place. */
#include "plain_cards.h"

/* ---- writing: `l` is the line, blank at first, `r` the record, of `n` numbers */

/* Zeros at the left, minus first. */
static void put_int(uint8_t *cell, unsigned w, int64_t v) {
    uint64_t u = (uint64_t)(v < 0 ? -v : v);
    for (unsigned i = w; i > 0; u /= 10) cell[--i] = (uint8_t)('0' + u % 10);
    if (v < 0) cell[0] = '-';
}

PER_FORMAT unsigned write_any(uint8_t *l, unsigned first, unsigned w, unsigned d, int needed, int64_t lo, int64_t hi,
                              const uint8_t *r, unsigned n, unsigned k) {
    if (r[1 + k] == 0) return needed ? 5 : 0;
    int64_t v = kept(r, n, k);
    if (too_wide(v, w, d)) return 10;
    if (v < lo || v > hi) return 7;
    if (d) put_field(l + first - 1, w, d, v, ' '); else put_int(l + first - 1, w, v);
    return 0;
}
PER_FORMAT unsigned write_number(uint8_t *l, unsigned first, unsigned w, unsigned d, int64_t lo, int64_t hi,
                                 const uint8_t *r, unsigned n, unsigned k) {
    return write_any(l, first, w, d, 0, lo, hi, r, n, k);
}
PER_FORMAT unsigned write_needed(uint8_t *l, unsigned first, unsigned w, unsigned d, int64_t lo, int64_t hi,
                                 const uint8_t *r, unsigned n, unsigned k) {
    return write_any(l, first, w, d, 1, lo, hi, r, n, k);
}

/* A text, or the column of its first barred byte. */
PER_FORMAT unsigned write_text(uint8_t *l, unsigned first, unsigned w, const uint8_t *from) {
    for (unsigned i = 0; i < w; i++)
        if (from[i] < 32 || from[i] > 126) return first + i;
    memcpy(l + first - 1, from, w);
    return 0;
}
#define TEXTS(first, w, at) if ((refusal = write_text(l, first, w, r + (at)))) return refused(2, refusal)

static uint64_t write_i(uint8_t *l, const uint8_t *r) {
    unsigned refusal;
    FIELD(write_needed(l, 3, 4, 0, -999, 6070, r, 8, 0), 3);
    FIELD(write_needed(l, 8, 2, 0, 1, 12, r, 8, 1), 8);
    FIELD(write_needed(l, 11, 2, 0, 1, days_in((int)kept(r, 8, 0), (int)kept(r, 8, 1)), r, 8, 2), 11);
    FIELD(write_needed(l, 14, 2, 0, 0, 23, r, 8, 3), 14);
    FIELD(write_needed(l, 17, 2, 0, 0, 59, r, 8, 4), 17);
    FIELD(write_needed(l, 20, 6, 3, 0, 59999, r, 8, 5), 20);
    FIELD(write_number(l, 27, 8, 0, HELD, r, 8, 6), 27);
    FIELD(write_number(l, 36, 8, 0, HELD, r, 8, 7), 36);
    TEXTS(45, 1, 73);
    return 0;
}

static uint64_t write_l(uint8_t *l, const uint8_t *r) {
    unsigned refusal;
    FIELD(write_number(l, 3, 7, 3, -90000, 90000, r, 4, 0), 3);
    FIELD(write_number(l, 11, 8, 3, -180000, 180000, r, 4, 1), 11);
    FIELD(write_number(l, 20, 6, 2, HELD, r, 4, 2), 20);
    FIELD(write_number(l, 27, 9, 3, HELD, r, 4, 3), 27);
    TEXTS(37, 3, 37);
    TEXTS(41, 3, 40);
    return 0;
}

static uint64_t write_e(uint8_t *l, const uint8_t *r) {
    unsigned refusal;
    FIELD(write_number(l, 3, 7, 3, HELD, r, 9, 0), 3);
    FIELD(write_number(l, 11, 7, 3, HELD, r, 9, 1), 11);
    FIELD(write_number(l, 19, 7, 3, HELD, r, 9, 2), 19);
    FIELD(write_number(l, 27, 7, 3, HELD, r, 9, 3), 27);
    FIELD(write_number(l, 35, 7, 3, HELD, r, 9, 4), 35);
    FIELD(write_number(l, 43, 4, 0, HELD, r, 9, 5), 43);
    FIELD(write_number(l, 48, 4, 0, HELD, r, 9, 6), 48);
    FIELD(write_number(l, 53, 5, 1, HELD, r, 9, 7), 53);
    FIELD(write_number(l, 59, 5, 1, HELD, r, 9, 8), 59);
    return 0;
}

static uint64_t write_m(uint8_t *l, const uint8_t *r) {
    unsigned refusal;
    TEXTS(3, 1, 19);
    FIELD(write_number(l, 5, 6, 2, HELD, r, 2, 0), 5);
    FIELD(write_number(l, 11, 3, 0, HELD, r, 2, 1), 11);
    TEXTS(15, 4, 20);
    return 0;
}

static uint64_t write_p(uint8_t *l, const uint8_t *r) {
    unsigned refusal;
    TEXTS(3, 15, 10);
    TEXTS(19, 3, 25);
    TEXTS(23, 6, 28);
    TEXTS(30, 3, 34);
    FIELD(write_number(l, 34, 9, 3, HELD, r, 1, 0), 34);
    return 0;
}

static uint64_t write_a(uint8_t *l, const uint8_t *r) {
    unsigned refusal;
    TEXTS(3, 15, 19);
    TEXTS(19, 3, 34);
    FIELD(write_number(l, 23, 7, 2, HELD, r, 2, 0), 23);
    TEXTS(31, 6, 37);
    FIELD(write_number(l, 38, 6, 2, HELD, r, 2, 1), 38);
    return 0;
}

static uint64_t write_r(uint8_t *l, const uint8_t *r) {
    unsigned refusal;
    TEXTS(3, 76, 1);
    return 0;
}

static inline int is_card_record(const uint8_t *r, unsigned n) {
    for (unsigned k = 0; k < n; k++)
        if (r[1 + k] > 1 || (r[1 + k] == 0 && kept(r, n, k) != 0)) return 0;
    return 1;
}

/* The line of a record, and which card it is; `room` bytes are lent for it. */
static inline uint64_t card_line_of(const uint8_t *r, size_t n, size_t room, uint8_t *l, unsigned *card) {
    static const uint8_t numbers[7] = {8, 4, 9, 2, 1, 2, 0};
    if (n == 0 || r[0] < FIRST_CARD_KIND || r[0] >= FIRST_CARD_KIND + 7) return refused(6, 0);
    *card = r[0] - FIRST_CARD_KIND;
    if (n < card_sizes[*card] || !is_card_record(r, numbers[*card])) return refused(6, 0);
    if (room < card_widths[*card]) return refused(11, 0);
    memset(l, ' ', card_widths[*card]);
    l[0] = card_letters[*card];
    switch (*card) {
    case CARD_I: return write_i(l, r);
    case CARD_L: return write_l(l, r);
    case CARD_E: return write_e(l, r);
    case CARD_M: return write_m(l, r);
    case CARD_P: return write_p(l, r);
    case CARD_A: return write_a(l, r);
    default: return write_r(l, r);
    }
}

static inline uint64_t plain_write_card(const uint8_t *record, size_t n, uint8_t *out, size_t room) {
    uint8_t line[CARD_LINE];
    unsigned card;
    uint64_t refusal = card_line_of(record, n, room, line, &card);
    if (refusal) return refusal;
    memcpy(out, line, card_widths[card]);
    return (uint64_t)card_widths[card] << 24;
}

/* From a place, with a newline; one byte of what is left is the newline's. */
static inline uint64_t plain_write_card_record(const uint8_t *record, size_t n, uint8_t *out, size_t size, size_t at) {
    uint8_t line[CARD_LINE];
    unsigned card;
    uint64_t refusal = card_line_of(record, n, at < size ? size - at - 1 : 0, line, &card);
    if (refusal) return refusal;
    memcpy(out + at, line, card_widths[card]);
    out[at + card_widths[card]] = '\n';
    return (uint64_t)(at + card_widths[card] + 1) << 24;
}
