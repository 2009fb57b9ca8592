/* The catalogue's C calls against plain C of the same rules, in one run. Built and run by bench/run. Before anything is timed, both
   take the same pseudo-random lines and judge the same damaged rooms; a difference prints the input and ends the program with 1. */
#include "rotmibel.h"
#include "calendar.h"
#include <stdio.h>
#include <stdlib.h>
#include <string.h>
#include <time.h>

#define ROOM ROTMIBEL_ROOM
#define PAIRS ROTMIBEL_MOST_PAIRS
#define LINKS ROTMIBEL_MOST_LINKS
#define HELD ROTMIBEL_EVENT_LINE
#define GONE ROTMIBEL_DELETION_ENTRY
#define LINK ROTMIBEL_LINK_ENTRY
#define LONGEST ROTMIBEL_LINE
#define PARTS 15 /* an LI line's type begins after this column */

/* ---- plain C, as a careful engineer would write it */

typedef struct { uint8_t col, width, required; int32_t lo, hi; } field;
enum { YEAR, MONTH, DAY }; /* where the table has the date; the calendar says which of the 31 days a month has */
static const field fields[19] = {
    {14, 4, 1, -999, 6070}, {18, 2, 1, 1, 12}, {20, 2, 1, 1, 31}, {22, 2, 1, 0, 23}, {24, 2, 1, 0, 59}, {26, 3, 1, 0, 599},
    {29, 7, 1, -900000, 900000}, {36, 8, 1, -1800000, 1800000}, {44, 4, 0, -999, 9999}, {48, 2, 0, -9, 99}, {50, 3, 0, 0, 999},
    {53, 3, 0, 0, 999}, {56, 4, 0, 0, 9999}, {60, 4, 0, 0, 9999}, {64, 4, 0, 0, 9999}, {68, 4, 0, 0, 9999}, {72, 2, 0, 0, 99},
    {75, 2, 0, 0, 99}, {77, 2, 0, 0, 99},
};

static uint64_t answered(unsigned number, unsigned column) { return number | (uint64_t)column << 8; }
static inline int text(uint8_t b) { return b >= 32 && b <= 126; }
static inline int name(uint8_t b) { return text(b) && b != '[' && b != ']'; }

/* 0 a value, 1 missing, 2 bad form */
static inline int int_field(const uint8_t *p, int w, int32_t *out) {
    int i = 0, neg = 0;
    while (i < w && p[i] == ' ') i++;
    if (i == w) return 1;
    if (p[i] == '-') { neg = 1; i++; }
    if (i == w) return 2;
    int32_t v = 0;
    for (; i < w; i++) {
        unsigned d = (unsigned)p[i] - '0';
        if (d > 9) return 2;
        v = v * 10 + (int32_t)d;
    }
    *out = neg ? -v : v;
    return 0;
}

/* fields k to last and their values: 0, or the first refusal */
static inline uint64_t read_fields(const uint8_t *p, int k, int last, int32_t *values) {
    for (; k <= last; k++) {
        int32_t v = 0;
        int r = int_field(p + fields[k].col - 1, fields[k].width, &v);
        if (r == 1 && fields[k].required) return answered(5, fields[k].col);
        if (r == 2) return answered(6, fields[k].col);
        if (r == 0 && (v < fields[k].lo || v > fields[k].hi)) return answered(7, fields[k].col);
        values[k] = v;
    }
    return 0;
}

/* an E line of 80 bytes after its type: 0, or its refusal */
static uint64_t event_refusal(const uint8_t *p) {
    uint16_t sum = 0;
    for (int i = 0; i < 79; i++) {
        uint8_t b = p[i];
        if (!text(b) || (i >= 2 && i <= 12 && !name(b))) return answered(2, i + 1);
        sum = (uint16_t)((sum >> 1) | (sum << 15));
        sum = (uint16_t)(sum + b);
    }
    if (p[79] != 36 + sum % 91) return answered(9, 80);
    int32_t values[19];
    uint64_t r = read_fields(p, YEAR, DAY, values);
    if (r) return r;
    if (values[DAY] > days_in(values[YEAR], values[MONTH])) return answered(7, fields[DAY].col);
    return read_fields(p, DAY + 1, 18, values);
}

/* the lowest barred byte, brackets barred in columns 3 to the last of the version: 0, or its refusal */
static uint64_t barred_refusal(const uint8_t *p, size_t n, size_t names_end) {
    for (size_t i = 0; i < n; i++)
        if (!text(p[i]) || (i >= 2 && i < names_end && !name(p[i]))) return answered(2, (unsigned)i + 1);
    return 0;
}

static uint64_t delete_refusal(const uint8_t *p, size_t n) {
    return n < 13 || n > 80 ? answered(1, 0) : barred_refusal(p, n, 13);
}

static uint64_t link_refusal(const uint8_t *p, size_t n) {
    if (n < 20 || n > LONGEST) return answered(1, 0);
    uint64_t r = barred_refusal(p, n, 14);
    if (r) return r;
    const uint8_t *type = p + PARTS, *end = p + n, *a = memchr(type, ' ', (size_t)(end - type));
    if (type[-1] != ' ' || !a || a == type || a > type + 16) return answered(6, PARTS);
    const uint8_t *address = a + 1, *b = memchr(address, ' ', (size_t)(end - address));
    return !b || b == address || b + 1 == end || b[1] == ' ' ? answered(6, PARTS) : 0;
}

static inline int is(const uint8_t *p, const char *type) { return p[0] == type[0] && p[1] == type[1]; }

static uint64_t line_refusal(const uint8_t *p, size_t n) {
    if (n < 2) return answered(1, 0);
    if (is(p, "E ")) return n == HELD ? event_refusal(p) : answered(1, 0);
    if (is(p, "DE")) return delete_refusal(p, n);
    return is(p, "LI") ? link_refusal(p, n) : answered(3, 1);
}

/* A pair as two numbers that compare as its bytes do. */
typedef struct { unsigned source; uint64_t identifier; } pair;

static inline unsigned two(const uint8_t *p) { return (unsigned)p[0] << 8 | p[1]; }
static inline uint64_t eight(const uint8_t *p) {
    return (uint64_t)p[0] << 56 | (uint64_t)p[1] << 48 | (uint64_t)p[2] << 40 | (uint64_t)p[3] << 32 | (uint64_t)p[4] << 24 |
           (uint64_t)p[5] << 16 | (uint64_t)p[6] << 8 | p[7];
}
static inline pair line_pair(const uint8_t *line) { return (pair){two(line + 10), eight(line + 2)}; }
static inline pair gone_pair(const uint8_t *gone) { return (pair){two(gone), eight(gone + 2)}; }
static inline int below(pair a, pair b) { return a.source != b.source ? a.source < b.source : a.identifier < b.identifier; }

/* The order of two links by source, identifier, type. A type ends at a blank, which is below every byte of a type, so a shorter type
   comes before one that it begins. */
static int link_order(const uint8_t *a, const uint8_t *b) {
    pair p = line_pair(a), q = line_pair(b);
    if (below(p, q)) return -1;
    if (below(q, p)) return 1;
    size_t i = PARTS;
    while (a[i] == b[i] && a[i] != ' ') i++;
    return a[i] - b[i];
}

static int zeros(const uint8_t *p, size_t n) { return n == 0 || (p[0] == 0 && !memcmp(p, p + 1, n - 1)); }

/* The sections of a room whose counts are in order: their entries and how many there are, and the place after them. */
typedef struct { uint8_t *held, *gone, *links, *end; unsigned n, m, k; } sections;

static int sections_of(const uint8_t *room, sections *s) {
    s->held = (uint8_t *)room + 2;
    s->n = two(room);
    if (s->n > PAIRS) return 0;
    s->gone = s->held + HELD * s->n + 2;
    s->m = two(s->gone - 2);
    if (s->m > PAIRS) return 0;
    s->links = s->gone + GONE * s->m + 2;
    s->k = two(s->links - 2);
    if (s->k > LINKS) return 0;
    s->end = s->links + LINK * s->k;
    return 1;
}

static int links_in_order(const sections *s) {
    for (unsigned i = 0; i < s->k; i++) {
        const uint8_t *line = s->links + LINK * i + 1;
        size_t n = line[-1];
        if (n < 2 || !is(line, "LI") || link_refusal(line, n) || !zeros(line + n, LONGEST - n)) return 0;
        if (i && link_order(line - LINK, line) >= 0) return 0;
    }
    return 1;
}

/* The pairs named in a room of ROOM bytes, or -1 if it is not in order. */
static int pairs_named(const uint8_t *room, sections *s) {
    if (!sections_of(room, s)) return -1;
    for (unsigned j = 0; j < s->m; j++) {
        const uint8_t *d = s->gone + GONE * j;
        for (int i = 0; i < GONE; i++)
            if (!name(d[i])) return -1;
        if (j && !below(gone_pair(d - GONE), gone_pair(d))) return -1;
    }
    unsigned both = 0, j = 0;
    for (unsigned i = 0; i < s->n; i++) {
        const uint8_t *line = s->held + HELD * i;
        pair p = line_pair(line);
        if (i && !below(line_pair(line - HELD), p)) return -1;
        if (!is(line, "E ") || event_refusal(line)) return -1;
        while (j < s->m && below(gone_pair(s->gone + GONE * j), p)) j++;
        if (j < s->m && !below(p, gone_pair(s->gone + GONE * j))) {
            if (line[12] <= s->gone[GONE * j + 10]) return -1;
            both++;
        }
    }
    unsigned named = s->n + s->m - both;
    if (named > PAIRS || !links_in_order(s) || !zeros(s->end, (size_t)(room + ROOM - s->end))) return -1;
    return (int)named;
}

static uint64_t plain_in_order(const uint8_t *room, size_t len) {
    sections s;
    if (len < ROOM) return answered(11, 0);
    return pairs_named(room, &s) < 0 ? answered(13, 0) : 0;
}

/* The first of n rows whose pair is not below p; *found says whether it is p's. */
static unsigned find_held(const uint8_t *rows, unsigned n, pair p, int *found) {
    unsigned lo = 0, hi = n;
    while (lo < hi) {
        unsigned mid = (lo + hi) / 2;
        if (below(line_pair(rows + HELD * mid), p)) lo = mid + 1; else hi = mid;
    }
    *found = lo < n && !below(p, line_pair(rows + HELD * lo));
    return lo;
}

static unsigned find_gone(const uint8_t *rows, unsigned n, pair p, int *found) {
    unsigned lo = 0, hi = n;
    while (lo < hi) {
        unsigned mid = (lo + hi) / 2;
        if (below(gone_pair(rows + GONE * mid), p)) lo = mid + 1; else hi = mid;
    }
    *found = lo < n && !below(p, gone_pair(rows + GONE * lo));
    return lo;
}

static void put_two(uint8_t *p, unsigned n) { p[0] = (uint8_t)(n >> 8); p[1] = (uint8_t)n; }

/* Opens a gap of an entry's size for one more entry of a section, whose count is at `count`. */
static void open_gap(uint8_t *at, size_t size, uint8_t *end, uint8_t *count) {
    memmove(at + size, at, (size_t)(end - at));
    put_two(count, two(count) + 1);
}

static void put_link(uint8_t *entry, const uint8_t *line, size_t n) {
    entry[0] = (uint8_t)n;
    memcpy(entry + 1, line, n);
    memset(entry + 1 + n, 0, LONGEST - n);
}

static uint64_t take_link(const sections *s, const uint8_t *line, size_t n) {
    unsigned lo = 0, hi = s->k;
    while (lo < hi) {
        unsigned mid = (lo + hi) / 2;
        if (link_order(s->links + LINK * mid + 1, line) < 0) lo = mid + 1; else hi = mid;
    }
    uint8_t *entry = s->links + LINK * lo;
    if (lo < s->k && link_order(entry + 1, line) == 0) {
        if (two(entry + 13) > two(line + 12)) return answered(23, 0);
        if (entry[0] == n && !memcmp(entry + 1, line, n)) return answered(22, 0);
        put_link(entry, line, n);
        return answered(21, 0);
    }
    if (s->k == LINKS) return answered(16, 0);
    open_gap(entry, LINK, s->end, s->links - 2);
    put_link(entry, line, n);
    return answered(20, 0);
}

static uint64_t plain_take(uint8_t *room, size_t len, const uint8_t *line, size_t line_len) {
    sections s;
    if (len < ROOM) return answered(11, 0);
    int pairs = pairs_named(room, &s);
    if (pairs < 0) return answered(13, 0);
    uint64_t r = line_refusal(line, line_len);
    if (r) return r;
    if (is(line, "LI")) return take_link(&s, line, line_len);
    int event = is(line, "E "), is_held, is_gone;
    uint8_t v = line[12];
    pair p = line_pair(line);
    uint8_t *h = s.held + HELD * find_held(s.held, s.n, p, &is_held), *g = s.gone + GONE * find_gone(s.gone, s.m, p, &is_gone);
    if (!event && v == ' ') {
        if (!is_held) return answered(26, 0);
        v = h[12];
    }
    if (!is_held && !is_gone && pairs == PAIRS) return answered(12, 0);
    if (is_gone && g[10] >= v) return answered(23, 0);
    if (event) {
        if (is_held) {
            if (h[12] > v) return answered(23, 0);
            if (!memcmp(h, line, HELD)) return answered(22, 0);
            memcpy(h, line, HELD);
            return answered(21, 0);
        }
        open_gap(h, HELD, s.end, room);
        memcpy(h, line, HELD);
        return answered(20, 0);
    }
    if (!is_gone) {
        open_gap(g, GONE, s.end, s.gone - 2);
        memcpy(g, line + 10, 2);
        memcpy(g + 2, line + 2, 8);
        s.end += GONE;
    }
    g[10] = v;
    if (!is_held || h[12] > v) return answered(25, 0);
    memmove(h, h + HELD, (size_t)(s.end - h - HELD));
    memset(s.end - HELD, 0, HELD);
    put_two(room, s.n - 1);
    return answered(24, 0);
}

static uint64_t plain_look_up(const uint8_t *room, size_t len, const uint8_t *source, size_t source_len, const uint8_t *identifier,
                              size_t identifier_len) {
    sections s;
    if (len < ROOM) return answered(11, 0);
    if (pairs_named(room, &s) < 0) return answered(13, 0);
    if (source_len != 2 || identifier_len != 8) return answered(1, 0);
    int found;
    unsigned at = find_held(s.held, s.n, (pair){two(source), eight(identifier)}, &found);
    return found ? 27 | (uint64_t)at << 24 : 28;
}

/* ---- lines */

static uint64_t state = 88172645463325252u;
static unsigned next(unsigned n) {
    state ^= state << 13;
    state ^= state >> 7;
    state ^= state << 17;
    return (unsigned)((state >> 20) % n);
}

static void seal(uint8_t *l) {
    uint16_t sum = 0;
    for (int i = 0; i < 79; i++) { sum = (uint16_t)((sum >> 1) | (sum << 15)); sum = (uint16_t)(sum + l[i]); }
    l[79] = (uint8_t)(36 + sum % 91);
}

static void put_number(uint8_t *p, int w, int v, uint8_t fill) {
    int neg = v < 0, i = w - 1;
    if (neg) v = -v;
    do { p[i--] = (uint8_t)('0' + v % 10); v /= 10; } while (v && i >= 0);
    if (neg && fill == ' ') { p[i--] = '-'; neg = 0; }
    while (i >= 0) p[i--] = fill;
    if (neg) p[0] = '-';
}

/* Identifier, source and version of pair number k; distinct for distinct k. */
static void put_name(uint8_t *l, unsigned k, uint8_t version) {
    memset(l + 2, ' ', 8);
    if (k % 3 == 0) put_number(l + 2, 8, (int)(7 * k), '0');
    else put_number(l + 2, k % 3 == 1 ? 8 : 5, (int)(7 * k), ' ');
    memcpy(l + 10, "CIUS  ~!" + 2 * (k % 4), 2);
    l[12] = version;
}

/* An acceptable E line; its numbers follow from the variant alone. */
static void make_event(uint8_t *l, unsigned k, uint8_t version, unsigned variant) {
    uint32_t s = 2654435761u * (variant + 1);
    int32_t values[19];
    memset(l, ' ', 80);
    l[0] = 'E';
    put_name(l, k, version);
    for (int f = 0; f < 19; f++) {
        s = s * 1664525u + 1013904223u;
        if (!fields[f].required && s >> 29 == 0) continue;
        int32_t lo = fields[f].lo, hi = f == DAY ? days_in(values[YEAR], values[MONTH]) : fields[f].hi;
        values[f] = lo + (int32_t)((s >> 4) % (uint32_t)(hi - lo + 1));
        put_number(l + fields[f].col - 1, fields[f].width, values[f], variant % 2 ? '0' : ' ');
    }
    l[73] = "LBw "[variant % 4];
    l[78] = "h []"[variant % 4];
    seal(l);
}

/* An acceptable DE line; its length. */
static size_t make_delete(uint8_t *l, unsigned k, uint8_t version) {
    size_t n = 13 + (next(2) ? next(68) : 0);
    memcpy(l, "DE", 2);
    put_name(l, k, version);
    for (size_t i = 13; i < n; i++) l[i] = (uint8_t)(32 + next(95));
    return n;
}

/* An acceptable LI line of one of six types; its length. */
static size_t make_link(uint8_t *l, unsigned k, uint8_t version) {
    static const char *const types[6] = {"f", "fm", "fmx", "map", "~", "sixteen-bytes-it"};
    static const char *const texts[4] = {"delete", "delete:", "a page", "delete "};
    size_t n = (size_t)sprintf((char *)l + PARTS, "%s http://whatever/%0*u %s", types[next(6)], (int)next(40), k, texts[next(4)]) + PARTS;
    memcpy(l, "LI", 2);
    put_name(l, k, version);
    l[13] = (uint8_t)"01 ~"[next(4)];
    l[14] = ' ';
    if (!next(3)) for (size_t end = next(4) ? n + next(LONGEST + 1 - (unsigned)n) : LONGEST; n < end; n++) l[n] = (uint8_t)(32 + next(95));
    return n;
}

/* The date of an E line made a day at the end of a month; about a third of these days are not in the calendar. */
static void put_month_end(uint8_t *l) {
    static const int years[8] = {-400, -100, -4, -1, 0, 1900, 2000, 2024};
    put_number(l + fields[YEAR].col - 1, 4, years[next(8)], '0');
    put_number(l + fields[MONTH].col - 1, 2, next(2) ? 2 : 1 + (int)next(12), '0');
    put_number(l + fields[DAY].col - 1, 2, 28 + (int)next(4), '0');
}

/* A line damaged in one of several ways, not all of which make it a refused one; its length. */
#define PLACES 300
static size_t damage(uint8_t *l, size_t n) {
    const field *f = &fields[next(19)];
    unsigned kind = next(12);
    switch (kind) {
    case 0: case 1: l[next((unsigned)n)] = (uint8_t)next(256); break;
    case 2: l[next(2) ? 2 + next(14) : next((unsigned)n)] = next(2) ? '[' : ']'; break;
    case 9: l[next((unsigned)n)] = ' '; break;
    case 10: { unsigned at = next((unsigned)n); memmove(l + at + 1, l + at, n - at); l[at] = ' '; n++; break; }
    case 3: if (n == 80) memset(l + f->col - 1, ' ', f->width); break;
    case 4: case 5:
        if (n == 80) for (int i = 0; i < f->width; i++) l[f->col - 1 + i] = (uint8_t)"0123456789-+ ."[next(kind == 4 ? 10 : 14)];
        break;
    case 6: if (n == 80) put_number(l + f->col - 1, f->width, next(2) ? f->hi + (int)next(2) : f->lo - (int)next(2), '0'); break;
    case 11: if (n == 80) put_month_end(l); break;
    case 7: memset(l + n, ' ', PLACES - n); n = next(3) ? next(next(2) ? 100 : PLACES) : n + 1 - 2 * next(2); break;
    default: l[next(2)] = (uint8_t)"ED LI\n"[next(6)];
    }
    if (kind && n == 80 && is(l, "E ")) seal(l);
    return n;
}

/* ---- the comparison */

#define TAIL 60     /* bytes past a room, which no call may change */
#define KEPT 40
static uint8_t ours[ROOM + TAIL], plain[ROOM + TAIL], before[ROOM + TAIL], kept[KEPT][ROOM], full[ROOM], linked[ROOM];
static unsigned kept_rooms, takes, look_ups, rooms, answers[256], looked[256], judged[256];

static void show(const char *what, const uint8_t *p, size_t n) {
    printf("%s, %zu bytes: ", what, n);
    for (size_t i = 0; i < n; i++) printf(name(p[i]) && p[i] != '\\' ? "%c" : "\\x%02x", p[i]);
    printf("\n");
}

static void differ(const char *call, uint64_t library, uint64_t c, const uint8_t *room, size_t room_len) {
    size_t n = room_len;
    while (n && !room[n - 1]) n--;
    printf("%s: the library answers %u column %u length %zu, plain C %u column %u length %zu\n", call, ROTMIBEL_ANSWER(library),
           ROTMIBEL_COLUMN(library), ROTMIBEL_LENGTH(library), ROTMIBEL_ANSWER(c), ROTMIBEL_COLUMN(c), ROTMIBEL_LENGTH(c));
    for (size_t i = 0; i < sizeof ours; i++)
        if (ours[i] != plain[i]) {
            printf("the rooms differ from byte %zu: library %u, plain C %u\n", i, ours[i], plain[i]);
            break;
        }
    printf("the room has %zu bytes, from %zu on zero\n", room_len, n);
    show("the room before", room, n);
}

/* One line into both rooms. */
static uint64_t both_take(const uint8_t *line, size_t n, size_t room_len) {
    memcpy(before, plain, sizeof before);
    uint64_t a = rotmibel_take(ours, room_len, line, n), b = plain_take(plain, room_len, line, n);
    takes++;
    answers[ROTMIBEL_ANSWER(b)]++;
    if (a != b || memcmp(ours, plain, sizeof ours)) {
        differ("take", a, b, before, room_len);
        show("the line", line, n);
        exit(1);
    }
    return b;
}

static void both_look_up(const uint8_t *source, size_t source_len, const uint8_t *identifier, size_t identifier_len,
                         size_t room_len) {
    uint64_t a = rotmibel_look_up(ours, room_len, source, source_len, identifier, identifier_len);
    uint64_t b = plain_look_up(plain, room_len, source, source_len, identifier, identifier_len);
    look_ups++;
    looked[ROTMIBEL_ANSWER(b)]++;
    if (a != b) {
        differ("look-up", a, b, plain, room_len);
        show("the source", source, source_len);
        show("the identifier", identifier, identifier_len);
        exit(1);
    }
}

static void both_in_order(size_t room_len) {
    uint64_t a = rotmibel_in_order(ours, room_len), b = plain_in_order(plain, room_len);
    rooms++;
    judged[ROTMIBEL_ANSWER(b)]++;
    if (a != b) { differ("in order", a, b, plain, room_len); exit(1); }
}

static void empty_rooms(void) {
    memset(ours, 0, ROOM);
    memset(ours + ROOM, 0xa5, TAIL);
    memcpy(plain, ours, sizeof plain);
}

static size_t too_short(void) { return ROOM - 1 - (next(2) ? 0 : next(ROOM)); }
static void keep(void) { if (kept_rooms < KEPT) memcpy(kept[kept_rooms++], plain, ROOM); }

/* A line of pair number k whose version is near the one given, blank or high. */
static size_t some_line(uint8_t *l, unsigned k, unsigned version) {
    unsigned turn = next(40);
    uint8_t v = (uint8_t)(turn < 4 ? ' ' : turn == 4 ? '~' - next(3) : version + next(6));
    size_t n = HELD;
    unsigned kind = next(6);
    if (kind < 3) make_event(l, k, v, next(3));
    else n = kind < 5 ? make_delete(l, k, v) : make_link(l, k, v);
    return next(6) ? n : damage(l, n);
}

/* Takes into one room: `fill` pairs named at first, then `count` lines of `pairs` pairs. */
static void compare_takes(unsigned count, unsigned pairs, unsigned fill) {
    uint8_t l[PLACES];
    empty_rooms();
    for (unsigned k = 0; k < fill; k++) {
        if (k % 4) { make_event(l, k, '2', k % 3); both_take(l, HELD, ROOM); }
        else both_take(l, make_delete(l, k, '1'), ROOM);
    }
    for (unsigned i = 0; i < count; i++) {
        unsigned k = pairs > 50 && next(2) ? pairs - 1 - next(50) : next(pairs);
        size_t n = some_line(l, k, '!' + 56 * i / count);
        size_t room_len = next(200) ? ROOM + (next(4) ? 0 : next(TAIL + 1)) : too_short();
        uint64_t r = both_take(l, n, room_len);
        if (ROTMIBEL_ANSWER(r) >= 20 && next(2)) both_take(l, n, room_len);
        if (i % 16 == 0) {
            unsigned bad = next(8);
            put_name(l, next(pairs), '0');
            if (bad == 7) l[2 + next(10)] = (uint8_t)next(256);
            both_look_up(l + 10, bad == 5 ? next(4) : 2, l + 2, bad == 6 ? next(10) : 8, room_len);
        }
    }
    both_in_order(ROOM);
}

/* Rooms of 512 pairs: held lines, deletions, or both with the held lines above; and with as many links as there can be, and one more. */
static void fill_rooms(int with_held, int with_gone, int with_links) {
    uint8_t l[PLACES];
    empty_rooms();
    for (unsigned i = 0; i < PAIRS; i++) {
        unsigned k = i * 5 % PAIRS;
        if (with_gone) both_take(l, make_delete(l, k, '1'), ROOM);
        if (with_held) { make_event(l, k, '2', k); both_take(l, HELD, ROOM); }
        if (with_links && i <= LINKS) both_take(l, make_link(l, k, '1'), ROOM);
    }
    both_in_order(ROOM);
    keep();
}

/* A byte made one of the likely ones, or one more or less. */
static void change(uint8_t *p, const uint8_t *likely, unsigned n) { *p = next(2) ? likely[next(n)] : (uint8_t)(*p + 1 - 2 * next(2)); }

/* A kept room with one byte or count changed, at times the check character of the held line that was hit made good; or with a byte
   repeated after its entries, the type of a held line or link made DE, or the date of a held line a day at the end of a month. */
static void compare_damaged(void) {
    static const uint8_t likely[] = {0, 1, ' ', '0', '1', '2', '~', 127, '[', ']', 128, 255};
    const uint8_t *from = kept[next(kept_rooms)];
    uint8_t l[PLACES];
    empty_rooms();
    memcpy(plain, from, ROOM);
    sections s;
    sections_of(plain, &s);
    unsigned used = (unsigned)(s.end - plain);
    uint8_t *count = next(3) ? next(2) ? plain : s.gone - 2 : s.links - 2, *p;
    switch (next(11)) {
    case 0: put_two(count, next(2) ? next(next(2) ? 67 : 515) : next(65536)); break;
    case 1: put_two(count, two(count) + 1 - 2 * next(2)); break;
    case 2:
        if (!next(4)) plain[ROOM - 1] = (uint8_t)next(3);
        else if (!next(4)) memset(plain + used, (int)next(3), ROOM - used);
        else if (used < ROOM) plain[used + next(next(2) && ROOM - used > 11 ? 11 : ROOM - used)] = (uint8_t)next(256);
        break;
    case 3: plain[next(ROOM)] = (uint8_t)next(256); break;
    case 4: case 5:
        if (s.m == 0) break;
        change(s.gone + GONE * next(s.m) + (next(2) ? 9 + next(2) : next(GONE)), likely, sizeof likely);
        break;
    case 6: case 7: case 8:
        if (s.k == 0) break;
        p = s.links + LINK * next(s.k);
        if (!next(8)) memcpy(p + 1, "DE", 2);
        else change(p + (next(3) ? next(next(2) ? 20 : p[0] + 1) : next(LINK)), likely, sizeof likely);
        break;
    default:
        if (s.n == 0) break;
        p = s.held + HELD * next(s.n);
        if (!next(16)) memcpy(p, "DE", 2);
        else if (!next(8)) put_month_end(p);
        else change(p + (next(2) ? next(HELD) : 2 + next(11)), likely, sizeof likely);
        if (next(4)) seal(p);
    }
    if (!memcmp(plain, from, ROOM)) return;
    memcpy(ours, plain, ROOM);
    both_in_order(next(50) ? ROOM + next(TAIL + 1) : too_short());
    if (next(2)) both_take(l, some_line(l, next(PAIRS), '0'), ROOM);
    if (!next(8)) { put_name(l, next(PAIRS), '0'); both_look_up(l + 10, 2, l + 2, 8, ROOM); }
}

static void list(const char *what, const unsigned *counts) {
    printf("  %s ", what);
    for (unsigned i = 0; i < 256; i++) if (counts[i]) printf("  %u: %u", i, counts[i]);
    printf("\n");
}

static void compare(void) {
    static const struct { unsigned rooms, count, pairs, fill; } runs[3] = {
        {1000, 100, 4, 0}, {40, 1200, 40, 0}, {4, 2500, 530, 505},
    };
    static const unsigned due[] = {1, 2, 3, 5, 6, 7, 9, 11, 12, 13, 16, 20, 21, 22, 23, 24, 25, 26};
    empty_rooms();
    keep();
    fill_rooms(1, 0, 0);
    fill_rooms(0, 1, 1);
    fill_rooms(0, 0, 1);
    fill_rooms(1, 1, 1);
    memcpy(linked, plain, ROOM);
    fill_rooms(1, 1, 0);
    memcpy(full, plain, ROOM);
    for (unsigned r = 0; r < 3; r++)
        for (unsigned i = 0; i < runs[r].rooms; i++) {
            compare_takes(runs[r].count, runs[r].pairs, runs[r].fill);
            if (i < 12) keep();
        }
    rooms = 0;
    memset(judged, 0, sizeof judged);
    for (unsigned i = 0; i < 40000; i++) compare_damaged();
    printf("the same by the library and by plain C: %u takes, %u look-ups, %u damaged rooms judged; by answer\n", takes, look_ups, rooms);
    list("takes", answers);
    list("look-ups", looked);
    list("rooms", judged);
    for (unsigned i = 0; i < sizeof due / sizeof *due; i++)
        if (!answers[due[i]]) { printf("no take answered %u\n", due[i]); exit(1); }
}

/* ---- timing, on a full room with no links and on one with all of them */

#define CALLS 16
#define ROUNDS 100

static uint8_t *held(unsigned k) { return full + 2 + HELD * (k * 37 % PAIRS); }
static uint64_t order_plain(unsigned k) { (void)k; return plain_in_order(full, ROOM); }
static uint64_t order_ours(unsigned k) { (void)k; return rotmibel_in_order(full, ROOM); }
static uint8_t lines[PAIRS][HELD];
static uint64_t take_plain(unsigned k) { return plain_take(full, ROOM, lines[k * 37 % PAIRS], HELD); }
static uint64_t take_ours(unsigned k) { return rotmibel_take(full, ROOM, lines[k * 37 % PAIRS], HELD); }
static uint64_t look_plain(unsigned k) { return plain_look_up(full, ROOM, held(k) + 10, 2, held(k) + 2, 8); }
static uint64_t look_ours(unsigned k) { return rotmibel_look_up(full, ROOM, held(k) + 10, 2, held(k) + 2, 8); }
static uint64_t linked_order_plain(unsigned k) { (void)k; return plain_in_order(linked, ROOM); }
static uint64_t linked_order_ours(unsigned k) { (void)k; return rotmibel_in_order(linked, ROOM); }
static uint8_t links[LINKS][LINK];
static uint64_t link_plain(unsigned k) { return plain_take(linked, ROOM, links[k * 37 % LINKS] + 1, links[k * 37 % LINKS][0]); }
static uint64_t link_ours(unsigned k) { return rotmibel_take(linked, ROOM, links[k * 37 % LINKS] + 1, links[k * 37 % LINKS][0]); }

typedef uint64_t work(unsigned);

/* The seconds of a round of calls, each of which gives the answer. */
static double timed(work *w, unsigned first, unsigned answer) {
    work *volatile call = w;
    unsigned wrong = 0;
    struct timespec a, b;
    clock_gettime(CLOCK_MONOTONIC, &a);
    for (unsigned k = first; k < first + CALLS; k++) wrong += ROTMIBEL_ANSWER(call(k)) != answer;
    clock_gettime(CLOCK_MONOTONIC, &b);
    if (wrong) { printf("a timed call does not answer %u\n", answer); exit(1); }
    return (double)(b.tv_sec - a.tv_sec) + 1e-9 * (double)(b.tv_nsec - a.tv_nsec);
}

static void report(const char *what, work *c, work *library, unsigned answer) {
    double best_c = 1e9, best = 1e9;
    for (unsigned i = 0; i < ROUNDS; i++) {
        double t = timed(c, i * CALLS, answer);
        if (t < best_c) best_c = t;
        t = timed(library, i * CALLS, answer);
        if (t < best) best = t;
    }
    printf("%s\n", what);
    printf("  plain C   %9.1f ns a call\n", 1e9 * best_c / CALLS);
    printf("  library   %9.1f ns a call\n", 1e9 * best / CALLS);
    printf("  ratio     %9.2f\n", best / best_c);
}

static void say_room(const char *what, const uint8_t *room) {
    sections s;
    int pairs = pairs_named(room, &s);
    printf("%s: %d pairs, %u held lines, %u deletions below them, %u links; best of %d rounds of %d calls\n", what, pairs, s.n, s.m,
           s.k, ROUNDS, CALLS);
}

int main(void) {
    compare();
    say_room("a full room", full);
    for (unsigned i = 0; i < PAIRS; i++) memcpy(lines[i], full + 2 + HELD * i, HELD);
    report("in order", order_plain, order_ours, 0);
    report("checked take of a line that is held (answer 22)", take_plain, take_ours, 22);
    report("look-up of a held pair (answer 27)", look_plain, look_ours, 27);
    say_room("a full room with links", linked);
    for (unsigned i = 0; i < LINKS; i++) memcpy(links[i], rotmibel_link_entry(linked, i), LINK);
    report("in order", linked_order_plain, linked_order_ours, 0);
    report("checked take of a link that is held (answer 22)", link_plain, link_ours, 22);
    return 0;
}
