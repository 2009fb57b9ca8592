/* The quick look-up through the library's C call, against plain C and against the library's full look-up, in one run, on full rooms. Built
   and run by bench/run. Before anything is timed, plain C and the library look up the same pairs in the same rooms, in order and not; a
   difference prints the input and ends the program with 1. */
#include "rotmibel.h"
#include <time.h>

static void event(char *, unsigned, unsigned) __attribute__((noinline)); /* inlined, gcc warns of a line cut short, which none is */
#include "lines.h"

#define ROOM ROTMIBEL_ROOM
#define PAIRS ROTMIBEL_MOST_PAIRS
#define HELD ROTMIBEL_EVENT_LINE

/* ---- plain C, as a careful engineer would write it */

/* A pair as two numbers that compare as its bytes do. */
typedef struct { unsigned source; uint64_t identifier; } pair;

static inline unsigned two(const uint8_t *p) { return (unsigned)p[0] << 8 | p[1]; }
static inline uint64_t eight(const uint8_t *p) {
    return (uint64_t)p[0] << 56 | (uint64_t)p[1] << 48 | (uint64_t)p[2] << 40 | (uint64_t)p[3] << 32 | (uint64_t)p[4] << 24 |
           (uint64_t)p[5] << 16 | (uint64_t)p[6] << 8 | p[7];
}

/* Below 0, 0 or above 0 as a pair comes before that of a held line, is the same or comes after it. Comparing by memcmp, of the sources and
   then of the identifiers, makes bsearch take twice as long. */
static int order(const void *key, const void *line) {
    const pair *p = key;
    const uint8_t *l = line;
    unsigned source = two(l + 10);
    if (p->source != source) return p->source < source ? -1 : 1;
    uint64_t identifier = eight(l + 2);
    if (p->identifier != identifier) return p->identifier < identifier ? -1 : 1;
    return 0;
}

/* What is looked at before any line: 0, or the refusal. */
static inline uint64_t refusal(const uint8_t *room, size_t room_len, size_t source_len, size_t identifier_len) {
    if (room_len < ROOM) return ROTMIBEL_SHORT;
    if (two(room) > PAIRS) return ROTMIBEL_DISORDER;
    return source_len != 2 || identifier_len != 8 ? ROTMIBEL_BAD_LENGTH : 0;
}

/* By the C library's bsearch, the yardstick; the entries examined are not counted. */
static uint64_t plain_bsearch(const uint8_t *room, size_t room_len, const uint8_t *source, size_t source_len, const uint8_t *identifier,
                              size_t identifier_len) {
    uint64_t refused = refusal(room, room_len, source_len, identifier_len);
    if (refused) return refused;
    pair p = {two(source), eight(identifier)};
    const uint8_t *lines = room + 2, *line = bsearch(&p, lines, two(room), HELD, order);
    return line ? ROTMIBEL_HELD | (uint64_t)(line - lines) / HELD << 24 : ROTMIBEL_NOT_HELD;
}

/* By the rule itself, with the count. */
static uint64_t plain_halving(const uint8_t *room, size_t room_len, const uint8_t *source, size_t source_len, const uint8_t *identifier,
                              size_t identifier_len) {
    uint64_t refused = refusal(room, room_len, source_len, identifier_len);
    if (refused) return refused;
    pair p = {two(source), eight(identifier)};
    unsigned first = 0, after = two(room), examined = 0;
    while (first < after) {
        unsigned half = (first + after) / 2;
        int o = order(&p, room + 2 + HELD * half);
        examined++;
        if (o == 0) return ROTMIBEL_HELD | (uint64_t)examined << 8 | (uint64_t)half << 24;
        if (o < 0) after = half; else first = half + 1;
    }
    return ROTMIBEL_NOT_HELD | (uint64_t)examined << 8;
}

/* ---- rooms and keys */

typedef struct { uint8_t source[2], identifier[8]; } key;
static uint8_t full[ROOM], room[ROOM + 60];

static void put_two(uint8_t *p, unsigned n) { p[0] = (uint8_t)(n >> 8); p[1] = (uint8_t)n; }
static uint8_t *held(uint8_t *in, unsigned place) { return in + 2 + HELD * place; }

static void taken(const char *line, size_t n, unsigned answer) {
    if (ROTMIBEL_ANSWER(rotmibel_take(full, ROOM, (const uint8_t *)line, n)) == answer) return;
    printf("a line of the full room is not answered %u: %.*s\n", answer, (int)n, line);
    exit(1);
}

/* The identifier and source of pair number k in the full room of catalogue.c. */
static void put_name(char *line, unsigned k) {
    static const char *const forms[3] = {"%08u", "%8u", "%5u   "};
    char identifier[16];
    snprintf(identifier, sizeof identifier, forms[k % 3], 7 * k);
    memcpy(line + 2, identifier, 8);
    memcpy(line + 10, "CIUS  ~!" + 2 * (k % 4), 2);
}

/* A full room: 512 held lines of four sources and a deletion below each of them. The pairs are those of catalogue.c's, or each source's
   identifiers follow one another, as a network counts, so that two of them differ in their last bytes only. */
static void fill(int in_a_row) {
    char line[81], gone[16];
    memset(full, 0, sizeof full);
    for (unsigned k = 0; k < PAIRS; k++) {
        event(line, 9000000 + 2 * (k / 4), k % 4);
        if (!in_a_row) { put_name(line, k); seal(line); }
        snprintf(gone, sizeof gone, "DE%.10s3", line + 2);
        taken(gone, 13, ROTMIBEL_NOTED);
        taken(line, HELD, ROTMIBEL_STORED);
    }
}

/* The pair of an entry, whatever its bytes. */
static key key_of(const uint8_t *line) {
    key k;
    memcpy(k.source, line + 10, 2);
    memcpy(k.identifier, line + 2, 8);
    return k;
}

/* A pair that the full room holds, or one right after it that it does not. */
static key drawn(int is_held) {
    key k = key_of(held(full, below(PAIRS)));
    if (!is_held) k.identifier[7]++;
    return k;
}

/* ---- the comparison */

static unsigned compared, answers[256];

/* Lengths are at most those of the buffers here, in which zeros follow the pair. */
static void both(size_t room_len, key k, size_t source_len, size_t identifier_len) {
    uint8_t source[4] = {k.source[0], k.source[1]}, identifier[12] = {0};
    memcpy(identifier, k.identifier, sizeof k.identifier);
    uint64_t a = rotmibel_quick_look_up(room, room_len, source, source_len, identifier, identifier_len);
    uint64_t b = plain_halving(room, room_len, source, source_len, identifier, identifier_len);
    compared++;
    answers[ROTMIBEL_ANSWER(b)]++;
    if (a == b) return;
    printf("quick look-up: the library answers %u, %u examined, place %zu, plain C %u, %u examined, place %zu\n", ROTMIBEL_ANSWER(a),
           ROTMIBEL_EXAMINED(a), ROTMIBEL_LENGTH(a), ROTMIBEL_ANSWER(b), ROTMIBEL_EXAMINED(b), ROTMIBEL_LENGTH(b));
    printf("room_len %zu, source_len %zu, identifier_len %zu; the room, then source and identifier:\n", room_len, source_len,
           identifier_len);
    for (size_t i = 0; i < ROOM; i++) printf("%02x", room[i]);
    printf("\n");
    for (size_t i = 0; i < sizeof k; i++) printf("%02x", ((const uint8_t *)&k)[i]);
    printf("\n");
    exit(1);
}

/* Look-ups in the room as it stands: of its entries' pairs, half of them with a byte changed; at times a length is wrong. */
static void look_about(unsigned times) {
    while (times--) {
        key k = key_of(held(room, below(PAIRS)));
        if (below(2)) ((uint8_t *)&k)[below(sizeof k)] ^= (uint8_t)(1 + below(255));
        size_t room_len = below(20) ? ROOM + below(61) : ROOM - 1 - (below(2) ? 0 : below(ROOM));
        both(room_len, k, below(20) ? 2 : below(5), below(20) ? 8 : below(13));
    }
}

/* A room in order that holds the first n lines of the full one. The full look-up finds the same. */
static void compare_in_order(unsigned n) {
    memset(room, 0, sizeof room);
    memcpy(held(room, 0), held(full, 0), HELD * n);
    put_two(room, n);
    look_about(60);
    for (unsigned i = 0; i < 8; i++) {
        key k = drawn(i % 2);
        both(ROOM, k, 2, 8);
        uint64_t a = rotmibel_quick_look_up(room, ROOM, k.source, 2, k.identifier, 8);
        uint64_t b = rotmibel_look_up(room, ROOM, k.source, 2, k.identifier, 8);
        if (ROTMIBEL_ANSWER(a) == ROTMIBEL_ANSWER(b) && ROTMIBEL_LENGTH(a) == ROTMIBEL_LENGTH(b)) continue;
        printf("%u lines held: the quick look-up answers %u, place %zu, the full one %u, place %zu\n", n, ROTMIBEL_ANSWER(a),
               ROTMIBEL_LENGTH(a), ROTMIBEL_ANSWER(b), ROTMIBEL_LENGTH(b));
        exit(1);
    }
}

static unsigned some_count(void) { return below(4) ? below(PAIRS + 1) : below(2) ? PAIRS - 1 + below(4) : below(65536); }

/* The full room with another count, lines that changed places or stand twice, or other bytes in their pairs. */
static void compare_damaged(void) {
    memcpy(room, full, ROOM);
    if (below(2)) put_two(room, some_count());
    for (unsigned i = below(40); i; i--) {
        uint8_t *a = held(room, below(PAIRS)), *b = held(room, below(PAIRS)), line[HELD];
        memcpy(line, a, HELD);
        switch (below(3)) {
        case 0: memmove(a, b, HELD); break;
        case 1: memmove(a, b, HELD); memcpy(b, line, HELD); break;
        default: a[2 + below(10)] = (uint8_t)below(256);
        }
    }
    look_about(40);
}

/* A room of two byte values, so that pairs meet. */
static void compare_random(void) {
    uint8_t values[2] = {(uint8_t)below(256), (uint8_t)below(256)};
    for (size_t i = 0; i < ROOM; i++) room[i] = values[below(2)];
    if (below(8)) put_two(room, some_count());
    look_about(40);
}

static void compare(void) {
    static const unsigned due[] = {ROTMIBEL_BAD_LENGTH, ROTMIBEL_SHORT, ROTMIBEL_DISORDER, ROTMIBEL_HELD, ROTMIBEL_NOT_HELD};
    for (unsigned n = 0; n <= PAIRS; n++) compare_in_order(n);
    for (unsigned i = 0; i < 2000; i++) compare_damaged();
    for (unsigned i = 0; i < 500; i++) compare_random();
    printf("the same by the library and by plain C: %u quick look-ups; by answer ", compared);
    for (unsigned i = 0; i < 256; i++) if (answers[i]) printf("  %u: %u", i, answers[i]);
    printf("\n");
    for (unsigned i = 0; i < sizeof due / sizeof *due; i++)
        if (!answers[due[i]]) { printf("no quick look-up answered %u\n", due[i]); exit(1); }
}

/* ---- timing, on full rooms */

#define LOOK_UPS 65536 /* so many that no branch predictor knows the order; 512 of them take less than half the time */
#define FEW 256        /* of the full look-up, which reads the whole room each time */
#define ROUNDS 100

typedef uint64_t look_up(const uint8_t *, size_t, const uint8_t *, size_t, const uint8_t *, size_t);
enum { BSEARCH, HALVING, FULL, QUICK, WAYS };
static const struct { const char *name; look_up *call; unsigned count; int counts_examined; } ways[WAYS] = {
    {"plain C, bsearch", plain_bsearch, LOOK_UPS, 0},
    {"plain C, the rule itself", plain_halving, LOOK_UPS, 1},
    {"library, full look-up", rotmibel_look_up, FEW, 0},
    {"library, quick look-up", rotmibel_quick_look_up, LOOK_UPS, 1},
};
static key keys[LOOK_UPS]; /* copies, not the room's own bytes */

static double seconds(void) { struct timespec t; clock_gettime(CLOCK_MONOTONIC, &t); return (double)t.tv_sec + 1e-9 * (double)t.tv_nsec; }

static uint64_t looked_up(look_up *call, const key *k) { return call(full, ROOM, k->source, 2, k->identifier, 8); }

/* The sum of what a way answers to its look-ups, each of which must be what the rule gives. */
static uint64_t sum_of(unsigned way) {
    uint64_t sum = 0;
    for (unsigned i = 0; i < ways[way].count; i++) {
        uint64_t r = looked_up(ways[way].call, &keys[i]), rule = looked_up(plain_halving, &keys[i]);
        if (!ways[way].counts_examined) rule -= (uint64_t)ROTMIBEL_EXAMINED(rule) << 8;
        if (r != rule) { printf("%s: another answer than the rule's\n", ways[way].name); exit(1); }
        sum += r;
    }
    return sum;
}

/* The seconds of one look-up in a round of them, whose answers have this sum. */
static double timed(unsigned way, uint64_t wanted) {
    look_up *volatile hidden = ways[way].call;
    look_up *call = hidden;
    uint64_t sum = 0;
    double t = seconds();
    for (unsigned i = 0; i < ways[way].count; i++) sum += looked_up(call, &keys[i]);
    t = seconds() - t;
    if (sum != wanted) { printf("%s: other answers when timed\n", ways[way].name); exit(1); }
    return t / ways[way].count;
}

/* Look-ups of drawn pairs: all held, or mixed, about half of them held. */
static void report(const char *what, int mixed) {
    double best[WAYS];
    uint64_t sums[WAYS];
    unsigned are_held = 0;
    for (unsigned i = 0; i < LOOK_UPS; i++) {
        keys[i] = drawn(!mixed || below(2));
        are_held += ROTMIBEL_ANSWER(looked_up(plain_halving, &keys[i])) == ROTMIBEL_HELD;
    }
    for (unsigned w = 0; w < WAYS; w++) { best[w] = 1e9; sums[w] = sum_of(w); }
    for (unsigned round = 0; round < ROUNDS; round++)
        for (unsigned w = 0; w < WAYS; w++) {
            double t = timed(w, sums[w]);
            if (t < best[w]) best[w] = t;
        }
    printf("%s, %u of %d held\n", what, are_held, LOOK_UPS);
    for (unsigned w = 0; w < WAYS; w++) printf("  %-24s %9.1f ns a call %10.0f a second\n", ways[w].name, 1e9 * best[w], 1 / best[w]);
    printf("  ratio, quick to bsearch  %9.2f\n", best[QUICK] / best[BSEARCH]);
    printf("  ratio, quick to the rule %9.2f\n", best[QUICK] / best[HALVING]);
    printf("  ratio, full to quick     %9.0f\n", best[FULL] / best[QUICK]);
}

static void report_room(const char *what, int in_a_row) {
    fill(in_a_row);
    printf("a full room, %s; best of %d rounds of %d look-ups, %d of the full look-up\n", what, ROUNDS, LOOK_UPS, FEW);
    report("look-ups of held pairs (answer 27)", 0);
    report("look-ups of pairs held and not (answers 27 and 28)", 1);
}

int main(void) {
    fill(0);
    compare();
    report_room("its pairs those of catalogue.c's", 0);
    report_room("its identifiers in a row", 1);
    return 0;
}
