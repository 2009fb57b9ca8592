/* Phase blocks read and walked through the library's C calls, against plain C of the same rules that goes over the block once, in one run.
   Built and run by bench/run. Both sides are checked to give the same numbers before anything is timed. */
#include "plain_rows.h"
#include "timing.h"

/* ---- plain C */

static uint8_t header[ROTMIBEL_BLOCK_LINE];

static size_t trimmed(const uint8_t *line, size_t n) {
    while (n && line[n - 1] == ' ') n--;
    return n;
}

typedef struct { const uint8_t *block; size_t size, at, phases; } walk;

/* The next line, in the parts that rotmibel_block_line answers; 0 at the end. */
static uint64_t plain_next(walk *w) {
    if (w->at >= w->size) return 0;
    const uint8_t *line = w->block + w->at, *newline = memchr(line, '\n', w->size - w->at);
    size_t end = newline ? (size_t)(newline - w->block) : w->size, next = newline ? end + 1 : end, phase = 0, n = end - w->at;
    unsigned kind;
    if (w->at == 0) {
        if (trimmed(line, n) != ROTMIBEL_PHASE_LINE || memcmp(line, header, ROTMIBEL_PHASE_LINE)) return 0;
        kind = ROTMIBEL_IS_HEADER;
    } else if (n >= 2 && line[0] == ' ' && line[1] == '(') {
        kind = ROTMIBEL_IS_COMMENT;
        phase = w->phases;
    } else if (trimmed(line, n) == 0) {
        kind = ROTMIBEL_IS_CLOSING;
    } else {
        kind = ROTMIBEL_IS_PHASE;
        phase = ++w->phases;
    }
    w->at = next;
    return kind | (uint64_t)phase << 8 | (uint64_t)end << 24 | (uint64_t)next << 44;
}

static unsigned judge_comment(const uint8_t *line, size_t n, size_t phases, size_t *column) {
    if (n > 1024) return 1;
    for (size_t i = 0; i < n; i++)
        if (line[i] < 32 || line[i] > 126) { *column = i + 1; return 2; }
    if (line[trimmed(line, n) - 1] != ')') return 15;
    return phases ? 0 : 14;
}

static uint64_t plain_read_block(const uint8_t *block, size_t size) {
    walk w = {block, size, 0, 0};
    size_t comments = 0;
    if (size > ROTMIBEL_BLOCK) return 1;
    if (!plain_next(&w)) return 14 | 1 << 24;
    for (uint64_t number = 2;; number++) {
        size_t at = w.at, column = 0;
        uint64_t r = plain_next(&w), answer = 0;
        if (ROTMIBEL_LINE_KIND(r) == 0 || ROTMIBEL_LINE_KIND(r) == ROTMIBEL_IS_CLOSING)
            return (uint64_t)w.phases << 8 | (uint64_t)comments << 24 | (uint64_t)w.at << 40;
        if (ROTMIBEL_LINE_KIND(r) == ROTMIBEL_IS_COMMENT) {
            answer = judge_comment(block + at, ROTMIBEL_LINE_END(r) - at, w.phases, &column);
            comments++;
        } else {
            uint8_t record[ROTMIBEL_PHASE_RECORD];
            uint64_t read = plain_read_phase(block + at, ROTMIBEL_LINE_END(r) - at, record, sizeof record);
            answer = ROTMIBEL_ANSWER(read);
            column = ROTMIBEL_COLUMN(read);
        }
        if (answer) return answer | (uint64_t)column << 8 | number << 24;
    }
}

/* ---- walks: one number over all that is answered on the way */

static uint64_t plain_walk(const uint8_t *block, size_t size) {
    walk w = {block, size, 0, 0};
    for (uint64_t sum = 0;;) {
        uint64_t r = plain_next(&w);
        sum = sum * 31 + r;
        if (ROTMIBEL_LINE_KIND(r) == 0 || ROTMIBEL_LINE_KIND(r) == ROTMIBEL_IS_CLOSING) return sum;
    }
}

static uint64_t library_walk(const uint8_t *block, size_t size) {
    for (uint64_t sum = 0, r = 0;;) {
        r = rotmibel_block_line(block, size, r);
        sum = sum * 31 + r;
        if (ROTMIBEL_LINE_KIND(r) < ROTMIBEL_IS_HEADER || ROTMIBEL_LINE_KIND(r) == ROTMIBEL_IS_CLOSING) return sum;
    }
}

/* ---- blocks */

static uint8_t block[ROTMIBEL_BLOCK];

/* 325 phase lines of 199 bytes. */
static size_t full_lines(void) {
    uint8_t record[ROTMIBEL_PHASE_RECORD];
    size_t at = ROTMIBEL_PLACE(rotmibel_write_header(block, sizeof block, 0));
    for (int i = 0; i < 325; i++) {
        make_record(&phase_row, record);
        at += ROTMIBEL_LENGTH(plain_write_phase(record, sizeof record, block + at, sizeof block - at));
        block[at++] = '\n';
    }
    return at;
}

/* 32,000 lines of one byte. */
static size_t short_lines(void) {
    size_t at = ROTMIBEL_PLACE(rotmibel_write_header(block, sizeof block, 0));
    for (int i = 0; i < 32000; i++) {
        block[at++] = 'A';
        block[at++] = '\n';
    }
    return at;
}

typedef uint64_t call(const uint8_t *, size_t);

/* The shortest time of one call, of those that half a second has room for. */
static double timed(call *one, size_t size, uint64_t wanted) {
    double best = 1e9;
    for (double all = 0; all < 0.5;) {
        double t = seconds();
        if (one(block, size) != wanted) return -1;
        t = seconds() - t;
        all += t;
        if (t < best) best = t;
    }
    return best;
}

static int measured(const char *what, size_t size, call *plain, call *library) {
    uint64_t wanted = plain(block, size);
    if (library(block, size) != wanted) {
        printf("%s: the two differ\n", what);
        return 1;
    }
    double c = timed(plain, size, wanted), ours = timed(library, size, wanted);
    printf("%s, %zu bytes, best time of half a second\n", what, size);
    say_ratio("us a block", 1e6, c, ours);
    return 0;
}

int main(void) {
    rotmibel_write_header(header, sizeof header, 0);
    size_t size = full_lines();
    int failed = measured("a block of 325 full lines read", size, plain_read_block, rotmibel_read_block);
    failed |= measured("a block of 325 full lines walked", size, plain_walk, library_walk);
    size = short_lines();
    failed |= measured("a block of 32,000 lines of one byte read", size, plain_read_block, rotmibel_read_block);
    failed |= measured("a block of 32,000 lines of one byte walked", size, plain_walk, library_walk);
    return failed;
}
