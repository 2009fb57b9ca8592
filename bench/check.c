/* The check character alone, as tests/divide/build makes it of the library's function, against plain C, in one run. Built and run by bench/run. Both
   give the same character of 4,000,000 runs of bytes of any code and of 0 to 99 bytes before anything is timed. */
#include "lines.h"
#include <time.h>

uint8_t check_character(const uint8_t *bytes, size_t length);

#define LINES 4096
#define ROUNDS 1000

static uint8_t plain(const uint8_t *bytes, size_t length) {
    uint16_t sum = 0;
    for (size_t i = 0; i < length; i++) sum = (uint16_t)((uint16_t)((sum >> 1) | (sum << 15)) + bytes[i]);
    return (uint8_t)(36 + sum % 91);
}

static char lines[LINES][81];
static double seconds(void) { struct timespec t; clock_gettime(CLOCK_MONOTONIC, &t); return (double)t.tv_sec + 1e-9 * (double)t.tv_nsec; }

/* The least time of a line, and whether each line got its character. */
static double timed(uint8_t (*f)(const uint8_t *, size_t), double least) {
    unsigned right = 0;
    double t = seconds();
    for (int i = 0; i < LINES; i++) right += f((const uint8_t *)lines[i], 79) == (uint8_t)lines[i][79];
    t = (seconds() - t) / LINES;
    if (right != LINES) { puts("a line has another check character"); exit(1); }
    return t < least ? t : least;
}

int main(void) {
    uint8_t bytes[99];
    for (int k = 0; k < 4000000; k++) {
        size_t n = below(100);
        unsigned low = k % 4 == 0 ? 200 : 0; /* high bytes carry most often */
        for (size_t i = 0; i < n; i++) bytes[i] = (uint8_t)(low + below(256 - low));
        if (plain(bytes, n) != check_character(bytes, n)) { puts("the check characters differ"); return 1; }
    }
    for (unsigned i = 0; i < LINES; i++) event(lines[i], i, below(4));
    double c = 1, library = 1;
    for (int r = 0; r < ROUNDS; r++) {
        c = timed(plain, c);
        library = timed(check_character, library);
    }
    printf("check characters of E lines: %d lines, best of %d rounds\n", LINES, ROUNDS);
    printf("  plain C    %7.1f ns a line\n  library    %7.1f ns a line\n  ratio      %7.2f\n", 1e9 * c, 1e9 * library, library / c);
    return 0;
}
