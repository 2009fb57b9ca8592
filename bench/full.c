/* Writes notices for a full catalogue to standard output: full HELD DELETIONS COUNT new|repeat. It names 512 pairs. First come the lines
   that fill it: an E line for each of the first HELD pairs, then a delete for each of the last DELETIONS pairs, at a version below that
   of the E lines, so that what is held stays held. Then COUNT lines: `new`, an E line of a pair that is not named, which gets 12; or
   `repeat`, a line that is held, which gets 22. Either falls anywhere in the order of the pairs. The same arguments give the same bytes. */
#include "lines.h"

#define PAIRS 512

/* An E line of pair k, or of the pair right after it in the order, which is not named. Held and deleted pairs are mixed. */
static void pair_event(char *l, unsigned k, unsigned after) {
    unsigned place = 173 * k % PAIRS;
    event(l, 9000000 + 2 * (place / 4) + after, place % 4);
}

int main(int argc, char **argv) {
    static char lines[PAIRS][81];
    char l[96];
    if (argc != 5) return fputs("usage: full HELD DELETIONS COUNT new|repeat\n", stderr), 2;
    unsigned held = (unsigned)strtoul(argv[1], NULL, 10), deletions = (unsigned)strtoul(argv[2], NULL, 10);
    unsigned long count = strtoul(argv[3], NULL, 10);
    int repeat = !strcmp(argv[4], "repeat");
    if (held < 1 || held > PAIRS || deletions > PAIRS || held + deletions < PAIRS) return fputs("full: not full\n", stderr), 2;
    for (unsigned k = 0; k < PAIRS; k++) pair_event(lines[k], k, 0);
    for (unsigned k = 0; k < held; k++) puts(lines[k]);
    for (unsigned k = PAIRS - deletions; k < PAIRS; k++) {
        snprintf(l, sizeof l, "DE%.8s%.2s3", lines[k] + 2, lines[k] + 10);
        puts(l);
    }
    for (unsigned long i = 0; i < count; i++) {
        pair_event(l, below(PAIRS), 1);
        puts(repeat ? lines[below(held)] : l);
    }
    return 0;
}
