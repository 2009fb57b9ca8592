/* Writes pseudo-random notices to standard output: notices [COUNT [PERCENT]]. First one E line for each of 512 pairs, so that the catalogue
   is full; then mostly E lines of the held version with other values, which replace the held line, some deletes of a lower version, some
   repeats, and some damaged lines. PERCENT of the lines after the first 512 are links, 0 if it is not given: of 64 triples of source,
   identifier and type, mostly of the held version with another text, some repeats, some of a lower version, some that delete, some of a
   65th triple, and some damaged ones. The same arguments give the same bytes. */
#include "lines.h"

#define PAIRS 512
#define LINKS 64

static void notice(char *l, unsigned pair, unsigned what) {
    static char last[PAIRS][81];
    if (what < 3) {
        snprintf(l, 96, "DE%.8s%.2s%c replaced by a later one", last[pair] + 2, last[pair] + 10, '0' + below(5));
    } else if (what < 8) {
        strcpy(l, last[pair]);
    } else {
        event(l, 9000000 + pair / 4, pair % 4);
        strcpy(last[pair], l);
        if (what < 10) l[13 + below(60)] = 'x';
        if (what < 9) seal(l);
    }
}

/* The link with this number, from 0; numbers from LINKS on are a new triple once the others are there. */
static void link(char *l, unsigned long number) {
    static const char *const types[4] = {"fm", "map", "shake", "felt"};
    static char last[LINKS][256];
    unsigned what = number < LINKS ? 99 : below(100), k = number < LINKS ? (unsigned)number : below(LINKS);
    if (what < 5 || what >= 8)
        snprintf(l, 256, "LI%08uNC%c5 %s http://whatever/%06u %s", 9000000 + (what < 2 ? LINKS : k / 4), what >= 2 && what < 5 ? '0' : '1',
                 types[k % 4], below(1000000), below(10) ? "More about this event" : "delete");
    else
        strcpy(l, last[k]);
    if (what >= 8) strcpy(last[k], l);
    if (what == 8) l[14] = 'x';
    if (what == 9) l[13] = '[';
}

int main(int argc, char **argv) {
    unsigned long count = argc > 1 ? strtoul(argv[1], NULL, 10) : 2000000, links = 0;
    unsigned percent = argc > 2 ? (unsigned)strtoul(argv[2], NULL, 10) : 0;
    for (unsigned long i = 0; i < count; i++) {
        char l[256];
        if (i >= PAIRS && percent && below(100) < percent) {
            link(l, links++);
        } else {
            unsigned pair = i < PAIRS ? (unsigned)i : below(PAIRS), what = i < PAIRS ? 99 : below(100);
            notice(l, pair, what);
        }
        puts(l);
    }
    return 0;
}
