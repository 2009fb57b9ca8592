/* Pseudo-random E lines for the benchmarks' generators. The same calls give the same bytes. */
#include "calendar.h"
#include <stdint.h>
#include <stdio.h>
#include <stdlib.h>
#include <string.h>

static uint64_t state = 20261115;
static unsigned below(unsigned n) {
    state += 0x9e3779b97f4a7c15u;
    uint64_t z = state;
    z = (z ^ (z >> 30)) * 0xbf58476d1ce4e5b9u;
    z = (z ^ (z >> 27)) * 0x94d049bb133111ebu;
    return (unsigned)((z ^ (z >> 31)) % n);
}

static void seal(char *l) {
    uint16_t sum = 0;
    for (int i = 0; i < 79; i++) sum = (uint16_t)((uint16_t)((sum >> 1) | (sum << 15)) + (uint8_t)l[i]);
    l[79] = (char)(36 + sum % 91);
}

/* An acceptable E line of 80 bytes, version 5, of this identifier and one of four sources; its values are drawn. */
static void event(char *l, unsigned identifier, unsigned source) {
    static const char *const sources[] = {"AK", "CI", "NC", "US"};
    unsigned year = 1990 + below(40), month = 1 + below(12), day = 1 + below((unsigned)days_in((int)year, (int)month));
    snprintf(l, 81, "E %08u%s5%04u%02u%02u%02u%02u%03u%07d%08d%04u%02u%03u%03u%04u%04u%04u%04u%02uL%02u%02ux ", identifier,
             sources[source], year, month, day, below(24), below(60), below(600),
             (int)below(1800001) - 900000, (int)below(3600001) - 1800000, below(700), below(80), below(300), below(300), below(3000),
             below(200), below(100), below(100), below(100), below(50), below(10));
    seal(l);
}
