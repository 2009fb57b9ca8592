/*
 * A relay: takes notices into a catalogue that lives in a file, looks events up in it, and reads phase and arrival blocks and Calnet cards.
 *
 *   relay take ROOM          takes the lines of standard input into the catalogue in the file ROOM, which is made where there is none
 *   relay find ROOM SS ID    looks up source SS and identifier ID, and prints what is held
 *   relay ask ROOM           looks up a source and an identifier, one after the other, from each line of standard input, by halving
 *   relay links ROOM         prints the links
 *   relay block FILE         reads a phase block and prints its records
 *   relay arrivals FILE      the same of an arrival block
 *   relay cards FILE         reads a run of Calnet cards and prints how many there are, and their records
 *
 * A ROOM of the size that it had before there were links is taken as it is meant, with no links, and saved in today's size.
 *
 * Built with: cc relay.c $(pkg-config --cflags --libs rotmibel)
 */
#include <inttypes.h>
#include <stdio.h>
#include <stdlib.h>
#include <string.h>

#include <rotmibel.h>

static uint8_t room[ROTMIBEL_ROOM];

static int fail(const char *name) {
    fprintf(stderr, "relay: ");
    perror(name);
    return 1;
}

/* The catalogue of a file; an empty one where there is no file. */
static int load(const char *name) {
    memset(room, 0, sizeof room);
    FILE *f = fopen(name, "rb");
    if (!f) return 0;
    size_t n = fread(room, 1, sizeof room, f);
    fclose(f);
    int a_room = n == sizeof room || n == ROTMIBEL_OLD_ROOM; /* behind an old one the room is zero, which is what it wants */
    if (!a_room || ROTMIBEL_ANSWER(rotmibel_in_order(room, sizeof room)) != ROTMIBEL_READ) {
        fprintf(stderr, "relay: %s holds no catalogue in order\n", name);
        return 1;
    }
    return 0;
}

static int save(const char *name) {
    FILE *f = fopen(name, "wb");
    if (!f) return fail(name);
    size_t n = fwrite(room, 1, sizeof room, f);
    if (fclose(f) != 0 || n != sizeof room) return fail(name);
    return 0;
}

static const char *outcome(unsigned answer) {
    switch (answer) {
    case ROTMIBEL_STORED: return "stored";
    case ROTMIBEL_REPLACED: return "replaces the held line";
    case ROTMIBEL_REPEATED: return "a repeat, held already";
    case ROTMIBEL_OUTDATED: return "outdated, nothing changes";
    case ROTMIBEL_REMOVED: return "removes the held line";
    case ROTMIBEL_NOTED: return "deletion noted";
    case ROTMIBEL_NOTHING_HELD: return "nothing held";
    case ROTMIBEL_FULL: return "refused, 512 pairs are named";
    case ROTMIBEL_LINKS_FULL: return "refused, there are 64 links";
    default: return "refused";
    }
}

/* The next line of standard input, its first bytes where it is longer; 0 at the end. */
static int next_line(uint8_t *line, size_t size, size_t *n) {
    int c = getchar();
    *n = 0;
    if (c == EOF) return 0;
    for (; c != EOF && c != '\n'; c = getchar())
        if (*n < size) line[(*n)++] = (uint8_t)c;
    return 1;
}

static int take(const char *name) {
    if (load(name)) return 1;
    uint8_t line[1024];
    size_t n;
    for (unsigned long number = 1; next_line(line, sizeof line, &n); number++) {
        uint64_t r = rotmibel_take(room, sizeof room, line, n);
        printf("%lu: %u %s", number, ROTMIBEL_ANSWER(r), outcome(ROTMIBEL_ANSWER(r)));
        if (ROTMIBEL_COLUMN(r)) printf(", column %u", ROTMIBEL_COLUMN(r));
        printf("\n");
    }
    if (ferror(stdin)) return fail("standard input");
    return save(name);
}

/* Prints a held line, its magnitude, and the line as the library writes it from the record. */
static int show(const uint8_t *held) {
    uint8_t record[ROTMIBEL_RECORD], line[ROTMIBEL_LINE];
    uint64_t r = rotmibel_read_line(held, ROTMIBEL_EVENT_LINE, record, sizeof record);
    if (ROTMIBEL_ANSWER(r) != ROTMIBEL_READ) return 1;
    printf("held:    %.*s\n", ROTMIBEL_EVENT_LINE, (const char *)held);
    if (rotmibel_has_number(record, ROTMIBEL_MAGNITUDE))
        printf("magnitude %.1f\n", (double)rotmibel_number(record, ROTMIBEL_MAGNITUDE) / 10);
    else
        printf("no magnitude\n");
    r = rotmibel_write_line(record, sizeof record, line, sizeof line);
    if (ROTMIBEL_ANSWER(r) != ROTMIBEL_READ) return 1;
    printf("written: %.*s\n", (int)ROTMIBEL_LENGTH(r), (const char *)line);
    return 0;
}

static int find(const char *name, const char *source, const char *identifier) {
    if (load(name)) return 1;
    uint64_t r = rotmibel_look_up(room, sizeof room, (const uint8_t *)source, strlen(source), (const uint8_t *)identifier,
                                  strlen(identifier));
    switch (ROTMIBEL_ANSWER(r)) {
    case ROTMIBEL_HELD: return show(room + 2 + ROTMIBEL_EVENT_LINE * ROTMIBEL_LENGTH(r));
    case ROTMIBEL_NOT_HELD: printf("not held\n"); return 0;
    default: printf("refused: %u\n", ROTMIBEL_ANSWER(r)); return 1;
    }
}

/* The room was checked when it was loaded, so each enquiry looks only at the entries that it examines. */
static int ask(const char *name) {
    if (load(name)) return 1;
    uint8_t line[1024];
    size_t n;
    while (next_line(line, sizeof line, &n)) {
        size_t source = n < 2 ? n : 2;
        uint64_t r = rotmibel_quick_look_up(room, sizeof room, line, source, line + source, n - source);
        switch (ROTMIBEL_ANSWER(r)) {
        case ROTMIBEL_HELD:
            printf("held, %u examined: %.*s\n", ROTMIBEL_EXAMINED(r), ROTMIBEL_EVENT_LINE,
                   (const char *)room + 2 + ROTMIBEL_EVENT_LINE * ROTMIBEL_LENGTH(r));
            break;
        case ROTMIBEL_NOT_HELD: printf("not held, %u examined\n", ROTMIBEL_EXAMINED(r)); break;
        default: printf("refused: %u\n", ROTMIBEL_ANSWER(r));
        }
    }
    return ferror(stdin) ? fail("standard input") : 0;
}

/* Prints a link by its parts, and says whether it was deleted. */
static int show_link(const uint8_t *entry) {
    uint8_t record[ROTMIBEL_RECORD];
    uint64_t r = rotmibel_read_line(entry + 1, entry[0], record, sizeof record);
    if (ROTMIBEL_ANSWER(r) != ROTMIBEL_READ) return 1;
    const char *at = (const char *)record, *type = at + ROTMIBEL_LINK_TYPE;
    int type_length = record[ROTMIBEL_LINK_TYPE_LENGTH], address_length = record[ROTMIBEL_LINK_ADDRESS_LENGTH];
    int text_length = record[ROTMIBEL_LINK_TEXT_LENGTH];
    const char *address = type + type_length, *text = address + address_length;
    printf("%.2s %.8s version %.2s, %.*s", at + ROTMIBEL_LINK_SOURCE, at + ROTMIBEL_LINK_IDENTIFIER, at + ROTMIBEL_LINK_VERSION,
           type_length, type);
    if ((text_length == 6 || text_length == 7) && memcmp(text, "delete:", (size_t)text_length) == 0) printf(": deleted\n");
    else printf(": %.*s (%.*s)\n", text_length, text, address_length, address);
    return 0;
}

static int links(const char *name) {
    if (load(name)) return 1;
    size_t n = rotmibel_link_count(room);
    printf("links: %zu\n", n);
    for (size_t i = 0; i < n; i++)
        if (show_link(rotmibel_link_entry(room, i))) return 1;
    return 0;
}

static void show_phase(const uint8_t *line, size_t n) {
    uint8_t record[ROTMIBEL_PHASE_RECORD];
    if (ROTMIBEL_ANSWER(rotmibel_read_phase(line, n, record, sizeof record)) != ROTMIBEL_READ) return;
    printf("%.5s %.8s", (const char *)record + ROTMIBEL_P_STATION, (const char *)record + ROTMIBEL_P_PHASE);
    if (rotmibel_phase_has(record, ROTMIBEL_P_HOUR)) {
        int64_t s = rotmibel_phase_number(record, ROTMIBEL_P_SECOND);
        printf(" %02" PRId64 ":%02" PRId64 ":%02" PRId64 ".%03" PRId64, rotmibel_phase_number(record, ROTMIBEL_P_HOUR),
               rotmibel_phase_number(record, ROTMIBEL_P_MINUTE), s / 1000, s % 1000);
    }
    if (rotmibel_phase_has(record, ROTMIBEL_P_DISTANCE))
        printf(" at %.2f degrees", (double)rotmibel_phase_number(record, ROTMIBEL_P_DISTANCE) / 100);
    printf("\n");
}

static void show_arrival(const uint8_t *line, size_t n) {
    uint8_t record[ROTMIBEL_ARRIVAL_RECORD];
    if (ROTMIBEL_ANSWER(rotmibel_read_arrival(line, n, record, sizeof record)) != ROTMIBEL_READ) return;
    printf("%.9s %.5s %.8s", (const char *)record + ROTMIBEL_A_NETWORK, (const char *)record + ROTMIBEL_A_STATION,
           (const char *)record + ROTMIBEL_A_PHASE);
    if (rotmibel_arrival_has(record, ROTMIBEL_A_YEAR))
        printf(" %04" PRId64 "-%02" PRId64 "-%02" PRId64, rotmibel_arrival_number(record, ROTMIBEL_A_YEAR),
               rotmibel_arrival_number(record, ROTMIBEL_A_MONTH), rotmibel_arrival_number(record, ROTMIBEL_A_DAY));
    if (rotmibel_arrival_has(record, ROTMIBEL_A_AZIMUTH))
        printf(" from %.1f degrees", (double)rotmibel_arrival_number(record, ROTMIBEL_A_AZIMUTH) / 10);
    printf("\n");
}

/* The calls for the blocks of one format, and what is printed of a line. */
struct format {
    const char *name;
    uint64_t (*read)(const uint8_t *, size_t);
    uint64_t (*line)(const uint8_t *, size_t, uint64_t);
    void (*show)(const uint8_t *, size_t);
};
static const struct format phases = {"phase", rotmibel_read_block, rotmibel_block_line, show_phase};
static const struct format arrivals = {"arrival", rotmibel_read_arrival_block, rotmibel_arrival_block_line, show_arrival};

/* A block or a run of cards, with a byte more than it may have, so that a longer file is refused. */
static uint8_t block[ROTMIBEL_BLOCK + 1];

static int read_file(const char *name, size_t *n) {
    FILE *f = fopen(name, "rb");
    if (!f) return fail(name);
    *n = fread(block, 1, sizeof block, f);
    fclose(f);
    return 0;
}

static int refused(uint64_t r) {
    printf("refused: %u, column %u, line %zu\n", ROTMIBEL_ANSWER(r), ROTMIBEL_COLUMN(r), ROTMIBEL_LINE_NUMBER(r));
    return 1;
}

static int read_block(const struct format *of, const char *name) {
    size_t n;
    if (read_file(name, &n)) return 1;
    uint64_t r = of->read(block, n);
    if (ROTMIBEL_ANSWER(r) != ROTMIBEL_READ) return refused(r);
    printf("%zu %s lines, %zu comments, %zu bytes\n", ROTMIBEL_PHASE_COUNT(r), of->name, ROTMIBEL_COMMENT_COUNT(r), ROTMIBEL_BYTES_USED(r));
    for (uint64_t before = 0;;) {
        uint64_t line = of->line(block, n, before);
        const uint8_t *from = block + ROTMIBEL_LINE_NEXT(before);
        size_t size = (size_t)(block + ROTMIBEL_LINE_END(line) - from);
        switch (ROTMIBEL_LINE_KIND(line)) {
        case ROTMIBEL_IS_HEADER: break;
        case ROTMIBEL_IS_PHASE: of->show(from, size); break; /* ROTMIBEL_IS_ARRIVAL in an arrival block */
        case ROTMIBEL_IS_COMMENT: printf("  of %s %zu:%.*s\n", of->name, ROTMIBEL_LINE_PHASE(line), (int)size, (const char *)from); break;
        default: return 0; /* the closing line, or the end */
        }
        before = line;
    }
}

/* What is printed of a card's record: a text, by its place and its size, or a number, by its index and its decimals. */
struct part {
    unsigned kind;
    const char *name;
    unsigned at;
    int size; /* 0 of a number */
    int decimals;
};
static const struct part parts[] = {
    {ROTMIBEL_CARD_I, "identifier", ROTMIBEL_CI_IDENTIFIER, 0, 0},
    {ROTMIBEL_CARD_I, "parent", ROTMIBEL_CI_PARENT, 0, 0},
    {ROTMIBEL_CARD_I, "type", ROTMIBEL_CI_TYPE, 1, 0},
    {ROTMIBEL_CARD_L, "latitude", ROTMIBEL_CL_LATITUDE, 0, 3},
    {ROTMIBEL_CARD_L, "longitude", ROTMIBEL_CL_LONGITUDE, 0, 3},
    {ROTMIBEL_CARD_L, "depth", ROTMIBEL_CL_DEPTH, 0, 2},
    {ROTMIBEL_CARD_L, "origin time", ROTMIBEL_CL_ORIGIN_TIME, 0, 3},
    {ROTMIBEL_CARD_L, "constraints", ROTMIBEL_CL_CONSTRAINTS, 3, 0},
    {ROTMIBEL_CARD_L, "method", ROTMIBEL_CL_METHOD, 3, 0},
    {ROTMIBEL_CARD_E, "rms", ROTMIBEL_CE_RMS, 0, 3},
    {ROTMIBEL_CARD_E, "depth error", ROTMIBEL_CE_DEPTH_ERROR, 0, 3},
    {ROTMIBEL_CARD_E, "phases used", ROTMIBEL_CE_PHASES_USED, 0, 0},
    {ROTMIBEL_CARD_E, "gap", ROTMIBEL_CE_GAP, 0, 1},
    {ROTMIBEL_CARD_E, "nearest station", ROTMIBEL_CE_NEAREST, 0, 1},
    {ROTMIBEL_CARD_M, "magnitude", ROTMIBEL_CM_MAGNITUDE, 0, 2},
    {ROTMIBEL_CARD_M, "type", ROTMIBEL_CM_TYPE, 1, 0},
    {ROTMIBEL_CARD_M, "count", ROTMIBEL_CM_COUNT, 0, 0},
    {ROTMIBEL_CARD_M, "agency", ROTMIBEL_CM_AGENCY, 4, 0},
    {ROTMIBEL_CARD_P, "station", ROTMIBEL_CP_STATION, 15, 0},
    {ROTMIBEL_CARD_P, "phase", ROTMIBEL_CP_PHASE, 6, 0},
    {ROTMIBEL_CARD_P, "time", ROTMIBEL_CP_TIME, 0, 3},
    {ROTMIBEL_CARD_A, "station", ROTMIBEL_CA_STATION, 15, 0},
    {ROTMIBEL_CARD_A, "phase", ROTMIBEL_CA_PHASE, 6, 0},
    {ROTMIBEL_CARD_A, "amplitude", ROTMIBEL_CA_AMPLITUDE, 0, 2},
    {ROTMIBEL_CARD_A, "period", ROTMIBEL_CA_PERIOD, 0, 2},
    {ROTMIBEL_CARD_R, "remark", ROTMIBEL_CR_REMARK, 76, 0},
};

static void show_text(const uint8_t *text, const struct part *of) {
    int n = of->size;
    while (n > 0 && text[n - 1] == ' ') n--;
    if (n == 0) printf(" no %s", of->name);
    else printf(" %s %.*s", of->name, n, (const char *)text);
}

/* A blank number is missing; one that is 0 is there. */
static void show_number(const uint8_t *record, const struct part *of) {
    static const double scales[] = {1, 10, 100, 1000};
    if (!rotmibel_card_has(record, of->at)) printf(" no %s", of->name);
    else printf(" %s %.*f", of->name, of->decimals, (double)rotmibel_card_number(record, of->at) / scales[of->decimals]);
}

/* The time that the other times of the event are relative to. */
static void show_reference(const uint8_t *record) {
    int64_t s = rotmibel_card_number(record, ROTMIBEL_CI_SECOND);
    printf(" %04" PRId64 "-%02" PRId64 "-%02" PRId64, rotmibel_card_number(record, ROTMIBEL_CI_YEAR),
           rotmibel_card_number(record, ROTMIBEL_CI_MONTH), rotmibel_card_number(record, ROTMIBEL_CI_DAY));
    printf(" %02" PRId64 ":%02" PRId64 ":%02" PRId64 ".%03" PRId64 ",", rotmibel_card_number(record, ROTMIBEL_CI_HOUR),
           rotmibel_card_number(record, ROTMIBEL_CI_MINUTE), s / 1000, s % 1000);
}

static void show_card(const uint8_t *line, size_t n) {
    uint8_t record[ROTMIBEL_CARD_RECORD];
    if (ROTMIBEL_ANSWER(rotmibel_read_card(line, n, record, sizeof record)) != ROTMIBEL_READ) return;
    if (record[0] == ROTMIBEL_CARD_I) show_reference(record);
    const char *between = "";
    for (const struct part *p = parts; p < parts + sizeof parts / sizeof *parts; p++) {
        if (p->kind != record[0]) continue;
        printf("%s", between);
        if (p->size) show_text(record + p->at, p);
        else show_number(record, p);
        between = ",";
    }
    printf("\n");
}

static int cards(const char *name) {
    uint8_t counts[ROTMIBEL_CARD_COUNTS];
    size_t n;
    if (read_file(name, &n)) return 1;
    uint64_t r = rotmibel_read_cards(block, n, counts, sizeof counts);
    if (ROTMIBEL_ANSWER(r) != ROTMIBEL_READ) return refused(r);
    printf("%zu events, cards:", ROTMIBEL_EVENT_COUNT(r));
    for (unsigned i = ROTMIBEL_I_CARDS; i <= ROTMIBEL_R_CARDS; i++) printf(" %c %zu", "ILEMPAR"[i], rotmibel_card_count(counts, i));
    printf("\n");
    for (uint64_t before = 0;;) {
        uint64_t card = rotmibel_card_line(block, n, before);
        const uint8_t *from = block + ROTMIBEL_LINE_NEXT(before);
        if (ROTMIBEL_LINE_KIND(card) < 'A') return 0; /* no card: the end, for a run that was read has no refused line */
        printf("event %zu %c:", ROTMIBEL_LINE_EVENT(card), (int)ROTMIBEL_LINE_KIND(card));
        show_card(from, (size_t)(block + ROTMIBEL_LINE_END(card) - from));
        before = card;
    }
}

int main(int argc, char **argv) {
    if (argc == 3 && strcmp(argv[1], "take") == 0) return take(argv[2]);
    if (argc == 5 && strcmp(argv[1], "find") == 0) return find(argv[2], argv[3], argv[4]);
    if (argc == 3 && strcmp(argv[1], "ask") == 0) return ask(argv[2]);
    if (argc == 3 && strcmp(argv[1], "links") == 0) return links(argv[2]);
    if (argc == 3 && strcmp(argv[1], "block") == 0) return read_block(&phases, argv[2]);
    if (argc == 3 && strcmp(argv[1], "arrivals") == 0) return read_block(&arrivals, argv[2]);
    if (argc == 3 && strcmp(argv[1], "cards") == 0) return cards(argv[2]);
    fprintf(stderr, "usage: relay take ROOM | relay find ROOM SOURCE IDENTIFIER | relay ask ROOM | relay links ROOM | relay block FILE"
                    " | relay arrivals FILE | relay cards FILE\n");
    return 2;
}
