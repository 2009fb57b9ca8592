/*
 * rotmibel: seismic notices read, written and kept, every call proved for all input.
 *
 * A line is bytes and a length, with no newline and no NUL at its end. A record is a fixed number of bytes laid out as
 * docs/RECORDS.md says; equal records are equal bytes, so memcmp compares them.
 *
 * WHAT A CALLER OWES. Nothing here can check it: a pointer is good for the length given with it; a buffer that is written does not
 * overlap another that is lent in the same call. A NULL pointer with length 0 is fine. Calls keep no state and allocate nothing, so
 * any number of them may run at once on buffers of their own.
 *
 * WHAT EVERY CALL RETURNS: one number in three parts.
 *   bits  0 to  7   the answer, ROTMIBEL_READ or one of the refusals below
 *   bits  8 to 23   the column of a refusal, from 1; 0 where the refusal names none
 *   bits 24 to 63   the number of bytes written to the lent buffer, or the place of a look-up; 0 after a refusal
 * rotmibel_quick_look_up puts another number into the second part, calls on a block or on a run of cards into the second and third; each
 * says which, and has macros of its own.
 * After a refusal (answers 1 to 19) nothing lent has changed. Otherwise only the bytes written have.
 */
#ifndef ROTMIBEL_H
#define ROTMIBEL_H

#include <stddef.h>
#include <stdint.h>

#ifdef __cplusplus
extern "C" {
#endif

/* The parts of what a call returns. */
#define ROTMIBEL_ANSWER(r) ((unsigned)((r) & 0xff))
#define ROTMIBEL_COLUMN(r) ((unsigned)(((r) >> 8) & 0xffff))
#define ROTMIBEL_LENGTH(r) ((size_t)((r) >> 24))

/* rotmibel_quick_look_up: how many entries it examined. */
#define ROTMIBEL_EXAMINED(r) ((unsigned)(((r) >> 8) & 0xffff))

/* The parts of what a call on a block returns. */
#define ROTMIBEL_PHASE_COUNT(r) ((size_t)(((r) >> 8) & 0xffff))    /* rotmibel_read_block, READ: the phase lines */
#define ROTMIBEL_COMMENT_COUNT(r) ((size_t)(((r) >> 24) & 0xffff)) /* rotmibel_read_block, READ: the comments */
#define ROTMIBEL_BYTES_USED(r) ((size_t)((r) >> 40))               /* rotmibel_read_block, READ: the bytes used */
/* rotmibel_read_block, rotmibel_read_cards: the refused line, from 1; 0 of a block or run that is read, of one over ROTMIBEL_BLOCK bytes,
   and where the place lent for the counts is too short */
#define ROTMIBEL_LINE_NUMBER(r) ((size_t)(ROTMIBEL_ANSWER(r) == ROTMIBEL_READ ? 0 : (r) >> 24))
#define ROTMIBEL_LINE_KIND(r) ROTMIBEL_ANSWER(r)                   /* rotmibel_block_line: what the line is */
#define ROTMIBEL_LINE_PHASE(r) ((size_t)(((r) >> 8) & 0xffff))     /* rotmibel_block_line: the phase line it is or belongs to */
#define ROTMIBEL_LINE_END(r) ((size_t)(((r) >> 24) & 0xfffff))     /* rotmibel_block_line: where the line ends */
#define ROTMIBEL_LINE_NEXT(r) ((size_t)((r) >> 44))                /* rotmibel_block_line: the place after it, where the next one starts */
#define ROTMIBEL_PLACE(r) ((size_t)((r) >> 24))                    /* a header or record written with its newline, READ: the place after */
/* The same parts of what a call on an arrival block returns. */
#define ROTMIBEL_ARRIVAL_COUNT(r) ROTMIBEL_PHASE_COUNT(r)          /* rotmibel_read_arrival_block, READ: the arrival lines */
#define ROTMIBEL_LINE_ARRIVAL(r) ROTMIBEL_LINE_PHASE(r)            /* rotmibel_arrival_block_line: the arrival line it is or belongs to */
/* And of what a call on a run of cards returns, beside LINE_NUMBER, LINE_KIND (the card's letter), LINE_END, LINE_NEXT and PLACE. */
#define ROTMIBEL_EVENT_COUNT(r) ROTMIBEL_PHASE_COUNT(r)            /* rotmibel_read_cards, READ: the events */
#define ROTMIBEL_LINE_EVENT(r) ROTMIBEL_LINE_PHASE(r)              /* rotmibel_card_line: the event that the card opens or belongs to */

/* Answers. */
#define ROTMIBEL_READ 0      /* read or written */
#define ROTMIBEL_BAD_LENGTH 1 /* the length of a line, or of the line that a record would make; an empty line among cards; column 0 */
#define ROTMIBEL_BARRED 2    /* a byte that may not stand in its column; that column */
#define ROTMIBEL_TYPE 3      /* neither `E ` nor `DE` nor `LI`; of a card, none of the seven letters; column 1 */
#define ROTMIBEL_SEPARATOR 4 /* a separator of a phase or arrival line or of a card is not blank; its column */
#define ROTMIBEL_REQUIRED 5  /* a required field is blank or missing; its first column */
#define ROTMIBEL_FORM 6      /* a field of bad form, its first column; malformed parts of a link, column 15; no record, column 0 */
#define ROTMIBEL_RANGE 7     /* a number out of its range, or a day that its month does not have; the field's first column */
#define ROTMIBEL_LETTER 8    /* not one of the letters that its column may have; that column */
#define ROTMIBEL_CHECK 9     /* the check character; column 80 */
#define ROTMIBEL_WIDE 10     /* a number too wide for its field when written; the field's first column */
#define ROTMIBEL_SHORT 11    /* the lent buffer or room is too short; column 0 */
#define ROTMIBEL_FULL 12     /* a new pair while the catalogue names 512; column 0 */
#define ROTMIBEL_DISORDER 13 /* the room is no catalogue in order; column 0 */
#define ROTMIBEL_OUT_OF_PLACE 14 /* a block's first line is not the header; a comment before any phase or arrival line; a card before any I
                                    card; column 0 */
#define ROTMIBEL_NOT_CLOSED 15   /* a comment that does not end in `)`; column 0 */
#define ROTMIBEL_LINKS_FULL 16   /* a link of a new source, identifier and type while the catalogue has 64 links; column 0 */

/* Answers of the catalogue: what became of a line, and what a look-up found. */
#define ROTMIBEL_STORED 20       /* E, LI: nothing was held for its pair, or its source, identifier and type; the line is now */
#define ROTMIBEL_REPLACED 21     /* E, LI: the held line was of a lower version, or of the same with other bytes; it is replaced */
#define ROTMIBEL_REPEATED 22     /* E, LI: this very line is held; nothing changes */
#define ROTMIBEL_OUTDATED 23     /* E, DE: its pair's deletion is at or above its version; E, LI: the held line is above it; nothing changes */
#define ROTMIBEL_REMOVED 24      /* DE: the held line is removed, its deletion stored */
#define ROTMIBEL_NOTED 25        /* DE: nothing held at or below its version; its deletion is stored */
#define ROTMIBEL_NOTHING_HELD 26 /* DE with a blank version: nothing held; nothing changes */
#define ROTMIBEL_HELD 27         /* look-up: held, with its place from 0 */
#define ROTMIBEL_NOT_HELD 28     /* look-up: not held */

/* What a line of a block is. */
#define ROTMIBEL_IS_NOTHING 0  /* no line there */
#define ROTMIBEL_IS_HEADER 40  /* the header */
#define ROTMIBEL_IS_PHASE 41   /* in a phase block: a phase line */
#define ROTMIBEL_IS_ARRIVAL 41 /* in an arrival block: an arrival line */
#define ROTMIBEL_IS_COMMENT 42 /* a comment */
#define ROTMIBEL_IS_CLOSING 43 /* the closing blank line */

/* Sizes: a CUBE record of any kind, the longest CUBE line, an E line, a phase record, a written phase line, a line of a written phase block
   with its newline, the same three of arrivals, the longest record of a card, the longest card, the counts of a run of cards, the longest
   block or run of cards. */
#define ROTMIBEL_RECORD 268
#define ROTMIBEL_LINE 255
#define ROTMIBEL_EVENT_LINE 80
#define ROTMIBEL_PHASE_RECORD 231
#define ROTMIBEL_PHASE_LINE 199
#define ROTMIBEL_BLOCK_LINE 200
#define ROTMIBEL_ARRIVAL_RECORD 240
#define ROTMIBEL_ARRIVAL_LINE 203
#define ROTMIBEL_ARRIVAL_BLOCK_LINE 204
#define ROTMIBEL_CARD_RECORD 82
#define ROTMIBEL_CARD_LINE 78
#define ROTMIBEL_CARD_COUNTS 14
#define ROTMIBEL_BLOCK 65536

/* Sizes of a catalogue: its room, the room as it was before links (see below), the most pairs of source and identifier that it names, the
   most links, an entry of the deletions, an entry of the links. */
#define ROTMIBEL_ROOM 62982
#define ROTMIBEL_OLD_ROOM 46596
#define ROTMIBEL_MOST_PAIRS 512
#define ROTMIBEL_MOST_LINKS 64
#define ROTMIBEL_DELETION_ENTRY 11
#define ROTMIBEL_LINK_ENTRY 256

/* Kinds, a record's first byte. */
#define ROTMIBEL_EVENT 1
#define ROTMIBEL_DELETE 2
#define ROTMIBEL_PHASE 3
#define ROTMIBEL_LINK 4
#define ROTMIBEL_ARRIVAL 5
#define ROTMIBEL_CARD_I 6
#define ROTMIBEL_CARD_L 7
#define ROTMIBEL_CARD_E 8
#define ROTMIBEL_CARD_M 9
#define ROTMIBEL_CARD_P 10
#define ROTMIBEL_CARD_A 11
#define ROTMIBEL_CARD_R 12

/*
 * Read a CUBE line, `E `, `DE` or `LI`, into a record.
 *
 * line, line_len      the line
 * record, record_len  where the record goes: at least ROTMIBEL_RECORD bytes, the first of which are written
 *
 * Answers, looked for in this order: SHORT (record_len, before the line is looked at); BAD_LENGTH (under 2 bytes); TYPE; BAD_LENGTH
 * (not 80 bytes of E, not 13 to 80 of DE, not 20 to 255 of LI); BARRED (the lowest such column); CHECK (E); then the fields of E from
 * left to right, each REQUIRED, FORM, RANGE; of LI FORM at column 15, where that column is not blank or type, address and text do not
 * follow it, parted by one blank each: a type of 1 to 16 bytes and an address, both without blanks, and a text that does not begin with
 * one; else READ, with length ROTMIBEL_RECORD. The day of an E line must exist in the Gregorian calendar, carried backward over all years,
 * year 0 a leap year: else RANGE at column 20.
 */
uint64_t rotmibel_read_line(const uint8_t *line, size_t line_len, uint8_t *record, size_t record_len);

/*
 * Write a record as a CUBE line. The check character of an E line is computed.
 *
 * record, record_len  the record: its first ROTMIBEL_RECORD bytes
 * line, line_len      where the line goes: at least 80 bytes for an event, 13 and its text for a delete, 17 and its type, address and
 *                     text for a link; ROTMIBEL_LINE bytes do for each
 *
 * Answers, looked for in this order: FORM at column 0 (no record; also fewer bytes than one has); BAD_LENGTH (a delete's text of
 * more than 67 bytes; a link's line of fewer than 20 or more than 255); SHORT; then of E and DE the fields from left to right, each
 * REQUIRED, BARRED, WIDE, RANGE; of a link BARRED (the lowest such column of the line that it would be), then FORM at column 15 (a part
 * that is empty, a type of more than 16 bytes, a blank in type or address, a text that begins with one); else READ, with the line's
 * length. What is written reads back to the same record.
 */
uint64_t rotmibel_write_line(const uint8_t *record, size_t record_len, uint8_t *line, size_t line_len);

/*
 * Read an ISF 2.1 phase line into a record. A line of fewer than 199 bytes is read as if blank-filled.
 *
 * line, line_len      the line
 * record, record_len  where the record goes: at least ROTMIBEL_PHASE_RECORD bytes, the first of which are written
 *
 * Answers, looked for in this order: SHORT (record_len); BAD_LENGTH (over 199 bytes); BARRED (the lowest such column); then the columns
 * from left to right, each SEPARATOR, or REQUIRED (the station), FORM, RANGE, LETTER; else READ, with length ROTMIBEL_PHASE_RECORD.
 */
uint64_t rotmibel_read_phase(const uint8_t *line, size_t line_len, uint8_t *record, size_t record_len);

/*
 * Write a phase record as a line of 199 bytes.
 *
 * Answers, looked for in this order: FORM at column 0 (no record, also a time with some of its parts missing); SHORT; then the columns
 * from left to right, each REQUIRED, BARRED, WIDE, RANGE, LETTER; else READ, with the line's length. What is written reads back to
 * the same record.
 */
uint64_t rotmibel_write_phase(const uint8_t *record, size_t record_len, uint8_t *line, size_t line_len);

/*
 * A phase block is a header line, phase lines and comments, and a closing blank line or the end: at most ROTMIBEL_BLOCK bytes, each line
 * ended by a newline or the end. A comment begins with a blank and `(`, has at most 1,024 bytes, and its last non-blank is `)`; it
 * belongs to the phase line before it.
 */

/*
 * Read a phase block: is it one, and how many phase lines and comments does it have?
 *
 * Returns READ with PHASE_COUNT, COMMENT_COUNT and BYTES_USED (the closing line and its newline included; without a closing line, the
 * whole block). Or the refusal of the first refused line, with its COLUMN and its LINE_NUMBER: BAD_LENGTH at line 0 (over ROTMIBEL_BLOCK
 * bytes); OUT_OF_PLACE at line 1 (the first line, trailing blanks removed, is not the header; an empty block); the refusals of
 * rotmibel_read_phase but for SHORT; for a comment BAD_LENGTH, BARRED, NOT_CLOSED, OUT_OF_PLACE. Nothing after the closing line is
 * looked at.
 */
uint64_t rotmibel_read_block(const uint8_t *block, size_t block_len);

/*
 * The next line of a block. To walk a block, hand in 0 as `before` and then each time the number that the call before answered; the walk is
 * over at IS_CLOSING, IS_NOTHING or a refusal. The line's bytes are those from LINE_NEXT of `before` (0 to begin) up to LINE_END of what
 * is returned; those of a phase line can be handed to rotmibel_read_phase. A walk goes over the block once.
 *
 * Returns LINE_KIND, LINE_PHASE (of a phase line its number from 1, of a comment the number of the phase line it belongs to, else 0),
 * LINE_END and LINE_NEXT. Or, looked for in this order and with nothing else in the number: BAD_LENGTH (over ROTMIBEL_BLOCK bytes);
 * OUT_OF_PLACE (before is 0 and the first line, trailing blanks removed, is not the header; an empty block); IS_NOTHING at the end of the
 * block, after the closing line and after a refusal. Any number may be handed in: one that tells of no line before, or of a place past the
 * end, or of phase 65,535, which no block has, gets IS_NOTHING.
 * A line is told by its own bytes; whether it is accepted, rotmibel_read_block says. Of a block that it reads, the walk meets exactly the phase
 * lines and comments that it counts, and ends at its BYTES_USED. Nothing is changed.
 */
uint64_t rotmibel_block_line(const uint8_t *block, size_t block_len, uint64_t before);

/*
 * Write the header of a phase block and a newline, from place `at` of a buffer on.
 *
 * Answers SHORT where fewer than ROTMIBEL_BLOCK_LINE bytes are left from there; else READ, with PLACE the place after the newline (modulo
 * 2^40). Other bytes stay.
 */
uint64_t rotmibel_write_header(uint8_t *out, size_t out_len, size_t at);

/*
 * Write a phase record as a line of a block and a newline, from place `at` of a buffer on: the place that the call before answered.
 *
 * Answers, looked for in this order: FORM at column 0 (no record); SHORT as above; then as rotmibel_write_phase; else READ, with PLACE.
 * What a header call and record calls wrote reads back as a block with those records in that order and no comments, as long as it has at
 * most ROTMIBEL_BLOCK bytes (the header and 326 records): the calls themselves stop only at the buffer's end.
 */
uint64_t rotmibel_write_record(const uint8_t *record, size_t record_len, uint8_t *out, size_t out_len, size_t at);

/*
 * Read an ISF 2.1 automatic arrival line (ARRIVAL:AUTOMATIC) into a record. A line of fewer than 203 bytes is read as if blank-filled.
 *
 * line, line_len      the line
 * record, record_len  where the record goes: at least ROTMIBEL_ARRIVAL_RECORD bytes, the first of which are written
 *
 * Answers, looked for in this order: SHORT (record_len); BAD_LENGTH (over 203 bytes); BARRED (the lowest such column); then the columns
 * from left to right, each SEPARATOR, or REQUIRED (the station is all blank), FORM, RANGE; else READ, with length
 * ROTMIBEL_ARRIVAL_RECORD. A network that begins with a blank and is not all blank is FORM at column 1. A date is all blank, or its two
 * slashes and three numbers, else FORM at column 30; then RANGE there, also for a day that the calendar does not have. LETTER is never
 * answered.
 */
uint64_t rotmibel_read_arrival(const uint8_t *line, size_t line_len, uint8_t *record, size_t record_len);

/*
 * Write an arrival record as a line of 203 bytes.
 *
 * Answers, looked for in this order: FORM at column 0 (no record, also a date or a time with some of its parts missing); SHORT; then the
 * columns from left to right, each REQUIRED (of the network FORM), BARRED, WIDE, RANGE; else READ, with the line's length. What is written
 * reads back to the same record.
 */
uint64_t rotmibel_write_arrival(const uint8_t *record, size_t record_len, uint8_t *line, size_t line_len);

/*
 * An arrival block is as a phase block, with a header of its own and arrival lines. The line `DATA_TYPE ARRIVAL:AUTOMATIC ISF2.1` that
 * comes before it in a message is no part of it, and neither call reads the blocks of the other. Each call below answers as the
 * phase block's call does, with the lines' refusals those of rotmibel_read_arrival and rotmibel_write_arrival.
 */

/* As rotmibel_read_block: READ with ARRIVAL_COUNT, COMMENT_COUNT and BYTES_USED, or a refusal with its COLUMN and LINE_NUMBER. */
uint64_t rotmibel_read_arrival_block(const uint8_t *block, size_t block_len);

/* As rotmibel_block_line: LINE_KIND, LINE_ARRIVAL, LINE_END and LINE_NEXT. The bytes of an arrival line can be handed to
   rotmibel_read_arrival. */
uint64_t rotmibel_arrival_block_line(const uint8_t *block, size_t block_len, uint64_t before);

/* As rotmibel_write_header: SHORT where fewer than ROTMIBEL_ARRIVAL_BLOCK_LINE bytes are left from `at`; else READ, with PLACE. */
uint64_t rotmibel_write_arrival_header(uint8_t *out, size_t out_len, size_t at);

/* As rotmibel_write_record. A block of at most ROTMIBEL_BLOCK bytes holds the header and 320 records. */
uint64_t rotmibel_write_arrival_record(const uint8_t *record, size_t record_len, uint8_t *out, size_t out_len, size_t at);

/*
 * A Calnet card is a line whose first byte, the key letter, says what it holds: I identifies an event, L is its location, E the errors of
 * that, M a magnitude, P a pick, A an amplitude, R a remark. Each has a full width and a record of its own size:
 *
 *   letter     I   L   E   M   P   A   R
 *   width     45  43  63  18  42  43  78
 *   record    74  43  82  24  37  43  77
 *
 * The other letters of the format (C, G, T, N) are not read.
 */

/*
 * Read a card of any of the seven letters into a record. A line shorter than its card's width is read as if blank-filled.
 *
 * line, line_len      the line
 * record, record_len  where the record goes: at least ROTMIBEL_CARD_RECORD bytes, whatever the letter; the first, as many as the card's
 *                     record has, are written, and the others stay
 *
 * Answers, looked for in this order: SHORT (record_len, before the line is looked at); BAD_LENGTH (an empty line); TYPE (another first
 * byte); BAD_LENGTH (a line longer than its card's width, also where the rest is blank); BARRED (the lowest such column; brackets are
 * text); then the columns from left to right, each SEPARATOR, or REQUIRED (year to second of an I card), FORM, RANGE; else READ, with the
 * length of the record. LETTER is never answered.
 *
 * Ranges: year -999 to 6070, month, hour and minute as in an E line, a day that the calendar has (else RANGE at column 11), thousandths of
 * a second 0 to 59,999; latitude at most 90,000 and longitude 180,000 either side of zero. The other numbers are as their columns hold them,
 * also below zero. A blank number is missing, which is not the same as 0: a gap of 0.0 is there and is 0.
 */
uint64_t rotmibel_read_card(const uint8_t *line, size_t line_len, uint8_t *record, size_t record_len);

/*
 * Write a record as a card, at its full width.
 *
 * record, record_len  the record: its first byte says which card, and of the others only those that this card's record has count
 * line, line_len      where the card goes: at least its width; ROTMIBEL_CARD_LINE bytes do for each
 *
 * Answers, looked for in this order: FORM at column 0 (no record: no bytes, a kind that is no card's, fewer bytes than its record has, a
 * flag other than 0 and 1, a missing number with bytes that are not zero); SHORT; then the columns from left to right, each REQUIRED,
 * BARRED, WIDE, RANGE; else READ, with the card's width. What is written reads back to the same record.
 */
uint64_t rotmibel_write_card(const uint8_t *record, size_t record_len, uint8_t *line, size_t line_len);

/*
 * Write a record as a card and a newline, from place `at` of a buffer on: 0, or the place that the call before answered.
 *
 * Answers, looked for in this order: FORM at column 0 (no record); SHORT where fewer bytes than the card's width and one are left from
 * there, also for a place past the end; then as rotmibel_write_card; else READ, with PLACE the place after the newline (modulo 2^40).
 * Other bytes stay. Whether the card follows an I card is not looked at: what these calls wrote reads back as a run of those records in
 * that order where the first is an I card's and the whole has at most ROTMIBEL_BLOCK bytes.
 */
uint64_t rotmibel_write_card_record(const uint8_t *record, size_t record_len, uint8_t *out, size_t out_len, size_t at);

/*
 * A run of cards has at most ROTMIBEL_BLOCK bytes, each line ended by a newline or the end; a newline at the end adds no line. An I card
 * opens an event, and the others belong to the I card before them, in any order. There is no header, no comment and no closing line.
 */

/*
 * Read a run of cards: is it one, and how many events and cards of each letter does it have?
 *
 * run, run_len        the run; one of no bytes has no events
 * counts, counts_len  where the numbers of cards go: at least ROTMIBEL_CARD_COUNTS bytes, the first of which are written, two for each of
 *                     the letters I, L, E, M, P, A, R in this order, high byte first (rotmibel_card_count)
 *
 * Returns READ with EVENT_COUNT, which is the number of I cards, and length ROTMIBEL_CARD_COUNTS. Or, looked for in this order: SHORT at
 * line 0 (counts_len); BAD_LENGTH at line 0 (over ROTMIBEL_BLOCK bytes); the refusal of the first refused line, with its COLUMN and its
 * LINE_NUMBER. Of a line: BAD_LENGTH, TYPE, BAD_LENGTH and BARRED as rotmibel_read_card; OUT_OF_PLACE (a card before any I card); then its
 * columns. A line of blanks is refused with TYPE. After a refusal no byte of counts has changed.
 */
uint64_t rotmibel_read_cards(const uint8_t *run, size_t run_len, uint8_t *counts, size_t counts_len);

/*
 * The next card of a run. To walk a run, hand in 0 as `before` and then each time the number that the call before answered; the walk is over
 * at IS_NOTHING or a refusal. The card's bytes are those from LINE_NEXT of `before` (0 to begin) up to LINE_END of what is returned; they
 * can be handed to rotmibel_read_card. A walk goes over the run once.
 *
 * Returns LINE_KIND, which is the card's letter ('I', 'L', 'E', 'M', 'P', 'A' or 'R'), LINE_EVENT (the number, from 1, of the event that it
 * opens or belongs to; 0 before any I card), LINE_END and LINE_NEXT. Or, looked for in this order and with nothing else in the number:
 * BAD_LENGTH (over ROTMIBEL_BLOCK bytes); IS_NOTHING at the end of the run and after a refusal; BAD_LENGTH (an empty line); TYPE (another
 * first byte). Any number may be handed in: one that tells of no card before, or of a place past the end, or of event 65,535, which no
 * run has, gets IS_NOTHING.
 * A card is told by its letter alone; whether it is accepted, rotmibel_read_cards says. Of a run that it reads, the walk meets exactly the
 * cards and events that it counts, and ends at the end of the run. Nothing is changed.
 */
uint64_t rotmibel_card_line(const uint8_t *run, size_t run_len, uint64_t before);

/*
 * The catalogue lives in a room, ROTMIBEL_ROOM bytes that the caller keeps, saves and loads as he likes. A zeroed room is an empty
 * catalogue. Of a longer room only the first ROTMIBEL_ROOM bytes are looked at and changed. Two rooms that took the same acceptable
 * lines, in any order and with any repeats, are equal byte for byte (docs/PROMISES.md has the premises).
 *
 * A room holds, in this order: the number of held lines (2 bytes, high byte first), the held E lines (80 bytes each), the number of
 * deletions (2 bytes), the deletions (11 bytes each: source, identifier, version), the number of links (2 bytes), the links (256 bytes
 * each: the length of the line, the LI line, zeros), zeros. Held lines and deletions ascend by source, then identifier, links by source,
 * identifier, type. A link whose text is `delete` or `delete:` says that there is no such page any more; it is kept like the others.
 *
 * A room saved before there were links has ROTMIBEL_OLD_ROOM bytes and no third part. Filled with zeros to ROTMIBEL_ROOM bytes it is the
 * same catalogue, with no links; as it is, each call answers SHORT. A room that holds an E line of a day that does not exist, as earlier
 * versions took it, is out of order: each call but rotmibel_quick_look_up, which does not look, answers DISORDER.
 */

/*
 * Take a line into a catalogue. The whole room is checked first, so any bytes may be handed over.
 *
 * room, room_len  the catalogue
 * line, line_len  an E, DE or LI line
 *
 * Answers, looked for in this order: SHORT (room_len); DISORDER; the refusals of rotmibel_read_line for the line, with their column;
 * FULL (E and DE, but not where NOTHING_HELD is the answer); LINKS_FULL (LI); else STORED to NOTHING_HELD for E and DE, STORED to OUTDATED
 * for LI. REPEATED, OUTDATED, NOTHING_HELD and refusals change nothing. E and DE lines leave the links as they are, and LI lines the rest.
 */
uint64_t rotmibel_take(uint8_t *room, size_t room_len, const uint8_t *line, size_t line_len);

/*
 * Look a pair up. The held line at place p (ROTMIBEL_LENGTH of what is returned) is the 80 bytes from room + 2 + 80 * p on.
 *
 * Answers, looked for in this order: SHORT; DISORDER; BAD_LENGTH (a source not of 2 bytes or an identifier not of 8); HELD with its
 * place, or NOT_HELD. Nothing is changed.
 */
uint64_t rotmibel_look_up(const uint8_t *room, size_t room_len, const uint8_t *source, size_t source_len,
                          const uint8_t *identifier, size_t identifier_len);

/*
 * Look a pair up by halving, with no check of the room: for a room that is known to be in order, as rotmibel_take leaves it. Of the room
 * only the count of the held lines and the entries examined are read, at most 10 of 512: while the stretch of entries is not empty,
 * the entry at half the sum, rounded down, of its first place and the place after its last is examined; if it has the pair the search is
 * over, else it goes on in the half that can hold the pair.
 *
 * Answers, looked for in this order: SHORT; DISORDER only for a count of held lines above ROTMIBEL_MOST_PAIRS; BAD_LENGTH as above; HELD with
 * its place, or NOT_HELD; with HELD and NOT_HELD also ROTMIBEL_EXAMINED, never more than the count has binary digits. In a room in
 * order answer and place are those of rotmibel_look_up. In any other room the answer is the rule's, and HELD still shows an entry
 * with that pair at that place; NOT_HELD then says only that the search did not meet one. Nothing is changed.
 */
uint64_t rotmibel_quick_look_up(const uint8_t *room, size_t room_len, const uint8_t *source, size_t source_len,
                                const uint8_t *identifier, size_t identifier_len);

/* Whether a room is a catalogue in order: READ (0), or SHORT or DISORDER. Nothing is changed. */
uint64_t rotmibel_in_order(const uint8_t *room, size_t room_len);

/* The links of a room that is in order: how many there are, and the entry of link `index` (from 0), a byte with the length of the line and
   the line. */
static inline const uint8_t *rotmibel_past(const uint8_t *section, size_t entry) {
    return section + 2 + entry * ((size_t)section[0] << 8 | section[1]);
}
static inline const uint8_t *rotmibel_links_of(const uint8_t *room) {
    return rotmibel_past(rotmibel_past(room, ROTMIBEL_EVENT_LINE), ROTMIBEL_DELETION_ENTRY);
}
static inline size_t rotmibel_link_count(const uint8_t *room) {
    const uint8_t *links = rotmibel_links_of(room);
    return (size_t)links[0] << 8 | links[1];
}
static inline const uint8_t *rotmibel_link_entry(const uint8_t *room, size_t index) {
    return rotmibel_links_of(room) + 2 + ROTMIBEL_LINK_ENTRY * index;
}

/* Whether number `index` (from 0) of an event's record is there. */
static inline int rotmibel_has_number(const uint8_t *record, unsigned index) { return record[1 + index] != 0; }

/* The number in eight bytes of a record. */
static inline int64_t rotmibel_number_at(const uint8_t *bytes) {
    uint64_t n = 0;
    for (unsigned i = 0; i < 8; i++) n = n << 8 | bytes[i];
    return n >> 63 ? -(int64_t)(~n) - 1 : (int64_t)n;
}

/* Number `index` (from 0) of an event's record; 0 where it is missing. */
static inline int64_t rotmibel_number(const uint8_t *record, unsigned index) { return rotmibel_number_at(record + 20 + 8 * index); }

/* The numbers of an event's record. Scaled as the columns are: seconds, kilometres and magnitudes by 10, rms by 100, degrees by
   10,000; gap in percent of a circle. */
enum rotmibel_event_number {
    ROTMIBEL_YEAR, ROTMIBEL_MONTH, ROTMIBEL_DAY, ROTMIBEL_HOUR, ROTMIBEL_MINUTE, ROTMIBEL_SECOND, ROTMIBEL_LATITUDE,
    ROTMIBEL_LONGITUDE, ROTMIBEL_DEPTH, ROTMIBEL_MAGNITUDE, ROTMIBEL_STATIONS, ROTMIBEL_PHASES, ROTMIBEL_NEAREST, ROTMIBEL_RMS,
    ROTMIBEL_HORIZONTAL_ERROR, ROTMIBEL_VERTICAL_ERROR, ROTMIBEL_GAP, ROTMIBEL_MAGNITUDE_STATIONS, ROTMIBEL_MAGNITUDE_ERROR
};

/* Whether number `index` (from 0) of a phase record is there; and the number, 0 where it is missing. */
static inline int rotmibel_phase_has(const uint8_t *record, unsigned index) { return record[1 + index] != 0; }
static inline int64_t rotmibel_phase_number(const uint8_t *record, unsigned index) { return rotmibel_number_at(record + 19 + 8 * index); }

/* The numbers of a phase record, each scaled by the decimals of its column: seconds of the time by 1,000, distance and period by 100,
   latitude and longitude by 10,000, the others by 10. */
enum rotmibel_phase_number {
    ROTMIBEL_P_DISTANCE, ROTMIBEL_P_EVENT_AZIMUTH, ROTMIBEL_P_HOUR, ROTMIBEL_P_MINUTE, ROTMIBEL_P_SECOND, ROTMIBEL_P_TIME_RESIDUAL,
    ROTMIBEL_P_AZIMUTH, ROTMIBEL_P_AZIMUTH_RESIDUAL, ROTMIBEL_P_SLOWNESS, ROTMIBEL_P_SLOWNESS_RESIDUAL, ROTMIBEL_P_SIGNAL_TO_NOISE,
    ROTMIBEL_P_AMPLITUDE, ROTMIBEL_P_PERIOD, ROTMIBEL_P_MAGNITUDE, ROTMIBEL_P_LATITUDE, ROTMIBEL_P_LONGITUDE, ROTMIBEL_P_ELEVATION,
    ROTMIBEL_P_DEPTH
};

/* Where the text of a phase record stands; docs/RECORDS.md has the rest. */
#define ROTMIBEL_P_STATION 163       /* 5 bytes */
#define ROTMIBEL_P_PHASE 168         /* 8 bytes */
#define ROTMIBEL_P_DEFINING 176      /* time, azimuth, slowness: 1 byte each */
#define ROTMIBEL_P_PICK 179          /* type of pick, direction, onset: 1 byte each */
#define ROTMIBEL_P_MAGNITUDE_TYPE 182 /* 5 bytes, then 1 byte `<`, `>` or blank */
#define ROTMIBEL_P_ARRIVAL 188       /* 8 bytes and 3 of its extension */

/* Whether number `index` (from 0) of an arrival record is there; and the number, 0 where it is missing. */
static inline int rotmibel_arrival_has(const uint8_t *record, unsigned index) { return record[1 + index] != 0; }
static inline int64_t rotmibel_arrival_number(const uint8_t *record, unsigned index) { return rotmibel_number_at(record + 18 + 8 * index); }

/* The numbers of an arrival record, each scaled by the decimals of its column: seconds of the time by 1,000, period by 100, latitude and
   longitude by 10,000, the others but date, hour and minute by 10. */
enum rotmibel_arrival_number {
    ROTMIBEL_A_YEAR, ROTMIBEL_A_MONTH, ROTMIBEL_A_DAY, ROTMIBEL_A_HOUR, ROTMIBEL_A_MINUTE, ROTMIBEL_A_SECOND, ROTMIBEL_A_AZIMUTH,
    ROTMIBEL_A_SLOWNESS, ROTMIBEL_A_SIGNAL_TO_NOISE, ROTMIBEL_A_AMPLITUDE, ROTMIBEL_A_PERIOD, ROTMIBEL_A_SHORT_TERM_AVERAGE,
    ROTMIBEL_A_DURATION, ROTMIBEL_A_LATITUDE, ROTMIBEL_A_LONGITUDE, ROTMIBEL_A_ELEVATION, ROTMIBEL_A_DEPTH
};

/* Where the text of an arrival record stands; docs/RECORDS.md has the rest. */
#define ROTMIBEL_A_NETWORK 154   /* 9 bytes */
#define ROTMIBEL_A_STATION 163   /* 5 bytes */
#define ROTMIBEL_A_BEAM 168      /* 12 bytes */
#define ROTMIBEL_A_PHASE 180     /* 8 bytes */
#define ROTMIBEL_A_AUTHOR 188    /* 9 bytes: the author of the detection */
#define ROTMIBEL_A_DETECTION 197 /* 8 bytes and 3 of its extension */

/* The counts that rotmibel_read_cards writes, and the number of cards of one of the letters. */
enum rotmibel_card_letter {
    ROTMIBEL_I_CARDS, ROTMIBEL_L_CARDS, ROTMIBEL_E_CARDS, ROTMIBEL_M_CARDS, ROTMIBEL_P_CARDS, ROTMIBEL_A_CARDS, ROTMIBEL_R_CARDS
};
static inline size_t rotmibel_card_count(const uint8_t *counts, unsigned index) {
    return (size_t)counts[2 * index] << 8 | counts[2 * index + 1];
}

/* How many numbers the record of a card has, which its kind says; 0 of a kind that is no card's. */
static inline unsigned rotmibel_card_numbers(const uint8_t *record) {
    switch (record[0]) {
    case ROTMIBEL_CARD_I: return 8;
    case ROTMIBEL_CARD_L: return 4;
    case ROTMIBEL_CARD_E: return 9;
    case ROTMIBEL_CARD_M: return 2;
    case ROTMIBEL_CARD_P: return 1;
    case ROTMIBEL_CARD_A: return 2;
    default: return 0;
    }
}

/* Whether number `index` (from 0) of a card's record is there; and the number, 0 where it is missing. Of an index that the kind does not
   have, both are 0. */
static inline int rotmibel_card_has(const uint8_t *record, unsigned index) {
    return index < rotmibel_card_numbers(record) && record[1 + index] != 0;
}
static inline int64_t rotmibel_card_number(const uint8_t *record, unsigned index) {
    unsigned numbers = rotmibel_card_numbers(record);
    return index < numbers ? rotmibel_number_at(record + 1 + numbers + 8 * index) : 0;
}

/* The numbers of each card's record, scaled by the decimals of their columns: magnitude, amplitude, period and the depth of an L card by
   100, gap and nearest station by 10, seconds, degrees and errors by 1,000. Times on L and P are seconds from the I card's time. */
enum rotmibel_card_i_number {
    ROTMIBEL_CI_YEAR, ROTMIBEL_CI_MONTH, ROTMIBEL_CI_DAY, ROTMIBEL_CI_HOUR, ROTMIBEL_CI_MINUTE, ROTMIBEL_CI_SECOND, ROTMIBEL_CI_IDENTIFIER,
    ROTMIBEL_CI_PARENT
};
enum rotmibel_card_l_number { ROTMIBEL_CL_LATITUDE, ROTMIBEL_CL_LONGITUDE, ROTMIBEL_CL_DEPTH, ROTMIBEL_CL_ORIGIN_TIME };
enum rotmibel_card_e_number {
    ROTMIBEL_CE_RMS, ROTMIBEL_CE_LATITUDE_ERROR, ROTMIBEL_CE_LONGITUDE_ERROR, ROTMIBEL_CE_DEPTH_ERROR, ROTMIBEL_CE_ORIGIN_TIME_ERROR,
    ROTMIBEL_CE_PHASES_PICKED, ROTMIBEL_CE_PHASES_USED, ROTMIBEL_CE_GAP, ROTMIBEL_CE_NEAREST
};
enum rotmibel_card_m_number { ROTMIBEL_CM_MAGNITUDE, ROTMIBEL_CM_COUNT };
enum rotmibel_card_p_number { ROTMIBEL_CP_TIME };
enum rotmibel_card_a_number { ROTMIBEL_CA_AMPLITUDE, ROTMIBEL_CA_PERIOD };

/* Where the text of each card's record stands; E has none. */
#define ROTMIBEL_CI_TYPE 73        /* 1 byte: the type of the event */
#define ROTMIBEL_CL_CONSTRAINTS 37 /* 3 bytes */
#define ROTMIBEL_CL_METHOD 40      /* 3 bytes */
#define ROTMIBEL_CM_TYPE 19        /* 1 byte: the type of the magnitude */
#define ROTMIBEL_CM_AGENCY 20      /* 4 bytes */
#define ROTMIBEL_CP_STATION 10     /* 15 bytes: station, component and network */
#define ROTMIBEL_CP_SYSTEM 25      /* 3 bytes: the recording system */
#define ROTMIBEL_CP_PHASE 28       /* 6 bytes */
#define ROTMIBEL_CP_DESCRIPTION 34 /* 3 bytes: first motion, weight, appearance */
#define ROTMIBEL_CA_STATION 19     /* 15 bytes */
#define ROTMIBEL_CA_SYSTEM 34      /* 3 bytes */
#define ROTMIBEL_CA_PHASE 37       /* 6 bytes */
#define ROTMIBEL_CR_REMARK 1       /* 76 bytes */

/* Where the text of an event's record stands: identifier 8 bytes, source 2, version 1, magnitude letter 1, method 1. */
#define ROTMIBEL_EVENT_IDENTIFIER 172
#define ROTMIBEL_EVENT_SOURCE 180
#define ROTMIBEL_EVENT_VERSION 182
#define ROTMIBEL_EVENT_MAGNITUDE_LETTER 183
#define ROTMIBEL_EVENT_METHOD 184

/* Where the parts of a delete's record stand: the length of its text 1 byte, identifier 8, source 2, version 1, text; then zeros. */
#define ROTMIBEL_DELETE_TEXT_LENGTH 1
#define ROTMIBEL_DELETE_IDENTIFIER 2
#define ROTMIBEL_DELETE_SOURCE 10
#define ROTMIBEL_DELETE_VERSION 12
#define ROTMIBEL_DELETE_TEXT 13

/* Where the parts of a link's record stand: the lengths of type, address and text 1 byte each, identifier 8, source 2, version 2; then
   type, address and text, one after the other; then zeros. */
#define ROTMIBEL_LINK_TYPE_LENGTH 1
#define ROTMIBEL_LINK_ADDRESS_LENGTH 2
#define ROTMIBEL_LINK_TEXT_LENGTH 3
#define ROTMIBEL_LINK_IDENTIFIER 4
#define ROTMIBEL_LINK_SOURCE 12
#define ROTMIBEL_LINK_VERSION 14
#define ROTMIBEL_LINK_TYPE 16

#ifdef __cplusplus
}
#endif

#endif
