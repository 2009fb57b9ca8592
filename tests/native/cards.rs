//! The Calnet cards, after document 02, "The old Calnet cards", the tables of document 000 and the last paragraph of document 01, "The
//! block": a card and its record, a run of cards, and a walk along it.
use crate::block::{ended, room_from, Told, NO_LINE, OUT_OF_PLACE};
use crate::number::*;
use crate::row::Field::{self, *};
use crate::row::{Format, Number};

/// A place for any card's record, the places of the counts, and the longest run.
pub const RECORD: usize = 82;
pub const COUNTS: usize = 14;
pub const RUN: usize = 65536;

const fn num(decimals: Option<usize>, low: i64, high: i64) -> Field {
    Num(Number { decimals, low, high, required: false, is_day: false })
}
const fn dec(d: usize) -> Field {
    num(Some(d), i64::MIN, i64::MAX)
}
const fn needed(decimals: Option<usize>, low: i64, high: i64) -> Field {
    Num(Number { decimals, low, high, required: true, is_day: false })
}
const INT: Field = num(None, i64::MIN, i64::MAX);
const DAY: Field = Num(Number { decimals: None, low: 1, high: 31, required: true, is_day: true });

const I: Format = Format::card(
    b'I',
    6,
    &[
        (3, 6, needed(None, -999, 6070)),    // year, month, day
        (8, 9, needed(None, 1, 12)),
        (11, 12, DAY),
        (14, 15, needed(None, 0, 23)),       // hour, minute, second
        (17, 18, needed(None, 0, 59)),
        (20, 25, needed(Some(3), 0, 59999)),
        (27, 34, INT),                       // id, parent id
        (36, 43, INT),
        (45, 45, Text),                      // type
    ],
);
const L: Format = Format::card(
    b'L',
    7,
    &[
        (3, 9, num(Some(3), -90000, 90000)), // latitude, longitude
        (11, 18, num(Some(3), -180000, 180000)),
        (20, 25, dec(2)),                    // depth
        (27, 35, dec(3)),                    // origin time
        (37, 39, Text),                      // constraints, method
        (41, 43, Text),
    ],
);
const E: Format = Format::card(
    b'E',
    8,
    &[
        (3, 9, dec(3)),                      // rms
        (11, 17, dec(3)),                    // errors of latitude, longitude, depth, origin time
        (19, 25, dec(3)),
        (27, 33, dec(3)),
        (35, 41, dec(3)),
        (43, 46, INT),                       // phases picked, used
        (48, 51, INT),
        (53, 57, dec(1)),                    // gap, nearest station
        (59, 63, dec(1)),
    ],
);
const M: Format = Format::card(
    b'M',
    9,
    &[
        (3, 3, Text),                        // type
        (5, 10, dec(2)),                     // magnitude, and how many it is made of
        (11, 13, INT),
        (15, 18, Text),                      // agency
    ],
);
const P: Format = Format::card(
    b'P',
    10,
    &[
        (3, 17, Text),                       // station, recording system, phase, description
        (19, 21, Text),
        (23, 28, Text),
        (30, 32, Text),
        (34, 42, dec(3)),                    // arrival time
    ],
);
const A: Format = Format::card(
    b'A',
    11,
    &[
        (3, 17, Text),                       // station, recording system
        (19, 21, Text),
        (23, 29, dec(2)),                    // amplitude
        (31, 36, Text),                      // phase
        (38, 43, dec(2)),                    // period
    ],
);
const R: Format = Format::card(b'R', 12, &[(3, 78, Text)]); // remark

/// In the order of the counts.
pub static CARDS: [Format; 7] = [I, L, E, M, P, A, R];

/// The widths that document 02 and document 000 state, and the sizes of the records that follow from their columns.
const fn has_sizes(f: &Format, width: usize, record: usize) -> bool {
    f.width == width && f.record() == record
}
const _: () = assert!(has_sizes(&I, 45, 74) && has_sizes(&L, 43, 43) && has_sizes(&E, 63, RECORD) && has_sizes(&M, 18, 24));
const _: () = assert!(has_sizes(&P, 42, 37) && has_sizes(&A, 43, 43) && has_sizes(&R, 78, 77));

// ---- a card by itself

pub fn of_kind(record: &[u8]) -> Option<&'static Format> {
    CARDS.iter().find(|card| Some(&card.kind) == record.first())
}

/// Where the counts have a letter.
fn place_of(letter: u8) -> Option<usize> {
    CARDS.iter().position(|card| card.key == Some(letter))
}

/// The card that a line's first letter names, by its place among the counts.
fn named(line: &[u8]) -> Result<usize, Refusal> {
    let &letter = line.first().ok_or((LENGTH, 0))?;
    place_of(letter).ok_or((TYPE, 1))
}

pub fn read_line(line: &[u8]) -> Result<Vec<u8>, Refusal> {
    CARDS[named(line)?].read_line(line)
}

pub fn write_line(record: &[u8], room: usize) -> Result<Vec<u8>, Refusal> {
    of_kind(record).ok_or((FORM, 0))?.write_line(record, room)
}

pub fn record_call(record: &[u8], at: usize, size: usize) -> Result<Vec<u8>, Refusal> {
    write_line(record, room_from(at, size)).map(ended)
}

// ---- a run of cards

/// The count of each letter; or number, column and line. `room` is the size of the place for the counts.
pub fn read_run(run: &[u8], room: usize) -> Result<[usize; 7], (u8, usize, usize)> {
    if room < COUNTS {
        return Err((SHORT, 0, 0));
    }
    if run.len() > RUN {
        return Err((LENGTH, 0, 0));
    }
    let mut counts = [0; 7];
    for (i, whole) in run.split_inclusive(|&b| b == b'\n').enumerate() {
        let line = whole.strip_suffix(b"\n").unwrap_or(whole);
        let place = judge_line(line, counts[0] > 0).map_err(|(n, c)| (n, c, i + 1))?;
        counts[place] += 1;
    }
    Ok(counts)
}

/// Where the counts have the card; document 01's order for a format whose first letter names the kind of line. `opened` says whether an I
/// card came before.
fn judge_line(line: &[u8], opened: bool) -> Result<usize, Refusal> {
    let place = named(line)?;
    CARDS[place].judge_bytes(line)?;
    if place != 0 && !opened {
        return Err((OUT_OF_PLACE, 0));
    }
    CARDS[place].read_columns(line)?;
    Ok(place)
}

/// The counts as bytes, two for each.
pub fn count_bytes(counts: [usize; 7]) -> Vec<u8> {
    counts.iter().flat_map(|&n| (n as u16).to_be_bytes()).collect()
}

// ---- a walk along a run: a line's kind is its letter, its row the event it belongs to

const LAST_EVENT: usize = 65534;

/// The line after the one that `before` tells of; the first line where nothing came before.
pub fn line_after(run: &[u8], before: Option<Told>) -> Told {
    if run.len() > RUN {
        return Told { kind: LENGTH, ..NO_LINE };
    }
    let (event, at) = match before {
        None => (0, 0),
        Some(b) if place_of(b.kind).is_none() => return NO_LINE,
        Some(b) => (b.row, b.next),
    };
    if event > LAST_EVENT || at >= run.len() {
        return NO_LINE;
    }
    let rest = &run[at..];
    let line = rest.split(|&b| b == b'\n').next().unwrap();
    let end = at + line.len();
    match named(line) {
        Err((number, _)) => Told { kind: number, ..NO_LINE },
        Ok(place) => Told { kind: line[0], row: event + (place == 0) as usize, end, next: run.len().min(end + 1) },
    }
}
