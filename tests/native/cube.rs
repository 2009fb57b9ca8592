//! CUBE lines and their records, after document 01 ("The E line", "The DE line", "Order"), document 02 ("No thirtieth of February") and
//! docs/RECORDS.md; the LI line is in link.rs.
use crate::calendar::days;
use crate::link;
use crate::number::*;

/// A record of any kind, an E line, and a DE line with no text and with the longest.
pub const RECORD: usize = 268;
pub const EVENT_LINE: usize = 80;
pub const SHORTEST_DELETE: usize = 13;
pub const LONGEST_DELETE: usize = 80;
/// The last column of the version of an E or DE line, up to which brackets are barred.
const NAMES_END: usize = 13;

/// Document 01's table: first column, last column, required, lowest and highest value.
const NUMBERS: [(usize, usize, bool, i64, i64); 19] = [
    (14, 17, true, -999, 6070),
    (18, 19, true, 1, 12),
    (20, 21, true, 1, 31),
    (22, 23, true, 0, 23),
    (24, 25, true, 0, 59),
    (26, 28, true, 0, 599),
    (29, 35, true, -900000, 900000),
    (36, 43, true, -1800000, 1800000),
    (44, 47, false, i64::MIN, i64::MAX),
    (48, 49, false, i64::MIN, i64::MAX),
    (50, 52, false, 0, i64::MAX),
    (53, 55, false, 0, i64::MAX),
    (56, 59, false, 0, i64::MAX),
    (60, 63, false, 0, i64::MAX),
    (64, 67, false, 0, i64::MAX),
    (68, 71, false, 0, i64::MAX),
    (72, 73, false, 0, i64::MAX),
    (75, 76, false, 0, i64::MAX),
    (77, 78, false, 0, i64::MAX),
];

/// The numbers of the date by their place in the table.
pub const YEAR: usize = 0;
pub const MONTH: usize = 1;
pub const DAY: usize = 2;

/// The text columns of an E line, first and last, in the order of the record.
const TEXTS: [(usize, usize); 5] = [(3, 10), (11, 12), (13, 13), (74, 74), (79, 79)];

pub fn check_character(bytes: &[u8]) -> u8 {
    let mut sum: u16 = 0;
    for &b in bytes {
        sum = sum.rotate_right(1).wrapping_add(b as u16);
    }
    36 + (sum % 91) as u8
}

/// Barred in a column of a CUBE line: no text, or a bracket in columns 3 to the last of the version.
fn barred(b: u8, column: usize, names_end: usize) -> bool {
    !is_text(b) || ((b == b'[' || b == b']') && (3..=names_end).contains(&column))
}

pub fn lowest_barred(bytes: &[u8], first: usize, names_end: usize) -> Option<usize> {
    (0..bytes.len()).map(|i| first + i).find(|&c| barred(bytes[c - first], c, names_end))
}

pub fn read_line(line: &[u8]) -> Result<Vec<u8>, Refusal> {
    if line.len() < 2 {
        return Err((LENGTH, 0));
    }
    match &line[..2] {
        b"E " => read_event(line),
        b"DE" => read_delete(line),
        b"LI" => link::read_line(line),
        _ => Err((TYPE, 1)),
    }
}

/// A number of an event's record.
fn number(record: &[u8], i: usize) -> i64 {
    i64::from_be_bytes(record[20 + 8 * i..28 + 8 * i].try_into().unwrap())
}

pub fn put(record: &mut [u8], i: usize, v: i64) {
    record[1 + i] = 1;
    record[20 + 8 * i..28 + 8 * i].copy_from_slice(&v.to_be_bytes());
}

/// Whether a number is in its range and, where it is a day, exists: year and month stand before it and were in theirs.
fn in_range(record: &[u8], i: usize, v: i64) -> bool {
    let (_, _, _, low, high) = NUMBERS[i];
    (low..=high).contains(&v) && (i != DAY || v <= days(number(record, YEAR), number(record, MONTH)))
}

fn read_event(line: &[u8]) -> Result<Vec<u8>, Refusal> {
    if line.len() != EVENT_LINE {
        return Err((LENGTH, 0));
    }
    if let Some(c) = lowest_barred(&line[..79], 1, NAMES_END) {
        return Err((BARRED, c));
    }
    if line[79] != check_character(&line[..79]) {
        return Err((CHECK, 80));
    }
    let mut record = vec![0; RECORD];
    record[0] = 1;
    for (i, &(first, last, required, ..)) in NUMBERS.iter().enumerate() {
        match read_int(&line[first - 1..last]) {
            Ok(None) if required => return Err((REQUIRED, first)),
            Ok(None) => {}
            Err(()) => return Err((FORM, first)),
            Ok(Some(v)) if !in_range(&record, i, v) => return Err((RANGE, first)),
            Ok(Some(v)) => put(&mut record, i, v),
        }
    }
    let mut at = 172;
    for (first, last) in TEXTS {
        let cell = &line[first - 1..last];
        record[at..at + cell.len()].copy_from_slice(cell);
        at += cell.len();
    }
    Ok(record)
}

fn read_delete(line: &[u8]) -> Result<Vec<u8>, Refusal> {
    if line.len() < SHORTEST_DELETE || LONGEST_DELETE < line.len() {
        return Err((LENGTH, 0));
    }
    if let Some(c) = lowest_barred(line, 1, NAMES_END) {
        return Err((BARRED, c));
    }
    let mut record = vec![0; RECORD];
    record[0] = 2;
    record[1] = (line.len() - SHORTEST_DELETE) as u8;
    record[2..2 + line.len() - 2].copy_from_slice(&line[2..]);
    Ok(record)
}

fn is_record(r: &[u8]) -> bool {
    match r[0] {
        1 => {
            let numbers = (0..19).all(|i| match r[1 + i] {
                0 => r[20 + 8 * i..28 + 8 * i].iter().all(|&b| b == 0),
                f => f == 1,
            });
            numbers && r[185..RECORD].iter().all(|&b| b == 0)
        }
        2 => r[SHORTEST_DELETE + r[1] as usize..RECORD].iter().all(|&b| b == 0),
        link::KIND => link::is_record(r),
        _ => false,
    }
}

pub fn write_line(record: &[u8], room: usize) -> Result<Vec<u8>, Refusal> {
    if record.len() < RECORD || !is_record(&record[..RECORD]) {
        return Err((FORM, 0));
    }
    match record[0] {
        1 => write_event(record, room),
        2 => write_delete(record, room),
        _ => link::write_line(record, room),
    }
}

fn write_event(record: &[u8], room: usize) -> Result<Vec<u8>, Refusal> {
    if room < EVENT_LINE {
        return Err((SHORT, 0));
    }
    let mut line = vec![b' '; EVENT_LINE];
    line[0] = b'E';
    let mut fields: Vec<(usize, usize, usize)> = Vec::new(); // first, last, which: 0.. numbers, 100.. texts by place
    for (i, f) in NUMBERS.iter().enumerate() {
        fields.push((f.0, f.1, i));
    }
    let mut at = 172;
    for (first, last) in TEXTS {
        fields.push((first, last, 1000 + at));
        at += last - first + 1;
    }
    fields.sort();
    for (first, last, which) in fields {
        let w = last - first + 1;
        let cell = if which >= 1000 {
            let cell = record[which - 1000..which - 1000 + w].to_vec();
            if let Some(c) = lowest_barred(&cell, first, NAMES_END) {
                return Err((BARRED, c));
            }
            cell
        } else {
            let (_, _, required, ..) = NUMBERS[which];
            if record[1 + which] == 0 {
                if required {
                    return Err((REQUIRED, first));
                }
                vec![b' '; w]
            } else {
                let v = number(record, which);
                if !holds_int(v, w) {
                    return Err((WIDE, first));
                }
                if !in_range(record, which, v) {
                    return Err((RANGE, first));
                }
                write_int(v, w)
            }
        };
        line[first - 1..last].copy_from_slice(&cell);
    }
    line[79] = check_character(&line[..79]);
    Ok(line)
}

fn write_delete(record: &[u8], room: usize) -> Result<Vec<u8>, Refusal> {
    let n = record[1] as usize;
    if SHORTEST_DELETE + n > LONGEST_DELETE {
        return Err((LENGTH, 0));
    }
    if room < SHORTEST_DELETE + n {
        return Err((SHORT, 0));
    }
    if let Some(c) = lowest_barred(&record[2..SHORTEST_DELETE + n], 3, NAMES_END) {
        return Err((BARRED, c));
    }
    let mut line = b"DE".to_vec();
    line.extend_from_slice(&record[2..SHORTEST_DELETE + n]);
    Ok(line)
}
