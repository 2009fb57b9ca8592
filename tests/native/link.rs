//! LI lines and their records, after document 02, "Take the links", and docs/RECORDS.md.
use crate::cube::{lowest_barred, RECORD};
use crate::number::*;

pub const KIND: u8 = 4;
/// A line's fewest and most bytes, and a type's most.
pub const SHORTEST: usize = 20;
pub const LONGEST: usize = 255;
pub const LONGEST_TYPE: usize = 16;
/// The last column of the version, up to which brackets are barred, and the column of the parts' refusal.
pub const NAMES_END: usize = 14;
pub const PARTS: usize = 15;
/// The bytes of a line that are no part: those of columns 1 to 15 and the two blanks after type and address.
pub const AROUND: usize = 17;
/// Where a record has its identifier, source and version, and where its type begins.
pub const NAMES: usize = 4;
pub const TEXTS: usize = 16;

/// Type, address and text.
pub type Parts<'a> = [&'a [u8]; 3];

fn well_formed([kind, address, text]: Parts) -> bool {
    let word = |part: &[u8]| !part.is_empty() && !part.contains(&b' ');
    word(kind) && kind.len() <= LONGEST_TYPE && word(address) && !text.is_empty() && !text.starts_with(b" ")
}

/// The parts of a line: parted by one blank each, the text being the rest.
pub fn parts(line: &[u8]) -> Option<Parts<'_>> {
    let rest = line.get(NAMES_END..)?.strip_prefix(b" ")?;
    let mut split = rest.splitn(3, |&b| b == b' ');
    let parts = [split.next()?, split.next()?, split.next()?];
    well_formed(parts).then_some(parts)
}

pub fn read_line(line: &[u8]) -> Result<Vec<u8>, Refusal> {
    if line.len() < SHORTEST || LONGEST < line.len() {
        return Err((LENGTH, 0));
    }
    if let Some(c) = lowest_barred(line, 1, NAMES_END) {
        return Err((BARRED, c));
    }
    let Some(parts) = parts(line) else {
        return Err((FORM, PARTS));
    };
    Ok(record(&line[2..NAMES_END], parts))
}

/// The record of identifier, source and version in a row and the parts, well formed or not.
pub fn record(names: &[u8], parts: Parts) -> Vec<u8> {
    let mut record = vec![KIND];
    record.extend(parts.iter().map(|p| p.len() as u8));
    record.extend_from_slice(names);
    record.extend(parts.concat());
    record.resize(RECORD, 0);
    record
}

fn lengths(record: &[u8]) -> [usize; 3] {
    [record[1] as usize, record[2] as usize, record[3] as usize]
}

/// How many bytes the line of a record has.
pub fn line_length(record: &[u8]) -> usize {
    AROUND + lengths(record).iter().sum::<usize>()
}

pub fn is_record(record: &[u8]) -> bool {
    let end = TEXTS + lengths(record).iter().sum::<usize>();
    record.get(end..RECORD).is_some_and(|rest| rest.iter().all(|&b| b == 0))
}

pub fn write_line(record: &[u8], room: usize) -> Result<Vec<u8>, Refusal> {
    let n = line_length(record);
    if n < SHORTEST || LONGEST < n {
        return Err((LENGTH, 0));
    }
    if room < n {
        return Err((SHORT, 0));
    }
    let [a, b, c] = lengths(record);
    let (kind, rest) = record[TEXTS..].split_at(a);
    let (address, rest) = rest.split_at(b);
    let text = &rest[..c];
    let line = [b"LI", &record[NAMES..TEXTS], b" ", kind, b" ", address, b" ", text].concat();
    if let Some(c) = lowest_barred(&line, 1, NAMES_END) {
        return Err((BARRED, c));
    }
    if !well_formed([kind, address, text]) {
        return Err((FORM, PARTS));
    }
    Ok(line)
}
