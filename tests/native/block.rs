//! The block of a file format, after document 01, "The block". A row is a phase line, or an arrival line.
use crate::number::*;
use crate::row::Format;

pub const OUT_OF_PLACE: u8 = 14;
pub const NOT_CLOSED: u8 = 15;

pub fn header(format: &Format) -> Vec<u8> {
    let mut line = Vec::new();
    for (column, word) in format.words {
        line.resize(column - 1, b' ');
        line.extend_from_slice(word.as_bytes());
    }
    line
}

fn trimmed(line: &[u8]) -> &[u8] {
    let end = line.iter().rposition(|&b| b != b' ').map_or(0, |i| i + 1);
    &line[..end]
}

#[derive(PartialEq, Clone, Copy)]
pub enum Kind {
    Closing,
    Comment,
    Row,
}

pub fn kind(line: &[u8]) -> Kind {
    if trimmed(line).is_empty() {
        Kind::Closing
    } else if line.starts_with(b" (") {
        Kind::Comment
    } else {
        Kind::Row
    }
}

fn judge_comment(line: &[u8], seen: bool) -> Result<(), Refusal> {
    if line.len() > 1024 {
        return Err((LENGTH, 0));
    }
    if let Some(i) = line.iter().position(|&b| !is_text(b)) {
        return Err((BARRED, i + 1));
    }
    if trimmed(line).last() != Some(&b')') {
        return Err((NOT_CLOSED, 0));
    }
    if seen {
        Ok(())
    } else {
        Err((OUT_OF_PLACE, 0))
    }
}

/// Rows, comments and bytes used; or number, column and line.
pub fn read(format: &Format, block: &[u8]) -> Result<(usize, usize, usize), (u8, usize, usize)> {
    if block.len() > 65536 {
        return Err((LENGTH, 0, 0));
    }
    // lines keep their newline here, so that the bytes used add up
    let mut lines = block.split_inclusive(|&b| b == b'\n');
    let bare = |l: &'_ [u8]| l.strip_suffix(b"\n").unwrap_or(l).to_vec();
    let first = lines.next().map(bare);
    if first.as_deref().map(trimmed) != Some(&header(format)) {
        return Err((OUT_OF_PLACE, 0, 1));
    }
    let mut used = block.split_inclusive(|&b| b == b'\n').next().unwrap().len();
    let (mut rows, mut comments) = (0, 0);
    for (i, whole) in lines.enumerate() {
        let line = bare(whole);
        used += whole.len();
        match kind(&line) {
            Kind::Closing => return Ok((rows, comments, used)),
            Kind::Comment => {
                judge_comment(&line, rows > 0).map_err(|(n, c)| (n, c, i + 2))?;
                comments += 1;
            }
            Kind::Row => {
                format.read_line(&line).map_err(|(n, c)| (n, c, i + 2))?;
                rows += 1;
            }
        }
    }
    Ok((rows, comments, used))
}

/// A walk's answer by its parts: kind (40 to 43; a refusal; 0 for no line), row, end, place after.
pub struct Told {
    pub kind: u8,
    pub row: usize,
    pub end: usize,
    pub next: usize,
}

pub const NO_LINE: Told = Told { kind: 0, row: 0, end: 0, next: 0 };
const LAST_ROW: usize = 65534;

/// The line after the one that `before` tells of; the first line where nothing came before.
pub fn line_after(format: &Format, block: &[u8], before: Option<Told>) -> Told {
    if block.len() > 65536 {
        return Told { kind: LENGTH, ..NO_LINE };
    }
    let at = before.as_ref().map_or(0, |b| b.next);
    let end = at + block.iter().skip(at).position(|&b| b == b'\n').unwrap_or(block.len().saturating_sub(at));
    let next = if end < block.len() { end + 1 } else { end };
    let Some(before) = before else {
        let headed = trimmed(&block[..end]) == header(format);
        return if headed { Told { kind: 40, row: 0, end, next } } else { Told { kind: OUT_OF_PLACE, ..NO_LINE } };
    };
    if !(40..=42).contains(&before.kind) || before.row > LAST_ROW || at >= block.len() {
        return NO_LINE;
    }
    let (kind, row) = match kind(&block[at..end]) {
        Kind::Closing => (43, 0),
        Kind::Comment => (42, before.row),
        Kind::Row => (41, before.row + 1),
    };
    Told { kind, row, end, next }
}

/// The bytes from a place on, one of them kept for the newline.
pub fn room_from(at: usize, size: usize) -> usize {
    size.saturating_sub(at).saturating_sub(1)
}

pub fn ended(mut line: Vec<u8>) -> Vec<u8> {
    line.push(b'\n');
    line
}

pub fn header_call(format: &Format, at: usize, size: usize) -> Result<Vec<u8>, Refusal> {
    if room_from(at, size) < format.width {
        Err((SHORT, 0))
    } else {
        Ok(ended(header(format)))
    }
}

pub fn record_call(format: &Format, record: &[u8], at: usize, size: usize) -> Result<Vec<u8>, Refusal> {
    format.write_line(record, room_from(at, size)).map(ended)
}
