//! Lines of the file formats, their records, and blocks.
use super::*;
use crate::block;
use crate::calendar::days;
use crate::moment::Moment;
use crate::row::{Field, Format, Placed};

/// Bytes of the letter columns, and some of none.
const LETTERS: &[u8] = b"TASamcdieq<>_ xZ";
/// Bytes that a required text may begin with.
const FIRSTS: &[u8] = b"ABZ0(_";

/// An acceptable line of full width.
pub fn full_line(r: &mut Rng, format: &Format) -> Vec<u8> {
    let rec = good_record(r, format);
    format.write_line(&rec, format.width).unwrap()
}

/// An acceptable line, not always of full width.
pub fn row_line(r: &mut Rng, format: &Format) -> Vec<u8> {
    let mut l = full_line(r, format);
    if r.one_in(3) {
        while l.last() == Some(&b' ') {
            l.pop();
        }
    }
    l
}

/// A record whose line is accepted.
pub fn good_record(r: &mut Rng, format: &Format) -> Vec<u8> {
    let mut rec = vec![0; format.record()];
    rec[0] = format.kind;
    for f in format.placed() {
        if let Some(n) = f.field.number() {
            if n.required || !r.one_in(3) {
                let (low, high) = f.ends(n);
                let last = if n.is_day { days(format.get(&rec, f.at - 2).unwrap(), format.get(&rec, f.at - 1).unwrap()) } else { high };
                format.put(&mut rec, f.at, number_in(r, (low, last)));
            }
            continue;
        }
        match f.field {
            Field::Marked(moment) => {
                if !r.one_in(4) {
                    for (i, v) in numbers_of(r, moment).into_iter().enumerate() {
                        format.put(&mut rec, f.at + i, v);
                    }
                }
            }
            field => rec[f.at..f.at + f.width()].copy_from_slice(&text(r, field, f.width())),
        }
    }
    rec
}

/// The numbers of a date or a time; of days that the month does not have, its last.
fn numbers_of(r: &mut Rng, moment: &Moment) -> [i64; 3] {
    let mut values = moment.parts.each_ref().map(|p| number_in(r, (p.low, p.high)));
    while !(moment.exists)(&values) {
        values[2] -= 1;
    }
    values
}

fn text(r: &mut Rng, field: Field, width: usize) -> Vec<u8> {
    let mut cell: Vec<u8> = (0..width).map(|_| r.letter()).collect();
    match field {
        Field::Letters(set) => cell[0] = r.pick(set),
        Field::Flush if r.one_in(4) => cell.fill(b' '),
        Field::Flush | Field::Begun => cell[0] = r.pick(FIRSTS),
        Field::Filled => {
            if r.one_in(4) {
                cell.fill(b' ');
            }
            cell[r.below(width)] = r.pick(FIRSTS);
        }
        _ => {}
    }
    cell
}

/// A record, perhaps with bytes behind it, or bytes that are none: numbers at the edges, a date late in a month, text columns that have a
/// rule changed, a byte changed, short, or random.
pub fn row_record(r: &mut Rng, format: &Format) -> Vec<u8> {
    let mut rec = good_record(r, format);
    match r.below(9) {
        0 if r.one_in(4) => rec.resize(format.record() + r.below(20), r.next() as u8),
        0..=2 => {}
        3 | 4 => edge_number(r, &mut rec, 1, format.first_number(), format.numbers),
        5 if r.one_in(2) => rec.truncate(r.below(format.record() + 1)),
        5 if r.one_in(3) => no_number(r, &mut rec, 1, format.first_number(), format.numbers),
        5 => spoil_text(r, format, &mut rec),
        6 => {
            let n = format.record() - 6 + r.below(12);
            rec = r.bytes(n);
            rec[0] = format.kind;
        }
        7 => late_record(r, format, &mut rec),
        _ => {
            let at = r.below(rec.len());
            rec[at] = if r.one_in(2) { r.pick(EDGES) } else { r.next() as u8 };
        }
    }
    rec
}

fn date_of(format: &Format) -> Option<Placed> {
    format.placed().find(|f| matches!(f.field, Field::Marked(moment) if moment.mark == b'/'))
}

/// A record with another month and day, near the end of the month or past it, where it has a date.
fn late_record(r: &mut Rng, format: &Format, rec: &mut [u8]) {
    let (month, day) = month_end(r);
    if let Some(f) = date_of(format).filter(|f| rec[1 + f.at] == 1) {
        format.put(rec, f.at + 1, month);
        format.put(rec, f.at + 2, day);
    }
}

/// The same of a line.
fn late_line(r: &mut Rng, format: &Format, line: &[u8]) -> Vec<u8> {
    let (month, day) = month_end(r);
    match date_of(format) {
        Some(f) if line.get(f.last - 6) == Some(&b'/') => with(line, f.last - 5, format!("{month:02}/{day}").as_bytes()),
        _ => line.to_vec(),
    }
}

/// Of a text column that has a rule the first byte changed, or every byte made blank.
fn spoil_text(r: &mut Rng, format: &Format, rec: &mut [u8]) {
    let has_rule = |f: &Placed| matches!(f.field, Field::Begun | Field::Filled | Field::Flush | Field::Letters(_));
    let ruled: Vec<Placed> = format.placed().filter(has_rule).collect();
    let f = r.pick(&ruled);
    match r.below(4) {
        0 => rec[f.at] = b' ',
        1 => rec[f.at..f.at + f.width()].fill(b' '),
        _ => rec[f.at] = r.pick(LETTERS),
    }
}

pub fn any_row_line(r: &mut Rng, format: &Format) -> Vec<u8> {
    let good = row_line(r, format);
    match r.below(11) {
        0..=3 => good,
        4..=6 => damaged(r, &good),
        7 => resized(r, &good),
        8 => filled(r, &good),
        9 => late_line(r, format, &good),
        _ => {
            let n = r.below(format.width + 31);
            (0..n).map(|_| r.pick(EDGES)).collect()
        }
    }
}

fn comment(r: &mut Rng) -> Vec<u8> {
    let n = if r.one_in(12) { 1015 + r.below(12) } else { r.below(40) };
    let mut l = b" (".to_vec();
    l.extend((0..n).map(|_| r.letter()));
    if !r.one_in(15) {
        l.push(b')');
    }
    l.resize(l.len() + r.below(3), b' ');
    l
}

/// A block of a few lines, mostly good; then perhaps one byte changed, or cut.
pub fn a_block(r: &mut Rng, format: &Format) -> Vec<u8> {
    let mut b = block::header(format);
    b.resize(format.width + r.below(3), b' ');
    b.push(b'\n');
    for i in 0..r.below(8) {
        let line = match r.below(12) {
            0 => any_row_line(r, format),
            1 | 2 if i > 0 => comment(r),
            3 if r.one_in(4) => comment(r),
            _ => row_line(r, format),
        };
        b.extend(line);
        b.push(b'\n');
    }
    if r.one_in(2) {
        b.resize(b.len() + r.below(4), b' ');
        if r.one_in(2) {
            b.push(b'\n');
        }
        if r.one_in(3) {
            let n = r.below(50);
            b.extend(r.bytes(n));
        }
    }
    match r.below(6) {
        0 => damaged(r, &b),
        1 => {
            b.truncate(r.below(b.len() + 1));
            b
        }
        _ => b,
    }
}
