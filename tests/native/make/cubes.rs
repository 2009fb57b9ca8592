//! E and DE lines, and records of all three kinds.
use super::*;
use crate::calendar::days;
use crate::cube::{self, EVENT_LINE, LONGEST_DELETE, RECORD, SHORTEST_DELETE};
use crate::link;

pub fn seal(line: &mut [u8]) {
    line[79] = cube::check_character(&line[..79]);
}

pub fn is_event(line: &[u8]) -> bool {
    line.len() == EVENT_LINE && line.starts_with(b"E ")
}

/// An acceptable E line: identifier and source from small sets, so that pairs meet.
pub fn event(r: &mut Rng, pairs: usize) -> Vec<u8> {
    let mut l = vec![b' '; EVENT_LINE];
    l[0] = b'E';
    name(r, &mut l, pairs);
    l[12] = r.pick(b"  01239AZaz~");
    let mut put = |first: usize, w: usize, v: Option<i64>| {
        if let Some(v) = v {
            l[first - 1..first - 1 + w].copy_from_slice(&crate::number::write_int(v, w));
        }
    };
    let (year, month) = (r.between(-999, 6070), r.between(1, 12));
    put(14, 4, Some(year));
    put(18, 2, Some(month));
    put(20, 2, Some(number_in(r, (1, days(year, month)))));
    put(22, 2, Some(r.between(0, 23)));
    put(24, 2, Some(r.between(0, 59)));
    put(26, 3, Some(r.between(0, 599)));
    put(29, 7, Some(r.between(-900000, 900000)));
    put(36, 8, Some(r.between(-1800000, 1800000)));
    for (first, w, low, high) in [
        (44, 4, -999, 9999),
        (48, 2, -9, 99),
        (50, 3, 0, 999),
        (53, 3, 0, 999),
        (56, 4, 0, 9999),
        (60, 4, 0, 9999),
        (64, 4, 0, 9999),
        (68, 4, 0, 9999),
        (72, 2, 0, 99),
        (75, 2, 0, 99),
        (77, 2, 0, 99),
    ] {
        let v = r.between(low, high);
        put(first, w, (!r.one_in(3)).then_some(v));
    }
    l[73] = r.letter();
    l[78] = r.letter();
    seal(&mut l);
    l
}

/// An E line with these bytes up to the day's last column, and with the check character that they want.
pub fn dated(line: &[u8], date: &str) -> Vec<u8> {
    let mut l = with(line, 21 - date.len(), date.as_bytes());
    seal(&mut l);
    l
}

/// An E line with another month and day, near the end of the month or past it.
pub fn late(r: &mut Rng, line: &[u8]) -> Vec<u8> {
    let (month, day) = month_end(r);
    dated(line, &format!("{month:02}{day}"))
}

pub fn name(r: &mut Rng, l: &mut [u8], pairs: usize) {
    put_name(l, r.below(pairs));
}

/// Identifier and source of pair n.
pub fn put_name(l: &mut [u8], n: usize) {
    let id = format!("{:08}", n / 3);
    l[2..10].copy_from_slice(id.as_bytes());
    l[10..12].copy_from_slice([b"CI", b"US", b"~ "][n % 3]);
}

pub fn delete(r: &mut Rng, pairs: usize, blank: bool) -> Vec<u8> {
    let n = if r.one_in(4) { SHORTEST_DELETE } else { r.between(SHORTEST_DELETE as i64, LONGEST_DELETE as i64) as usize };
    let mut l = vec![b' '; n];
    l[..2].copy_from_slice(b"DE");
    name(r, &mut l, pairs);
    l[12] = if blank && r.one_in(3) { b' ' } else { r.pick(b"01239AZaz~") };
    for b in &mut l[SHORTEST_DELETE..] {
        *b = r.pick(b"gone [test] (x) ");
    }
    l
}

/// An acceptable line of any kind.
pub fn notice(r: &mut Rng, pairs: usize) -> Vec<u8> {
    match r.below(4) {
        0 => delete(r, pairs, true),
        1 => link(r, pairs),
        _ => event(r, pairs),
    }
}

/// Any CUBE line: good, damaged, cut, stretched, late in a month or random.
pub fn cube_line(r: &mut Rng, pairs: usize) -> Vec<u8> {
    let good = notice(r, pairs);
    match r.below(13) {
        0..=4 => good,
        5..=7 => damaged(r, &good),
        8 => resized(r, &good),
        9 => filled(r, &good),
        10 => spaced(r, &good),
        11 if is_event(&good) => late(r, &good),
        _ if r.one_in(2) => random_link(r),
        _ => {
            let n = r.below(100);
            r.bytes(n)
        }
    }
}

/// Bytes of a record: of a line that was read, with numbers or parts at the edges, late in a month, with a byte changed, short, or random.
pub fn cube_record(r: &mut Rng) -> Vec<u8> {
    let line = notice(r, 9);
    let mut rec = cube::read_line(&line).unwrap();
    match r.below(9) {
        0 | 1 => {}
        2 if rec[0] == 1 => edge_number(r, &mut rec, 1, 20, 19),
        3 if rec[0] == 1 => no_number(r, &mut rec, 1, 20, 19),
        4 if rec[0] == 2 => rec[1] = r.pick(&[0, 66, 67, 68, 255]),
        2..=4 if rec[0] == link::KIND => rec = edge_link_record(r),
        5 => rec.truncate(r.below(RECORD + 1)),
        6 => {
            let n = RECORD - 8 + r.below(20);
            rec = r.bytes(n);
            rec[0] = r.pick(&[0, 1, 2, 3, link::KIND, link::KIND + 1]);
        }
        7 if rec[0] == 1 => {
            let (month, day) = month_end(r);
            cube::put(&mut rec, cube::MONTH, month);
            cube::put(&mut rec, cube::DAY, day);
        }
        _ => {
            let at = r.below(rec.len());
            rec[at] = if r.one_in(2) { r.pick(EDGES) } else { r.next() as u8 };
        }
    }
    rec
}
