//! Calnet cards, their records, and runs of cards.
use super::*;
use crate::cards::{self, CARDS};
use crate::row::Format;

pub fn a_card(r: &mut Rng) -> &'static Format {
    &CARDS[r.below(CARDS.len())]
}

/// A line of any card: good, damaged, with another first letter or date, random behind its letter.
pub fn card_line(r: &mut Rng) -> Vec<u8> {
    let card = a_card(r);
    let mut line = any_row_line(r, card);
    match r.below(12) {
        0 if !line.is_empty() => line[0] = if r.one_in(2) { r.pick(b"ILEMPARCGTN i") } else { r.next() as u8 },
        1 | 2 if !line.is_empty() => line[0] = card.key.unwrap(),
        3 => {
            line = row_line(r, &CARDS[0]);
            late_card(r, &mut line);
        }
        4 => {
            line = row_line(r, card);
            damage_two(r, &mut line);
        }
        _ => {}
    }
    line
}

/// An I card given another month and day, near the end of the month or past it.
fn late_card(r: &mut Rng, line: &mut [u8]) {
    let (month, day) = month_end(r);
    line[7..12].copy_from_slice(format!("{month:02} {day}").as_bytes());
}

/// Two bytes changed behind the letter, to text alone, so that the order of columns counts.
fn damage_two(r: &mut Rng, line: &mut [u8]) {
    for _ in 0..2 {
        let at = r.below(line.len());
        if at > 0 {
            line[at] = r.pick(b"  0199-+.:x[");
        }
    }
}

/// A card's record, or bytes that are none: numbers at the edges or missing, longer, shorter, a byte changed, another kind, random.
pub fn card_record(r: &mut Rng) -> Vec<u8> {
    let card = a_card(r);
    let mut rec = good_record(r, card);
    match r.below(12) {
        0 => rec.resize(card.record() + r.below(20), r.next() as u8),
        1..=3 if card.numbers > 0 => edge_number(r, &mut rec, 1, card.first_number(), card.numbers),
        4 if card.numbers > 0 => no_number(r, &mut rec, 1, card.first_number(), card.numbers),
        5 if r.one_in(2) => rec.truncate(r.below(card.record() + 1)),
        5 => rec[0] = if r.one_in(2) { r.next() as u8 } else { 5 + r.below(9) as u8 },
        6 => {
            let n = card.record() - 6 + r.below(12);
            rec = r.bytes(n);
            rec[0] = card.kind;
        }
        7 if card.kind == CARDS[0].kind => {
            let (month, day) = month_end(r);
            card.put(&mut rec, 1, month);
            card.put(&mut rec, 2, day);
        }
        8 => {
            let at = r.below(rec.len());
            rec[at] = if r.one_in(2) { r.pick(EDGES) } else { r.next() as u8 };
        }
        _ => {}
    }
    rec
}

/// Lines that are no card, or none in some place: empty, blanks, comments, cards that nobody asked for, a carriage return, short cards.
pub const ODD_LINES: [&[u8]; 22] = [
    b"", b" ", b"    ", b" (x)", b" ()", b"()", b"C", b"G x", b"T", b"N name", b"\r", b"R\r", b"r", b"R", b"Rx", b"L", b"I", b"P\t", b"0",
    b"\x00", b"L  90.000", b"L  90.001",
];

/// A run of a few cards, mostly good and behind an I card; then perhaps one byte changed, or cut.
pub fn a_run(r: &mut Rng) -> Vec<u8> {
    let mut run = Vec::new();
    let opened = !r.one_in(8);
    for i in 0..r.below(9) {
        let card = if (i == 0 && opened) || r.one_in(6) { &CARDS[0] } else { a_card(r) };
        let line = match r.below(40) {
            0 | 1 => card_line(r),
            2 => r.pick(&ODD_LINES).to_vec(),
            _ => row_line(r, card),
        };
        run.extend(line);
        run.push(b'\n');
    }
    if r.one_in(3) {
        run.pop();
    }
    match r.below(10) {
        0 => damaged(r, &run),
        1 => {
            run.truncate(r.below(run.len() + 1));
            run
        }
        _ => run,
    }
}

/// A number for a walk that perhaps no call answers: any bits, or parts of which each is about right.
pub fn card_number(r: &mut Rng, size: usize) -> u64 {
    if r.one_in(8) {
        return r.next();
    }
    let kind = if r.one_in(4) { r.next() as u8 } else { r.pick(b"ILEMPARILEMPAR\x00\x01\x03\x28CGHJil") };
    let event = if r.one_in(3) { r.pick(&[65533, 65534, 65535]) } else { r.below(9) };
    let next = if r.one_in(6) { r.below(1 << 20) } else { r.below(size + 3) };
    crate::compare::parts(kind, event, r.below(size + 1) as u64 | (next as u64) << 20)
}

/// The shortest I card that is accepted: the least of it that is required.
pub fn opening(r: &mut Rng) -> Vec<u8> {
    let line = full_line(r, &CARDS[0])[..25].to_vec();
    assert!(cards::read_line(&line).is_ok());
    line
}
