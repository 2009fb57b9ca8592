//! The calls that read a Calnet card into a record or write a record as a card, by itself or from a place, held to the second
//! implementation.
use crate::cards::{self, CARDS, RECORD};
use crate::compare::{parts, place_for, record_of, written, Group};
use crate::make::{self, with, Rng};
use crate::number::*;
use crate::{calls, row};

pub fn compare_card(g: &mut Group, line: &[u8], out: &[u8]) {
    let wanted = written(record_of(cards::read_line(line), RECORD, out.len()), out, 0, |n| n as u64);
    let got = calls::read_card(line, out);
    g.met(got.0);
    g.same(got, wanted, &[line]);
}

/// Writing, and reading back what is written.
pub fn compare_card_record(g: &mut Group, rec: &[u8], out: &[u8]) {
    let wanted = written(cards::write_line(rec, out.len()), out, 0, |n| n as u64);
    let got = calls::write_card(rec, out);
    g.met(got.0);
    if let (0, Some(card)) = (got.0 & 255, cards::of_kind(rec)) {
        read_back(g, card, rec, &got.1[..card.width.min(out.len())]);
    }
    g.same(got, wanted, &[rec]);
}

/// That a written line reads back to its record.
pub fn read_back(g: &mut Group, card: &row::Format, rec: &[u8], line: &[u8]) {
    let back = calls::read_card(line, &[0; RECORD]);
    let size = card.record();
    g.same((back.0, &back.1[..size]), (parts(0, 0, size as u64), &rec[..size.min(rec.len())]), &[rec, line]);
}

/// Writing from a place; what is answered, and the buffer afterwards.
pub fn compare_from(g: &mut Group, rec: &[u8], out: &[u8], at: usize) -> (u64, Vec<u8>) {
    let wanted = written(cards::record_call(rec, at, out.len()), out, at, |n| (at + n) as u64);
    let got = calls::write_card_record(rec, out, at);
    g.met(got.0);
    g.same(&got, &wanted, &[rec, &at.to_be_bytes()]);
    got
}

pub fn cards_read(r: &mut Rng, times: usize) -> Group {
    let mut g = Group::new("cards read");
    for _ in 0..times {
        let line = make::card_line(r);
        let out = place_for(r, RECORD);
        compare_card(&mut g, &line, &out);
    }
    g.has_met(&[0, LENGTH, BARRED, TYPE, SEPARATOR, REQUIRED, FORM, RANGE, SHORT]);
    g
}

pub fn cards_written(r: &mut Rng, times: usize) -> Group {
    let mut g = Group::new("cards written");
    for _ in 0..times {
        let rec = make::card_record(r);
        let width = cards::of_kind(&rec).map_or(40, |card| card.width);
        let out = place_for(r, width);
        compare_card_record(&mut g, &rec, &out);
        let out = vec![r.next() as u8; width + 1 + r.below(20)];
        let at = match r.below(8) {
            0 => usize::MAX - r.below(100),
            1 => r.below(out.len() + 3),
            _ => r.below(out.len() - width),
        };
        compare_from(&mut g, &rec, &out, at);
    }
    g.has_met(&[0, BARRED, REQUIRED, FORM, RANGE, WIDE, SHORT]);
    g
}

/// Every byte in every column of a full card and of one with blanks; every first byte with nothing, blanks and each card behind it; every
/// length to 12 over the width, blank or with a barred last byte; every size of the place for a record.
pub fn card_damages(r: &mut Rng) -> Group {
    let mut g = Group::new("every single-byte damage of cards");
    let out = [7; RECORD + 3];
    for card in &CARDS {
        let full = make::full_line(r, card);
        for line in [&full, &make::row_line(r, card)] {
            for at in 0..line.len() {
                for b in 0..=255 {
                    compare_card(&mut g, &with(line, at, &[b]), &out);
                }
            }
        }
        for n in 0..=card.width + 12 {
            for filler in [b' ', b'x', b'0', b'\n', 127] {
                let mut line = full.clone();
                line.resize(n, filler);
                compare_card(&mut g, &line, &out);
                if let Some(last) = line.last_mut() {
                    *last = filler;
                    compare_card(&mut g, &line, &out);
                }
            }
        }
        for size in 0..=RECORD + 8 {
            for line in [&full[..], &full[..1], b"", b"x", b"R\t", &[b' '; 90]] {
                compare_card(&mut g, line, &vec![5; size]);
            }
        }
    }
    for b in 0..=255 {
        for tail in [&b""[..], b" ", b"\t", b"x", &[b' '; 90], &[127; 12]] {
            compare_card(&mut g, &[&[b], tail].concat(), &out);
        }
    }
    g.has_met(&[0, LENGTH, BARRED, TYPE, SEPARATOR, REQUIRED, FORM, RANGE, SHORT]);
    g
}
