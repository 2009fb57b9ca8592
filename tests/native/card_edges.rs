//! Cards and their records at the edges of each rule: numbers at the ends of their columns and ranges, blanks beside zeros, gaps, texts,
//! flags, kinds and sizes of records, places for lines.
use crate::card_lines::{compare_card, compare_card_record, compare_from};
use crate::cards::{CARDS, RECORD};
use crate::compare::Group;
use crate::make::{self, with, Rng};
use crate::number::*;
use crate::row::{Format, Number, Placed};

const OUT: [u8; RECORD + 3] = [7; RECORD + 3];

/// Numbers at the ends of the range and of the column, next to them, and about zero.
fn edge_values(f: &Placed, n: Number) -> Vec<i64> {
    let held = f.ends(Number { low: i64::MIN, high: i64::MAX, ..n });
    let (low, high) = f.ends(n);
    let ends = [low, high, held.0, held.1, 0, 28, 29, 30, 31];
    let mut all: Vec<i64> = ends.into_iter().flat_map(|v| [v - 1, v, v + 1]).chain([i64::MIN, i64::MIN + 1, i64::MAX]).collect();
    all.sort();
    all.dedup();
    all
}

/// Every way to lay a number into a column so that it ends there: spare zeros, a minus before zero. None where it is too wide.
fn spellings(v: i64, n: Number, w: usize) -> Vec<Vec<u8>> {
    let d = n.decimals.unwrap_or(0);
    let signs: &[&str] = match v {
        0 => &["", "-"],
        1.. => &[""],
        _ => &["-"],
    };
    let mut all = Vec::new();
    for sign in signs {
        for digits in d + 1..=w {
            let mut text = format!("{:0>digits$}", v.unsigned_abs());
            if d > 0 {
                text.insert(text.len() - d, '.');
            }
            let cell = format!("{:>w$}", format!("{sign}{text}"));
            if cell.len() == w && !all.contains(&cell) {
                all.push(cell);
            }
        }
    }
    all.into_iter().map(String::into_bytes).collect()
}

/// Cells of bad form or hardly good form: signs, points and blanks in each column of blanks, of zeros and of digits.
fn odd_cells(n: Number, w: usize) -> Vec<Vec<u8>> {
    let d = n.decimals.unwrap_or(0);
    let mut plain = [vec![b' '; w], vec![b'0'; w], vec![b'1'; w]].to_vec();
    if d > 0 {
        plain = plain.into_iter().flat_map(|c| [with(&c, w - d - 1, b"."), c]).collect();
    }
    let mut all = plain.clone();
    for cell in &plain {
        for at in 0..w {
            for b in b" -+.:0x9" {
                let changed = with(cell, at, &[*b]);
                let led: Vec<u8> = (0..w).map(|i| if i < at { b' ' } else { changed[i] }).collect();
                all.extend([changed, led]);
            }
        }
    }
    all.sort();
    all.dedup();
    all
}

/// Numbers in every form on every card, also with another fault before them or behind them.
pub fn card_numbers(r: &mut Rng) -> Group {
    let mut g = Group::new("numbers of cards at the edges");
    for card in &CARDS {
        let (rec, line) = full_card(r, card);
        let faults: [&[(usize, u8)]; 4] = [&[], &[(1, b'x')], &[(card.width - 1, 127)], &[(card.width - 1, b'+')]];
        for f in card.placed() {
            let Some(n) = f.field.number() else { continue };
            let values = edge_values(&f, n);
            let cells = values.iter().flat_map(|&v| spellings(v, n, f.width())).chain(odd_cells(n, f.width()));
            for cell in cells {
                for fault in faults {
                    let mut l = with(&line, f.first - 1, &cell);
                    fault.iter().for_each(|&(at, b)| l[at] = b);
                    compare_card(&mut g, &l, &OUT);
                }
                compare_card(&mut g, &with(&line, f.first - 1, &cell)[..f.last], &OUT);
            }
            for v in values {
                let mut rec = rec.clone();
                card.put(&mut rec, f.at, v);
                compare_card_record(&mut g, &rec, &vec![7; card.width]);
                compare_from(&mut g, &rec, &vec![7; card.width + 1], 0);
                // the number before it or behind it missing; the text barred
                for other in [f.at.wrapping_sub(1), f.at + 1] {
                    if other < card.numbers {
                        compare_card_record(&mut g, &without(card, &rec, other), &vec![7; card.width]);
                    }
                }
                rec[card.first_number() + 8 * card.numbers..].fill(9);
                compare_card_record(&mut g, &rec, &vec![7; card.width]);
            }
        }
    }
    g.has_met(&[0, BARRED, SEPARATOR, REQUIRED, FORM, RANGE, WIDE]);
    g
}

/// A record with every number, and its line.
pub fn full_card(r: &mut Rng, card: &Format) -> (Vec<u8>, Vec<u8>) {
    let mut rec = make::good_record(r, card);
    for i in (0..card.numbers).filter(|i| rec[1 + i] == 0).collect::<Vec<_>>() {
        card.put(&mut rec, i, 0);
    }
    let line = card.write_line(&rec, card.width).unwrap();
    (rec, line)
}

/// The record with one number missing.
fn without(card: &Format, rec: &[u8], i: usize) -> Vec<u8> {
    let mut rec = rec.to_vec();
    card.put(&mut rec, i, 0);
    rec[1 + i] = 0;
    rec
}

/// Each gap between columns filled, alone and with each other field spoilt; texts of any byte; each number blank and zero.
pub fn card_columns(r: &mut Rng) -> Group {
    let mut g = Group::new("gaps, texts and blanks of cards");
    for card in &CARDS {
        let (rec, line) = full_card(r, card);
        let in_field = |c: usize| card.placed().any(|f| f.first <= c && c <= f.last);
        let gaps: Vec<usize> = (2..=card.width).filter(|&c| !in_field(c)).collect();
        for &gap in &gaps {
            for b in 32..=126 {
                compare_card(&mut g, &with(&line, gap - 1, &[b]), &OUT);
            }
            for &other in &gaps {
                compare_card(&mut g, &with(&with(&line, gap - 1, b"-"), other - 1, b"_"), &OUT);
            }
            for f in card.placed() {
                for b in *b"x \t" {
                    let l = with(&line, gap - 1, b"0");
                    compare_card(&mut g, &with(&l, f.last - 1, &[b]), &OUT);
                    compare_card(&mut g, &with(&l, f.first - 1, &vec![b; f.width()]), &OUT);
                }
            }
        }
        for f in card.placed() {
            let w = f.width();
            for cell in [vec![b' '; w], vec![b'0'; w], vec![b'['; w], vec![b'~'; w], vec![31; w]] {
                compare_card(&mut g, &with(&line, f.first - 1, &cell), &OUT);
            }
            match f.field.number() {
                Some(n) => blank_and_zero(&mut g, card, &f, n, &line, &rec),
                None => texts_written(&mut g, card, &f, &rec),
            }
        }
    }
    g.has_met(&[0, BARRED, SEPARATOR, REQUIRED, FORM]);
    g
}

/// A blank number and zero are not the same record, and each is written as what it was.
fn blank_and_zero(g: &mut Group, card: &Format, f: &Placed, n: Number, line: &[u8], rec: &[u8]) {
    let mut zero = rec.to_vec();
    card.put(&mut zero, f.at, 0);
    for rec in [&zero, &without(card, rec, f.at)] {
        compare_card_record(g, rec, &vec![7; card.width]);
    }
    for cell in spellings(0, n, f.width()) {
        compare_card(g, &with(line, f.first - 1, &cell), &OUT);
    }
}

/// Every byte in every place of a text, alone and with a barred byte behind it.
fn texts_written(g: &mut Group, card: &Format, f: &Placed, rec: &[u8]) {
    for at in f.at..f.at + f.width() {
        for b in 0..=255 {
            let rec = with(rec, at, &[b]);
            compare_card_record(g, &rec, &vec![7; card.width]);
            if b % 16 == 0 {
                compare_card_record(g, &with(&rec, rec.len() - 1, b"\n"), &vec![7; card.width]);
            }
        }
    }
}

/// Records with each flag for each number, zero or not; of each kind and each size; with each required number missing; places of each size.
pub fn card_records(r: &mut Rng) -> Group {
    let mut g = Group::new("flags, kinds and sizes of card records");
    for card in &CARDS {
        let (rec, _) = full_card(r, card);
        let out = vec![7; card.width];
        for i in 0..card.numbers {
            for flag in 0..=255 {
                for v in [0, 1, 256, i64::MIN] {
                    let mut rec = rec.clone();
                    card.put(&mut rec, i, v);
                    rec[1 + i] = flag;
                    compare_card_record(&mut g, &rec, &out);
                }
            }
            for other in 0..card.numbers {
                compare_card_record(&mut g, &without(card, &without(card, &rec, i), other), &out);
            }
        }
        for kind in 0..=255 {
            for size in [0, 1, 24, 37, 43, 74, 77, 82, 100] {
                let mut rec = with(&rec, 0, &[kind]);
                rec.resize(size, b' ');
                compare_card_record(&mut g, &rec, &[7; 80]);
                compare_from(&mut g, &rec, &[7; 80], 1);
            }
        }
        let wrong = with(&rec, 1, &[2]);
        for (rec, size) in [&rec, &wrong].into_iter().flat_map(|rec| (0..=card.record() + 3).map(move |n| (rec, n))) {
            let mut rec = rec.clone();
            rec.resize(size, 9);
            for room in [0, card.width - 1, card.width, card.width + 1] {
                compare_card_record(&mut g, &rec, &vec![5; room]);
                compare_from(&mut g, &rec, &vec![5; room], 0);
            }
        }
        places(&mut g, card, &rec);
    }
    g.has_met(&[0, BARRED, REQUIRED, FORM, WIDE, SHORT]);
    g
}

/// Lines of every length about the width; from every place about the end of buffers of several sizes; also with a record that has no line.
fn places(g: &mut Group, card: &Format, rec: &[u8]) {
    let last = card.placed().last().unwrap();
    let mut unwritable = rec.to_vec();
    match last.field.number() {
        Some(_) => card.put(&mut unwritable, last.at, i64::MAX),
        None => unwritable[last.at] = 0,
    }
    for rec in [rec, &unwritable] {
        for size in 0..=card.width + 3 {
            compare_card_record(g, rec, &vec![5; size]);
            for at in [0, 1, 2, size] {
                compare_from(g, rec, &vec![5; size], at);
            }
        }
        let size = 2 * card.width + 30;
        for at in 0..=size + 2 {
            compare_from(g, rec, &vec![5; size], at);
        }
        for back in [0, 1, 2, card.width, card.width + 1, 1 << 40, (1 << 40) + 1, 1 << 63] {
            compare_from(g, rec, &vec![5; size], usize::MAX - back);
            compare_from(g, rec, &[], usize::MAX - back);
        }
        for at in [1 << 24, 1 << 32, 1 << 40, 1 << 63] {
            compare_from(g, rec, &vec![5; size], at);
            compare_from(g, rec, &vec![5; size], at + 1);
        }
    }
}
