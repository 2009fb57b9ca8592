//! The calls that read a run of Calnet cards and walk along it, held to the second implementation; and runs that were written card by card.
use crate::block::{Told, OUT_OF_PLACE};
use crate::calls;
use crate::card_known_runs::run;
use crate::card_lines::{compare_from, read_back};
use crate::cards::{self, CARDS, COUNTS, RUN};
use crate::compare::{parts, Group};
use crate::make::{self, Rng, ODD_LINES};
use crate::number::*;
use crate::row::Format;

/// What reading a run answers, and the place for the counts afterwards.
fn run_answer(run: &[u8], place: &[u8]) -> (u64, Vec<u8>) {
    match cards::read_run(run, place.len()) {
        Err((n, c, line)) => (parts(n, c, line as u64), place.to_vec()),
        Ok(counts) => (parts(0, counts[0], COUNTS as u64), make::with(place, 0, &cards::count_bytes(counts))),
    }
}

pub fn compare_run(g: &mut Group, run: &[u8], place: &[u8]) {
    let got = calls::read_cards(run, place);
    g.met(got.0);
    g.same(got, run_answer(run, place), &[run]);
}

/// One step of a walk from any number.
fn compare_step(g: &mut Group, run: &[u8], before: u64) -> u64 {
    let field = |from: u32, bits: u32| (before >> from & ((1 << bits) - 1)) as usize;
    let told = Told { kind: before as u8, row: field(8, 16), end: field(24, 20), next: field(44, 20) };
    let after = cards::line_after(run, (before != 0).then_some(told));
    let wanted = parts(after.kind, after.row, after.end as u64 | (after.next as u64) << 20);
    let got = g.met(calls::card_line(run, before));
    g.same(got, wanted, &[&before.to_be_bytes(), run]);
    got
}

/// A walk of a whole run, each step compared; where the run is read, the walk meets the cards that were counted, each with its event, and
/// ends where the run does.
pub fn compare_cards_walk(g: &mut Group, run: &[u8]) {
    let (mut before, mut met, mut from) = (0, [0; 7], 0);
    loop {
        let line = compare_step(g, run, before);
        let Some(place) = CARDS.iter().position(|card| card.key == Some(line as u8)) else { break };
        met[place] += 1;
        g.same((line >> 8 & 0xffff) as usize, met[0], &[run]);
        let next = (line >> 44) as usize;
        if next <= from {
            return g.same(next, from + 1, &[run]);
        }
        (before, from) = (line, next);
    }
    if let Ok(counts) = cards::read_run(run, COUNTS) {
        g.same((met, from), (counts, run.len()), &[run]);
    }
}

/// A run read and walked, with and without a final newline.
fn compare_both(g: &mut Group, run: &[u8]) {
    for run in [run, run.strip_suffix(b"\n").unwrap_or(run), &[run, b"\n"].concat()] {
        compare_run(g, run, &[7; COUNTS]);
        compare_cards_walk(g, run);
    }
}

pub fn card_runs(r: &mut Rng, times: usize) -> Group {
    let mut g = Group::new("runs of cards read and walked");
    for _ in 0..times {
        let run = make::a_run(r);
        let size = if r.one_in(3) { r.below(21) } else { COUNTS };
        compare_run(&mut g, &run, &vec![r.next() as u8; size]);
        compare_cards_walk(&mut g, &run);
        let mut before = 0;
        for _ in 0..4 {
            let got = compare_step(&mut g, &run, before);
            before = if r.one_in(2) { make::card_number(r, run.len()) } else { got };
        }
    }
    g.has_met(&[0, LENGTH, BARRED, TYPE, SEPARATOR, REQUIRED, FORM, RANGE, SHORT, OUT_OF_PLACE]);
    g.has_met(b"ILEMPAR");
    g
}

/// Each card before any I card, behind one and behind two, with each refusal that it can have beside it and with two of them: its length, a
/// barred byte, column 2, its first field; odd lines in each place; the sizes of the place for the counts.
pub fn run_orders(r: &mut Rng) -> Group {
    let mut g = Group::new("refusals of cards in a run, by their order");
    let mut lines: Vec<Vec<u8>> = ODD_LINES.map(|l| l.to_vec()).to_vec();
    for card in &CARDS {
        let good = make::full_line(r, card);
        for faults in 0..64 {
            lines.push(spoilt(card, &good, faults));
        }
        lines.push(good[..1].to_vec());
    }
    for line in &lines {
        for before in ["", "@|", "@|R|", "R|", "R x|@|", "|", " |", "@||"].map(run) {
            for after in [&b""[..], b"\nR", b"\nX", b"\n\nR"] {
                compare_both(&mut g, &[&before, &line[..], after].concat());
            }
        }
    }
    let runs = ["", "|", "||", "R", "X", "@", "@|R|", "I"].map(run);
    for run in runs.into_iter().chain([vec![b'x'; RUN + 1], vec![b'\n'; RUN]]) {
        for size in 0..=20 {
            compare_run(&mut g, &run, &vec![3; size]);
        }
    }
    g.has_met(&[0, LENGTH, BARRED, TYPE, SEPARATOR, REQUIRED, FORM, RANGE, SHORT, OUT_OF_PLACE]);
    g
}

/// A card's line with any of six faults: the first field blank, its last byte a plus, column 2, a barred byte, too long, another letter.
fn spoilt(card: &Format, good: &[u8], faults: usize) -> Vec<u8> {
    let mut line = good.to_vec();
    let first = card.placed().next().unwrap();
    let changes: [(usize, usize, u8); 6] = [
        (first.first - 1, first.last, b' '),
        (first.last - 1, first.last, b'+'),
        (1, 2, b'x'),
        (card.width - 1, card.width, 127),
        (card.width, card.width + 1, b' '),
        (0, 1, b'C'),
    ];
    for (_, (from, to, b)) in changes.into_iter().enumerate().filter(|(i, _)| faults >> i & 1 == 1) {
        line.resize(line.len().max(to), b' ');
        line[from..to].fill(b);
    }
    line
}

/// Runs about 65,536 bytes: short cards behind an I card, so that counts are large; I cards alone; full cards; each cut at every size about
/// the limit; what is refused at the end; and long lines.
pub fn long_runs(r: &mut Rng) -> Group {
    let mut g = Group::new("runs of cards near 65,536 bytes");
    let opening = [&make::opening(r)[..], b"\n"].concat();
    let full: Vec<u8> = CARDS.iter().flat_map(|card| [&make::full_line(r, card)[..], b"\n"].concat()).collect();
    let many: [&[u8]; 7] = [b"R\n", b"L\nE\nM\nP\nA\nR\n", &opening, &full, b"R remark\n", b"P\n", b"A"];
    for again in many {
        let all: Vec<u8> = opening.iter().chain(again.iter().cycle()).take(70000).copied().collect();
        for size in [65500, 65533, 65534, 65535, 65536, 65537, 65538, 70000] {
            let mut run = all[..size].to_vec();
            compare_run(&mut g, &run, &[9; COUNTS + 2]);
            for _ in 0..30 {
                let before = make::card_number(r, size);
                compare_step(&mut g, &run, before);
            }
            for b in *b"R\nX\x00" {
                *run.last_mut().unwrap() = b;
                compare_run(&mut g, &run, &[9; COUNTS]);
            }
        }
        compare_cards_walk(&mut g, &all[..RUN]);
        compare_cards_walk(&mut g, &all[..RUN + 1]);
        compare_cards_walk(&mut g, &all[..1000]);
    }
    for again in [&b"R"[..], b" ", b"\n", b"I", b"x", b"R\n", b"L \n\n"] {
        for size in [RUN - 1, RUN, RUN + 1] {
            let run: Vec<u8> = again.iter().cycle().take(size).copied().collect();
            compare_run(&mut g, &run, &[9; COUNTS]);
            compare_cards_walk(&mut g, &run);
        }
    }
    g.has_met(&[0, LENGTH, TYPE, OUT_OF_PLACE]);
    g
}

/// Events far beyond what a run holds: a walk from made-up numbers counts on to 65,535 and then tells of no line.
pub fn walks_from_numbers(r: &mut Rng) -> Group {
    let mut g = Group::new("walks of cards from made-up numbers");
    let run = [&make::opening(r)[..], b"\nR\nL x\n\nI\nC\nP"].concat();
    for kind in 0..=255 {
        for event in [0, 1, 255, 256, 65533, 65534, 65535] {
            for next in [0, 1, 25, 26, 27, 28, 29, 31, 32, 33, 34, 36, 38, 39, 65535, 65536, 65537, (1 << 20) - 1] {
                compare_step(&mut g, &run, parts(kind, event, (next as u64) << 20 | event as u64));
            }
        }
    }
    for next in 0..run.len() as u64 + 2 {
        for kind in *b"ILEMPARC" {
            compare_step(&mut g, &run, parts(kind, 3, next << 20 | 77));
            compare_step(&mut g, &run[..run.len().min(next as usize)], parts(kind, 3, next << 20));
        }
    }
    g.has_met(&[0, LENGTH, TYPE]);
    g
}

/// Cards written one after another, now and then refused: what was written is read as a run of these cards in this order, each line back to
/// its record.
pub fn cards_written_and_read(r: &mut Rng, times: usize) -> Group {
    let mut g = Group::new("runs of cards written and read back");
    for _ in 0..times {
        let (start, n) = (r.below(50), r.below(9));
        let mut out = vec![r.next() as u8; start + 79 * n + r.below(60)];
        let mut at = start;
        let mut kept: Vec<Vec<u8>> = Vec::new();
        for _ in 0..n {
            let card = if kept.is_empty() { &CARDS[0] } else { make::a_card(r) };
            let rec = if r.one_in(8) { make::card_record(r) } else { make::good_record(r, card) };
            if kept.is_empty() && rec.first() != Some(&CARDS[0].kind) {
                continue;
            }
            let place = if r.one_in(10) { (out.len() + r.below(20)).saturating_sub(r.below(90)) } else { at };
            let got = compare_from(&mut g, &rec, &out, place);
            if got.0 & 255 == 0 && place == at {
                at = (got.0 >> 24) as usize;
                out = got.1;
                kept.push(rec);
            }
        }
        run_back(&mut g, &out[start..at], &kept);
    }
    g.has_met(&[0, BARRED, FORM, WIDE, SHORT]);
    g
}

fn run_back(g: &mut Group, run: &[u8], records: &[Vec<u8>]) {
    let cards: Vec<&Format> = records.iter().map(|rec| cards::of_kind(rec).unwrap()).collect();
    let counts = CARDS.each_ref().map(|card| cards.iter().filter(|c| c.kind == card.kind).count());
    let wanted = (parts(0, counts[0], COUNTS as u64), cards::count_bytes(counts));
    g.same(calls::read_cards(run, &[7; COUNTS]), wanted, &[run]);
    let (mut before, mut from) = (0, 0);
    for (card, rec) in cards.iter().zip(records) {
        before = compare_step(g, run, before);
        g.same(Some(before as u8), card.key, &[run]);
        let end = (before >> 24 & 0xfffff) as usize;
        read_back(g, card, rec, run.get(from..end).unwrap_or(b""));
        from = (before >> 44) as usize;
    }
    let after = compare_step(g, run, before);
    g.same(after, 0, &[run]);
}
