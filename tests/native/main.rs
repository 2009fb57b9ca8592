//! The library's archive against a second implementation in Rust, written from documents 01 and 02. Usage: native [SEED [TIMES]].
//! Prints one line for each group, each difference with its input, and last `N passed, M failed`.
mod block;
mod blocks;
mod calendar;
mod calls;
mod card_days;
mod card_edges;
mod card_known;
mod card_known_runs;
mod card_lines;
mod card_runs;
mod cards;
mod compare;
mod cube;
mod days;
mod edges;
mod example;
mod examples;
mod formats;
mod lines;
mod link;
mod look_ups;
mod make;
mod moment;
mod number;
mod quick;
mod room;
mod rooms;
mod row;
mod rows;
mod unordered;

use blocks::*;
use card_days::card_days;
use card_edges::*;
use card_known::known_cards;
use card_known_runs::known_runs;
use card_lines::*;
use card_runs::*;
use compare::{parts, Group};
use days::*;
use edges::*;
use examples::*;
use lines::*;
use look_ups::*;
use make::Rng;
use rooms::*;
use rows::*;
use unordered::*;

fn null_pointers() -> Group {
    let mut g = Group::new("null pointers with length 0");
    let (short, none, unplaced) = (parts(number::SHORT, 0, 0), parts(number::FORM, 0, 0), parts(block::OUT_OF_PLACE, 0, 0));
    for got in calls::nulls() {
        g.same(got, short, &[]);
    }
    g.same(calls::quick_null_pair(&[0; room::ROOM]), parts(number::LENGTH, 0, 0), &[]);
    let wanted = [short, none, parts(block::OUT_OF_PLACE, 0, 1), unplaced, short, none];
    for file in [&PHASES, &ARRIVALS] {
        for (got, wanted) in file.calls.nulls().into_iter().zip(wanted) {
            g.same(got, wanted, &[]);
        }
    }
    for (got, wanted) in calls::card_nulls().into_iter().zip([short, none, none, short, parts(0, 0, 0)]) {
        g.same(got, wanted, &[]);
    }
    let [line, alone, placed, run] = calls::card_null_inputs();
    let place = vec![7; cards::RECORD];
    g.same(line, (parts(number::LENGTH, 0, 0), place.clone()), &[]);
    g.same(alone, (none, place.clone()), &[]);
    g.same(placed, (none, place.clone()), &[]);
    g.same(run, (parts(0, 0, cards::COUNTS as u64), make::with(&place, 0, &[0; cards::COUNTS])), &[]);
    g
}

fn main() {
    let mut args = std::env::args().skip(1).map(|a| a.parse::<u64>().expect("usage: native [SEED [TIMES]]"));
    let seed = args.next().unwrap_or(20261115);
    let times = args.next().unwrap_or(1) as usize;
    println!("seed {seed}, times {times}");
    let mut r = Rng(seed);
    let mut groups = vec![
        null_pointers(),
        each_damage(&mut r),
        cube_lines(&mut r, 300_000 * times),
        cube_records(&mut r, 200_000 * times),
        link_edges(&mut r),
    ];
    for example in [example::phases(), example::arrivals()] {
        let file = example.file;
        groups.extend([
            lines_read(&mut r, file, 200_000 * times),
            records_written(&mut r, file, 150_000 * times),
            blocks(&mut r, file, 20_000 * times),
            long_blocks(&mut r, file),
            example_lines(&mut r, &example),
            example_blocks(&example),
            block_writing(&mut r, file, 15_000 * times),
        ]);
    }
    groups.extend([
        arrival_edges(&mut r),
        event_days(&mut r),
        arrival_days(&mut r),
        days_in_rooms(&mut r),
        known_days(&mut r),
        flags(&mut r, [&PHASES, &ARRIVALS]),
        other_blocks(&mut r, [&PHASES, &ARRIVALS], 6_000 * times),
        taking(&mut r, 40_000 * times),
        near_full(&mut r, 8_000 * times),
        many_links(&mut r, 6_000 * times),
        damaged_rooms(&mut r, 20_000 * times),
        broken_rooms(&mut r, 900 * times),
        old_rooms(&mut r, 1_000 * times),
        two_desks(&mut r, 1_500 * times),
        quick_by_hand(&mut r),
        quick_in_order(&mut r, times),
        quick_refused(&mut r),
        quick_in_damaged_rooms(&mut r, 60_000 * times),
        quick_in_random_rooms(&mut r, 100_000 * times),
        quick_reads(&mut r, 32_000 * times),
        known_cards(),
        known_runs(),
        cards_read(&mut r, 200_000 * times),
        card_damages(&mut r),
        card_numbers(&mut r),
        card_columns(&mut r),
        card_days(&mut r),
        cards_written(&mut r, 120_000 * times),
        card_records(&mut r),
        card_runs(&mut r, 30_000 * times),
        run_orders(&mut r),
        long_runs(&mut r),
        walks_from_numbers(&mut r),
        cards_written_and_read(&mut r, 15_000 * times),
    ]);
    for g in &groups {
        println!("{}: {} calls, {} differ", g.name, g.calls, g.differ);
        let met = (0..256).filter(|&a| g.answers[a] > 0).map(|a| format!("{a}: {}", g.answers[a]));
        println!("  answers {}", met.collect::<Vec<_>>().join(", "));
    }
    let failed = groups.iter().filter(|g| g.differ > 0).count();
    println!("calls {}", groups.iter().map(|g| g.calls).sum::<u64>());
    println!("{} passed, {failed} failed", groups.len() - failed);
    std::process::exit((failed > 0) as i32);
}
