//! Days that exist and days that do not, on I cards: every date of many years held to the second implementation, and the dates and counts
//! of days.rs that are known without it.
use crate::calls;
use crate::card_edges::full_card;
use crate::card_lines::{compare_card, compare_card_record};
use crate::cards::{CARDS, RECORD};
use crate::compare::Group;
use crate::days::*;
use crate::make::{with, Rng};
use crate::number::{RANGE, WIDE};

/// Where an I card has its date, and the column of its day.
const DATE: usize = 2;
const DAY: usize = 11;

fn dated_card(rec: &[u8], date: Date) -> Vec<u8> {
    let mut rec = rec.to_vec();
    for (i, v) in date.into_iter().enumerate() {
        CARDS[0].put(&mut rec, i, v);
    }
    rec
}

pub fn card_days(r: &mut Rng) -> Group {
    let mut g = Group::new("days of the calendar on I cards");
    let (rec, line) = full_card(r, &CARDS[0]);
    let at = |cell: &str| with(&line, DATE, cell.as_bytes());
    for (i, date) in dates(EVENT_YEARS, DAYS).chain(februaries(-999..=6070)).enumerate() {
        compare_card(&mut g, &at(&plain(date, " ")), &[7; RECORD]);
        if i % 9 == 0 {
            for cell in spelled(date, " ") {
                compare_card(&mut g, &at(&cell), &[7; RECORD]);
            }
        }
    }
    for date in dates(EVENT_YEARS, DAYS.chain(OTHERS)).chain(februaries(-999..=6070)) {
        compare_card_record(&mut g, &dated_card(&rec, date), &vec![7; CARDS[0].width]);
    }
    for (year, month, day, exists) in KNOWN {
        let date = [year, month, day];
        let (line, rec) = (at(&plain(date, " ")), dated_card(&rec, date));
        told(&mut g, calls::read_card(&line, &[0; RECORD]).0, exists, 0, (RANGE, DAY), &line);
        told(&mut g, calls::write_card(&rec, &vec![0; CARDS[0].width]).0, exists, 0, (RANGE, DAY), &rec);
    }
    for first in [-999, 1601, 5671] {
        four_hundred_years(&mut g, first, |date| calls::read_card(&at(&plain(date, " ")), &[0; RECORD]).0);
    }
    g.has_met(&[0, RANGE, WIDE]);
    g
}
