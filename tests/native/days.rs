//! Days that exist and days that do not, wherever a date is read or written: every date of many years held to the second implementation;
//! and dates and counts that are known without it.
use crate::compare::{parts, Group};
use crate::edges::{dated_record, full_record};
use crate::formats::ARRIVAL;
use crate::lines::{compare_cube, compare_writing};
use crate::make::{self, with, Rng};
use crate::number::{RANGE, WIDE};
use crate::rooms::compare_take;
use crate::rows::{compare_read, compare_write, ARRIVALS};
use crate::{calls, cube, room};
use std::ops::RangeInclusive;

/// Year, month and day.
pub type Date = [i64; 3];

/// Years at the ends of the ranges, about year 0 and about hundreds and four hundreds.
const YEARS: [RangeInclusive<i64>; 20] = [
    -999..=-999,
    -997..=-990,
    -800..=-800,
    -500..=-500,
    -404..=-404,
    -401..=-396,
    -300..=-300,
    -200..=-200,
    -104..=-104,
    -101..=-96,
    -8..=8,
    96..=104,
    1896..=1904,
    1996..=2004,
    2023..=2028,
    2100..=2100,
    2400..=2400,
    6000..=6000,
    6068..=6071,
    9996..=9999,
];
pub const EVENT_YEARS: RangeInclusive<i64> = -999..=6071;
const ARRIVAL_YEARS: RangeInclusive<i64> = -8..=9999;
/// The days 1 to 31 and the numbers next to them; and other numbers, some of them too wide for a day.
pub const DAYS: RangeInclusive<i64> = -1..=32;
pub const OTHERS: [i64; 6] = [i64::MIN, -10, -9, 99, 100, i64::MAX];

/// Of the years above those in this range, each with the months 0 to 13 and with these days.
pub fn dates(years: RangeInclusive<i64>, days: impl Iterator<Item = i64> + Clone) -> impl Iterator<Item = Date> {
    let years = YEARS.into_iter().flatten().filter(move |y| years.contains(y));
    years.flat_map(move |y| {
        let days = days.clone();
        (0..=13).flat_map(move |m| days.clone().map(move |d| [y, m, d]))
    })
}

/// The last days of February and the day after them.
pub fn februaries(years: RangeInclusive<i64>) -> impl Iterator<Item = Date> {
    years.flat_map(|y| (28..=30).map(move |d| [y, 2, d]))
}

/// Every way to write a number in so many columns: blanks, a minus, zeros, digits; zero with a minus too.
fn spellings(v: i64, width: usize) -> Vec<String> {
    let signs: &[&str] = match v {
        0 => &["", "-"],
        1.. => &[""],
        _ => &["-"],
    };
    let digits = v.abs().to_string();
    let filled = |sign: &str, n: usize| format!("{:>width$}", format!("{sign}{digits:0>n$}"));
    signs.iter().flat_map(|s| (digits.len()..=width - s.len()).map(move |n| filled(s, n))).collect()
}

/// Every way to write a date with this mark between its parts.
pub fn spelled([year, month, day]: Date, mark: &str) -> Vec<String> {
    let mut all = Vec::new();
    for y in spellings(year, 4) {
        for m in spellings(month, 2) {
            all.extend(spellings(day, 2).iter().map(|d| [&y, &m, &d[..]].join(mark)));
        }
    }
    all
}

fn event_record(rec: &[u8], date: Date) -> Vec<u8> {
    let mut rec = rec.to_vec();
    for (i, v) in [cube::YEAR, cube::MONTH, cube::DAY].into_iter().zip(date) {
        cube::put(&mut rec, i, v);
    }
    rec
}

/// E lines read and E records written, with every date of the years above and in every year with the end of February.
pub fn event_days(r: &mut Rng) -> Group {
    let mut g = Group::new("days of the calendar in E lines");
    let line = make::event(r, 9);
    let rec = cube::read_line(&line).unwrap();
    for date in dates(EVENT_YEARS, DAYS).chain(februaries(-999..=6070)) {
        for cell in spelled(date, "") {
            compare_cube(&mut g, &make::dated(&line, &cell), &[7; cube::RECORD]);
        }
    }
    for date in dates(EVENT_YEARS, DAYS.chain(OTHERS)).chain(februaries(-999..=6070)) {
        compare_writing(&mut g, &event_record(&rec, date), &[7; cube::EVENT_LINE]);
    }
    g.has_met(&[0, RANGE, WIDE]);
    g
}

/// The same of arrival lines and records.
pub fn arrival_days(r: &mut Rng) -> Group {
    let mut g = Group::new("days of the calendar in arrivals");
    let (rec, line) = full_record(r);
    for date in dates(ARRIVAL_YEARS, DAYS).chain(februaries(0..=9999)) {
        for cell in spelled(date, "/") {
            compare_read(&mut g, &ARRIVALS, &with(&line, 29, cell.as_bytes()), &[7; ARRIVAL.record()]);
        }
    }
    for date in dates(ARRIVAL_YEARS, DAYS.chain(OTHERS)).chain(februaries(0..=9999)) {
        compare_write(&mut g, &ARRIVALS, &dated_record(&rec, date), &[7; ARRIVAL.width]);
    }
    g.has_met(&[0, RANGE, WIDE]);
    g
}

/// A room that holds this line alone, whatever stands in it.
fn room_of(line: &[u8]) -> Vec<u8> {
    with(&vec![0; room::ROOM], 0, &[&1u16.to_be_bytes(), line].concat())
}

/// Lines with every date of the years above: taken into an empty room; and held by a room that is asked for its order and for the line, and
/// takes a delete.
pub fn days_in_rooms(r: &mut Rng) -> Group {
    let mut g = Group::new("days of the calendar in rooms");
    let line = make::event(r, 9);
    let delete = [b"DE", &line[2..12], b"~"].concat();
    for date in dates(EVENT_YEARS, DAYS) {
        for cell in spelled(date, "") {
            let line = make::dated(&line, &cell);
            compare_take(&mut g, &mut vec![0; room::ROOM], &line);
            compare_room(&mut g, &room_of(&line), &line);
            compare_take(&mut g, &mut room_of(&line), &delete);
        }
    }
    among_others(&mut g);
    g.has_met(&[0, RANGE, room::DISORDER, room::STORED, room::REMOVED, room::IS_HELD]);
    g
}

fn compare_room(g: &mut Group, room: &[u8], line: &[u8]) {
    let got = g.met(calls::in_order(room));
    g.same(got, room::in_order(room) as u64, &[line]);
    let (source, id) = (&line[10..12], &line[2..10]);
    let (n, place) = room::look_up(room, source, id);
    let got = g.met(calls::look_up(room, source, id));
    g.same(got, parts(n, 0, place as u64), &[line]);
}

/// A full room with one of its lines on the last day of April and on the day after that.
fn among_others(g: &mut Group) {
    let room = make::full(room::PAIRS).room();
    for place in [0, 1, 2, 255, 256, room::PAIRS - 2, room::PAIRS - 1] {
        let at = room::COUNT + room::HELD * place;
        for date in ["0430", "0431"] {
            let line = make::dated(&room[at..at + room::HELD], date);
            let room = with(&room, at, &line);
            compare_room(g, &room, &line);
            compare_take(g, &mut room.clone(), &line);
        }
    }
}

/// Dates, and whether each exists, set down by hand.
pub const KNOWN: [(i64, i64, i64, bool); 67] = [
    (1999, 4, 30, true),
    (1999, 4, 31, false),
    (1900, 2, 28, true),
    (1900, 2, 29, false),
    (1900, 2, 30, false),
    (2000, 2, 29, true),
    (2000, 2, 30, false),
    (2000, 2, 31, false),
    (2023, 2, 29, false),
    (2023, 2, 30, false),
    (2024, 2, 29, true),
    (2024, 2, 30, false),
    (2100, 2, 29, false),
    (2400, 2, 29, true),
    (6000, 2, 29, true),
    (6068, 2, 29, true),
    (6070, 2, 28, true),
    (6070, 2, 29, false),
    (400, 2, 29, true),
    (100, 2, 29, false),
    (4, 2, 29, true),
    (4, 2, 30, false),
    (2, 2, 29, false),
    (1, 2, 29, false),
    (0, 2, 29, true),
    (0, 2, 30, false),
    (0, 4, 31, false),
    (0, 12, 31, true),
    (-1, 2, 29, false),
    (-2, 2, 29, false),
    (-3, 2, 29, false),
    (-4, 2, 29, true),
    (-4, 2, 30, false),
    (-5, 2, 29, false),
    (-100, 2, 28, true),
    (-100, 2, 29, false),
    (-104, 2, 29, true),
    (-200, 2, 29, false),
    (-300, 2, 29, false),
    (-400, 2, 29, true),
    (-400, 2, 30, false),
    (-800, 2, 29, true),
    (-996, 2, 29, true),
    (-999, 2, 29, false),
    (-999, 4, 31, false),
    (2023, 1, 0, false),
    (2023, 1, 1, true),
    (2023, 1, 31, true),
    (2023, 1, 32, false),
    (2023, 2, 28, true),
    (2023, 3, 31, true),
    (2023, 4, 30, true),
    (2023, 4, 31, false),
    (2023, 5, 31, true),
    (2023, 6, 30, true),
    (2023, 6, 31, false),
    (2023, 7, 31, true),
    (2023, 8, 31, true),
    (2023, 9, 30, true),
    (2023, 9, 31, false),
    (2023, 10, 31, true),
    (2023, 11, 30, true),
    (2023, 11, 31, false),
    (2023, 12, 31, true),
    (2023, 12, 32, false),
    (2024, 11, 31, false),
    (2024, 12, 31, true),
];

/// A date with all its zeros and this mark between its parts.
pub fn plain([year, month, day]: Date, mark: &str) -> String {
    format!("{year:04}{mark}{month:02}{mark}{day:02}")
}

/// What every call says of the dates above; and how many days of 400 years the readers accept.
pub fn known_days(r: &mut Rng) -> Group {
    let mut g = Group::new("days known to exist or not");
    let line = make::event(r, 9);
    let (rec, row) = full_record(r);
    for (year, month, day, exists) in KNOWN {
        known_event(&mut g, &line, [year, month, day], exists);
        if year >= 0 {
            known_arrival(&mut g, &row, &rec, [year, month, day], exists);
        }
    }
    let event = |date: Date| calls::read_line(&make::dated(&line, &plain(date, "")), &[0; cube::RECORD]).0;
    let arrival = |date: Date| ARRIVALS.calls.read(&with(&row, 29, plain(date, "/").as_bytes()), &[0; ARRIVAL.record()]).0;
    for first in [-999, -399, 1601, 5671] {
        four_hundred_years(&mut g, first, event);
    }
    for first in [0, 9600] {
        four_hundred_years(&mut g, first, arrival);
    }
    g.has_met(&[0, RANGE]);
    g
}

/// Answer and column of a call, held to one of two by whether a day exists.
pub fn told(g: &mut Group, returned: u64, exists: bool, yes: u8, no: (u8, usize), input: &[u8]) {
    let got = g.met(returned) & 0xff_ffff;
    g.same(got, if exists { parts(yes, 0, 0) } else { parts(no.0, no.1, 0) }, &[input]);
}

fn known_event(g: &mut Group, line: &[u8], date: Date, exists: bool) {
    let rec = event_record(&calls::read_line(line, &[0; cube::RECORD]).1, date);
    let line = make::dated(line, &plain(date, ""));
    let room = room_of(&line);
    told(g, calls::read_line(&line, &[0; cube::RECORD]).0, exists, 0, (RANGE, 20), &line);
    told(g, calls::write_line(&rec, &[0; cube::EVENT_LINE]).0, exists, 0, (RANGE, 20), &rec);
    told(g, calls::take(&vec![0; room::ROOM], &line).0, exists, room::STORED, (RANGE, 20), &line);
    told(g, calls::take(&room, &line).0, exists, room::REPEATED, (room::DISORDER, 0), &line);
    told(g, calls::in_order(&room), exists, 0, (room::DISORDER, 0), &line);
    told(g, calls::look_up(&room, &line[10..12], &line[2..10]), exists, room::IS_HELD, (room::DISORDER, 0), &line);
}

fn known_arrival(g: &mut Group, row: &[u8], rec: &[u8], date: Date, exists: bool) {
    let row = with(row, 29, plain(date, "/").as_bytes());
    let rec = dated_record(rec, date);
    told(g, ARRIVALS.calls.read(&row, &[0; ARRIVAL.record()]).0, exists, 0, (RANGE, 30), &row);
    told(g, ARRIVALS.calls.write(&rec, &[0; ARRIVAL.width]).0, exists, 0, (RANGE, 30), &rec);
}

/// Of all days 1 to 31 of 400 years, 146,097 are read.
pub fn four_hundred_years(g: &mut Group, first: i64, read: impl Fn(Date) -> u64) {
    let months = (first..first + 400).flat_map(|y| (1..=12).map(move |m| (y, m)));
    let all = months.flat_map(|(y, m)| (1..=31).map(move |d| [y, m, d]));
    let read = all.filter(|&date| g.met(read(date)) & 255 == 0).count();
    g.calls += 400 * 12 * 31;
    g.same(read, 146_097, &[]);
}
