//! Arrival lines and records at the edges of the rules that phase lines do not have: the date, the network, the station.
use crate::compare::Group;
use crate::formats::ARRIVAL;
use crate::make::{self, with, Rng};
use crate::row::Field;
use crate::rows::{compare_read, compare_write, File, ARRIVALS};

/// A record with every number, and the line of it.
pub fn full_record(r: &mut Rng) -> (Vec<u8>, Vec<u8>) {
    let mut rec = make::good_record(r, &ARRIVAL);
    for (i, v) in [1996, 8, 16, 3, 41, 40523, 2563, 162, 134, 2286, 33, 45, 2, 244453, 1217783, 370, 0].into_iter().enumerate() {
        ARRIVAL.put(&mut rec, i, v);
    }
    let line = ARRIVAL.write_line(&rec, ARRIVAL.width).unwrap();
    (rec, line)
}

/// The record with another date.
pub fn dated_record(rec: &[u8], date: [i64; 3]) -> Vec<u8> {
    let mut rec = rec.to_vec();
    for (i, v) in date.into_iter().enumerate() {
        ARRIVAL.put(&mut rec, i, v);
    }
    rec
}

pub fn arrival_edges(r: &mut Rng) -> Group {
    let mut g = Group::new("arrivals at the edges");
    let (rec, line) = full_record(r);
    dates_read(&mut g, &line);
    dates_written(&mut g, &rec);
    names(&mut g, &rec, &line);
    for size in 0..ARRIVAL.record() + 3 {
        compare_read(&mut g, &ARRIVALS, &line, &vec![5; size]);
        compare_write(&mut g, &ARRIVALS, &rec, &vec![5; size]);
    }
    g
}

/// Every choice of a year, a month, a day and marks, also with another fault before or behind the date.
fn dates_read(g: &mut Group, line: &[u8]) {
    let years = [
        "0000", "9999", "1900", "2000", "-000", "-001", "-999", " 996", "   0", "  -0", "    ", "0  0", "199 ", "+199", "19.6", "--19", "   -",
    ];
    let parts = ["00", "01", "02", " 4", "12", "13", "28", "29", "30", "31", "32", "99", "-1", "-0", " 0", " 8", "  ", "8 ", "+8", "x8", " -"];
    let marks = [*b"//", *b"-/", *b"/-", *b"--", *b"  ", *b"/ ", *b" /", *b"::"];
    let faults: [(usize, &[u8]); 7] = [(0, b""), (0, b" "), (10, b"     "), (28, b"x"), (39, b"/"), (40, b"24:"), (150, b"\x1f")];
    for (at, fault) in faults {
        let l = with(line, at, fault);
        for year in years {
            for month in parts {
                for day in parts {
                    for [a, b] in if fault.is_empty() { &marks[..] } else { &marks[..2] } {
                        let date = [year.as_bytes(), &[*a], month.as_bytes(), &[*b], day.as_bytes()].concat();
                        compare_read(g, &ARRIVALS, &with(&l, 29, &date), &[7; ARRIVAL.record()]);
                    }
                }
            }
        }
    }
}

/// Numbers of a date that are written, out of range or too wide, also behind a blank station.
fn dates_written(g: &mut Group, rec: &[u8]) {
    let years = [i64::MIN, -10000, -1000, -999, -1, 0, 996, 1900, 9999, 10000, i64::MAX];
    let parts = [i64::MIN, -10, -9, -1, 0, 1, 2, 8, 11, 12, 13, 28, 29, 30, 31, 32, 99, 100, i64::MAX];
    let mut blank = rec.to_vec();
    let station = ARRIVAL.placed().find(|f| matches!(f.field, Field::Filled)).unwrap();
    blank[station.at..station.at + station.width()].fill(b' ');
    for from in [rec, &blank] {
        for year in years {
            for month in parts {
                for day in parts {
                    compare_write(g, &ARRIVALS, &dated_record(from, [year, month, day]), &[7; ARRIVAL.width]);
                }
            }
        }
    }
}

/// Networks and stations with blanks and barred bytes in each place, each network with each station: read, and written from a record.
fn names(g: &mut Group, rec: &[u8], line: &[u8]) {
    let [network, station] = [9, 5].map(|width| {
        let mut cells = vec![vec![b' '; width], vec![b'('; width], vec![b'\n'; width]];
        for at in 0..width {
            for b in b" A(\t\x7f" {
                for filler in b" Z\x1f" {
                    for first in [*filler, b' ', b'N'] {
                        let mut cell = vec![*filler; width];
                        cell[0] = first;
                        cell[at] = *b;
                        cells.push(cell);
                    }
                }
            }
        }
        cells.sort();
        cells.dedup();
        cells
    });
    let text = ARRIVAL.placed().next().unwrap().at;
    for n in &network {
        for s in &station {
            compare_read(g, &ARRIVALS, &with(&with(line, 0, n), 10, s), &[7; ARRIVAL.record()]);
            compare_write(g, &ARRIVALS, &with(&with(rec, text, n), text + 9, s), &[7; ARRIVAL.width]);
        }
    }
}

/// Records with each flag for each number, and with every choice of flags for the three numbers of a date or a time, each of these numbers
/// zero or not; and with each kind.
pub fn flags(r: &mut Rng, files: [&File; 2]) -> Group {
    let mut g = Group::new("flags and kinds of records");
    for file in files {
        let format = &file.format;
        let rec = make::good_record(r, format);
        let out = vec![7; format.width];
        let marked = format.placed().filter(|f| matches!(f.field, Field::Marked(..)));
        for numbers in (0..format.numbers).map(|i| i..i + 1).chain(marked.map(|f| f.at..f.at + 3)) {
            for choice in 0..8usize.pow(numbers.len() as u32) {
                let mut rec = rec.clone();
                for (k, i) in numbers.clone().enumerate() {
                    let own = choice >> (3 * k) & 7;
                    format.put(&mut rec, i, (own & 1) as i64);
                    rec[1 + i] = [0, 1, 2, 255][own >> 1];
                }
                compare_write(&mut g, file, &rec, &out);
            }
        }
        for kind in 0..=255 {
            compare_write(&mut g, file, &with(&rec, 0, &[kind]), &out);
        }
    }
    g
}
