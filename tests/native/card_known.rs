//! Cards and their records, with the answers worked out by hand from documents 000, 01 and 02: what the library says of them, and what the
//! second implementation says.
use crate::calls;
use crate::cards::{self, RECORD};
use crate::compare::{parts, Group};
use crate::number::*;

/// A line as pieces, each at its column.
type Pieces = &'static [(usize, &'static [u8])];

fn laid(pieces: Pieces) -> Vec<u8> {
    let mut line = Vec::new();
    for (column, text) in pieces {
        line.resize(column - 1, b' ');
        line.extend_from_slice(text);
    }
    line
}

/// Lines, and the number and column that reading them answers.
const LINES: [(Pieces, u8, usize); 105] = [
    (&[], LENGTH, 0),
    (&[(1, b"L")], 0, 0),
    (&[(1, b"E")], 0, 0),
    (&[(1, b"M")], 0, 0),
    (&[(1, b"P")], 0, 0),
    (&[(1, b"A")], 0, 0),
    (&[(1, b"R")], 0, 0),
    (&[(1, b"I")], REQUIRED, 3),
    (&[(1, b"I"), (45, b"L")], REQUIRED, 3),
    // other letters
    (&[(1, b" ")], TYPE, 1),
    (&[(2, b"I")], TYPE, 1),
    (&[(1, b"i")], TYPE, 1),
    (&[(1, b"C")], TYPE, 1),
    (&[(1, b"G")], TYPE, 1),
    (&[(1, b"T")], TYPE, 1),
    (&[(1, b"N quake")], TYPE, 1),
    (&[(1, b"\t")], TYPE, 1),
    (&[(1, b"C\t"), (90, b"x")], TYPE, 1),
    // full width and one more; document 000 prints A with 44 columns and P's time as f10.3
    (&[(1, b"L"), (43, b"x")], 0, 0),
    (&[(1, b"L"), (44, b" ")], LENGTH, 0),
    (&[(1, b"E"), (59, b"  0.0")], 0, 0),
    (&[(1, b"E"), (64, b" ")], LENGTH, 0),
    (&[(1, b"M"), (18, b"x")], 0, 0),
    (&[(1, b"M"), (19, b" ")], LENGTH, 0),
    (&[(1, b"P"), (34, b"    1.000")], 0, 0),
    (&[(1, b"P"), (34, b"     1.000")], LENGTH, 0),
    (&[(1, b"A"), (38, b"  1.00")], 0, 0),
    (&[(1, b"A"), (44, b" ")], LENGTH, 0),
    (&[(1, b"R"), (78, b"x")], 0, 0),
    (&[(1, b"R"), (79, b"x")], LENGTH, 0),
    (&[(1, b"R\t"), (79, b" ")], LENGTH, 0),
    // barred bytes before everything in the columns
    (&[(1, b"R\r")], BARRED, 2),
    (&[(1, b"R\n")], BARRED, 2),
    (&[(1, b"Rx\x7f")], BARRED, 3),
    (&[(1, b"I"), (45, b"\x80")], BARRED, 45),
    (&[(1, b"R [ok] ~")], 0, 0),
    (&[(1, b"L [")], FORM, 3),
    // column 2 and the gaps
    (&[(1, b"Rx")], SEPARATOR, 2),
    (&[(1, b"Ix")], SEPARATOR, 2),
    (&[(1, b"I 1992-05 08 12 34 56.789")], SEPARATOR, 7),
    (&[(1, b"I 1992 05-08 12 34 56.789")], SEPARATOR, 10),
    (&[(1, b"I 1992 05 08T12 34 56.789")], SEPARATOR, 13),
    (&[(1, b"I 1992 05 08 12 34 56.789x")], SEPARATOR, 26),
    (&[(1, b"I 1992 05 08 12 34 56.789"), (44, b"x")], SEPARATOR, 44),
    (&[(1, b"Ml")], SEPARATOR, 2),
    (&[(1, b"M lx")], SEPARATOR, 4),
    (&[(1, b"M l   3.45 12xCIT")], SEPARATOR, 14),
    (&[(1, b"P"), (18, b"x")], SEPARATOR, 18),
    (&[(1, b"A"), (30, b"x")], SEPARATOR, 30),
    (&[(1, b"E"), (58, b"x")], SEPARATOR, 58),
    // the I card
    (&[(1, b"I 1992 05 08 12 34 56.789 12345678 -2345678 T")], 0, 0),
    (&[(1, b"I 1992 05 08 12 34 56.789")], 0, 0),
    (&[(1, b"I   92  5  8  2  4  6.789")], 0, 0),
    (&[(1, b"I -999 01 01 00 00 -0.000")], 0, 0),
    (&[(1, b"I   -0 01 01 -0 -0 00.000")], 0, 0),
    (&[(1, b"I 6070 12 31 23 59 59.999")], 0, 0),
    (&[(1, b"I 6071 12 31 23 59 59.999")], RANGE, 3),
    (&[(1, b"I 1992 13 08 12 34 56.789")], RANGE, 8),
    (&[(1, b"I 1992 00 08 12 34 56.789")], RANGE, 8),
    (&[(1, b"I 1992 05 00 12 34 56.789")], RANGE, 11),
    (&[(1, b"I 1992 02 29 12 34 56.789")], 0, 0),
    (&[(1, b"I 1991 02 29 12 34 56.789")], RANGE, 11),
    (&[(1, b"I 1992 04 31 12 34 56.789")], RANGE, 11),
    (&[(1, b"I 1992 05 08 24 34 56.789")], RANGE, 14),
    (&[(1, b"I 1992 05 08 12 60 56.789")], RANGE, 17),
    (&[(1, b"I 1992 05 08 12 34 60.000")], RANGE, 20),
    (&[(1, b"I 1992 05 08 12 34 -0.001")], RANGE, 20),
    (&[(1, b"I      05 08 12 34 56.789")], REQUIRED, 3),
    (&[(1, b"I 1992    08 12 34 56.789")], REQUIRED, 8),
    (&[(1, b"I 1992 05    12 34 56.789")], REQUIRED, 11),
    (&[(1, b"I 1992 05 08    34 56.789")], REQUIRED, 14),
    (&[(1, b"I 1992 05 08 12    56.789")], REQUIRED, 17),
    (&[(1, b"I 1992 05 08 12 34")], REQUIRED, 20),
    (&[(1, b"I 1992 05 08 12 34 56.78")], FORM, 20),
    (&[(1, b"I 1992 05 08 12 34 56,789")], FORM, 20),
    (&[(1, b"I 1992 5  08 12 34 56.789")], FORM, 8),
    (&[(1, b"I 1992 05 08 12 34 56.789"), (27, b"1234567 ")], FORM, 27),
    (&[(1, b"I 1992 05 08 12 34 56.789"), (36, b"+1234567")], FORM, 36),
    // latitude, longitude, depth, origin time
    (&[(1, b"L  34.123 -118.456   5.67    12.345 TZE HYP")], 0, 0),
    (&[(1, b"L  90.000 -180.000")], 0, 0),
    (&[(1, b"L  90.001")], RANGE, 3),
    (&[(1, b"L -90.000  180.000")], 0, 0),
    (&[(1, b"L -90.001  180.001")], RANGE, 3),
    (&[(1, b"L"), (11, b" 180.001")], RANGE, 11),
    (&[(1, b"L"), (11, b"-180.001")], RANGE, 11),
    (&[(1, b"L"), (20, b"-99.99 -9999.999")], 0, 0),
    (&[(1, b"L"), (20, b"  5.7 ")], FORM, 20),
    (&[(1, b"L"), (20, b"   .70")], FORM, 20),
    // errors, counts of phases, gap
    (&[(1, b"E -99.999 999.999   0.000  -0.000   0.100 -999 9999 999.9 -99.9")], 0, 0),
    (&[(1, b"E"), (43, b"+999")], FORM, 43),
    (&[(1, b"E"), (48, b"99.0")], FORM, 48),
    (&[(1, b"E"), (53, b"  0.0")], 0, 0),
    (&[(1, b"E"), (53, b" 0.00")], FORM, 53),
    // magnitude and count touch
    (&[(1, b"M l   3.45 12 CIT")], 0, 0),
    (&[(1, b"M l  -3.45-12 CIT")], 0, 0),
    (&[(1, b"M l9999.99"), (11, b"999")], SEPARATOR, 4),
    (&[(1, b"M l 999.99999")], 0, 0),
    (&[(1, b"M l   3.4512 ")], FORM, 11),
    (&[(1, b"M l  3.450 12")], FORM, 5),
    // arrival time in 34-42, amplitude, period
    (&[(1, b"P"), (3, b"PASVHZCI"), (19, b"MV2"), (23, b"P"), (30, b"IU0"), (34, b"99999.999")], 0, 0),
    (&[(1, b"P"), (34, b"-9999.999")], 0, 0),
    (&[(1, b"P"), (34, b"  12.3456")], FORM, 34),
    (&[(1, b"A"), (3, b"PASVHZCI"), (19, b"MV2"), (23, b"9999.99"), (31, b"Lg"), (38, b"  0.35")], 0, 0),
    (&[(1, b"A"), (23, b"-999.99"), (38, b"-99.99")], 0, 0),
    (&[(1, b"A"), (38, b"    .5")], FORM, 38),
];

/// A record's bytes: its kind, its numbers, its text.
fn record(kind: u8, numbers: &[Option<i64>], text: &[u8]) -> Vec<u8> {
    let flags = numbers.iter().map(|n| n.is_some() as u8);
    let values = numbers.iter().flat_map(|n| n.unwrap_or(0).to_be_bytes());
    [kind].into_iter().chain(flags).chain(values).chain(text.iter().copied()).collect()
}

/// Lines, their records, and what is written of these, blank to the width.
fn records() -> Vec<(Pieces, Vec<u8>, Pieces, usize)> {
    let of = |all: &[i64]| all.iter().map(|&n| Some(n)).collect::<Vec<_>>();
    let gap: Vec<_> = (0..9).map(|i| (i == 7).then_some(0)).collect();
    vec![
        (
            &[(1, b"I 1992  5  8 12 34  6.789 12345678 -2345678 T")],
            record(6, &of(&[1992, 5, 8, 12, 34, 6789, 12345678, -2345678]), b"T"),
            &[(1, b"I 1992 05 08 12 34  6.789 12345678 -2345678 T")],
            45,
        ),
        (
            &[(1, b"I   -9  5  8  0  0 00.000        7")],
            record(6, &[Some(-9), Some(5), Some(8), Some(0), Some(0), Some(0), Some(7), None], b" "),
            &[(1, b"I -009 05 08 00 00  0.000 00000007")],
            45,
        ),
        (
            &[(1, b"L  34.123 -118.456  -0.50    12.345 TZE HYP")],
            record(7, &of(&[34123, -118456, -50, 12345]), b"TZEHYP"),
            &[(1, b"L  34.123 -118.456  -0.50    12.345 TZE HYP")],
            43,
        ),
        (&[(1, b"E"), (53, b"  0.0")], record(8, &gap, b""), &[(1, b"E"), (53, b"  0.0")], 63),
        (&[(1, b"E"), (53, b"     ")], record(8, &[None; 9], b""), &[(1, b"E")], 63),
        (&[(1, b"M l   3.45 12 CIT")], record(9, &of(&[345, 12]), b"lCIT "), &[(1, b"M l   3.45012 CIT")], 18),
        (
            &[(1, b"P"), (3, b"PASVHZCI"), (19, b"MV2"), (23, b"P"), (30, b"IU0"), (34, b"-0000.001")],
            record(10, &of(&[-1]), b"PASVHZCI       MV2P     IU0"),
            &[(1, b"P"), (3, b"PASVHZCI"), (19, b"MV2"), (23, b"P"), (30, b"IU0"), (37, b"-0.001")],
            42,
        ),
        (
            &[(1, b"A"), (3, b"PASVHZCI"), (23, b"   0.10")],
            record(11, &[Some(10), None], b"PASVHZCI                "),
            &[(1, b"A"), (3, b"PASVHZCI"), (26, b"0.10")],
            43,
        ),
        (&[(1, b"R")], record(12, &[], &[b' '; 76]), &[(1, b"R")], 78),
    ]
}

/// Bytes that are refused in writing, with the size of the place for the line, and the number and column that are answered.
fn refused_records() -> Vec<(Vec<u8>, usize, u8, usize)> {
    let [i, l, m, r] = [0, 2, 5, 8].map(|n| records().swap_remove(n).1);
    let put = |rec: &[u8], numbers: usize, i: usize, v: i64| {
        let mut rec = rec.to_vec();
        rec[1 + numbers + 8 * i..][..8].copy_from_slice(&v.to_be_bytes());
        rec
    };
    let missing = |rec: &[u8], numbers: usize, i: usize| {
        let mut rec = put(rec, numbers, i, 0);
        rec[1 + i] = 0;
        rec
    };
    let changed = |rec: &[u8], at: usize, b: u8| crate::make::with(rec, at, &[b]);
    vec![
        (vec![], 80, FORM, 0),
        (changed(&r, 0, 5), 80, FORM, 0),
        (changed(&r, 0, 13), 80, FORM, 0),
        (r[..76].to_vec(), 80, FORM, 0),
        (changed(&m, 1, 2), 0, FORM, 0),
        (changed(&m, 1, 0), 0, FORM, 0),
        (m.clone(), 17, SHORT, 0),
        (changed(&r, 1, 9), 77, SHORT, 0),
        (changed(&r, 1, 9), 78, BARRED, 3),
        (changed(&r, 76, 127), 78, BARRED, 78),
        (missing(&i, 8, 0), 45, REQUIRED, 3),
        (missing(&i, 8, 5), 45, REQUIRED, 20),
        (put(&i, 8, 0, 10000), 45, WIDE, 3),
        (put(&i, 8, 0, 7000), 45, RANGE, 3),
        (put(&put(&i, 8, 1, 4), 8, 2, 31), 45, RANGE, 11),
        (put(&i, 8, 6, 100000000), 45, WIDE, 27),
        (put(&i, 8, 7, -10000000), 45, WIDE, 36),
        (put(&l, 4, 0, 90001), 43, RANGE, 3),
        (put(&l, 4, 0, 1000000), 43, WIDE, 3),
        (put(&l, 4, 3, -10000000), 43, WIDE, 27),
        (put(&m, 2, 0, 100000), 18, WIDE, 5),
        (put(&m, 2, 0, -10000), 18, WIDE, 5),
        (put(&m, 2, 1, 1000), 18, WIDE, 11),
    ]
}

pub fn known_cards() -> Group {
    let mut g = Group::new("cards known by hand");
    for (pieces, number, column) in LINES {
        let line = laid(pieces);
        let got = g.met(calls::read_card(&line, &[0; RECORD]).0);
        g.same(got & 0xff_ffff, parts(number, column, 0), &[&line]);
        g.same(cards::read_line(&line).err().unwrap_or((0, 0)), (number, column), &[&line]);
    }
    for (pieces, rec, full, width) in records() {
        let (line, mut full) = (laid(pieces), laid(full));
        full.resize(width, b' ');
        let size = rec.len();
        let (got, after) = calls::read_card(&line, &[7; RECORD]);
        g.same((got, &after[..size], &after[size..]), (parts(0, 0, size as u64), &rec[..], &[7; RECORD][size..]), &[&line]);
        g.same(calls::write_card(&rec, &vec![7; width]), (parts(0, 0, width as u64), full.clone()), &[&rec]);
        g.same((cards::read_line(&line), cards::write_line(&rec, width)), (Ok(rec.clone()), Ok(full)), &[&line]);
    }
    for (rec, room, number, column) in refused_records() {
        let got = g.met(calls::write_card(&rec, &vec![7; room]).0);
        g.same(got, parts(number, column, 0), &[&rec]);
        let got = g.met(calls::write_card_record(&rec, &vec![7; room + 1], 0).0);
        g.same(got, parts(number, column, 0), &[&rec]);
        g.same(cards::write_line(&rec, room), Err((number, column)), &[&rec]);
    }
    g.has_met(&[0, LENGTH, BARRED, TYPE, SEPARATOR, REQUIRED, FORM, RANGE, WIDE, SHORT]);
    g
}
