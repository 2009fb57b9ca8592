//! Runs of cards with the answers worked out by hand from documents 01 and 02: what the library says of them, and what the second
//! implementation says.
use crate::block::OUT_OF_PLACE;
use crate::calls;
use crate::card_runs::compare_cards_walk;
use crate::cards::{self, COUNTS};
use crate::compare::{parts, Group};
use crate::number::*;

/// In the runs below `@` is this card and `|` a newline. Those that are refused have number, column and line, the others their counts.
const CARD: &[u8] = b"I 1992 05 08 12 34 56.789";
const REFUSED: [(&str, u8, usize, usize); 30] = [
    ("|", LENGTH, 0, 1),
    ("@||", LENGTH, 0, 2),
    ("@||R", LENGTH, 0, 2),
    (" |", TYPE, 1, 1),
    ("@| ", TYPE, 1, 2),
    ("@| (x)|", TYPE, 1, 2),
    ("@|R|C|R", TYPE, 1, 3),
    ("G", TYPE, 1, 1),
    ("R", OUT_OF_PLACE, 0, 1),
    ("R|@", OUT_OF_PLACE, 0, 1),
    ("L|@", OUT_OF_PLACE, 0, 1),
    ("E", OUT_OF_PLACE, 0, 1),
    ("M", OUT_OF_PLACE, 0, 1),
    ("P", OUT_OF_PLACE, 0, 1),
    ("A", OUT_OF_PLACE, 0, 1),
    ("Rx", OUT_OF_PLACE, 0, 1),
    ("L 99.999", OUT_OF_PLACE, 0, 1),
    ("R\t", BARRED, 2, 1),
    ("Mx                 ", LENGTH, 0, 1),
    ("Mx               \t", BARRED, 18, 1),
    ("Mx                \t", LENGTH, 0, 1),
    ("@|Rx", SEPARATOR, 2, 2),
    ("@|L  99.999", RANGE, 3, 2),
    ("@|L 99.9990", FORM, 3, 2),
    ("@\r|R", BARRED, 26, 1),
    ("@|R\r|", BARRED, 2, 2),
    ("I|R", REQUIRED, 3, 1),
    ("@|R|I|R", REQUIRED, 3, 3),
    ("@|R|P|@|L|Mx|Rx", SEPARATOR, 2, 6),
    ("@x|R", SEPARATOR, 26, 1),
];
const COUNTED: [(&str, [usize; 7]); 10] = [
    ("", [0; 7]),
    ("@", [1, 0, 0, 0, 0, 0, 0]),
    ("@|", [1, 0, 0, 0, 0, 0, 0]),
    ("@|@|@|", [3, 0, 0, 0, 0, 0, 0]),
    ("@|R", [1, 0, 0, 0, 0, 0, 1]),
    ("@|R|A|P|M|E|L", [1, 1, 1, 1, 1, 1, 1]),
    ("@|L|L|E|E|E|M|M|M|M|", [1, 2, 3, 4, 0, 0, 0]),
    ("@|P|P|P|P|P|@|A|A|A|A|A|A|R (x)", [2, 0, 0, 0, 5, 6, 1]),
    ("@|P|L|P|@|R|L|@|@|R |", [4, 2, 0, 0, 2, 0, 2]),
    ("@     |R  ", [1, 0, 0, 0, 0, 0, 1]),
];

/// Runs and what a walk tells of each of their lines: the letter, the event, where the line ends and where the next one starts; last the
/// number that ends the walk.
const WALKS: [(&str, &[(u8, usize, u64, u64)], u8); 8] = [
    ("", &[], 0),
    ("|", &[], LENGTH),
    (" |@", &[], TYPE),
    ("@", &[(b'I', 1, 25, 25)], 0),
    ("@|", &[(b'I', 1, 25, 26)], 0),
    ("@|R|L|@|P", &[(b'I', 1, 25, 26), (b'R', 1, 27, 28), (b'L', 1, 29, 30), (b'I', 2, 55, 56), (b'P', 2, 57, 57)], 0),
    ("R|@||M", &[(b'R', 0, 1, 2), (b'I', 1, 27, 28)], LENGTH),
    ("Ix|E\t|A|C", &[(b'I', 1, 2, 3), (b'E', 1, 5, 6), (b'A', 1, 7, 8)], TYPE),
];

/// The bytes of such a run.
pub fn run(text: &str) -> Vec<u8> {
    let bytes = text.bytes().flat_map(|b| match b {
        b'@' => CARD.to_vec(),
        b'|' => b"\n".to_vec(),
        b => vec![b],
    });
    bytes.collect()
}

pub fn known_runs() -> Group {
    let mut g = Group::new("runs of cards known by hand");
    for (text, number, column, line) in REFUSED {
        let run = run(text);
        let got = calls::read_cards(&run, &[7; COUNTS]);
        g.met(got.0);
        g.same(got, (parts(number, column, line as u64), vec![7; COUNTS]), &[&run]);
        g.same(cards::read_run(&run, COUNTS), Err((number, column, line)), &[&run]);
    }
    for (text, counts) in COUNTED {
        let run = run(text);
        let mut bytes: Vec<u8> = counts.iter().flat_map(|&n| [0, n as u8]).collect();
        bytes.push(7);
        let got = calls::read_cards(&run, &[7; COUNTS + 1]);
        g.met(got.0);
        g.same(got, (parts(0, counts[0], 14), bytes), &[&run]);
        g.same(cards::read_run(&run, COUNTS), Ok(counts), &[&run]);
    }
    for (text, lines, end) in WALKS {
        let run = run(text);
        let mut before = 0;
        for &(letter, event, end, next) in lines {
            before = g.met(calls::card_line(&run, before));
            g.same(before, parts(letter, event, end | next << 20), &[&run]);
        }
        let last = g.met(calls::card_line(&run, before));
        g.same(last, parts(end, 0, 0), &[&run]);
        compare_cards_walk(&mut g, &run);
    }
    g.has_met(&[0, LENGTH, BARRED, TYPE, SEPARATOR, REQUIRED, FORM, RANGE, OUT_OF_PLACE]);
    g
}
