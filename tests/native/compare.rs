//! What the groups of comparisons share: counting, what a call answers and leaves in what it was lent, places to write to.
use crate::make::Rng;
use crate::number::{Refusal, SHORT};

/// One group of comparisons: how many calls were made, how many differed, and how many got each answer.
pub struct Group {
    pub name: String,
    pub calls: u64,
    pub differ: u64,
    pub answers: [u64; 256],
}

impl Group {
    pub fn new(name: impl Into<String>) -> Group {
        Group { name: name.into(), calls: 0, differ: 0, answers: [0; 256] }
    }

    /// Counts a call's answer, the lowest part of what it returned.
    pub fn met(&mut self, returned: u64) -> u64 {
        self.answers[(returned & 255) as usize] += 1;
        returned
    }

    /// That each of these answers was met.
    pub fn has_met(&mut self, answers: &[u8]) {
        for &a in answers {
            self.same((a, self.answers[a as usize] > 0), (a, true), &[]);
        }
    }

    /// Compares what a call gave with what the second implementation says; on a difference prints the input.
    pub fn same<T: PartialEq + std::fmt::Debug>(&mut self, got: T, wanted: T, input: &[&[u8]]) {
        self.calls += 1;
        if got != wanted {
            self.differ += 1;
            if self.differ <= 3 {
                println!("differs in {}: got {:.200} wanted {:.200}", self.name, format!("{got:?}"), format!("{wanted:?}"));
                for bytes in input {
                    println!("  input {} bytes: {}", bytes.len(), bytes.escape_ascii());
                }
            }
        }
    }
}

pub fn parts(answer: u8, column: usize, rest: u64) -> u64 {
    answer as u64 | (column as u64) << 8 | rest << 24
}

/// What a call that writes answers, and the lent bytes afterwards: `at` is where it writes, `said` what it tells when it is done.
pub fn written(a: Result<Vec<u8>, Refusal>, out: &[u8], at: usize, said: impl Fn(usize) -> u64) -> (u64, Vec<u8>) {
    match a {
        Err((n, c)) => (parts(n, c, 0), out.to_vec()),
        Ok(bytes) => {
            let mut after = out.to_vec();
            after[at..at + bytes.len()].copy_from_slice(&bytes);
            (parts(0, 0, said(bytes.len())), after)
        }
    }
}

/// Reading into a record: 11 first where the place is short.
pub fn record_of(a: Result<Vec<u8>, Refusal>, size: usize, room: usize) -> Result<Vec<u8>, Refusal> {
    if room < size {
        Err((SHORT, 0))
    } else {
        a
    }
}

pub fn place_for(r: &mut Rng, size: usize) -> Vec<u8> {
    let n = match r.below(12) {
        0 => r.below(size),
        1 => size - 1,
        2 => size + 1 + r.below(30),
        _ => size,
    };
    vec![r.next() as u8; n]
}
