//! Inputs: a small generator of numbers, and lines, records, blocks and rooms, good and damaged.
mod cards;
mod cubes;
mod links;
mod rooms;
mod rows;

pub use cards::*;
pub use cubes::*;
pub use links::*;
pub use rooms::*;
pub use rows::*;

/// Numbers by splitmix64: the same seed gives the same run.
pub struct Rng(pub u64);

impl Rng {
    pub fn next(&mut self) -> u64 {
        self.0 = self.0.wrapping_add(0x9e3779b97f4a7c15);
        let mut z = self.0;
        z = (z ^ (z >> 30)).wrapping_mul(0xbf58476d1ce4e5b9);
        z = (z ^ (z >> 27)).wrapping_mul(0x94d049bb133111eb);
        z ^ (z >> 31)
    }
    pub fn below(&mut self, n: usize) -> usize {
        (self.next() % n as u64) as usize
    }
    pub fn between(&mut self, low: i64, high: i64) -> i64 {
        low + (self.next() % (high - low + 1) as u64) as i64
    }
    pub fn one_in(&mut self, n: usize) -> bool {
        self.below(n) == 0
    }
    pub fn pick<T: Copy>(&mut self, from: &[T]) -> T {
        from[self.below(from.len())]
    }
    pub fn bytes(&mut self, n: usize) -> Vec<u8> {
        (0..n).map(|_| self.next() as u8).collect()
    }
    /// A text byte, brackets now and then where they are wanted.
    pub fn letter(&mut self) -> u8 {
        self.pick(b"ABCXYZabcxyz0123456789 -._")
    }
}

/// Bytes that stand at the edge of a rule.
pub const EDGES: &[u8] = b" _-+.:/0159ATSamcdieq<>()[]EDZ\n\r\t\x00\x1f\x7f\x80\xff~!";

/// The bytes with others laid over them from a place on.
pub fn with(bytes: &[u8], at: usize, others: &[u8]) -> Vec<u8> {
    let mut all = bytes.to_vec();
    all[at..at + others.len()].copy_from_slice(others);
    all
}

/// A month of fewer than 31 days, and a day from 28 to 31, which it has or has not.
pub fn month_end(r: &mut Rng) -> (i64, i64) {
    (r.pick(&[2, 2, 4, 6, 9, 11]), r.between(28, 31))
}

/// One byte of a line changed; of an E line the check character often made right again, or the date moved to the end of a month.
pub fn damaged(r: &mut Rng, line: &[u8]) -> Vec<u8> {
    let mut l = line.to_vec();
    if l.is_empty() {
        return l;
    }
    if is_event(&l) && r.one_in(6) {
        return late(r, &l);
    }
    let end = if r.one_in(4) { l.len().min(20) } else { l.len() };
    let at = r.below(end);
    l[at] = if r.one_in(3) { r.next() as u8 } else { r.pick(EDGES) };
    if is_event(&l) && !r.one_in(4) {
        seal(&mut l);
    }
    l
}

/// A line cut or stretched.
pub fn resized(r: &mut Rng, line: &[u8]) -> Vec<u8> {
    let mut l = line.to_vec();
    let n = if r.one_in(2) { r.below(l.len() + 1) } else { l.len() + r.below(40) };
    l.resize(n, r.pick(b" x)"));
    l
}

/// A stretch of columns filled with one edge byte or with digits.
pub fn filled(r: &mut Rng, line: &[u8]) -> Vec<u8> {
    let mut l = line.to_vec();
    if l.is_empty() {
        return l;
    }
    let from = r.below(l.len());
    let to = (from + 1 + r.below(12)).min(l.len());
    let b = r.pick(EDGES);
    for x in &mut l[from..to] {
        *x = if b == b'5' { r.pick(b"0123456789") } else { b };
    }
    if is_event(&l) {
        seal(&mut l);
    }
    l
}

/// A blank put in or taken out, which moves the parts of a link.
pub fn spaced(r: &mut Rng, line: &[u8]) -> Vec<u8> {
    let mut l = line.to_vec();
    let blanks: Vec<usize> = (0..l.len()).filter(|&i| l[i] == b' ').collect();
    if r.one_in(2) || blanks.is_empty() {
        l.insert(r.below(l.len() + 1), b' ');
    } else {
        l.remove(blanks[r.below(blanks.len())]);
    }
    l
}

/// A number of a range, often one of its ends.
fn number_in(r: &mut Rng, (low, high): (i64, i64)) -> i64 {
    if r.one_in(4) {
        r.pick(&[low, high])
    } else {
        r.between(low, high)
    }
}

fn edge_number(r: &mut Rng, rec: &mut [u8], flags: usize, values: usize, n: usize) {
    let i = r.below(n);
    let v = match r.below(5) {
        0 => r.pick(&[
            0, -1, 1, 2, 12, 13, 28, 29, 30, 31, 32, 99, 100, -9, -10, 999, 1000, -99, -100, 9999, 10000, 18000, 18001, 3600, 3601, 59999,
            60000,
        ]),
        1 => 10i64.pow(r.below(11) as u32) - r.between(0, 1),
        2 => -(10i64.pow(r.below(11) as u32)) + r.between(0, 1),
        3 => r.pick(&[900000, 900001, -900000, -900001, 1800000, 1800001, -1800001, i64::MIN, i64::MAX]),
        _ => r.next() as i64,
    };
    rec[flags + i] = 1;
    rec[values + 8 * i..values + 8 + 8 * i].copy_from_slice(&v.to_be_bytes());
}

fn no_number(r: &mut Rng, rec: &mut [u8], flags: usize, values: usize, n: usize) {
    let i = r.below(n);
    rec[flags + i] = 0;
    rec[values + 8 * i..values + 8 + 8 * i].fill(0);
}
