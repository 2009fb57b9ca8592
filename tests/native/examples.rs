//! Lines and blocks made from document 003's examples, held to the second implementation.
use crate::blocks::{compare_block, compare_walk};
use crate::compare::Group;
use crate::example::{marked_cells, marked_places, Example};
use crate::make::{with, Rng};
use crate::row::Field;
use crate::rows::{compare_read, File};

// ---- lines

struct Lines {
    g: Group,
    file: &'static File,
    out: Vec<u8>,
}

impl Lines {
    fn read(&mut self, line: &[u8]) {
        compare_read(&mut self.g, self.file, line, &self.out);
    }

    /// Bytes that have a meaning in some column, and barred ones, in each column; every length to 11 over the width, also with a barred last
    /// byte.
    fn damages(&mut self, line: &[u8]) {
        self.read(line);
        for at in 0..line.len() {
            for b in b" _069-+.:/ASe(\n\x1f\x7f" {
                self.read(&with(line, at, &[*b]));
            }
        }
        for n in 0..=line.len() + 11 {
            let mut l = line.to_vec();
            l.resize(n, b' ');
            self.read(&l);
            if let Some(last) = l.last_mut() {
                *last = 127;
                self.read(&l);
            }
        }
    }

    /// Every byte in every column; three bytes changed, so that the order of faults counts.
    fn bytes(&mut self, r: &mut Rng, line: &[u8]) {
        for at in 0..line.len() {
            for b in 0..=255 {
                self.read(&with(line, at, &[b]));
            }
        }
        for _ in 0..50_000 {
            let mut l = line.to_vec();
            for _ in 0..3 {
                l[r.below(line.len())] = r.pick(b" _069-+.:/ASe(");
            }
            self.read(&l);
        }
    }

    /// A decimal field of blanks and then, from each of its columns on, a first byte, others and a last one, the point where it belongs:
    /// blanks, the highest and the lowest numbers of each width, zero, minus zero, the number below it, bad signs, a blank at the end.
    fn forms(&mut self, line: &[u8], first: usize, last: usize, d: usize) {
        for [head, rest, tail] in [*b"   ", *b"999", *b"-99", *b"000", *b"-00", *b"-01", *b"--1", *b"+11", *b"11 "] {
            for from in first..=last {
                let mut l = line.to_vec();
                l[first - 1..from - 1].fill(b' ');
                l[from - 1..last].fill(rest);
                l[last - 1] = tail;
                l[last - d - 1] = b'.';
                l[from - 1] = head;
                self.read(&l);
            }
        }
    }

    /// The decimals about one, filled with zeros, also with a minus in the first column.
    fn about(&mut self, line: &[u8], first: usize, last: usize, d: usize, middle: i64) {
        for n in (middle - 2).max(0)..=middle + 2 {
            let mut cell = format!("{n:0>20}").into_bytes();
            cell.insert(20 - d, b'.');
            let l = with(line, first - 1, &cell[cell.len() - (last - first + 1)..]);
            self.read(&l);
            self.read(&with(&l, first - 1, b"-"));
        }
    }

    /// Dates or times, each also with two bytes changed in some places.
    fn marked(&mut self, line: &[u8], first: usize, mark: u8) {
        for cell in marked_cells(mark) {
            let l = with(line, first - 1, cell.as_bytes());
            self.read(&l);
            for at in marked_places(mark) {
                for a in b" -0234569:./A" {
                    for b in b" -0234569:./A" {
                        self.read(&with(&l, first - 1 + at, &[*a, *b]));
                    }
                }
            }
        }
    }
}

pub fn example_lines(r: &mut Rng, example: &Example) -> Group {
    let file = example.file;
    let g = Group::new(format!("document 003's {} lines, damaged", file.name));
    let mut all = Lines { g, file, out: vec![7; file.format.record()] };
    let lines = example.rows();
    assert!(lines.iter().all(|l| file.format.read_line(l).is_ok()));
    for line in &lines {
        all.damages(line);
    }
    for line in &lines[lines.len() - 2..] {
        all.bytes(r, line);
        for f in file.format.placed() {
            match f.field {
                Field::Dec(d, ..) => {
                    all.forms(line, f.first, f.last, d);
                    let (low, high) = f.ends(f.field.number().unwrap());
                    for (from, n) in [(f.first, -low), (f.first, high), (f.first - 1, high)] {
                        all.about(line, from, f.last, d, n);
                    }
                }
                Field::Marked(moment) => all.marked(line, f.first, moment.mark),
                _ => {}
            }
        }
    }
    all.g
}

// ---- blocks

/// The block with one line replaced.
fn replaced(example: &Example, line: usize, bytes: &[u8]) -> Vec<u8> {
    let mut b = Vec::new();
    for (i, l) in example.lines().into_iter().enumerate() {
        b.extend(if i == line { bytes } else { l });
        b.push(b'\n');
    }
    b
}

/// Comments of each length about 1,024: closed, closed before a blank, not closed, with a barred byte.
fn long_comments() -> Vec<Vec<u8>> {
    let ends: [&[u8; 2]; 5] = [b"x)", b") ", b"xx", b"\x7f)", b"\x7fx"];
    let comment = |n: usize, end: &[u8]| [b" (", &vec![b'x'; n - 4][..], end].concat();
    (1020..1030).flat_map(|n| ends.map(|end| comment(n, end))).collect()
}

/// One line in the place of each: short ones, blanks, the header with blanks behind it, a row of full width and with blanks behind it, long
/// comments.
fn lines_replaced(g: &mut Group, example: &Example) {
    let widened = |line: &[u8], n: usize| [line, &vec![b' '; n][..]].concat();
    let full = &example.full;
    let blanks = [full.len(), 1100].map(|n| vec![b' '; n]);
    let others = [widened(example.lines()[0], 11), full.clone(), widened(full, 1), widened(full, 11)];
    let lines = example.short.iter().map(|l| l.to_vec()).chain(blanks).chain(others).chain(long_comments());
    for bytes in lines {
        for line in 0..example.lines().len() {
            let b = replaced(example, line, &bytes);
            compare_block(g, example.file, &b);
            compare_walk(g, example.file, &b);
        }
    }
}

/// Blocks of each size about 65,536: the first bytes, and then a pattern again and again; after the header rows too.
fn large(g: &mut Group, example: &Example) {
    let (block, line) = (&example.block, example.file.format.width + 1);
    let patterns: [&[u8]; 5] = [b" ()\n", b" (a longer comment)\n", b"\ntext\x7f", b" ", b"x"];
    let places = [line - 1, line, 2 * line, 2 * line + 2].into_iter().flat_map(|first| patterns.map(|p| (first, p)));
    for (first, pattern) in places.chain([(line, &block[line..2 * line])]) {
        let all: Vec<u8> = block[..first].iter().chain(pattern.iter().cycle()).take(65545).copied().collect();
        for n in 65530..65545 {
            compare_block(g, example.file, &all[..n]);
        }
    }
}

pub fn example_blocks(example: &Example) -> Group {
    let (file, block) = (example.file, &example.block);
    let mut g = Group::new(format!("document 003's {} block, damaged", file.name));
    compare_block(&mut g, file, block);
    compare_walk(&mut g, file, block);
    for at in 0..block.len() {
        for b in b" \n()A9\r\x1f" {
            compare_block(&mut g, file, &with(block, at, &[*b]));
        }
    }
    for n in 0..=block.len() {
        compare_block(&mut g, file, &block[..n]);
    }
    lines_replaced(&mut g, example);
    large(&mut g, example);
    g
}
