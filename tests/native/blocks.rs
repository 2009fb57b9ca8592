//! The calls on blocks of the file formats, held to the second implementation.
use crate::block::{self, Told};
use crate::compare::{parts, written, Group};
use crate::make::{self, Rng};
use crate::rows::File;

fn block_number(file: &File, b: &[u8]) -> u64 {
    match block::read(&file.format, b) {
        Ok((rows, comments, used)) => parts(0, rows, comments as u64 | (used as u64) << 16),
        Err((n, c, line)) => parts(n, c, line as u64),
    }
}

pub fn compare_block(g: &mut Group, file: &File, b: &[u8]) {
    let got = g.met(file.calls.read_block(b));
    g.same(got, block_number(file, b), &[b]);
}

pub fn blocks(r: &mut Rng, file: &File, times: usize) -> Group {
    let mut g = Group::new(format!("{} blocks read and walked", file.name));
    for _ in 0..times {
        let b = make::a_block(r, &file.format);
        compare_block(&mut g, file, &b);
        let mut before = 0;
        for _ in 0..12 {
            let got = compare_line(&mut g, file, &b, before);
            before = if r.one_in(6) { a_number(r, b.len()) } else { got };
        }
        compare_walk(&mut g, file, &b);
    }
    g
}

/// Blocks of one format handed to the other's calls; and to both, blocks with the header of one and rows of either.
pub fn other_blocks(r: &mut Rng, files: [&File; 2], times: usize) -> Group {
    let mut g = Group::new("blocks of the other format, and mixed ones");
    for i in 0..times {
        let (own, other) = (files[i % 2], files[1 - i % 2]);
        let b = make::a_block(r, &own.format);
        let mut mixed = block::header(&own.format);
        for _ in 0..1 + r.below(3) {
            mixed.push(b'\n');
            let from = if r.one_in(3) { own } else { other };
            mixed.extend(make::row_line(r, &from.format));
        }
        for (file, b) in [(other, &b), (own, &mixed), (other, &mixed)] {
            compare_block(&mut g, file, b);
            compare_line(&mut g, file, b, 0);
            compare_line(&mut g, file, b, a_number(r, b.len()));
            compare_walk(&mut g, file, b);
        }
    }
    g
}

/// One step of a walk from any number.
fn compare_line(g: &mut Group, file: &File, b: &[u8], before: u64) -> u64 {
    let field = |from: u32, bits: u32| (before >> from & ((1 << bits) - 1)) as usize;
    let told = Told { kind: before as u8, row: field(8, 16), end: field(24, 20), next: field(44, 20) };
    let after = block::line_after(&file.format, b, (before != 0).then_some(told));
    let wanted = parts(after.kind, after.row, after.end as u64 | (after.next as u64) << 20);
    let got = g.met(file.calls.block_line(b, before));
    g.same(got, wanted, &[&before.to_be_bytes(), b]);
    got
}

/// A number that perhaps no call answers: any bits, or parts of which each is about right.
fn a_number(r: &mut Rng, size: usize) -> u64 {
    if r.one_in(8) {
        return r.next();
    }
    let kind = if r.one_in(4) { r.next() as u8 } else { r.pick(&[0, 1, 14, 39, 40, 41, 42, 43, 44]) };
    let row = if r.one_in(3) { r.pick(&[65533, 65534, 65535]) } else { r.below(9) };
    let next = if r.one_in(6) { r.below(1 << 20) } else { r.below(size + 3) };
    parts(kind, row, r.below(size + 1) as u64 | (next as u64) << 20)
}

/// A walk of a whole block: where the block is read, it meets what was counted, in order, and ends where the bytes used end.
pub fn compare_walk(g: &mut Group, file: &File, b: &[u8]) {
    let Ok((rows, comments, used)) = block::read(&file.format, b) else { return };
    let (mut before, mut met) = (0, (0, 0));
    loop {
        let line = file.calls.block_line(b, before);
        let row = (line >> 8 & 0xffff) as usize;
        match line as u8 {
            41 => met.0 += 1,
            42 => met.1 += 1,
            40 => {}
            _ => break g.same((met, (if line == 0 { before } else { line }) >> 44), ((rows, comments), used as u64), &[b]),
        }
        if line as u8 != 40 {
            g.same(row, met.0, &[b]);
        }
        before = line;
    }
}

/// Blocks at the limit of 65,536 bytes: many lines, a long closing line, the last line cut, a long first line.
pub fn long_blocks(r: &mut Rng, file: &File) -> Group {
    let mut g = Group::new(format!("{} blocks near 65,536 bytes", file.name));
    for size in [65535, 65536, 65537, 70000] {
        let mut b = block::header(&file.format);
        b.push(b'\n');
        while b.len() + file.format.width + 1 < size {
            b.extend(make::row_line(r, &file.format));
            b.push(b'\n');
        }
        let mut blank = b.clone();
        blank.resize(size, b' ');
        compare_block(&mut g, file, &blank);
        compare_walk(&mut g, file, &blank);
        for _ in 0..40 {
            let before = a_number(r, size);
            compare_line(&mut g, file, &blank, before);
        }
        let mut short = block::header(&file.format);
        for i in 0.. {
            short.push(b'\n');
            if short.len() >= size {
                break;
            }
            short.extend(if i == 0 || r.one_in(2) { file.shortest } else { b" ()" });
        }
        short.truncate(size);
        compare_block(&mut g, file, &short);
        let last = short.iter().rposition(|&b| b == b'\n').unwrap() + 1;
        short[last..].fill(b' ');
        compare_block(&mut g, file, &short);
        compare_walk(&mut g, file, &short);
        let mut first = block::header(&file.format);
        first.resize(size, b' ');
        compare_block(&mut g, file, &first);
    }
    g
}

pub fn block_writing(r: &mut Rng, file: &File, times: usize) -> Group {
    let mut g = Group::new(format!("{} blocks written and read back", file.name));
    let format = &file.format;
    for _ in 0..times {
        let n = r.below(6);
        let start = r.below(50);
        let mut out = vec![r.next() as u8; start + (format.width + 1) * (n + 1) + r.below(30)];
        if r.one_in(4) {
            let place = if r.one_in(5) { usize::MAX - r.below(300) } else { r.below(out.len() + 20) };
            compare_header(&mut g, file, &out, place);
        }
        let got = compare_header(&mut g, file, &out, start);
        let mut at = (got.0 >> 24) as usize;
        out = got.1;
        let mut kept = Vec::new();
        for _ in 0..n {
            let rec = make::row_record(r, format);
            let place = if r.one_in(10) { out.len() - r.below(220).min(out.len()) + r.below(40) } else { at };
            let wanted = written(block::record_call(format, &rec, place, out.len()), &out, place, |k| (place + k) as u64);
            let got = file.calls.write_record(&rec, &out, place);
            g.met(got.0);
            g.same(&got, &wanted, &[&rec]);
            if got.0 & 255 == 0 && place == at {
                at = (got.0 >> 24) as usize;
                out = got.1;
                kept.push(rec[..format.record()].to_vec());
            }
        }
        read_back(&mut g, file, &out[start..at], &kept);
    }
    g
}

fn compare_header(g: &mut Group, file: &File, out: &[u8], place: usize) -> (u64, Vec<u8>) {
    let wanted = written(block::header_call(&file.format, place, out.len()), out, place, |k| (place + k) as u64);
    let got = file.calls.write_header(out, place);
    g.met(got.0);
    g.same(&got, &wanted, &[]);
    got
}

fn read_back(g: &mut Group, file: &File, b: &[u8], records: &[Vec<u8>]) {
    g.same(file.calls.read_block(b), parts(0, records.len(), (b.len() as u64) << 16), &[b]);
    for (line, rec) in b.chunks(file.format.width + 1).skip(1).zip(records) {
        let line = &line[..file.format.width];
        g.same(&file.calls.read(line, &vec![0; rec.len()]).1, rec, &[line]);
    }
}
