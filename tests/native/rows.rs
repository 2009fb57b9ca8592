//! The calls that read a line of a file format into a record or write a record as such a line, held to the second implementation.
use crate::calls::{self, FileCalls};
use crate::compare::{place_for, record_of, written, Group};
use crate::formats;
use crate::make::{self, Rng};
use crate::row::Format;

/// A file format, the calls on it, and one of its shortest acceptable lines.
pub struct File {
    pub name: &'static str,
    pub format: Format,
    pub calls: FileCalls,
    pub shortest: &'static [u8],
}

pub static PHASES: File = File { name: "phase", format: formats::PHASE, calls: calls::PHASE, shortest: b"A" };
pub static ARRIVALS: File = File { name: "arrival", format: formats::ARRIVAL, calls: calls::ARRIVAL, shortest: b"          A" };

pub fn compare_read(g: &mut Group, file: &File, line: &[u8], out: &[u8]) {
    let wanted = written(record_of(file.format.read_line(line), file.format.record(), out.len()), out, 0, |n| n as u64);
    let got = file.calls.read(line, out);
    g.met(got.0);
    g.same(got, wanted, &[line]);
}

/// Writing, and reading back what is written.
pub fn compare_write(g: &mut Group, file: &File, rec: &[u8], out: &[u8]) {
    let (width, size) = (file.format.width, file.format.record());
    let wanted = written(file.format.write_line(rec, out.len()), out, 0, |n| n as u64);
    let got = file.calls.write(rec, out);
    g.met(got.0);
    if got.0 & 255 == 0 {
        let back = file.calls.read(&got.1[..width], &vec![0; size]);
        g.same((back.0 & 255, &back.1[..]), (0, &rec[..size]), &[rec]);
    }
    g.same(got, wanted, &[rec]);
}

pub fn lines_read(r: &mut Rng, file: &File, times: usize) -> Group {
    let mut g = Group::new(format!("{} lines read", file.name));
    for _ in 0..times {
        let line = make::any_row_line(r, &file.format);
        let out = place_for(r, file.format.record());
        compare_read(&mut g, file, &line, &out);
    }
    g
}

pub fn records_written(r: &mut Rng, file: &File, times: usize) -> Group {
    let mut g = Group::new(format!("{} records written", file.name));
    for _ in 0..times {
        let rec = make::row_record(r, &file.format);
        let out = place_for(r, file.format.width);
        compare_write(&mut g, file, &rec, &out);
    }
    g
}
