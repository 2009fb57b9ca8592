//! The calls that read a CUBE line into a record or write a record as a CUBE line, held to the second implementation.
use crate::compare::{place_for, record_of, written, Group};
use crate::make::Rng;
use crate::rooms::compare_take;
use crate::rows::{compare_read, ARRIVALS, PHASES};
use crate::{calls, cube, link, make, room};

pub fn compare_cube(g: &mut Group, line: &[u8], out: &[u8]) {
    let wanted = written(record_of(cube::read_line(line), cube::RECORD, out.len()), out, 0, |n| n as u64);
    let got = calls::read_line(line, out);
    g.met(got.0);
    g.same(got, wanted, &[line]);
}

pub fn cube_lines(r: &mut Rng, times: usize) -> Group {
    let mut g = Group::new("CUBE lines read");
    for _ in 0..times {
        let line = make::cube_line(r, 30);
        let out = place_for(r, cube::RECORD);
        compare_cube(&mut g, &line, &out);
    }
    g
}

/// Every byte of a good line of each kind set to every value; each read by every reader.
pub fn each_damage(r: &mut Rng) -> Group {
    let mut g = Group::new("every single-byte damage");
    let out = vec![7; 300];
    let cube_lines = [make::event(r, 9), make::delete(r, 9, false), make::link(r, 9), make::link(r, 9)];
    let rows = [&PHASES, &ARRIVALS].map(|file| make::full_line(r, &file.format));
    for line in cube_lines.into_iter().chain(rows) {
        for at in 0..line.len() {
            for b in 0..=255 {
                let mut l = line.clone();
                l[at] = b;
                compare_cube(&mut g, &l, &out);
                if l.len() == cube::EVENT_LINE && at < l.len() - 1 {
                    make::seal(&mut l);
                    compare_cube(&mut g, &l, &out);
                }
                compare_read(&mut g, &PHASES, &l, &out);
                compare_read(&mut g, &ARRIVALS, &l, &out);
            }
        }
    }
    g
}

pub fn cube_records(r: &mut Rng, times: usize) -> Group {
    let mut g = Group::new("CUBE records written");
    for _ in 0..times {
        let rec = make::cube_record(r);
        let out = line_place(r, &rec);
        compare_writing(&mut g, &rec, &out);
    }
    g
}

/// A place for a record's line: for any line, or just for this one.
fn line_place(r: &mut Rng, rec: &[u8]) -> Vec<u8> {
    let size = match rec.first() {
        Some(&link::KIND) if rec.len() >= cube::RECORD && r.one_in(2) => link::line_length(rec),
        Some(&link::KIND) => link::LONGEST,
        _ => cube::EVENT_LINE,
    };
    place_for(r, size)
}

pub fn compare_writing(g: &mut Group, rec: &[u8], out: &[u8]) {
    let wanted = written(cube::write_line(rec, out.len()), out, 0, |n| n as u64);
    let got = calls::write_line(rec, out);
    g.met(got.0);
    if got.0 & 255 == 0 {
        let line = &got.1[..(got.0 >> 24) as usize];
        let back = calls::read_line(line, &[0; cube::RECORD]);
        g.same((back.0 & 255, &back.1[..]), (0, &rec[..cube::RECORD]), &[rec]);
    }
    g.same(got, wanted, &[rec]);
}

/// Links at the edges of each rule: lengths, types, blanks, brackets; each as a line read, a record written and a line taken.
pub fn link_edges(r: &mut Rng) -> Group {
    let mut g = Group::new("links at the edges");
    let mut room = vec![0; room::ROOM];
    for line in make::edge_links() {
        compare_cube(&mut g, &line, &place_for(r, cube::RECORD));
        compare_cube(&mut g, &line, &[9; cube::RECORD]);
        compare_take(&mut g, &mut room, &line);
    }
    for rec in make::edge_link_records() {
        for size in [link::line_length(&rec) - 1, link::line_length(&rec), link::LONGEST + 1, 0] {
            compare_writing(&mut g, &rec, &vec![3; size]);
        }
    }
    g
}
