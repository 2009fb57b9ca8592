//! The calls on a catalogue, held to the second implementation.
use crate::compare::{parts, Group};
use crate::make::Rng;
use crate::{calls, link, make, number, room};
use std::collections::BTreeSet;

pub fn compare_take(g: &mut Group, room: &mut Vec<u8>, line: &[u8]) {
    let mut after = room.clone();
    let (n, c) = room::take(&mut after, line);
    let got = calls::take(room, line);
    g.met(got.0);
    g.same(got, (parts(n, c, 0), after.clone()), &[line]);
    *room = after;
}

pub fn taking(r: &mut Rng, times: usize) -> Group {
    let mut g = Group::new("lines taken");
    for _ in 0..times / 100 {
        let pairs = r.pick(&[2, 6, 30, 200]);
        let mut room = vec![0; room::ROOM + r.pick(&[0, 0, 5])];
        room[room::ROOM..].fill(5);
        let mut past: Vec<Vec<u8>> = Vec::new();
        for _ in 0..100 {
            let line = match r.below(12) {
                0 | 1 if !past.is_empty() => past[r.below(past.len())].clone(),
                2 if !past.is_empty() => {
                    let i = r.below(past.len());
                    make::resized(r, &past[i])
                }
                _ => make::cube_line(r, pairs),
            };
            compare_take(&mut g, &mut room, &line);
            past.push(line);
        }
    }
    g
}

pub fn near_full(r: &mut Rng, times: usize) -> Group {
    let mut g = Group::new("lines taken near 512 pairs and 64 triples");
    let mut room = make::a_room(r, 5000, 511);
    for _ in 0..times {
        let line = make::notice(r, 530);
        compare_take(&mut g, &mut room, &line);
    }
    g
}

/// Links alone, around 64 triples: into rooms with no pair named, with some, and with 512 held and deleted.
pub fn many_links(r: &mut Rng, times: usize) -> Group {
    let mut g = Group::new("links taken near 64 triples");
    for pairs in [0, 40, room::PAIRS] {
        let mut room = make::full(pairs).room();
        for i in 0..times / 3 {
            let n = if i < 70 { 69 - i } else { r.below(70) };
            let line = match r.below(12) {
                0 if i > 70 => make::event(r, 600),
                1 if i > 70 => make::delete(r, 600, true),
                2 if i > 70 => make::link(r, 9),
                _ => make::numbered_link(n, &[r.pick(b" 012"), r.pick(b"0129")]),
            };
            compare_take(&mut g, &mut room, &line);
        }
        g.has_met(&[room::LINKS_FULL]);
    }
    g
}

/// Where the sections of a room begin, at their counts, and how many entries they have, if the room is in order.
pub struct Places {
    pub held: usize,
    pub deletions: usize,
    pub deleted: usize,
    pub links_at: usize,
    pub links: usize,
    pub end: usize,
}

pub fn places(room: &[u8]) -> Places {
    let count = |at: usize| u16::from_be_bytes([room[at], room[at + 1]]) as usize;
    let held = count(0);
    let deletions = room::COUNT + room::HELD * held;
    let deleted = count(deletions);
    let links_at = deletions + room::COUNT + room::DELETION * deleted;
    let links = count(links_at);
    Places { held, deletions, deleted, links_at, links, end: links_at + room::COUNT + room::LINK * links }
}

/// Rooms with one clause of "in order" broken, or a byte changed.
pub fn damaged_rooms(r: &mut Rng, times: usize) -> Group {
    let mut g = Group::new("rooms in order and not");
    for _ in 0..times {
        let lines = r.pick(&[0, 3, 12, 60]);
        let mut room = make::a_room(r, lines, 12);
        damage_room(r, &mut room);
        g.same(calls::in_order(&room), room::in_order(&room) as u64, &[&room[..room.len().min(400)]]);
        let line = make::notice(r, 12);
        compare_take(&mut g, &mut room.clone(), &line);
        let (source, id) = (&line[10..12 - r.below(20) / 19], &line[2..10 - r.below(20) / 19]);
        let (n, place) = room::look_up(&room, source, id);
        let got = g.met(calls::look_up(&room, source, id));
        g.same(got, parts(n, 0, place as u64), &[source, id]);
    }
    g
}

fn damage_room(r: &mut Rng, room: &mut Vec<u8>) {
    let p = places(room);
    let (held, deletions, links) = (room::COUNT, p.deletions + room::COUNT, p.links_at + room::COUNT);
    match r.below(13) {
        0 => {}
        1 => room[r.below(room::COUNT)] = r.next() as u8,
        2 => room[p.deletions + r.below(room::COUNT)] = r.next() as u8,
        3 if p.held > 1 => room[held..held + 2 * room::HELD].rotate_left(room::HELD),
        4 if p.held > 0 => {
            let i = held + room::HELD * r.below(p.held);
            let line = make::damaged(r, &room[i..i + room::HELD]);
            room[i..i + room::HELD].copy_from_slice(&line);
        }
        5 if p.deleted > 0 => room[deletions + r.below(room::DELETION * p.deleted)] = r.pick(make::EDGES),
        6 if p.deleted > 1 => room[deletions..deletions + 2 * room::DELETION].rotate_left(room::DELETION),
        7 => room[p.end + r.below(room::ROOM - p.end)] = 1,
        8 => room[p.links_at + r.below(room::COUNT)] = r.pick(&[0, 1, 2, p.links as u8 + 1, 64, 65, 255]),
        9..=11 if p.links > 0 => damage_links(r, &mut room[links..p.end]),
        _ => room.truncate(room::ROOM - r.below(3)),
    }
}

/// One entry of a section of links damaged: its length, a byte of its line, a byte after it; or two entries exchanged or the same.
fn damage_links(r: &mut Rng, section: &mut [u8]) {
    let n = section.len() / room::LINK;
    let at = room::LINK * r.below(n);
    let entry = &mut section[at..at + room::LINK];
    let size = entry[0] as usize;
    match r.below(8) {
        0 => entry[0] = (size as i64 + r.pick(&[-1, 1, -10, 30])) as u8,
        1 => entry[0] = r.pick(&[0, 1, 19, 20, 80, 254, 255]),
        2 | 3 => {
            let line = make::damaged(r, &entry[1..1 + size]);
            entry[1..1 + size].copy_from_slice(&line);
        }
        4 if size < link::LONGEST => entry[1 + size + r.below(link::LONGEST - size)] = r.pick(b" \x01x"),
        5 => entry[1..3].copy_from_slice(b"DE"),
        6 => entry[r.pick(&[3, 12, 13, 14, 15, 16])] = r.pick(b"[] x\x1f"), // columns 3 to 16
        _ if n > 1 => {
            let (a, b) = section.split_at_mut(room::LINK);
            if r.one_in(2) {
                a.swap_with_slice(&mut b[..room::LINK]);
            } else {
                b[..room::LINK].copy_from_slice(a);
            }
        }
        _ => entry.fill(0),
    }
}

/// Rooms of the size that they had before links: too short as they are; filled with zeros, the same catalogue.
pub fn old_rooms(r: &mut Rng, times: usize) -> Group {
    let mut g = Group::new("old rooms filled with zeros");
    for _ in 0..times {
        let mut c = if r.one_in(20) { make::full(room::PAIRS) } else { room::Catalogue::default() };
        for _ in 0..r.below(20) {
            c.take(&make::event(r, 12));
            c.take(&make::delete(r, 12, true));
        }
        let mut room = c.room();
        room.truncate(room::OLD_ROOM);
        let line = make::notice(r, 12);
        compare_take(&mut g, &mut room.clone(), &line);
        let got = g.met(calls::in_order(&room));
        g.same(got, number::SHORT as u64, &[]);
        room.resize(room::ROOM, 0);
        let got = g.met(calls::in_order(&room));
        g.same((got, &room), (0, &c.room()), &[&room[..400]]);
        for _ in 0..4 {
            let line = make::notice(r, 12);
            compare_take(&mut g, &mut room, &line);
        }
    }
    g
}

/// Rooms that break a rule between the sections, or nearly do.
pub fn broken_rooms(r: &mut Rng, times: usize) -> Group {
    let mut g = Group::new("versions and pairs across the sections");
    for _ in 0..times {
        let mut room = make::broken_room(r);
        let got = g.met(calls::in_order(&room));
        g.same(got, room::in_order(&room) as u64, &[&room[..400]]);
        let line = make::event(r, 530);
        compare_take(&mut g, &mut room, &line);
    }
    g
}

/// A settled set of lines, as demand 3 has it: no delete of a blank version, no two E lines of one pair and version, no two links of one
/// triple and version, at most 512 pairs and 64 triples.
fn settled(r: &mut Rng, count: usize, pairs: usize) -> BTreeSet<Vec<u8>> {
    let mut set = BTreeSet::new();
    let mut taken = BTreeSet::new();
    let mut triples = BTreeSet::new();
    for _ in 0..count {
        let line = make::notice(r, pairs);
        let told_by = match &line[..2] {
            b"DE" if line[12] == b' ' => continue,
            b"DE" => line.clone(),
            b"LI" => {
                let triple = room::triple_of(&line);
                triples.insert(triple.clone());
                if triples.len() > room::LINKS {
                    triples.remove(&triple);
                    continue;
                }
                [b"LI", &line[2..14], &triple.1].concat()
            }
            _ => line[..13].to_vec(),
        };
        if taken.insert(told_by) {
            set.insert(line);
        }
    }
    set
}

/// Two desks: the same settled lines in two orders, with repeats and refused lines among them.
pub fn two_desks(r: &mut Rng, times: usize) -> Group {
    let mut g = Group::new("two desks against the set");
    for _ in 0..times {
        let most = r.pick(&[60, 60, 60, 60, 500]);
        let count = r.below(most);
        let pairs = r.pick(&[3, 20, 100]);
        let set = settled(r, count, pairs);
        let wanted = room::Catalogue::from_set(&set).room();
        for _ in 0..2 {
            let lines = shuffled(r, &set);
            let mut room = vec![0; room::ROOM];
            for line in &lines {
                g.met(calls::take_into(&mut room, line));
                g.calls += 1;
            }
            g.same(&room, &wanted, &[&lines.concat()]);
        }
    }
    g
}

/// The lines of a set in any order, with repeats and refused lines among them.
fn shuffled(r: &mut Rng, set: &BTreeSet<Vec<u8>>) -> Vec<Vec<u8>> {
    let mut lines: Vec<Vec<u8>> = set.iter().cloned().collect();
    for line in set {
        if r.one_in(3) {
            lines.push(line.clone());
        }
        if r.one_in(5) {
            lines.push(make::damaged(r, &line[..1]));
        }
        if r.one_in(5) && line.starts_with(b"LI") {
            lines.push([line, &b"\t"[..]].concat());
        }
        if r.one_in(5) && make::is_event(line) {
            lines.push(make::dated(line, r.pick(&["0230", "0431", "1131"])));
        }
    }
    for i in (1..lines.len()).rev() {
        lines.swap(i, r.below(i + 1));
    }
    lines
}
