//! The catalogue, after document 01, "The catalogue", and document 02, "Take the links": maps of held lines and deletions by pair, and of
//! links by triple.
use crate::cube;
use crate::link;
use crate::number::*;
use std::collections::{BTreeMap, BTreeSet};

/// A count, and an entry of each section.
pub const COUNT: usize = 2;
pub const HELD: usize = cube::EVENT_LINE;
pub const DELETION: usize = 11;
pub const LINK: usize = 1 + link::LONGEST;
/// The most pairs, and the most triples.
pub const PAIRS: usize = 512;
pub const LINKS: usize = 64;
/// A room as it was before links, and a room.
pub const OLD_ROOM: usize = 46_596;
pub const ROOM: usize = 62_982;

pub const FULL: u8 = 12;
pub const DISORDER: u8 = 13;
pub const LINKS_FULL: u8 = 16;
pub const STORED: u8 = 20;
const REPLACED: u8 = 21;
pub const REPEATED: u8 = 22;
const OUTDATED: u8 = 23;
pub const REMOVED: u8 = 24;
const NOTED: u8 = 25;
const NOTHING_HELD: u8 = 26;
pub const IS_HELD: u8 = 27;
pub const NOT_HELD: u8 = 28;

/// Source, then identifier.
pub type Pair = [u8; 10];
/// Pair and type. A type that another begins with comes before it, as vectors compare.
pub type Triple = (Pair, Vec<u8>);

#[derive(Clone, Default, PartialEq)]
pub struct Catalogue {
    pub held: BTreeMap<Pair, Vec<u8>>,
    pub deleted: BTreeMap<Pair, u8>,
    pub links: BTreeMap<Triple, Vec<u8>>,
}

pub fn pair_of(line: &[u8]) -> Pair {
    let mut p = [0; 10];
    p[..2].copy_from_slice(&line[10..12]);
    p[2..].copy_from_slice(&line[2..10]);
    p
}

/// Of an acceptable link.
pub fn triple_of(line: &[u8]) -> Triple {
    (pair_of(line), link::parts(line).expect("an acceptable link")[0].to_vec())
}

fn version(link: &[u8]) -> &[u8] {
    &link[12..14]
}

/// The bytes of a room from its start on, as far as they were read.
struct Walk<'a> {
    rest: &'a [u8],
}

impl<'a> Walk<'a> {
    fn bytes(&mut self, n: usize) -> Option<&'a [u8]> {
        let (bytes, rest) = self.rest.split_at_checked(n)?;
        self.rest = rest;
        Some(bytes)
    }

    /// A section of entries of one size, each with the key that it is told by; ascending, or none.
    fn section<K: Ord>(&mut self, size: usize, key: impl Fn(&'a [u8]) -> Option<K>) -> Option<Vec<(K, &'a [u8])>> {
        let n = self.bytes(COUNT)?;
        let mut entries: Vec<(K, &[u8])> = Vec::new();
        for _ in 0..u16::from_be_bytes([n[0], n[1]]) {
            let entry = self.bytes(size)?;
            let k = key(entry)?;
            if entries.last().is_some_and(|(last, _)| *last >= k) {
                return None;
            }
            entries.push((k, entry));
        }
        Some(entries)
    }
}

fn held_key(line: &[u8]) -> Option<Pair> {
    (line.starts_with(b"E ") && cube::read_line(line).is_ok()).then(|| pair_of(line))
}

fn deletion_key(entry: &[u8]) -> Option<Pair> {
    let allowed = entry.iter().all(|&b| is_text(b) && b != b'[' && b != b']');
    allowed.then(|| entry[..10].try_into().unwrap())
}

/// The line of a link's entry: as long as the first byte says, zeros after it.
fn link_line(entry: &[u8]) -> Option<&[u8]> {
    let (line, rest) = entry[1..].split_at(entry[0] as usize);
    rest.iter().all(|&b| b == 0).then_some(line)
}

fn link_key(entry: &[u8]) -> Option<Triple> {
    let line = link_line(entry)?;
    (line.starts_with(b"LI") && cube::read_line(line).is_ok()).then(|| triple_of(line))
}

fn count(n: usize) -> [u8; COUNT] {
    (n as u16).to_be_bytes()
}

impl Catalogue {
    pub fn pairs(&self) -> usize {
        self.held.keys().chain(self.deleted.keys()).collect::<BTreeSet<_>>().len()
    }

    fn is_new(&self, p: &Pair) -> bool {
        !self.held.contains_key(p) && !self.deleted.contains_key(p)
    }

    pub fn room(&self) -> Vec<u8> {
        let mut r = Vec::with_capacity(ROOM);
        r.extend(count(self.held.len()));
        for line in self.held.values() {
            r.extend_from_slice(line);
        }
        r.extend(count(self.deleted.len()));
        for (p, v) in &self.deleted {
            r.extend_from_slice(p);
            r.push(*v);
        }
        r.extend(count(self.links.len()));
        for line in self.links.values() {
            let end = r.len() + LINK;
            r.push(line.len() as u8);
            r.extend_from_slice(line);
            r.resize(end, 0);
        }
        r.resize(ROOM, 0);
        r
    }

    /// The catalogue that a room lays out, if it is in order.
    pub fn of(room: &[u8]) -> Option<Catalogue> {
        let mut walk = Walk { rest: &room[..ROOM] };
        let held = walk.section(HELD, held_key)?;
        let deleted = walk.section(DELETION, deletion_key)?;
        let links = walk.section(LINK, link_key)?;
        if links.len() > LINKS || walk.rest.iter().fold(0, |all, b| all | b) != 0 {
            return None;
        }
        let c = Catalogue {
            held: held.into_iter().map(|(p, line)| (p, line.to_vec())).collect(),
            deleted: deleted.into_iter().map(|(p, e)| (p, e[10])).collect(),
            links: links.into_iter().map(|(t, e)| (t, link_line(e).unwrap().to_vec())).collect(),
        };
        let above = c.held.iter().all(|(p, line)| c.deleted.get(p).is_none_or(|&d| line[12] > d));
        (above && c.pairs() <= PAIRS).then_some(c)
    }

    /// The answer of documents 01 and 02; the catalogue as it is afterwards.
    pub fn take(&mut self, line: &[u8]) -> Refusal {
        if let Err(refusal) = cube::read_line(line) {
            return refusal;
        }
        let answer = match &line[..2] {
            b"LI" => self.take_link(line),
            b"DE" if line[12] == b' ' => self.take_blank(line),
            b"DE" => self.take_delete(line),
            _ => self.take_event(line),
        };
        (answer, 0)
    }

    fn take_blank(&mut self, line: &[u8]) -> u8 {
        let p = pair_of(line);
        match self.held.remove(&p) {
            None => NOTHING_HELD,
            Some(h) => {
                self.deleted.insert(p, h[12]);
                REMOVED
            }
        }
    }

    /// The answers that E and DE share: a new pair too many, and a deletion at or above the version.
    fn passed_over(&self, p: &Pair, v: u8) -> Option<u8> {
        if self.is_new(p) && self.pairs() >= PAIRS {
            return Some(FULL);
        }
        self.deleted.get(p).is_some_and(|&d| d >= v).then_some(OUTDATED)
    }

    fn take_delete(&mut self, line: &[u8]) -> u8 {
        let (p, v) = (pair_of(line), line[12]);
        if let Some(answer) = self.passed_over(&p, v) {
            return answer;
        }
        self.deleted.insert(p, v);
        if self.held.get(&p).is_some_and(|h| h[12] <= v) {
            self.held.remove(&p);
            return REMOVED;
        }
        NOTED
    }

    fn take_event(&mut self, line: &[u8]) -> u8 {
        let (p, v) = (pair_of(line), line[12]);
        if let Some(answer) = self.passed_over(&p, v) {
            return answer;
        }
        let answer = match self.held.get(&p) {
            None => STORED,
            Some(h) if h[12] > v => return OUTDATED,
            Some(h) if h == line => return REPEATED,
            Some(_) => REPLACED,
        };
        self.held.insert(p, line.to_vec());
        answer
    }

    fn take_link(&mut self, line: &[u8]) -> u8 {
        let t = triple_of(line);
        let answer = match self.links.get(&t) {
            None if self.links.len() >= LINKS => return LINKS_FULL,
            None => STORED,
            Some(l) if version(l) > version(line) => return OUTDATED,
            Some(l) if l == line => return REPEATED,
            Some(_) => REPLACED,
        };
        self.links.insert(t, line.to_vec());
        answer
    }

    /// The catalogue of a set of lines, for demand 3: no blank deletes, no two E lines or links of one version.
    pub fn from_set(lines: &BTreeSet<Vec<u8>>) -> Catalogue {
        let mut c = Catalogue::default();
        for line in lines.iter().filter(|l| cube::read_line(l).is_ok()) {
            let (p, v) = (pair_of(line), line[12]);
            match &line[..2] {
                b"LI" => {
                    let l = c.links.entry(triple_of(line)).or_insert_with(|| line.clone());
                    if version(l) < version(line) {
                        l.clone_from(line);
                    }
                }
                b"DE" => {
                    let d = c.deleted.entry(p).or_insert(v);
                    *d = (*d).max(v);
                }
                _ if c.held.get(&p).is_none_or(|h| h[12] < v) => {
                    c.held.insert(p, line.clone());
                }
                _ => {}
            }
        }
        let deleted = c.deleted.clone();
        c.held.retain(|p, h| deleted.get(p).is_none_or(|&d| h[12] > d));
        c
    }
}

pub fn take(room: &mut [u8], line: &[u8]) -> Refusal {
    if room.len() < ROOM {
        return (SHORT, 0);
    }
    let Some(mut c) = Catalogue::of(room) else {
        return (DISORDER, 0);
    };
    let answer = c.take(line);
    room[..ROOM].copy_from_slice(&c.room());
    answer
}

pub fn in_order(room: &[u8]) -> u8 {
    if room.len() < ROOM {
        SHORT
    } else if Catalogue::of(room).is_none() {
        DISORDER
    } else {
        0
    }
}

/// Answer and place.
pub fn look_up(room: &[u8], source: &[u8], identifier: &[u8]) -> (u8, usize) {
    match in_order(room) {
        0 => {}
        n => return (n, 0),
    }
    if source.len() != 2 || identifier.len() != 8 {
        return (LENGTH, 0);
    }
    let p: Pair = [source, identifier].concat().try_into().unwrap();
    match Catalogue::of(room).unwrap().held.keys().position(|k| *k == p) {
        Some(place) => (IS_HELD, place),
        None => (NOT_HELD, 0),
    }
}
