//! Rooms, in order and at the edges of it.
use super::*;
use crate::room::{self, Catalogue, Pair};

/// A room that took `lines` lines about `pairs` pairs.
pub fn a_room(r: &mut Rng, lines: usize, pairs: usize) -> Vec<u8> {
    let mut c = Catalogue::default();
    for _ in 0..lines {
        c.take(&notice(r, pairs));
    }
    c.room()
}

/// A room that breaks one rule between its entries, or stands at its edge: a held line at or below its deletion, 512 or 513 pairs, 64 or 65
/// links.
pub fn broken_room(r: &mut Rng) -> Vec<u8> {
    match r.below(3) {
        0 => held_and_deleted(r),
        1 => pairs_around_the_most(r).room(),
        _ => links_around_the_most(r),
    }
}

fn held_and_deleted(r: &mut Rng) -> Vec<u8> {
    let mut c = Catalogue::default();
    for _ in 0..1 + r.below(30) {
        c.take(&event(r, 40));
    }
    let keys: Vec<_> = c.held.iter().map(|(p, l)| (*p, l[12])).collect();
    let (p, v) = keys[r.below(keys.len())];
    c.deleted.insert(p, (v as i16 + r.between(-1, 1) as i16).clamp(32, 126) as u8);
    c.room()
}

fn pairs_around_the_most(r: &mut Rng) -> Catalogue {
    let mut c = Catalogue::default();
    let held = r.below(room::PAIRS);
    while c.held.len() < held {
        c.take(&event(r, 520));
    }
    let more = room::PAIRS + r.below(2) - c.held.len();
    for i in 0..more {
        let mut p = *b"ZZ00000000";
        p[6..].copy_from_slice(format!("{i:04}").as_bytes());
        c.deleted.insert(p, b'1');
    }
    c
}

/// 63 to 65 links, in half of the rooms beside as many held lines and deletions as there can be.
fn links_around_the_most(r: &mut Rng) -> Vec<u8> {
    let mut c = if r.one_in(2) { full(room::PAIRS) } else { Catalogue::default() };
    let most = if c.held.is_empty() { room::LINKS + 1 } else { room::LINKS };
    for n in 0..most - r.below(2) {
        let line = numbered_link(n, b"01");
        c.links.insert(room::triple_of(&line), line);
    }
    c.room()
}

/// So many pairs, each held and, below that, deleted.
pub fn full(pairs: usize) -> Catalogue {
    let mut r = Rng(7);
    let mut c = Catalogue::default();
    for n in 0..pairs {
        let mut line = event(&mut r, 1);
        put_name(&mut line, n);
        line[12] = b'9';
        seal(&mut line);
        c.deleted.insert(room::pair_of(&line), b'1');
        c.held.insert(room::pair_of(&line), line);
    }
    c
}

/// Bytes that a name may have, the lowest, the highest and those beside the brackets among them.
pub const NAME_BYTES: &[u8] = b" !09AZ\\^az}~";

/// Gives a line or an entry this pair; the inverse of `room::pair_of`.
pub fn put_pair(line: &mut [u8], p: &Pair) {
    line[10..12].copy_from_slice(&p[..2]);
    line[2..10].copy_from_slice(&p[2..]);
}

/// A pair that differs from this one in at most two bytes, which are then among `bytes`.
pub fn near(r: &mut Rng, p: &Pair, bytes: &[u8]) -> Pair {
    let mut near = *p;
    for _ in 0..1 + r.below(2) {
        near[r.below(p.len())] = r.pick(bytes);
    }
    near
}

/// An acceptable E line of version 9.
pub fn event_of(r: &mut Rng, p: &Pair) -> Vec<u8> {
    let mut line = event(r, 1);
    put_pair(&mut line, p);
    line[12] = b'9';
    seal(&mut line);
    line
}

/// Holds one pair more, near one that is held; half of them are deleted too, below that.
pub fn hold_another(r: &mut Rng, c: &mut Catalogue) {
    let held = c.held.len();
    while c.held.len() == held {
        let from = c.held.keys().nth(r.below(held + 1)).copied();
        let p = near(r, &from.unwrap_or(*b"CI00000000"), NAME_BYTES);
        c.held.insert(p, event_of(r, &p));
        if r.one_in(2) {
            c.deleted.insert(p, b'1');
        }
    }
}

/// Three links, no pair named.
pub fn three_links() -> Catalogue {
    let mut c = Catalogue::default();
    for n in 0..3 {
        let line = numbered_link(n, b"01");
        c.links.insert(room::triple_of(&line), line);
    }
    c
}
