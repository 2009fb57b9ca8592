//! The quick look-up, held to the second implementation and to what is known without it: rooms in order, and refusals.
use crate::calls;
use crate::compare::{parts, Group};
use crate::make::{self, Rng};
use crate::number::{LENGTH, SHORT};
use crate::quick::{self, held_count, pair_at};
use crate::room::{Catalogue, Pair, COUNT, DISORDER, IS_HELD, NOT_HELD, OLD_ROOM, PAIRS, ROOM};
use std::collections::HashMap;

// ---- one call

/// The parts of what a quick look-up returns.
fn split(returned: u64) -> (u8, usize, usize) {
    (returned as u8, (returned >> 8 & 0xffff) as usize, (returned >> 24) as usize)
}

/// Without the number of entries examined: what the full look-up returns.
fn found(returned: u64) -> u64 {
    returned & !0xff_ff00
}

/// How many binary digits a count has: as many as there are powers of two up to it.
fn digits(count: usize) -> usize {
    (0..16).filter(|d| 1 << d <= count).count()
}

/// What every answer owes on any contents: at most as many entries examined as the count has binary digits, at least one where there is
/// one, none on a refusal; a place on 27 alone, and there the pair.
fn fits(room: &[u8], source: &[u8], identifier: &[u8], returned: u64) -> bool {
    let (answer, examined, place) = split(returned);
    if answer != IS_HELD && answer != NOT_HELD {
        return returned == answer as u64;
    }
    if room.len() < ROOM || held_count(room) > PAIRS {
        return false;
    }
    let count = held_count(room);
    let pair_is_there = || place < count && pair_at(room, place).iter().eq(source.iter().chain(identifier));
    let placed = if answer == IS_HELD { pair_is_there() } else { place == 0 };
    placed && (count.min(1)..=digits(count)).contains(&examined)
}

/// A call, one in 16 on copies between guards: what it returns, and whether that fits and nothing lent has changed.
pub fn ask(g: &mut Group, r: &mut Rng, room: &[u8], source: &[u8], identifier: &[u8]) -> (u64, bool) {
    let (returned, stays) = if r.one_in(16) {
        let (returned, after) = calls::quick_look_up_lent(room, source, identifier);
        (returned, after.iter().map(|a| &a[..]).eq([room, source, identifier]))
    } else {
        (calls::quick_look_up(room, source, identifier), true)
    };
    (g.met(returned), stays && fits(room, source, identifier, returned))
}

fn compare(g: &mut Group, r: &mut Rng, room: &[u8], source: &[u8], identifier: &[u8]) -> u64 {
    let wanted = quick::look_up(room, source, identifier).number();
    let got = ask(g, r, room, source, identifier);
    g.same(got, (wanted, true), &[source, identifier, &room[..room.len().min(COUNT)]]);
    got.0
}

pub fn compare_pair(g: &mut Group, r: &mut Rng, room: &[u8], p: &Pair) -> u64 {
    compare(g, r, room, &p[..2], &p[2..])
}

// ---- pairs to ask for

/// A pair as a number: pairs ascend as their numbers do.
fn rank(p: &Pair) -> u128 {
    p.iter().fold(0, |n, &b| n << 8 | b as u128)
}

fn of_rank(n: u128) -> Pair {
    n.to_be_bytes()[6..].try_into().unwrap()
}

/// The pair just below, the one just above, the one half way to another, and one with a byte or two changed.
fn around(r: &mut Rng, p: &Pair, other: &Pair) -> [Pair; 4] {
    let n = rank(p);
    [of_rank(n.wrapping_sub(1)), of_rank(n + 1), of_rank((n + rank(other)) / 2), make::near(r, p, make::NAME_BYTES)]
}

/// The pair of some entry of a room, or one near it.
pub fn some_pair(r: &mut Rng, room: &[u8]) -> Pair {
    let count = held_count(room).clamp(1, PAIRS);
    let [p, other] = [0; 2].map(|_| pair_at(room, r.below(count)));
    let around = around(r, &p, &other);
    if r.one_in(3) {
        r.pick(&around)
    } else {
        p
    }
}

// ---- rooms in order

/// For 1 to 8 held pairs: how many entries are examined to find each, and to miss a pair before the first, in each gap and after the last.
const BY_HAND: [(&[usize], &[usize]); 8] = [
    (&[1], &[1, 1]),
    (&[2, 1], &[2, 2, 1]),
    (&[2, 1, 2], &[2, 2, 2, 2]),
    (&[3, 2, 1, 2], &[3, 3, 2, 2, 2]),
    (&[3, 2, 1, 3, 2], &[3, 3, 2, 3, 3, 2]),
    (&[3, 2, 3, 1, 3, 2], &[3, 3, 3, 3, 3, 3, 2]),
    (&[3, 2, 3, 1, 3, 2, 3], &[3, 3, 3, 3, 3, 3, 3, 3]),
    (&[4, 3, 2, 3, 1, 3, 2, 3], &[4, 4, 3, 3, 3, 3, 3, 3, 3]),
];

/// A room that holds the pairs of odd numbers, the first `held` of them.
fn odd_room(r: &mut Rng, held: usize) -> Vec<u8> {
    let mut c = Catalogue::default();
    for n in 0..held {
        let p = numbered(2 * n + 1);
        c.held.insert(p, make::event_of(r, &p));
    }
    c.room()
}

fn numbered(n: usize) -> Pair {
    format!("CI{n:08}").as_bytes().try_into().unwrap()
}

/// Small rooms, the fullest one and the refusals, with what they must return.
pub fn quick_by_hand(r: &mut Rng) -> Group {
    let mut g = Group::new("quick look-ups worked out by hand");
    let mut cases = vec![(vec![0; ROOM], 2, 8, numbered(1), parts(NOT_HELD, 0, 0))];
    for (i, (held, missed)) in BY_HAND.into_iter().enumerate() {
        let room = odd_room(r, i + 1);
        for (n, &steps) in held.iter().enumerate() {
            cases.push((room.clone(), 2, 8, numbered(2 * n + 1), parts(IS_HELD, steps, n as u64)));
        }
        for (n, &steps) in missed.iter().enumerate() {
            cases.push((room.clone(), 2, 8, numbered(2 * n), parts(NOT_HELD, steps, 0)));
        }
    }
    let full = odd_room(r, PAIRS);
    for (place, steps) in [(0, 10), (1, 9), (255, 9), (256, 1), (257, 9), (384, 2), (511, 9)] {
        cases.push((full.clone(), 2, 8, numbered(2 * place + 1), parts(IS_HELD, steps, place as u64)));
    }
    let over = make::with(&full, 0, &[2, 1]);
    for (room, refused) in [(&full, LENGTH), (&over, DISORDER)] {
        cases.extend([(1, 8), (2, 7)].map(|(m, k)| (room.clone(), m, k, numbered(1), parts(refused, 0, 0))));
        cases.push((room[..ROOM - 1].to_vec(), 1, 7, numbered(1), parts(SHORT, 0, 0)));
    }
    cases.push((over, 2, 8, numbered(1), parts(DISORDER, 0, 0)));
    for (room, m, k, p, wanted) in cases {
        let got = ask(&mut g, r, &room, &p[..m], &p[2..2 + k]);
        g.same(got, (wanted, true), &[&p]);
    }
    g.has_met(&[SHORT, DISORDER, LENGTH, IS_HELD, NOT_HELD]);
    g
}

/// A room in order of every count, pair after pair held in no order.
pub fn quick_in_order(r: &mut Rng, times: usize) -> Group {
    let mut g = Group::new("quick look-ups in rooms in order");
    for _ in 0..times {
        let mut c = make::three_links();
        every_place(&mut g, r, &c);
        while c.held.len() < PAIRS {
            make::hold_another(r, &mut c);
            every_place(&mut g, r, &c);
        }
    }
    g.has_met(&[IS_HELD, NOT_HELD]);
    g
}

/// Each held pair and pairs around it, all four in a small room, one in a larger; the lowest and the highest pair. Of the held pairs, one
/// is found at the first entry examined, two at the second, four at the third and so on, the rest at the last.
fn every_place(g: &mut Group, r: &mut Rng, c: &Catalogue) {
    let room = c.room();
    let pairs: Vec<Pair> = c.held.keys().copied().collect();
    let place_of: HashMap<Pair, usize> = pairs.iter().enumerate().map(|(i, p)| (*p, i)).collect();
    let mut found_at = [0; 12];
    for (i, p) in pairs.iter().enumerate() {
        let (_, examined, _) = split(compare_known(g, r, &room, &place_of, p));
        found_at[examined.min(11)] += 1;
        let around = around(r, p, &pairs[(i + 1) % pairs.len()]);
        let asked = if pairs.len() <= 40 { 0..4 } else { (i % 4)..(i % 4 + 1) };
        for q in &around[asked] {
            compare_known(g, r, &room, &place_of, q);
        }
    }
    for p in [[0; 10], [255; 10]] {
        compare_known(g, r, &room, &place_of, &p);
    }
    let mut left = pairs.len();
    let wanted = std::array::from_fn(|steps| {
        let here = if steps == 0 { 0 } else { left.min(1 << (steps - 1)) };
        left -= here;
        here
    });
    g.same(found_at, wanted, &[]);
}

/// A look-up in a room in order, held besides to the places of its pairs and, in some calls, to the full look-up.
fn compare_known(g: &mut Group, r: &mut Rng, room: &[u8], place_of: &HashMap<Pair, usize>, p: &Pair) -> u64 {
    let (source, identifier) = p.split_at(2);
    let wanted = quick::look_up(room, source, identifier).number();
    let known = place_of.get(p).map_or(parts(NOT_HELD, 0, 0), |&place| parts(IS_HELD, 0, place as u64));
    let (got, fit) = ask(g, r, room, source, identifier);
    g.same((got, fit, found(got)), (wanted, true, known), &[p, &room[..COUNT]]);
    if r.one_in(1 + place_of.len() / 32) {
        let full = g.met(calls::look_up(room, source, identifier));
        g.same(found(got), full, &[p, &room[..COUNT]]);
    }
    got
}

// ---- refusals

/// Every count; and lengths of room, source and identifier around the right ones and far from them, in every choice.
pub fn quick_refused(r: &mut Rng) -> Group {
    let mut g = Group::new("quick look-ups refused");
    let mut room = r.bytes(ROOM + 0x1_0000);
    for count in 0..=u16::MAX {
        room[..COUNT].copy_from_slice(&count.to_be_bytes());
        let place = r.pick(&[count as usize / 2, 0, 100, 500]).min(PAIRS);
        compare_pair(&mut g, r, &room[..ROOM], &pair_at(&room, place));
    }
    let lengths = [0, 1, 2, 3, 82, OLD_ROOM, ROOM - 1, ROOM, ROOM + 1, 0xffff, 0x1_0000, 0x1_0001, ROOM + 0x1_0000];
    for count in [0, 1, 0x0102, 511, 512, 513, 0x0300, 0xff00, 0xffff] {
        room[..COUNT].copy_from_slice(&u16::to_be_bytes(count));
        for n in lengths {
            wrong_lengths(&mut g, r, &room[..n], &pair_at(&room, count as usize % 600 / 2));
        }
    }
    g.has_met(&[SHORT, DISORDER, LENGTH, IS_HELD, NOT_HELD]);
    g
}

/// Sources and identifiers of all lengths, that begin as those of this pair do.
fn wrong_lengths(g: &mut Group, r: &mut Rng, room: &[u8], p: &Pair) {
    let [source, identifier] = [&p[..2], &p[2..]].map(|name| [name, &[b' '; 0x1_0000]].concat());
    for m in (0..=4).chain([8, 10, 0x102, 0x1_0002]) {
        for k in (0..=10).chain([16, 0x108, 0x1_0008]) {
            compare(g, r, room, &source[..m], &identifier[..k]);
        }
    }
}
