//! The quick look-up in rooms out of order, held to the second implementation: damaged rooms, random ones, and rooms that agree in no more
//! than it may read.
use crate::calls;
use crate::compare::{parts, Group};
use crate::look_ups::{ask, compare_pair, some_pair};
use crate::make::{self, Rng};
use crate::quick::{self, pair_at};
use crate::room::{Catalogue, Pair, COUNT, DISORDER, HELD, IS_HELD, NOT_HELD, PAIRS, ROOM};
use crate::rooms::places;

// ---- damaged rooms

/// Rooms with one clause of "in order" broken: the full look-up refuses them, the quick one goes by its rule.
pub fn quick_in_damaged_rooms(r: &mut Rng, times: usize) -> Group {
    let mut g = Group::new("quick look-ups in damaged rooms");
    let sizes = [2, 3, 8, 31, 200, PAIRS - 1, PAIRS];
    for held in sizes {
        let mut c = make::three_links();
        for _ in 0..held {
            make::hold_another(r, &mut c);
        }
        c.deleted.insert(*c.held.keys().next().unwrap(), b'1');
        let room = c.room();
        for i in 0..times / 20 / sizes.len() {
            let mut damaged = room.clone();
            damage(r, i, &mut damaged);
            let p = some_pair(r, &damaged);
            let full = g.met(calls::look_up(&damaged, &p[..2], &p[2..]));
            g.same(full, parts(DISORDER, 0, 0), &[&p]);
            for _ in 0..20 {
                let p = if r.one_in(2) { some_pair(r, &room) } else { some_pair(r, &damaged) };
                compare_pair(&mut g, r, &damaged, &p);
            }
        }
    }
    g.has_met(&[DISORDER, IS_HELD, NOT_HELD]);
    g
}

/// The n-th kind of damage to a room in order that has two held pairs, a deletion and a link at least.
fn damage(r: &mut Rng, n: usize, room: &mut [u8]) {
    let p = places(room);
    let i = r.below(p.held - 1);
    let j = i + 1 + r.below(p.held - 1 - i);
    let [a, b] = [i, j].map(|place| COUNT + HELD * place);
    let mut put_count = |at: usize, n: usize| room[at..at + COUNT].copy_from_slice(&(n as u16).to_be_bytes());
    match n % 12 {
        0 => put_count(0, if r.one_in(2) || p.held == PAIRS { p.held - 1 } else { p.held + 1 }),
        1 => put_count(p.deletions, r.pick(&[0, p.deleted - 1, p.deleted + 1, 0xff00, 0xffff])),
        2 => put_count(p.links_at, r.pick(&[0, p.links - 1, p.links + 1, 65, 0xffff])),
        3 => room[p.end + r.below(ROOM - p.end)] = 1,
        4 => room[a + HELD - 1] ^= 1,
        5 => room[a..a + 2].copy_from_slice(&r.pick(&[*b"DE", *b"E0", *b"e ", [0; 2], [255; 2]])),
        6 => room[a..b + HELD].rotate_left(HELD),
        7 => room.copy_within(a..a + HELD, b),
        8 => room.copy_within(b..b + HELD, a),
        9 => room[r.pick(&[a, b]) + 2 + r.below(10)] = r.pick(b"[]\x00\x1f\x7f\x80\xff"),
        10 => room[a..b].chunks_mut(HELD).for_each(|entry| entry[2 + r.below(10)] = 128 | r.next() as u8),
        _ => {
            let pairs = [j, i].map(|place| pair_at(room, place));
            for (at, p) in [a, b].into_iter().zip(pairs) {
                make::put_pair(&mut room[at..], &p);
                make::seal(&mut room[at..at + HELD]);
            }
        }
    }
}

// ---- random rooms

/// A room of random bytes with this count. In three of four the entries have few pairs, so that many are equal: ascending, or in no order.
fn random_room(r: &mut Rng, count: usize) -> Vec<u8> {
    let mut room = r.bytes(ROOM);
    room[..COUNT].copy_from_slice(&(count as u16).to_be_bytes());
    let bytes = r.pick(&[&b"AB"[..], b"\x00\x01\x7e\x7f\x80\x81\xfe\xff", b" 0~"]);
    let base = pair_at(&room, 0);
    let few: Vec<Pair> = (0..r.pick(&[1, 2, 3, 5, 20, 300])).map(|_| make::near(r, &base, bytes)).collect();
    let mut pairs: Vec<Pair> = (0..count).map(|_| r.pick(&few)).collect();
    match r.below(4) {
        0 => return room,
        1 => pairs.sort(),
        _ => {}
    }
    for (entry, p) in room[COUNT..].chunks_mut(HELD).zip(&pairs) {
        make::put_pair(entry, p);
    }
    room
}

/// A count up to 512, half of them small.
fn some_count(r: &mut Rng) -> usize {
    let most = r.pick(&[17, PAIRS]);
    r.below(most + 1)
}

/// The pair of the entry in the middle, which is found at once, and pairs of other entries and near them.
pub fn quick_in_random_rooms(r: &mut Rng, times: usize) -> Group {
    let mut g = Group::new("quick look-ups in random rooms");
    for _ in 0..times / 100 {
        let count = some_count(r);
        let room = random_room(r, count);
        compare_pair(&mut g, r, &room, &pair_at(&room, count / 2));
        for _ in 1..100 {
            let p = some_pair(r, &room);
            compare_pair(&mut g, r, &room, &p);
        }
    }
    g.has_met(&[IS_HELD, NOT_HELD]);
    g
}

// ---- what is read

/// What a look-up goes by, in random rooms and in rooms in order of one pair more each time.
pub fn quick_reads(r: &mut Rng, times: usize) -> Group {
    let mut g = Group::new("quick look-ups by the count and the entries examined alone");
    let bytes = r.bytes(3 * ROOM);
    let mut c = Catalogue::default();
    for _ in 0..times / 80 {
        let count = some_count(r);
        for room in [random_room(r, count), c.room()] {
            for _ in 0..10 {
                one_answer(&mut g, r, &bytes, &room);
            }
        }
        if c.held.len() == PAIRS {
            c = Catalogue::default();
        }
        make::hold_another(r, &mut c);
    }
    g.has_met(&[IS_HELD, NOT_HELD]);
    g
}

/// One answer in rooms that agree in the count and in the names of the entries examined, whatever else they hold and however long they are.
/// With a byte of those names changed, the answer of the second implementation.
fn one_answer(g: &mut Group, r: &mut Rng, bytes: &[u8], room: &[u8]) {
    let p = some_pair(r, room);
    let (source, identifier) = p.split_at(2);
    let examined = quick::look_up(room, source, identifier).examined;
    let wanted = (compare_pair(g, r, room, &p), true);
    let mut other = all_else_changed(r, bytes, room, &p, &examined);
    let longer = [room, &bytes[..1 + r.below(5000)]].concat();
    for agreeing in [&other, &longer] {
        let got = ask(g, r, agreeing, source, identifier);
        g.same(got, wanted, &[&p, &room[..COUNT]]);
    }
    if !examined.is_empty() {
        other[COUNT + HELD * r.pick(&examined) + 2 + r.below(10)] ^= 1 << r.below(8);
        compare_pair(g, r, &other, &p);
    }
}

/// A room of other bytes with the same count and the same pairs at these places; the other entries have random pairs, or all have the pair
/// asked for, the lowest or the highest one.
fn all_else_changed(r: &mut Rng, bytes: &[u8], room: &[u8], p: &Pair, examined: &[usize]) -> Vec<u8> {
    let from = r.below(ROOM);
    let mut other = bytes[from..from + ROOM + r.pick(&[0, 0, 1, 80, 9000])].to_vec();
    if let Some(name) = r.pick(&[None, Some(*p), Some([0; 10]), Some([255; 10])]) {
        other[COUNT..].chunks_exact_mut(HELD).for_each(|entry| make::put_pair(entry, &name));
    }
    other[..COUNT].copy_from_slice(&room[..COUNT]);
    for &place in examined {
        make::put_pair(&mut other[COUNT + HELD * place..], &pair_at(room, place));
    }
    other
}
