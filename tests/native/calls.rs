//! The library's calls. Every buffer that is lent for writing stands between guard bytes, which must stay.

mod raw {
    extern "C" {
        pub fn rotmibel_read_line(line: *const u8, n: usize, out: *mut u8, m: usize) -> u64;
        pub fn rotmibel_write_line(from: *const u8, n: usize, out: *mut u8, m: usize) -> u64;
        pub fn rotmibel_take(room: *mut u8, n: usize, line: *const u8, m: usize) -> u64;
        pub fn rotmibel_look_up(room: *const u8, n: usize, s: *const u8, m: usize, i: *const u8, k: usize) -> u64;
        pub fn rotmibel_quick_look_up(room: *const u8, n: usize, s: *const u8, m: usize, i: *const u8, k: usize) -> u64;
        pub fn rotmibel_in_order(room: *const u8, n: usize) -> u64;
        pub fn rotmibel_read_phase(line: *const u8, n: usize, out: *mut u8, m: usize) -> u64;
        pub fn rotmibel_write_phase(from: *const u8, n: usize, out: *mut u8, m: usize) -> u64;
        pub fn rotmibel_read_block(block: *const u8, n: usize) -> u64;
        pub fn rotmibel_block_line(block: *const u8, n: usize, before: u64) -> u64;
        pub fn rotmibel_write_header(out: *mut u8, n: usize, at: usize) -> u64;
        pub fn rotmibel_write_record(from: *const u8, n: usize, out: *mut u8, m: usize, at: usize) -> u64;
        pub fn rotmibel_read_arrival(line: *const u8, n: usize, out: *mut u8, m: usize) -> u64;
        pub fn rotmibel_write_arrival(from: *const u8, n: usize, out: *mut u8, m: usize) -> u64;
        pub fn rotmibel_read_arrival_block(block: *const u8, n: usize) -> u64;
        pub fn rotmibel_arrival_block_line(block: *const u8, n: usize, before: u64) -> u64;
        pub fn rotmibel_write_arrival_header(out: *mut u8, n: usize, at: usize) -> u64;
        pub fn rotmibel_write_arrival_record(from: *const u8, n: usize, out: *mut u8, m: usize, at: usize) -> u64;
        pub fn rotmibel_read_card(line: *const u8, n: usize, out: *mut u8, m: usize) -> u64;
        pub fn rotmibel_write_card(from: *const u8, n: usize, out: *mut u8, m: usize) -> u64;
        pub fn rotmibel_write_card_record(from: *const u8, n: usize, out: *mut u8, m: usize, at: usize) -> u64;
        pub fn rotmibel_read_cards(run: *const u8, n: usize, counts: *mut u8, m: usize) -> u64;
        pub fn rotmibel_card_line(run: *const u8, n: usize, before: u64) -> u64;
    }
}

const GUARD: usize = 24;
const GUARD_BYTE: u8 = 0xa5;

/// Lends a copy of `bytes` between guards; what they hold afterwards.
fn lent(bytes: &[u8], call: impl FnOnce(*mut u8, usize) -> u64) -> (u64, Vec<u8>) {
    let mut all = vec![GUARD_BYTE; bytes.len() + 2 * GUARD];
    all[GUARD..GUARD + bytes.len()].copy_from_slice(bytes);
    let r = call(unsafe { all.as_mut_ptr().add(GUARD) }, bytes.len());
    let guards = all[..GUARD].iter().chain(&all[GUARD + bytes.len()..]);
    assert!(guards.clone().all(|&b| b == GUARD_BYTE), "a byte outside the lent buffer has changed");
    (r, all[GUARD..GUARD + bytes.len()].to_vec())
}

pub fn read_line(line: &[u8], out: &[u8]) -> (u64, Vec<u8>) {
    lent(out, |p, n| unsafe { raw::rotmibel_read_line(line.as_ptr(), line.len(), p, n) })
}
pub fn write_line(from: &[u8], out: &[u8]) -> (u64, Vec<u8>) {
    lent(out, |p, n| unsafe { raw::rotmibel_write_line(from.as_ptr(), from.len(), p, n) })
}
pub fn take(room: &[u8], line: &[u8]) -> (u64, Vec<u8>) {
    lent(room, |p, n| unsafe { raw::rotmibel_take(p, n, line.as_ptr(), line.len()) })
}
/// The same on the caller's own room, for long runs of calls.
pub fn take_into(room: &mut [u8], line: &[u8]) -> u64 {
    unsafe { raw::rotmibel_take(room.as_mut_ptr(), room.len(), line.as_ptr(), line.len()) }
}
pub fn look_up(room: &[u8], source: &[u8], identifier: &[u8]) -> u64 {
    let (s, i) = (source, identifier);
    unsafe { raw::rotmibel_look_up(room.as_ptr(), room.len(), s.as_ptr(), s.len(), i.as_ptr(), i.len()) }
}
pub fn quick_look_up(room: &[u8], source: &[u8], identifier: &[u8]) -> u64 {
    let (s, i) = (source, identifier);
    unsafe { raw::rotmibel_quick_look_up(room.as_ptr(), room.len(), s.as_ptr(), s.len(), i.as_ptr(), i.len()) }
}
/// The same on copies of all three, each between guards; what they hold afterwards.
pub fn quick_look_up_lent(room: &[u8], source: &[u8], identifier: &[u8]) -> (u64, [Vec<u8>; 3]) {
    let (mut source_after, mut identifier_after) = (Vec::new(), Vec::new());
    let (returned, room_after) = lent(room, |p, n| {
        let (returned, after) = lent(source, |s, m| {
            let (returned, after) = lent(identifier, |i, k| unsafe { raw::rotmibel_quick_look_up(p, n, s, m, i, k) });
            identifier_after = after;
            returned
        });
        source_after = after;
        returned
    });
    (returned, [room_after, source_after, identifier_after])
}
pub fn in_order(room: &[u8]) -> u64 {
    unsafe { raw::rotmibel_in_order(room.as_ptr(), room.len()) }
}

/// The six calls on a file format.
pub struct FileCalls {
    read: unsafe extern "C" fn(*const u8, usize, *mut u8, usize) -> u64,
    write: unsafe extern "C" fn(*const u8, usize, *mut u8, usize) -> u64,
    read_block: unsafe extern "C" fn(*const u8, usize) -> u64,
    block_line: unsafe extern "C" fn(*const u8, usize, u64) -> u64,
    write_header: unsafe extern "C" fn(*mut u8, usize, usize) -> u64,
    write_record: unsafe extern "C" fn(*const u8, usize, *mut u8, usize, usize) -> u64,
}

pub const PHASE: FileCalls = FileCalls {
    read: raw::rotmibel_read_phase,
    write: raw::rotmibel_write_phase,
    read_block: raw::rotmibel_read_block,
    block_line: raw::rotmibel_block_line,
    write_header: raw::rotmibel_write_header,
    write_record: raw::rotmibel_write_record,
};

pub const ARRIVAL: FileCalls = FileCalls {
    read: raw::rotmibel_read_arrival,
    write: raw::rotmibel_write_arrival,
    read_block: raw::rotmibel_read_arrival_block,
    block_line: raw::rotmibel_arrival_block_line,
    write_header: raw::rotmibel_write_arrival_header,
    write_record: raw::rotmibel_write_arrival_record,
};

impl FileCalls {
    pub fn read(&self, line: &[u8], out: &[u8]) -> (u64, Vec<u8>) {
        lent(out, |p, n| unsafe { (self.read)(line.as_ptr(), line.len(), p, n) })
    }
    pub fn write(&self, from: &[u8], out: &[u8]) -> (u64, Vec<u8>) {
        lent(out, |p, n| unsafe { (self.write)(from.as_ptr(), from.len(), p, n) })
    }
    pub fn read_block(&self, block: &[u8]) -> u64 {
        unsafe { (self.read_block)(block.as_ptr(), block.len()) }
    }
    pub fn block_line(&self, block: &[u8], before: u64) -> u64 {
        unsafe { (self.block_line)(block.as_ptr(), block.len(), before) }
    }
    pub fn write_header(&self, out: &[u8], at: usize) -> (u64, Vec<u8>) {
        lent(out, |p, n| unsafe { (self.write_header)(p, n, at) })
    }
    pub fn write_record(&self, from: &[u8], out: &[u8], at: usize) -> (u64, Vec<u8>) {
        lent(out, |p, n| unsafe { (self.write_record)(from.as_ptr(), from.len(), p, n, at) })
    }
    /// Each call with a null pointer and length 0 for everything that it is lent, in the order above.
    pub fn nulls(&self) -> [u64; 6] {
        let (p, m) = (std::ptr::null(), std::ptr::null_mut());
        unsafe {
            [
                (self.read)(p, 0, m, 0),
                (self.write)(p, 0, m, 0),
                (self.read_block)(p, 0),
                (self.block_line)(p, 0, 0),
                (self.write_header)(m, 0, 0),
                (self.write_record)(p, 0, m, 0, 0),
            ]
        }
    }
}

pub fn read_card(line: &[u8], out: &[u8]) -> (u64, Vec<u8>) {
    lent(out, |p, n| unsafe { raw::rotmibel_read_card(line.as_ptr(), line.len(), p, n) })
}
pub fn write_card(from: &[u8], out: &[u8]) -> (u64, Vec<u8>) {
    lent(out, |p, n| unsafe { raw::rotmibel_write_card(from.as_ptr(), from.len(), p, n) })
}
pub fn write_card_record(from: &[u8], out: &[u8], at: usize) -> (u64, Vec<u8>) {
    lent(out, |p, n| unsafe { raw::rotmibel_write_card_record(from.as_ptr(), from.len(), p, n, at) })
}
pub fn read_cards(run: &[u8], counts: &[u8]) -> (u64, Vec<u8>) {
    lent(counts, |p, n| unsafe { raw::rotmibel_read_cards(run.as_ptr(), run.len(), p, n) })
}
pub fn card_line(run: &[u8], before: u64) -> u64 {
    unsafe { raw::rotmibel_card_line(run.as_ptr(), run.len(), before) }
}

/// The calls on cards with a null pointer and length 0 for everything that they are lent, in the order above.
pub fn card_nulls() -> [u64; 5] {
    let (p, m) = (std::ptr::null(), std::ptr::null_mut());
    unsafe {
        [
            raw::rotmibel_read_card(p, 0, m, 0),
            raw::rotmibel_write_card(p, 0, m, 0),
            raw::rotmibel_write_card_record(p, 0, m, 0, 0),
            raw::rotmibel_read_cards(p, 0, m, 0),
            raw::rotmibel_card_line(p, 0, 0),
        ]
    }
}

/// A null pointer and length 0 for the line, the record or the run alone, beside a place that is large enough; the four calls that write.
pub fn card_null_inputs() -> [(u64, Vec<u8>); 4] {
    let p = std::ptr::null();
    let place = [7; 82];
    [
        lent(&place, |out, n| unsafe { raw::rotmibel_read_card(p, 0, out, n) }),
        lent(&place, |out, n| unsafe { raw::rotmibel_write_card(p, 0, out, n) }),
        lent(&place, |out, n| unsafe { raw::rotmibel_write_card_record(p, 0, out, n, 0) }),
        lent(&place, |out, n| unsafe { raw::rotmibel_read_cards(p, 0, out, n) }),
    ]
}

/// Reading and taking a line and both look-ups, with a null pointer and length 0 for everything that they are lent.
pub fn nulls() -> [u64; 4] {
    let (p, m) = (std::ptr::null(), std::ptr::null_mut());
    unsafe {
        [
            raw::rotmibel_read_line(p, 0, m, 0),
            raw::rotmibel_take(m, 0, p, 0),
            raw::rotmibel_look_up(p, 0, p, 0, p, 0),
            raw::rotmibel_quick_look_up(p, 0, p, 0, p, 0),
        ]
    }
}

/// The quick look-up in a room, with a null pointer and length 0 for source and identifier.
pub fn quick_null_pair(room: &[u8]) -> u64 {
    let p = std::ptr::null();
    unsafe { raw::rotmibel_quick_look_up(room.as_ptr(), room.len(), p, 0, p, 0) }
}
