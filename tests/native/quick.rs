//! The quick look-up, after document 02, "Look up without walking the catalogue".
use crate::compare::parts;
use crate::number::{LENGTH, SHORT};
use crate::room::{pair_of, Pair, COUNT, DISORDER, HELD, IS_HELD, NOT_HELD, PAIRS, ROOM};

/// The answer, the places examined, in turn, and the place of a pair that is held.
pub struct Outcome {
    pub answer: u8,
    pub examined: Vec<usize>,
    pub place: usize,
}

impl Outcome {
    pub fn number(&self) -> u64 {
        parts(self.answer, self.examined.len(), self.place as u64)
    }
}

pub fn held_count(room: &[u8]) -> usize {
    u16::from_be_bytes([room[0], room[1]]) as usize
}

/// The pair of the entry at a place, whatever its bytes are.
pub fn pair_at(room: &[u8], place: usize) -> Pair {
    pair_of(&room[COUNT + HELD * place..])
}

fn refusal(room: &[u8], source: &[u8], identifier: &[u8]) -> Option<u8> {
    if room.len() < ROOM {
        Some(SHORT)
    } else if held_count(room) > PAIRS {
        Some(DISORDER)
    } else if source.len() != 2 || identifier.len() != 8 {
        Some(LENGTH)
    } else {
        None
    }
}

pub fn look_up(room: &[u8], source: &[u8], identifier: &[u8]) -> Outcome {
    let mut examined = Vec::new();
    if let Some(answer) = refusal(room, source, identifier) {
        return Outcome { answer, examined, place: 0 };
    }
    let (mut first, mut after) = (0, held_count(room));
    while first < after {
        let place = (first + after) / 2;
        examined.push(place);
        let pair = pair_at(room, place);
        if pair[..2] == *source && pair[2..] == *identifier {
            return Outcome { answer: IS_HELD, examined, place };
        }
        if (&pair[..2], &pair[2..]) < (source, identifier) {
            first = place + 1;
        } else {
            after = place;
        }
    }
    Outcome { answer: NOT_HELD, examined, place: 0 }
}
