//! Bytes as they are lent to a program that is compared, to be read and to be written.

use std::hint::black_box;

use crate::pieces::*;
use crate::random::Random;

/// A data set as it is lent: at any alignment, with other bytes in front of it and behind it, so that whoever
/// reads past its end finds something to go on with and answers wrongly.
#[derive(Clone)]
pub struct Lent {
    room: Bytes,
    from: usize,
    size: usize,
    /// What the room holds, once more; nothing for a data set that is too long to hold twice.
    copy: Bytes,
}

impl Lent {
    /// The data set with some of `behind` behind it; `at` decides how it is aligned.
    pub fn among(data: &[u8], behind: &[u8], at: usize) -> Lent {
        let from = at % 8;
        let mut room = vec![0xEE; from];
        room.extend(data);
        room.extend(&behind[..behind.len().min(16)]);
        Lent { copy: room.clone(), room, from, size: data.len() }
    }

    /// A data set that was `whole` before it was damaged. Behind one that was cut stands what was cut off.
    pub fn damaged(data: &[u8], whole: &[u8], random: &mut Random) -> Lent {
        let behind = match whole.strip_prefix(data) {
            Some(rest @ [_, ..]) => rest.to_vec(),
            _ => behind(random),
        };
        Lent::among(data, &behind, random.below(8))
    }

    /// The data set alone, however long.
    pub fn whole(data: Bytes) -> Lent {
        Lent { size: data.len(), room: data, from: 0, copy: Bytes::new() }
    }

    pub fn data(&self) -> &[u8] {
        &self.room[self.from..self.from + self.size]
    }

    pub fn behind(&self) -> &[u8] {
        &self.room[self.from + self.size..]
    }

    /// The data set and what stands behind it.
    pub fn data_and_behind(&self) -> &[u8] {
        &self.room[self.from..]
    }

    pub fn is_untouched(&self) -> bool {
        self.copy.is_empty() || *black_box(&self.room) == self.copy
    }
}

/// Bytes that may be written, at any alignment, with others in front of them and behind them that may not.
pub struct Room {
    bytes: Bytes,
    front: usize,
    beside: u8,
}

impl Room {
    /// Room that holds these bytes; `at` decides how it is aligned.
    pub fn with(contents: &[u8], beside: u8, at: usize) -> Room {
        let front = BESIDE + at % 8;
        let mut bytes = vec![beside; front];
        bytes.extend(contents);
        bytes.extend([beside; BESIDE]);
        Room { bytes, front, beside }
    }

    /// What may be written.
    pub fn lend(&mut self) -> &mut [u8] {
        let end = self.bytes.len() - BESIDE;
        &mut self.bytes[self.front..end]
    }

    /// What it holds now. Panics if anything beside it was written to.
    pub fn contents(mut self) -> Bytes {
        let end = self.bytes.len() - BESIDE;
        let is_same = |bytes: &[u8]| black_box(bytes).iter().all(|byte| *byte == self.beside);
        let untouched = is_same(&self.bytes[..self.front]) && is_same(&self.bytes[end..]);
        assert!(untouched, "bytes beside a buffer were written to");
        self.bytes.truncate(end);
        self.bytes.drain(..self.front);
        self.bytes
    }
}

/// How many bytes at least stand on each side of a room.
const BESIDE: usize = 16;

/// What stands behind a data set: nothing, marks that would close what is open, or more of the same.
fn behind(random: &mut Random) -> Bytes {
    match random.below(5) {
        0 => Bytes::new(),
        1 => [item_end(), sequence_end()].concat(),
        2 => sequence_end(),
        3 => vec![0; 16],
        _ => element(LAST_TAG, "CS", ""),
    }
}

#[cfg(test)]
mod tests {
    use super::*;

    #[test]
    fn a_room_holds_what_was_written() {
        for at in 0..8 {
            let mut room = Room::with(&[1, 2, 3], 7, at);
            room.lend()[1] = 9;
            assert_eq!(room.contents(), [1, 9, 3]);
        }
    }

    #[test]
    #[should_panic(expected = "beside a buffer")]
    fn writing_beside_a_room_is_told() {
        let mut room = Room::with(&[1, 2, 3], 7, 0);
        room.bytes[BESIDE + 3] = 0;
        room.contents();
    }
}
