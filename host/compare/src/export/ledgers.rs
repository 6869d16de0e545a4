//! Ledgers: slots in use with UIDs and with garbage, dirt behind them, and counts that are too high.

use crate::pieces::Bytes;
use crate::random::Random;
use crate::values::uid;

const SLOT: usize = 64;
const MOST_SLOTS: usize = 1_024;

/// A ledger and how many of its slots are said to be in use.
#[derive(Clone, Debug, PartialEq, Eq)]
pub struct Ledger {
    pub bytes: Bytes,
    pub used: u64,
}

impl Ledger {
    /// Nothing in use, and so many slots.
    pub fn empty(slots: usize) -> Ledger {
        Ledger { bytes: vec![0; slots * SLOT], used: 0 }
    }

    /// As many slots as are ever used.
    pub fn roomy() -> Ledger {
        Ledger::empty(MOST_SLOTS)
    }

    /// Slots in use: UIDs of the data, others, the same twice, and bytes that are no slot's.
    pub fn in_use(random: &mut Random, uids: &[Bytes]) -> Ledger {
        let used = match random.below(12) {
            0..=4 => 0,
            5..=8 => random.below(12),
            9 => 9 + random.below(3),
            10 => 98 + random.below(4),
            _ => random.pick(&[998, 999, 1_000, 1_020, 1_023, 1_024]),
        };
        let bytes = (0..used).flat_map(|_| slot(random, uids)).collect();
        Ledger { bytes, used: used as u64 }
    }

    /// The same slots in use, with as many behind them as there may be.
    pub fn with_all_slots(&self) -> Ledger {
        let mut bytes = self.bytes.clone();
        bytes.resize(MOST_SLOTS * SLOT, 0);
        Ledger { bytes, used: self.used }
    }

    /// Adds free slots, sometimes just as many as are needed or one less, and a ragged tail. All of it is
    /// dirty, sometimes with the very UIDs that will be looked for (U8).
    pub fn add_free_slots(&mut self, random: &mut Random, needed: usize, uids: &[Bytes]) {
        let free = match random.below(8) {
            0 => 0,
            1 => needed.saturating_sub(1),
            2 | 3 => needed,
            4 => needed + 1,
            5 => MOST_SLOTS.saturating_sub(self.used as usize) + random.pick(&[0, 0, 1, 2, 40]),
            _ => needed + random.below(40),
        };
        let tail = random.pick(&[0, 0, 0, 1, 63, 32]);
        let wanted = self.bytes.len() + free * SLOT + tail;
        let kind = random.below(4);
        while self.bytes.len() < wanted {
            match kind {
                0 => self.bytes.extend([0; SLOT]),
                1 => self.bytes.extend([0xFF; SLOT]),
                2 => self.bytes.extend(random.bytes(SLOT)),
                _ => self.bytes.extend(slot(random, uids)),
            }
        }
        self.bytes.truncate(wanted);
    }

    /// Says that more slots are in use than there are.
    pub fn overstate(&mut self, random: &mut Random) {
        let slots = (self.bytes.len() / SLOT).min(MOST_SLOTS) as u64;
        self.used = random.pick(&[
            slots + 1,
            slots + 1,
            slots + 2,
            slots + 1_000,
            u64::MAX,
            1 << 32 | slots,
            // times 64 these are small again in 64 bits
            1 << 58,
            1 << 58 | slots,
            u64::MAX / 64 + 1,
        ]);
        if self.used <= slots {
            self.used = slots + 1;
        }
    }
}

/// A slot as the station writes it.
pub fn slot_of(uid: &[u8]) -> [u8; SLOT] {
    let mut slot = [0; SLOT];
    slot[..uid.len()].copy_from_slice(uid);
    slot
}

fn slot(random: &mut Random, uids: &[Bytes]) -> [u8; SLOT] {
    let known = |random: &mut Random| match uids.len() {
        0 => uid(random),
        count => uids[random.below(count)].clone(),
    };
    match random.below(12) {
        0..=5 => slot_of(&known(random)),
        6..=8 => slot_of(&uid(random)),
        9 => {
            // a UID, and then something that makes it none (U6)
            let uid = known(random);
            let mut slot = slot_of(&uid);
            slot[random.pick(&[uid.len(), uid.len() + 1, SLOT - 1]).min(SLOT - 1)] ^= 0x20;
            slot
        }
        10 => [0; SLOT],
        _ => random.bytes(SLOT).try_into().expect("64 bytes"),
    }
}
