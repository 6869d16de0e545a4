//! The UID ledger: slots of 64 bytes, each a UID and then zeros (document 01, "UIDs, dates, lists").

use std::collections::HashMap;

use crate::refusal::{Reason, Refusal};
use crate::uid::LONGEST_UID;

const SLOT: usize = LONGEST_UID;
const MOST_SLOTS: usize = 1_024;

/// How many slots a ledger of so many bytes has (U9).
fn slot_count(bytes: usize) -> usize {
    (bytes / SLOT).min(MOST_SLOTS)
}

/// Splits a ledger into the slots in use and the rest. Refusal 3 if that many slots are not there.
pub fn split(ledger: &mut [u8], used: u64) -> Result<(&mut [u8], &mut [u8]), Refusal> {
    let refusal = Refusal::without_place(Reason::LedgerCount);
    let used = usize::try_from(used).ok().filter(|&used| used <= slot_count(ledger.len()));
    Ok(ledger.split_at_mut(used.ok_or(refusal)? * SLOT))
}

/// What a refusal leaves: slots in use as they are and zeros after them, unless the count given makes no sense
/// (U12, R3).
pub fn clear_after_refusal(ledger: &mut [u8], used: u64) {
    if let Ok((_, rest)) = split(ledger, used) {
        rest.fill(0);
    }
}

/// The numbers of the UIDs met so far in one run. Nothing is written to the ledger before the run has succeeded
/// (U13).
pub struct Numbers<'r> {
    used: usize,
    free: usize,
    /// The number of each UID, known or new.
    by_uid: HashMap<&'r [u8], usize>,
    /// The new UIDs, in the order of their numbers.
    new: Vec<&'r [u8]>,
    ran_out: bool,
}

impl<'r> Numbers<'r> {
    /// `in_use` is the part of the ledger in use, `rest` the length of what follows it.
    pub fn new(in_use: &'r [u8], rest: usize) -> Numbers<'r> {
        let used = in_use.len() / SLOT;
        let mut by_uid = HashMap::new();
        for (slot, number) in in_use.chunks_exact(SLOT).zip(1..) {
            if let Some(uid) = uid_in_slot(slot) {
                by_uid.entry(uid).or_insert(number); // of equal slots the first counts (U7)
            }
        }
        let free = slot_count(in_use.len() + rest) - used;
        Numbers { used, free, by_uid, new: Vec::new(), ran_out: false }
    }

    /// The number of a UID: the one it has, else the next. Once there is no slot left the answer is of no use, as
    /// the run ends with a refusal.
    pub fn number(&mut self, uid: &'r [u8]) -> usize {
        if let Some(&number) = self.by_uid.get(uid) {
            return number;
        }
        if self.new.len() == self.free {
            self.ran_out = true;
            return 0;
        }
        self.new.push(uid);
        let number = self.used + self.new.len();
        self.by_uid.insert(uid, number);
        number
    }

    /// Refusal 13 if there were more new UIDs than free slots (U11); else the new UIDs.
    pub fn into_new_uids(self) -> Result<Vec<&'r [u8]>, Refusal> {
        if self.ran_out {
            return Err(Refusal::without_place(Reason::NoFreeSlot));
        }
        Ok(self.new)
    }
}

/// Writes the new UIDs into the slots after those in use, and zeros into everything else there.
pub fn enter(new_uids: &[&[u8]], rest: &mut [u8]) {
    rest.fill(0);
    for (slot, uid) in rest.chunks_exact_mut(SLOT).zip(new_uids) {
        slot[..uid.len()].copy_from_slice(uid);
    }
}

/// The bytes of a slot before its zeros; `None` if anything but zeros follows the first zero, as such a slot is
/// equal to no UID (U6).
fn uid_in_slot(slot: &[u8]) -> Option<&[u8]> {
    let length = slot.iter().position(|&byte| byte == 0).unwrap_or(slot.len());
    let (uid, zeros) = slot.split_at(length);
    zeros.iter().all(|&byte| byte == 0).then_some(uid)
}
