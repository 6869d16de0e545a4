//! The ledger's file: the slots in use, 64 bytes each, and nothing else. It holds the old UIDs, so whoever has
//! it can undo the renaming; a new one is readable by its owner alone.

use std::collections::HashSet;
use std::fs::{self, File};
use std::path::{Path, PathBuf};
use std::{io, thread, time};

use crate::files::{NewFile, folder_of, guard_written, real_path};
use crate::printer::tell;
use crate::stop::Stop;

const SLOT: usize = 64;
/// As many slots as the library uses; a file with more is for the library to refuse.
const SLOTS: usize = 1_024;

/// The ledger of one call, which may have a file.
pub struct Ledger {
    /// The file as the call names it.
    pub named: Option<PathBuf>,
    /// The file itself, without any link on the way to it.
    path: Option<PathBuf>,
    /// The slots in use, and room for the others.
    pub bytes: Vec<u8>,
    pub used: u64,
    /// How many were in use when the call began.
    pub before: u64,
    /// Held as long as the call runs, so that no other call gives the same numbers out.
    _lock: Option<File>,
}

impl Ledger {
    /// Reads the file, if there is one; a file that is not there yet is an empty ledger.
    pub fn open(named: Option<PathBuf>) -> Result<Ledger, Stop> {
        // A ledger that is reached through a link must not become another one beside it: it is the file at the
        // end of the link that is locked, read and replaced.
        let path = named.as_deref().map(real_path).transpose()?;
        path.as_deref().map(guard_written).transpose()?;
        let lock = path.as_deref().map(lock_of).transpose()?;
        let mut bytes = match &path {
            Some(path) => read(path)?,
            None => Vec::new(),
        };
        let used = (bytes.len() / SLOT) as u64;
        bytes.resize(bytes.len().max(SLOTS * SLOT), 0);
        if used > SLOTS as u64 {
            bytes.truncate(SLOTS * SLOT);
        }
        Ok(Ledger { named, path, bytes, used, before: used, _lock: lock })
    }

    /// A new file with the slots that are in use after a run; none if the ledger has no file, or nothing was
    /// added to it.
    pub fn written(&self, bytes: &[u8], used: u64) -> Result<Option<NewFile>, Stop> {
        let Some(path) = &self.path else { return Ok(None) };
        if used == self.used && path.exists() {
            return Ok(None);
        }
        NewFile::private(path, &bytes[..used as usize * SLOT]).map(Some)
    }

    /// Whether the ledger has a file that is there.
    pub fn is_there(&self) -> bool {
        self.path.as_deref().is_some_and(Path::exists)
    }

    /// The file as it is, for the case that it has to be put back.
    pub fn in_use(&self) -> &[u8] {
        &self.bytes[..(self.used as usize * SLOT).min(self.bytes.len())]
    }

    /// Goes on with what a run left.
    pub fn hand_on(&mut self, bytes: Vec<u8>, used: u64) {
        (self.bytes, self.used) = (bytes, used);
    }
}

fn read(path: &Path) -> Result<Vec<u8>, Stop> {
    match fs::read(path) {
        Ok(bytes) => match fault(&bytes) {
            None => Ok(bytes),
            Some(fault) => Err(Stop::Usage(format!("{}: not a ledger: {fault}", path.display()))),
        },
        Err(error) if error.kind() == io::ErrorKind::NotFound => Ok(Vec::new()),
        Err(error) => Err(Stop::at("read", path, error)),
    }
}

/// Why bytes are no ledger: what was not written by an export must never be written over.
fn fault(bytes: &[u8]) -> Option<String> {
    if !bytes.len().is_multiple_of(SLOT) {
        return Some(format!("{} bytes are no whole number of entries of {SLOT}", bytes.len()));
    }
    let mut met = HashSet::new();
    for (number, slot) in (1..).zip(bytes.chunks_exact(SLOT)) {
        let length = slot.iter().position(|&byte| byte == 0).unwrap_or(SLOT);
        let (uid, rest) = slot.split_at(length);
        if !is_uid(uid) {
            return Some(format!("entry {number} does not begin with a UID"));
        }
        if rest.iter().any(|&byte| byte != 0) {
            return Some(format!("entry {number} has something behind its UID"));
        }
        if !met.insert(uid) {
            return Some(format!("entry {number} has a UID that an entry before it has"));
        }
    }
    None
}

/// The UID rule of document 01.
fn is_uid(text: &[u8]) -> bool {
    let is_component = |part: &[u8]| {
        !part.is_empty() && part.iter().all(u8::is_ascii_digit) && (part[0] != b'0' || part.len() == 1)
    };
    text.len() <= SLOT && text.split(|&byte| byte == b'.').all(is_component)
}

/// Locks the ledger's folder. The file itself will not do: it is replaced by a new one with each export. Another
/// call is waited for.
fn lock_of(path: &Path) -> Result<File, Stop> {
    let folder = folder_of(path);
    let file = File::open(folder).map_err(|error| Stop::at("open", folder, error))?;
    let mut waits = false;
    loop {
        match file.try_lock() {
            Ok(()) => return Ok(file),
            Err(fs::TryLockError::WouldBlock) => {
                if !waits {
                    let folder = folder.display();
                    tell(format_args!("corravisk: waiting for another call that uses a ledger in {folder}"));
                }
                waits = true;
                thread::sleep(time::Duration::from_millis(50));
            }
            // Some file systems have no locks; then nothing guards against a second call.
            Err(fs::TryLockError::Error(error)) if error.kind() == io::ErrorKind::Unsupported => {
                return Ok(file);
            }
            Err(fs::TryLockError::Error(error)) => return Err(Stop::at("lock", folder, error)),
        }
    }
}

#[cfg(test)]
mod tests {
    use super::*;

    fn slots(uids: &[&str]) -> Vec<u8> {
        let slot = |uid: &&str| {
            let mut slot = uid.as_bytes().to_vec();
            slot.resize(SLOT, 0);
            slot
        };
        uids.iter().flat_map(slot).collect()
    }

    #[test]
    fn slots_of_uids_are_a_ledger() {
        assert_eq!(fault(&[]), None);
        assert_eq!(fault(&slots(&["1.2.3", "0", "1.0.20", &"9".repeat(64)])), None);
    }

    #[test]
    fn anything_else_is_none() {
        assert!(fault(&slots(&["1.2"])[1..]).unwrap().contains("63 bytes"));
        for wrong in ["", "1..2", ".1", "1.", "1.02", "1.a", "1 ", "hello"] {
            assert!(fault(&slots(&["1.2", wrong])).unwrap().starts_with("entry 2 does not"), "{wrong}");
        }
        let mut behind = slots(&["1.2", "1.3", "1.4"]);
        behind[100] = b'1';
        assert!(fault(&behind).unwrap().starts_with("entry 2 has something"));
        assert!(fault(&slots(&["1.2", "1.3", "1.2"])).unwrap().starts_with("entry 3 has a UID"));
    }
}
