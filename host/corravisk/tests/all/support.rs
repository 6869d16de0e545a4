//! Folders to work in, runs of the command, and pieces of data sets.

use std::path::{Path, PathBuf};
use std::process::{Command, Output};
use std::sync::atomic::{AtomicUsize, Ordering};
use std::{env, fs, process};

/// A folder of its own for a test, gone when the test is over.
pub struct Folder(PathBuf);

impl Folder {
    pub fn new() -> Folder {
        static NEXT: AtomicUsize = AtomicUsize::new(0);
        let number = NEXT.fetch_add(1, Ordering::Relaxed);
        let path = env::temp_dir().join(format!("corravisk-test-{}-{number}", process::id()));
        fs::create_dir_all(&path).unwrap();
        Folder(path)
    }

    pub fn path(&self, name: &str) -> PathBuf {
        self.0.join(name)
    }

    /// Writes a file and gives its path.
    pub fn file(&self, name: &str, bytes: impl AsRef<[u8]>) -> PathBuf {
        let path = self.path(name);
        fs::write(&path, bytes).unwrap();
        path
    }

    pub fn read(&self, name: &str) -> Vec<u8> {
        fs::read(self.path(name)).unwrap()
    }

    /// The names of all that is there, in order.
    pub fn names(&self) -> Vec<String> {
        let mut names: Vec<String> = fs::read_dir(&self.0)
            .unwrap()
            .map(|entry| entry.unwrap().file_name().into_string().unwrap())
            .collect();
        names.sort();
        names
    }

    /// Runs the command here.
    pub fn run(&self, words: &[&str]) -> Ran {
        let output = command().current_dir(&self.0).args(words).output().unwrap();
        Ran::of(output)
    }
}

impl Drop for Folder {
    fn drop(&mut self) {
        let _ = fs::remove_dir_all(&self.0);
    }
}

pub fn command() -> Command {
    Command::new(Path::new(env!("CARGO_BIN_EXE_corravisk")))
}

/// What a run printed, and its exit status.
#[derive(Debug)]
pub struct Ran {
    pub status: i32,
    pub out: String,
    pub err: String,
}

impl Ran {
    pub fn of(output: Output) -> Ran {
        let text = |bytes: Vec<u8>| String::from_utf8_lossy(&bytes).into_owned();
        let status = output.status.code().expect("it ends by itself");
        Ran { status, out: text(output.stdout), err: text(output.stderr) }
    }

    #[track_caller]
    pub fn succeeds(&self) -> &Ran {
        assert_eq!((self.status, self.err.as_str()), (0, ""), "{}", self.out);
        self
    }

    /// Is refused with this number, told on standard error.
    #[track_caller]
    pub fn refused(&self, number: u64) -> &Ran {
        assert_eq!(self.status, 1, "{self:?}");
        assert!(self.err.contains(&format!("refused, No. {number}")), "{self:?}");
        self
    }

    /// Is a wrong call that says so.
    #[track_caller]
    pub fn wrong(&self, says: &str) -> &Ran {
        assert_eq!((self.status, self.out.as_str()), (2, ""), "{self:?}");
        assert!(self.err.contains(says), "{self:?}");
        self
    }
}

/// An element with a length of two bytes.
pub fn element(tag: u32, vr: &str, value: impl AsRef<[u8]>) -> Vec<u8> {
    let value = value.as_ref();
    let length = (value.len() as u16).to_le_bytes();
    [&tag.rotate_left(16).to_le_bytes()[..], vr.as_bytes(), &length, value].concat()
}

pub const NAME: u32 = 0x0010_0010;
pub const STUDY: u32 = 0x0020_000D;

pub fn jane() -> Vec<u8> {
    element(NAME, "PN", "Doe^Jane")
}

/// A slot of a ledger.
pub fn slot(uid: &str) -> Vec<u8> {
    let mut slot = uid.as_bytes().to_vec();
    slot.resize(64, 0);
    slot
}

/// A study's UID, of an odd number of characters.
pub fn study(uid: &str) -> Vec<u8> {
    element(STUDY, "UI", format!("{uid}\0"))
}
