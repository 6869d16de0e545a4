//! Reading data sets, and writing files that take their name only when they are whole.

use std::ffi::OsString;
use std::fs::{self, File, OpenOptions};
use std::io::{self, Read, Write};
use std::path::{Path, PathBuf};
use std::process;

use crate::stop::Stop;

/// More bytes than any data set that is accepted has; a longer file is not read further, since the library
/// refuses it all the same (No. 5).
const ENOUGH: u64 = 268_435_457;

pub fn read_data_set(path: &Path) -> Result<Vec<u8>, Stop> {
    let trouble = |error| Stop::at("read", path, error);
    let file = File::open(path).map_err(trouble)?;
    let size = file.metadata().map_err(trouble)?.len().min(ENOUGH);
    let mut data = Vec::with_capacity(size as usize + 1);
    file.take(ENOUGH).read_to_end(&mut data).map_err(trouble)?;
    Ok(data)
}

/// A file that is written whole and does not have its name yet. It goes away with this value, unless it was
/// given its name.
pub struct NewFile {
    path: PathBuf,
    /// Beside the file it will be, so that to give it its name is one step.
    written: PathBuf,
    is_named: bool,
}

impl NewFile {
    pub fn new(path: &Path, bytes: &[u8]) -> Result<NewFile, Stop> {
        NewFile::write(path, bytes, OpenOptions::new().write(true).create_new(true))
    }

    /// A file that its owner alone may read; one that is there already keeps its permissions.
    pub fn private(path: &Path, bytes: &[u8]) -> Result<NewFile, Stop> {
        let mut options = OpenOptions::new();
        options.write(true).create_new(true);
        #[cfg(unix)]
        std::os::unix::fs::OpenOptionsExt::mode(&mut options, 0o600);
        let new = NewFile::write(path, bytes, &options)?;
        if let Ok(old) = fs::metadata(path) {
            let kept = fs::set_permissions(&new.written, old.permissions());
            kept.map_err(|error| Stop::at("write", path, error))?;
        }
        Ok(new)
    }

    fn write(path: &Path, bytes: &[u8], options: &OpenOptions) -> Result<NewFile, Stop> {
        let trouble = |error| Stop::at("write", path, error);
        let name = path.file_name().ok_or_else(|| Stop::Usage(format!("not a file: {}", path.display())))?;
        guard_written(path)?;
        let mut hidden = OsString::from(".");
        hidden.push(name);
        hidden.push(format!(".corravisk-{}", process::id()));
        let written = path.with_file_name(hidden);
        let mut file = options.open(&written).map_err(trouble)?;
        let new = NewFile { path: path.into(), written, is_named: false };
        file.write_all(bytes).and_then(|()| file.sync_all()).map_err(trouble)?;
        Ok(new)
    }

    /// Gives the file its name. What had the name before is gone.
    pub fn name(mut self) -> Result<(), Stop> {
        fs::rename(&self.written, &self.path).map_err(|error| Stop::at("write", &self.path, error))?;
        self.is_named = true;
        // That the name lasts is for the disk; a folder that cannot be synced is no reason to stop.
        if let Ok(folder) = File::open(folder_of(&self.path)) {
            let _ = folder.sync_all();
        }
        Ok(())
    }
}

impl Drop for NewFile {
    fn drop(&mut self) {
        if !self.is_named {
            let _ = fs::remove_file(&self.written);
        }
    }
}

/// Gives the new ledger and the new output their names: both or neither.
///
/// The ledger comes first. If the machine stops between the two, the ledger knows UIDs of an export that is not
/// there, which does no harm: the next call gives them the same numbers and writes the same export. The other
/// way round an export could stand whose numbers the ledger would give out again, to other UIDs. If the output
/// cannot be given its name, the old ledger is put back.
pub fn name_both(ledger: Option<NewFile>, old_ledger: &[u8], output: NewFile) -> Result<(), Stop> {
    let Some(ledger) = ledger else { return output.name() };
    let path = ledger.path.clone();
    let was_there = path.exists();
    ledger.name()?;
    let Err(stop) = output.name() else { return Ok(()) };
    let back = if was_there {
        NewFile::private(&path, old_ledger).and_then(NewFile::name)
    } else {
        fs::remove_file(&path).map_err(|error| Stop::at("take back", &path, error))
    };
    match back {
        Ok(()) => Err(stop),
        Err(back) => {
            Err(Stop::Trouble(format!("{stop}; and {back}: it knows UIDs of an export that is not there")))
        }
    }
}

/// What is written takes the place of a file or of nothing. A folder, a pipe or a device is no place for it, and a
/// link would be replaced instead of the file that it points to.
pub fn guard_written(path: &Path) -> Result<(), Stop> {
    let is = match fs::symlink_metadata(path) {
        Ok(there) if there.is_file() => return Ok(()),
        Ok(there) if there.is_dir() => "a folder",
        Ok(there) if there.is_symlink() => "a link; name the file itself",
        Ok(_) => "no regular file",
        // If it is not for a file that is not there yet, the writing will tell.
        Err(_) => return Ok(()),
    };
    Err(Stop::Usage(format!("cannot write {}: it is {is}", path.display())))
}

/// A path without links, also of a file that is not there yet.
pub fn real_path(path: &Path) -> Result<PathBuf, Stop> {
    match path.canonicalize() {
        Ok(real) => Ok(real),
        // A link to nothing stays one, and is told where it is to be written.
        Err(error) if error.kind() == io::ErrorKind::NotFound => {
            let name =
                path.file_name().ok_or_else(|| Stop::Usage(format!("not a file: {}", path.display())))?;
            let folder = folder_of(path);
            let real = folder.canonicalize().map_err(|error| Stop::at("open", folder, error))?;
            Ok(real.join(name))
        }
        Err(error) => Err(Stop::at("open", path, error)),
    }
}

/// The folder that a file is in.
pub fn folder_of(path: &Path) -> &Path {
    match path.parent() {
        Some(folder) if folder != Path::new("") => folder,
        _ => Path::new("."),
    }
}

/// Whether two paths are one file, also where it is not there yet.
pub fn is_same(one: &Path, other: &Path) -> bool {
    match (one.canonicalize(), other.canonicalize()) {
        (Ok(one), Ok(other)) => one == other,
        (Err(_), Err(_)) => {
            let folders = (folder_of(one).canonicalize(), folder_of(other).canonicalize());
            matches!(folders, (Ok(one), Ok(other)) if one == other) && one.file_name() == other.file_name()
        }
        _ => false,
    }
}

#[cfg(test)]
mod tests {
    use super::*;

    fn folder(name: &str) -> PathBuf {
        let path = std::env::temp_dir().join(format!("corravisk-files-{}-{name}", process::id()));
        fs::create_dir_all(&path).unwrap();
        path
    }

    /// An output whose name is taken by a folder at the last moment.
    fn output_without_a_name(folder: &Path) -> NewFile {
        let output = NewFile::new(&folder.join("out"), b"export").unwrap();
        fs::create_dir(folder.join("out")).unwrap();
        fs::write(folder.join("out").join("taken"), b"").unwrap();
        output
    }

    fn names(folder: &Path) -> Vec<OsString> {
        let mut names: Vec<OsString> =
            fs::read_dir(folder).unwrap().map(|entry| entry.unwrap().file_name()).collect();
        names.sort();
        names
    }

    #[test]
    fn an_output_without_a_name_puts_the_old_ledger_back() {
        let folder = folder("back");
        let path = folder.join("ledger");
        fs::write(&path, b"old").unwrap();
        let ledger = NewFile::private(&path, b"old and new").unwrap();
        assert!(name_both(Some(ledger), b"old", output_without_a_name(&folder)).is_err());
        assert_eq!(fs::read(&path).unwrap(), b"old");
        assert_eq!(names(&folder), ["ledger", "out"]);
        fs::remove_dir_all(folder).unwrap();
    }

    #[test]
    fn an_output_without_a_name_takes_a_first_ledger_away() {
        let folder = folder("away");
        let ledger = NewFile::private(&folder.join("ledger"), b"new").unwrap();
        assert!(name_both(Some(ledger), b"", output_without_a_name(&folder)).is_err());
        assert_eq!(names(&folder), ["out"]);
        fs::remove_dir_all(folder).unwrap();
    }

    #[test]
    fn both_get_their_names() {
        let folder = folder("both");
        let ledger = NewFile::private(&folder.join("ledger"), b"new").unwrap();
        let output = NewFile::new(&folder.join("out"), b"export").unwrap();
        assert_eq!(names(&folder).len(), 2, "neither has its name yet");
        assert!(!folder.join("out").exists() && !folder.join("ledger").exists());
        name_both(Some(ledger), b"", output).unwrap();
        assert_eq!(names(&folder), ["ledger", "out"]);
        fs::remove_dir_all(folder).unwrap();
    }

    #[test]
    fn paths_of_one_file_are_the_same() {
        let folder = folder("same");
        assert!(is_same(&folder.join("a"), &folder.join("./a")));
        assert!(!is_same(&folder.join("a"), &folder.join("b")));
        fs::write(folder.join("a"), b"").unwrap();
        assert!(is_same(&folder.join("a"), &folder.join("./a")));
        fs::remove_dir_all(folder).unwrap();
    }
}
