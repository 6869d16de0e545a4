//! Why the command ends early, and with which status.

use std::path::Path;
use std::process::ExitCode;
use std::{fmt, io};

use crate::printer::tell;

/// Why the command ends before all was done.
#[derive(Debug)]
pub enum Stop {
    /// The station said no, and that has been told where it happened. Status 1.
    Refused,
    /// The call is wrong, or what it names is not what it must be. Status 2.
    Usage(String),
    /// A file cannot be read or written. Status 2.
    Trouble(String),
    /// Whoever read what is printed has gone away. Status 0, as nothing is wrong; an export never ends so.
    Unheard,
}

impl Stop {
    /// Something went wrong with a file.
    pub fn at(doing: &str, path: &Path, error: io::Error) -> Stop {
        Stop::Trouble(format!("cannot {doing} {}: {error}", path.display()))
    }

    /// Tells it on standard error.
    pub fn tell(&self) {
        match self {
            Stop::Refused | Stop::Unheard => {}
            Stop::Usage(what) => tell(format_args!("corravisk: {what}\nTry: corravisk help")),
            Stop::Trouble(what) => tell(format_args!("corravisk: {what}")),
        }
    }

    pub fn status(&self) -> ExitCode {
        match self {
            Stop::Refused => ExitCode::from(1),
            Stop::Usage(_) | Stop::Trouble(_) => ExitCode::from(2),
            Stop::Unheard => ExitCode::SUCCESS,
        }
    }
}

/// An error while printing; errors of files are told with their path.
impl From<io::Error> for Stop {
    fn from(error: io::Error) -> Stop {
        match error.kind() {
            io::ErrorKind::BrokenPipe => Stop::Unheard,
            _ => Stop::Trouble(format!("cannot print: {error}")),
        }
    }
}

impl fmt::Display for Stop {
    fn fmt(&self, to: &mut fmt::Formatter) -> fmt::Result {
        match self {
            Stop::Usage(what) | Stop::Trouble(what) => to.write_str(what),
            Stop::Refused => to.write_str("refused"),
            Stop::Unheard => to.write_str("nobody reads what is printed"),
        }
    }
}
