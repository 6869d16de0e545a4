//! Standard output, and what is told on standard error. A reader that goes away never makes the command panic, and
//! it ends the commands that only print; an export has work to do, and goes on unheard.

use std::fmt::Display;
use std::io::{self, BufWriter, Write};

/// What the command prints to.
pub struct Printer<W: Write> {
    to: BufWriter<W>,
    /// Whether the command goes on when printing fails.
    goes_on: bool,
    /// Why printing failed; nothing is printed after that.
    trouble: Option<io::Error>,
}

impl<W: Write> Printer<W> {
    pub fn new(to: W) -> Printer<W> {
        Printer { to: BufWriter::new(to), goes_on: false, trouble: None }
    }

    /// From here on printing decides nothing: its first error is kept, and what would follow is dropped.
    pub fn go_on(&mut self) {
        self.goes_on = true;
    }

    /// Tells why printing failed, unless that is a reader that has gone away.
    pub fn tell_trouble(&self) {
        match &self.trouble {
            Some(error) if error.kind() != io::ErrorKind::BrokenPipe => {
                tell(format_args!("corravisk: cannot print: {error}; the export went on without"));
            }
            _ => {}
        }
    }

    fn tried<T>(&mut self, outcome: io::Result<T>, unheard: T) -> io::Result<T> {
        match outcome {
            Err(error) if self.goes_on => {
                self.trouble = Some(error);
                Ok(unheard)
            }
            outcome => outcome,
        }
    }
}

impl<W: Write> Write for Printer<W> {
    fn write(&mut self, bytes: &[u8]) -> io::Result<usize> {
        if self.trouble.is_some() {
            return Ok(bytes.len());
        }
        let outcome = self.to.write(bytes);
        self.tried(outcome, bytes.len())
    }

    fn flush(&mut self) -> io::Result<()> {
        if self.trouble.is_some() {
            return Ok(());
        }
        let outcome = self.to.flush();
        self.tried(outcome, ())
    }
}

/// A line on standard error. Nobody there to read it is no reason to stop, as `eprintln` would.
pub fn tell(line: impl Display) {
    let _ = writeln!(io::stderr(), "{line}");
}
