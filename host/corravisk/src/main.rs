//! `corravisk`: takes the patient out of DICOM data sets, by the proved library.
//!
//! Everything that decides about a data set is asked of the library; what is here reads and writes files, turns
//! names and texts into what the library takes, and says in words what it answers.
//!
//! Exit status: 0 done; 1 the station refused a data set or the settings, its number and condition on standard
//! error; 2 a wrong call, or a file that cannot be read or written. However it ends, no half-written file stands
//! under a name that was asked for.
//!
//! | module | subject |
//! |---|---|
//! | `arguments`, `usage` | the words of the call |
//! | `stop`, `outcome` | why it ends early, and with which status; how a run ended, in words and in reports |
//! | `settings`, `lists`, `ledger` | options by name, lists as text, the ledger's file |
//! | `files` | new files that take their name when they are whole; output and ledger both or neither |
//! | `printer` | printing, and what becomes of a reader that goes away |
//! | `export`, `summary` | the main job, and what its settings mean |
//! | `explain`, `actions` | what is done with each attribute of the table |
//! | `view`, `dump`, `walk` | what stands in a data set |
//! | `attributes`, `vrs`, `text`, `json`, `progress` | names, words and forms |
#![forbid(unsafe_code)]

mod actions;
mod arguments;
mod attributes;
mod dump;
mod explain;
mod export;
mod files;
mod json;
mod ledger;
mod lists;
mod outcome;
mod printer;
mod progress;
mod settings;
mod stop;
mod summary;
mod text;
mod usage;
mod view;
mod vrs;
mod walk;

use std::env;
use std::ffi::OsString;
use std::io::{self, Write};
use std::process::ExitCode;

use arguments::Arguments;
use printer::Printer;
use stop::Stop;

fn main() -> ExitCode {
    let words: Vec<OsString> = env::args_os().skip(1).collect();
    let mut out = Printer::new(io::stdout().lock());
    let outcome = answer_to(words, &mut out).and_then(|()| Ok(out.flush()?));
    match outcome {
        Ok(()) => ExitCode::SUCCESS,
        Err(stop) => {
            // What was said so far comes before the reason; a reader that has gone away wants neither.
            let _ = out.flush();
            stop.tell();
            stop.status()
        }
    }
}

/// Does what the words ask for.
fn answer_to(words: Vec<OsString>, out: &mut Printer<impl Write>) -> Result<(), Stop> {
    let mut words = words.into_iter();
    let Some(command) = words.next() else {
        return Err(Stop::Usage("no command; one of export, view, dump, explain".into()));
    };
    let command = command.to_string_lossy().into_owned();
    let rest = Arguments::new(words);
    if rest.asks_for_help() {
        return usage::print(Some(&command), out);
    }
    match command.as_str() {
        "export" => export::run(rest, out),
        "view" => view::run(rest, out),
        "dump" => dump::run(rest, out),
        "explain" => explain::run(rest, out),
        "help" | "--help" | "-h" => usage::print(rest.only_word().as_deref(), out),
        "--version" | "-V" => Ok(writeln!(out, "corravisk {}", env!("CARGO_PKG_VERSION"))?),
        other => Err(Stop::Usage(format!("no such command: {other}; one of export, view, dump, explain"))),
    }
}
