//! `corravisk export`: data sets with the patient taken out.
//!
//! Inputs are exported one after the other, the ledger handed on from one to the next. A refused one writes
//! nothing, leaves the ledger alone and does not keep the others from being exported. What is read here is a
//! bare data set; whole files will be another way from bytes to `Exported` beside `exported`.

use std::ffi::OsString;
use std::io::Write;
use std::path::{Path, PathBuf};

use library::{Accepted, Refusal};

use crate::arguments::Arguments;
use crate::files::{NewFile, guard_written, is_same, name_both, read_data_set};
use crate::json::Json;
use crate::ledger::Ledger;
use crate::outcome::{Ended, Refused, refusal_field};
use crate::printer::{Printer, tell};
use crate::progress::Progress;
use crate::settings::Settings;
use crate::stop::Stop;
use crate::summary::Summary;

pub fn run(mut arguments: Arguments, out: &mut Printer<impl Write>) -> Result<(), Stop> {
    // Whether what is printed is read decides nothing about what is written.
    out.go_on();
    let json = arguments.flag("--json")?;
    let outcome = match Call::from(arguments) {
        Ok(call) => call.run(json, out),
        Err(stop) => {
            if json {
                let none = vec![("exports", Json::List(vec![]))];
                writeln!(out, "{}", Ended::Stopped(&stop, None).report(vec![], none))?;
            }
            Err(stop)
        }
    };
    out.flush()?;
    out.tell_trouble();
    outcome
}

/// What a call asks for.
struct Call {
    settings: Settings,
    jobs: Vec<Job>,
    ledger: Ledger,
}

/// What became of one data set.
type Outcome = Result<Accepted, Refused>;

impl Call {
    fn from(mut arguments: Arguments) -> Result<Call, Stop> {
        let root = arguments.text("--root")?;
        let ledger = arguments.path("--ledger")?;
        let settings = Settings::from(&mut arguments)?;
        let jobs = jobs(arguments.words()?)?;
        if root.is_none() {
            return Err(Stop::Usage("export needs --root, the root of new UIDs".into()));
        }
        guard_inputs(&jobs, &settings, ledger.as_deref())?;
        Ok(Call { settings: Settings { root, ..settings }, jobs, ledger: Ledger::open(ledger)? })
    }

    fn run(self, json: bool, out: &mut impl Write) -> Result<(), Stop> {
        let Call { settings, jobs, mut ledger } = self;
        if let Err(refusal) = settings.judge(&ledger.bytes, ledger.used) {
            return refuse_all(refusal, &settings, json, out);
        }
        let summary = Summary::of(&settings);
        if !json {
            summary.print(out)?;
            print_ledger(&ledger, out)?;
            out.flush()?;
        }
        let (outcomes, stop) = export_all(&jobs, &settings, &mut ledger, out, json)?;
        if json {
            let exports = jobs.iter().zip(&outcomes).map(|(job, outcome)| job.json(outcome));
            let mut left = jobs[outcomes.len()..].iter().map(|job| job.input.as_path());
            let ended = stop.as_ref().map_or(Ended::Well, |stop| Ended::Stopped(stop, left.next()));
            let about = vec![
                ("settings", settings.json()),
                ("because_of", summary.json()),
                ("ledger", ledger_json(&ledger)),
            ];
            let done = vec![
                ("exports", Json::List(exports.collect())),
                ("not_tried", Json::List(left.map(Json::from).collect())),
            ];
            writeln!(out, "{}", ended.report(about, done))?;
        } else {
            print_end(&jobs, &outcomes, &ledger, out)?;
        }
        match stop {
            Some(stop) => Err(stop),
            None if outcomes.iter().any(Result::is_err) => Err(Stop::Refused),
            None => Ok(()),
        }
    }
}

/// One input and where its export goes.
struct Job {
    input: PathBuf,
    output: PathBuf,
}

/// `IN OUT`, or several inputs and a folder.
fn jobs(words: Vec<OsString>) -> Result<Vec<Job>, Stop> {
    let mut paths: Vec<PathBuf> = words.into_iter().map(PathBuf::from).collect();
    let last = paths.pop().filter(|_| !paths.is_empty());
    let Some(target) = last else {
        return Err(Stop::Usage(
            "export takes a data set and where to write it: corravisk export IN OUT".into(),
        ));
    };
    if !target.is_dir() {
        if paths.len() > 1 {
            return Err(Stop::Usage(format!(
                "several data sets go to a folder, and {} is none",
                target.display()
            )));
        }
        return Ok(vec![Job { input: paths.remove(0), output: target }]);
    }
    let mut jobs: Vec<Job> = Vec::new();
    for input in paths {
        let name =
            input.file_name().ok_or_else(|| Stop::Usage(format!("not a file: {}", input.display())))?;
        let output = target.join(name);
        if jobs.iter().any(|job| job.output == output) {
            return Err(Stop::Usage(format!("two data sets would be written to {}", output.display())));
        }
        jobs.push(Job { input, output });
    }
    Ok(jobs)
}

/// Nothing that is read may be written over: originals, lists; and the ledger is no output.
fn guard_inputs(jobs: &[Job], settings: &Settings, ledger: Option<&Path>) -> Result<(), Stop> {
    let lists = settings.lists.iter().filter_map(|list| list.path.as_deref());
    let read: Vec<&Path> = jobs.iter().map(|job| job.input.as_path()).chain(lists).collect();
    let written = jobs.iter().map(|job| job.output.as_path());
    for path in written.clone().chain(ledger) {
        if read.iter().any(|read| is_same(read, path)) {
            return Err(Stop::Usage(format!("{} is read, so it cannot be written", path.display())));
        }
    }
    // Before anything is done, so that it is all or nothing.
    written.clone().try_for_each(guard_written)?;
    match ledger {
        Some(ledger) if written.clone().any(|output| is_same(output, ledger)) => {
            Err(Stop::Usage(format!("{} cannot be both output and ledger", ledger.display())))
        }
        _ => Ok(()),
    }
}

/// Settings that the station does not take: no data set is looked at.
fn refuse_all(refusal: Refusal, settings: &Settings, json: bool, out: &mut impl Write) -> Result<(), Stop> {
    if json {
        let (about, none) = (vec![("settings", settings.json())], vec![("exports", Json::List(vec![]))]);
        writeln!(out, "{}", Ended::Refused(refusal).report(about, none))?;
        out.flush()?;
    }
    tell(settings.line(refusal));
    Err(Stop::Refused)
}

/// Exports one after the other. What was done is handed back also where a file makes an end of it.
fn export_all(
    jobs: &[Job],
    settings: &Settings,
    ledger: &mut Ledger,
    out: &mut impl Write,
    json: bool,
) -> Result<(Vec<Outcome>, Option<Stop>), Stop> {
    let progress = Progress::of(jobs.len());
    let mut outcomes = Vec::with_capacity(jobs.len());
    for (done, job) in jobs.iter().enumerate() {
        progress.show(done);
        let ran = job.run(settings, ledger);
        progress.clear();
        let outcome = match ran {
            Ok(outcome) => outcome,
            Err(stop) => return Ok((outcomes, Some(stop))),
        };
        match &outcome {
            Ok(accepted) if !json => writeln!(out, "{}", job.line(accepted))?,
            Ok(_) => {}
            Err(refused) => {
                out.flush()?;
                refused.tell(&job.input);
            }
        }
        outcomes.push(outcome);
    }
    Ok((outcomes, None))
}

impl Job {
    /// Exports, and writes output and ledger both or neither; neither where the library says no.
    fn run(&self, settings: &Settings, ledger: &mut Ledger) -> Result<Outcome, Stop> {
        let data = read_data_set(&self.input)?;
        let Exported { accepted, out, ledger: slots } = match exported(settings, &data, ledger) {
            Ok(exported) => exported,
            Err(refusal) => return Ok(Err(Refused::of(refusal, &data))),
        };
        let output = NewFile::new(&self.output, &out[..accepted.length])?;
        let new_ledger = ledger.written(&slots, accepted.used)?;
        name_both(new_ledger, ledger.in_use(), output)?;
        ledger.hand_on(slots, accepted.used);
        Ok(Ok(accepted))
    }

    fn line(&self, accepted: &Accepted) -> String {
        let Accepted { length, kept, replaced, renamed, removed, .. } = accepted;
        let (input, output) = (self.input.display(), self.output.display());
        format!(
            "{input} -> {output}: {length} bytes; {kept} kept, {replaced} replaced, {renamed} renamed, {removed} removed"
        )
    }

    /// One of the exports of a report. Of what was refused nothing is written, and the numbers are 0.
    fn json(&self, outcome: &Outcome) -> Json {
        let accepted = outcome.as_ref().ok();
        let refusal = outcome.as_ref().err().map(|refused| refused.refusal);
        let number = |of: fn(&Accepted) -> u64| accepted.map_or(0, of).into();
        Json::Object(vec![
            ("input", self.input.as_path().into()),
            ("output", accepted.map(|_| self.output.as_path()).into()),
            refusal_field(refusal),
            ("length", accepted.map_or(0, |accepted| accepted.length).into()),
            ("kept", number(|accepted| accepted.kept)),
            ("replaced", number(|accepted| accepted.replaced)),
            ("renamed", number(|accepted| accepted.renamed)),
            ("removed", number(|accepted| accepted.removed)),
        ])
    }
}

/// What the library hands back and leaves where it accepts.
struct Exported {
    accepted: Accepted,
    out: Vec<u8>,
    ledger: Vec<u8>,
}

/// Runs the library with room for most exports, and with more as long as it asks for more (No. 14).
fn exported(settings: &Settings, data: &[u8], ledger: &Ledger) -> Result<Exported, Refusal> {
    // No export is longer: what grows most is a UID of one character and its backslash, to 64 and a backslash.
    let most = 33 * data.len() + 4_096;
    let mut room = (data.len() + data.len() / 4 + 4_096).min(most);
    loop {
        let mut out = vec![0; room];
        let mut slots = ledger.bytes.clone();
        match library::deidentify(&settings.request(data, ledger.used), &mut slots, &mut out) {
            Ok(accepted) => return Ok(Exported { accepted, out, ledger: slots }),
            Err(Refusal { number: 14, .. }) if room < most => room = (4 * room).min(most),
            Err(refusal) => return Err(refusal),
        }
    }
}

fn print_ledger(ledger: &Ledger, out: &mut impl Write) -> Result<(), Stop> {
    Ok(match &ledger.named {
        None => writeln!(out, "ledger      none: another call will give the same new UIDs to other old ones"),
        Some(path) => writeln!(out, "ledger      {}, {} UIDs known", path.display(), ledger.before),
    }?)
}

fn print_end(jobs: &[Job], outcomes: &[Outcome], ledger: &Ledger, out: &mut impl Write) -> Result<(), Stop> {
    let done = outcomes.iter().filter(|outcome| outcome.is_ok()).count();
    if jobs.len() > 1 {
        let left = match jobs.len() - outcomes.len() {
            0 => String::new(),
            left => format!(", {left} not exported for trouble with a file"),
        };
        writeln!(out, "{done} exported, {} refused{left}", outcomes.len() - done)?;
    }
    match &ledger.named {
        None => Ok(()),
        Some(path) if ledger.is_there() => {
            Ok(writeln!(out, "ledger      {}, {} UIDs known now", path.display(), ledger.used)?)
        }
        Some(path) => Ok(writeln!(out, "ledger      {}, not written", path.display())?),
    }
}

fn ledger_json(ledger: &Ledger) -> Json {
    Json::Object(vec![
        ("file", ledger.named.as_deref().into()),
        ("before", ledger.before.into()),
        ("after", ledger.used.into()),
    ])
}
