//! Options by name, the shift, the root and the lists: what a person sets for an export.

use std::path::{Path, PathBuf};

use library::{Refusal, Request};

use crate::arguments::Arguments;
use crate::json::Json;
use crate::lists::List;
use crate::outcome;
use crate::stop::Stop;

/// The options, by bit of the option number.
pub const OPTIONS: [&str; 6] = ["full-dates", "modified-dates", "patient", "device", "uids", "institution"];

/// The bit of modified-dates, and those of both options about dates.
pub const MODIFIED_DATES: u64 = 2;
const DATES: u64 = 3;

/// What the two lists are called.
pub const LISTS: [&str; 2] = ["study", "site"];

pub struct Settings {
    pub options: u64,
    pub shift: i64,
    /// None for `explain`, which renames nothing.
    pub root: Option<String>,
    /// The study's and the site's.
    pub lists: [List; 2],
}

impl Settings {
    /// Takes the settings from the call, but for the root.
    pub fn from(arguments: &mut Arguments) -> Result<Settings, Stop> {
        let options = match arguments.text("--keep")? {
            Some(names) => options(&names)?,
            None => 0,
        };
        let shift = match arguments.text("--shift-days")? {
            Some(text) => text
                .parse()
                .map_err(|_| Stop::Usage(format!("--shift-days: not a whole number of days: {text}")))?,
            // Dates that were to be shifted and go out as they came would be told by nothing in the export. With
            // full-dates beside it the library refuses.
            None if options & DATES == MODIFIED_DATES => {
                return Err(Stop::Usage(
                    "--keep modified-dates needs --shift-days, the days to shift by; 0 if that is meant"
                        .into(),
                ));
            }
            None => 0,
        };
        let [study, site]: [Option<PathBuf>; 2] = [arguments.path("--study")?, arguments.path("--site")?];
        let lists = [List::read(study)?, List::read(site)?];
        Ok(Settings { options, shift, root: None, lists })
    }

    /// A request of the library with these settings. A root that it accepts stands in for none.
    pub fn request<'r>(&'r self, data: &'r [u8], used: u64) -> Request<'r> {
        let [study, site] = &self.lists;
        Request {
            data,
            options: self.options,
            shift: self.shift,
            root: self.root.as_deref().unwrap_or("1").as_bytes(),
            study: &study.bytes,
            site: &site.bytes,
            used,
        }
    }

    /// The names of the chosen options.
    pub fn kept(&self) -> Vec<&'static str> {
        chosen(self.options).collect()
    }

    /// Asks the library whether it takes these settings with this ledger, by an export of an empty data set.
    pub fn judge(&self, ledger: &[u8], used: u64) -> Result<(), Refusal> {
        let mut room = [0; 4_096];
        library::deidentify(&self.request(&[], used), &mut ledger.to_vec(), &mut room)?;
        Ok(())
    }

    /// A refusal of these settings in words; one of a list (No. 4) with the line at fault.
    pub fn line(&self, refusal: Refusal) -> String {
        let at_fault = if refusal.number == 4 { self.line_at_fault() } else { None };
        match at_fault {
            Some((at, Some(why))) => format!("{}: {why}", outcome::line(refusal, &at)),
            Some((at, None)) => outcome::line(refusal, &at),
            None => outcome::line(refusal, "the settings"),
        }
    }

    /// The line at which the first list breaks its rule, found by handing the library ever more of the list, and
    /// what is wrong with it, if that can be told.
    fn line_at_fault(&self) -> Option<(String, Option<&'static str>)> {
        for (place, name) in LISTS.into_iter().enumerate() {
            let list = &self.lists[place];
            for (count, entry) in (1..).zip(&list.entries) {
                let mut lists = [List::none(), List::none()];
                lists[place] = list.front(count);
                let part = Settings { lists, root: None, options: 0, shift: 0 };
                if part.judge(&[], 0).is_err() {
                    let file = list.path.as_deref().unwrap_or(Path::new("")).display();
                    return Some((
                        format!("the {name} list, {file} line {}", entry.line),
                        list.why(count - 1),
                    ));
                }
            }
        }
        None
    }

    pub fn json(&self) -> Json {
        let list = |list: &List| {
            let path = list.path.as_deref();
            let of = |path: &Path| vec![("file", path.into()), ("entries", list.entries.len().into())];
            path.map(|path| Json::Object(of(path))).into()
        };
        let root = self.root.as_deref().filter(|root| !root.is_empty());
        Json::Object(vec![
            ("root", root.into()),
            ("keep", Json::List(self.kept().into_iter().map(Json::from).collect())),
            ("shift_days", Json::Number(self.shift.into())),
            ("study", list(&self.lists[0])),
            ("site", list(&self.lists[1])),
        ])
    }
}

/// The names of the options with these bits.
pub fn chosen(options: u64) -> impl Iterator<Item = &'static str> {
    OPTIONS.into_iter().zip(0..).filter(move |(_, bit)| options >> bit & 1 == 1).map(|(name, _)| name)
}

/// Reads names joined by commas. The library judges what may go together.
fn options(names: &str) -> Result<u64, Stop> {
    let mut options = 0;
    for name in names.split(',') {
        let Some(bit) = OPTIONS.iter().position(|option| *option == name.trim()) else {
            return Err(Stop::Usage(format!(
                "--keep: no such option: {name:?}; one of {}",
                OPTIONS.join(", ")
            )));
        };
        if options >> bit & 1 == 1 {
            return Err(Stop::Usage(format!("--keep: {name} is given twice")));
        }
        options |= 1 << bit;
    }
    Ok(options)
}

#[cfg(test)]
mod tests {
    use super::*;

    #[test]
    fn options_go_by_name() {
        assert_eq!(options("full-dates").unwrap(), 1);
        assert_eq!(options("modified-dates,patient, institution").unwrap(), 2 | 4 | 32);
        assert!(options("patients").is_err());
        assert!(options("").is_err());
        assert!(options("uids,uids").is_err());
        assert_eq!(chosen(2 | 16).collect::<Vec<_>>(), ["modified-dates", "uids"]);
    }
}
