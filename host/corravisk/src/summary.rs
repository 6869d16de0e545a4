//! What settings mean, in words, before anything is exported: which attributes stay because of which option,
//! what becomes of those that name the patient, and what the lists write. Every line is asked of the library.

use std::io::{self, Write};

use crate::actions::{Action, Actions};
use crate::attributes::{self, Row, rows};
use crate::json::Json;
use crate::lists::Entry;
use crate::settings::{LISTS, MODIFIED_DATES, OPTIONS, Settings};
use crate::text;
use crate::vrs;

/// Attributes that are always told, with the VR that they should have: the first two must never be kept.
const TOLD: [(u32, [u8; 2]); 7] = [
    (0x0010_0010, *b"PN"),
    (0x0010_0020, *b"LO"),
    (0x0010_0030, *b"DA"),
    (0x0010_0040, *b"CS"),
    (0x0008_0050, *b"SH"),
    (0x0008_0020, *b"DA"),
    (0x0020_000D, *b"UI"),
];
const NEVER_KEPT: usize = 2;
/// How many names of attributes are printed in a line.
const NAMED: usize = 12;

/// What the settings mean.
pub struct Summary<'s> {
    settings: &'s Settings,
    /// For each chosen option, the rows that it alone makes different, with what is done with them now.
    changes: Vec<(&'static str, Vec<(&'static Row, Actions)>)>,
}

impl Summary<'_> {
    pub fn of(settings: &Settings) -> Summary<'_> {
        let now: Vec<Actions> =
            rows().iter().map(|row| Actions::of(settings.options, true, row.tag)).collect();
        let chosen = OPTIONS.into_iter().zip(0..).filter(|(_, bit)| settings.options >> bit & 1 == 1);
        let changes = chosen.map(|(name, bit)| {
            let without = settings.options & !(1 << bit);
            let differs = |row: &Row, now: &Actions| Actions::of(without, true, row.tag) != *now;
            let changed = rows().iter().zip(&now).filter(|(row, now)| differs(row, now));
            (name, changed.map(|(row, now)| (row, now.clone())).collect())
        });
        Summary { settings, changes: changes.collect() }
    }

    pub fn print(&self, out: &mut impl Write) -> io::Result<()> {
        let Settings { options, shift, root, lists } = self.settings;
        let kept = self.settings.kept();
        if let Some(root) = root {
            writeln!(out, "root        {root}")?;
        }
        writeln!(
            out,
            "keep        {}",
            if kept.is_empty() { "nothing beside the basic profile".into() } else { kept.join(", ") }
        )?;
        if *options & MODIFIED_DATES != 0 {
            writeln!(out, "dates       shifted by {shift} days; times are kept as they came")?;
        }
        for (name, list) in LISTS.into_iter().zip(lists) {
            let Some(path) = &list.path else { continue };
            writeln!(out, "{:<11} {}", format!("{name} list"), path.display())?;
            for entry in &list.entries {
                writeln!(out, "            {}", self.entry_line(name, entry))?;
            }
        }
        for (tag, vr) in TOLD {
            writeln!(out, "{}", self.told(tag, vr))?;
        }
        for warning in TOLD[..NEVER_KEPT].iter().filter_map(|(tag, _)| warning(*options, *tag)) {
            writeln!(out, "{warning}")?;
        }
        for (name, changed) in &self.changes {
            print_changes(name, changed, out)?;
        }
        Ok(())
    }

    /// What becomes of one attribute.
    fn told(&self, tag: u32, vr: [u8; 2]) -> String {
        let words = match from_list(self.settings, tag, vr) {
            Some((list, value)) => {
                format!("replaced by {}, from the {list} list", text::quoted(value.as_bytes()))
            }
            None => Action::of(self.settings.options, true, tag, vr).words(),
        };
        format!("{} {}: {words}", attributes::printed(tag), attributes::name(tag).unwrap_or_default())
    }

    /// What a list has, and whether that is written: asked with an empty element of that tag.
    fn entry_line(&self, list: &str, entry: &Entry) -> String {
        let tag = attributes::printed(entry.tag);
        let name = attributes::name(entry.tag).unwrap_or("(no name known)");
        let value = text::quoted(entry.value.as_bytes());
        let vr = attributes::likely_vr(entry.tag);
        let note = match from_list(self.settings, entry.tag, vr) {
            Some((from, _)) if from == list => String::new(),
            Some((from, other)) => {
                let other = text::quoted(other.as_bytes());
                format!("  NOT USED: such an element is given {other}, from the {from} list")
            }
            None if vr == *b"SQ" => "  NOT USED: no list gives a sequence a value".into(),
            None => {
                let words = Actions::of(self.settings.options, true, entry.tag).words();
                format!("  NOT USED; what is done: {words}")
            }
        };
        format!("{tag} {name} = {value}{note}")
    }

    pub fn json(&self) -> Json {
        let attribute = |(row, now): &(&Row, Actions)| {
            Json::Object(vec![
                ("tag", row.printed.into()),
                ("name", row.name.into()),
                ("action", now.words().into()),
            ])
        };
        let changes = self.changes.iter().map(|(name, changed)| {
            Json::Object(vec![
                ("option", (*name).into()),
                ("attributes", Json::List(changed.iter().map(attribute).collect())),
            ])
        });
        Json::List(changes.collect())
    }
}

/// A line for each thing that is done because of an option, with the names of the attributes.
fn print_changes(option: &str, changed: &[(&Row, Actions)], out: &mut impl Write) -> io::Result<()> {
    let mut groups: Vec<(&Actions, Vec<&str>)> = Vec::new();
    for (row, now) in changed {
        match groups.iter_mut().find(|(other, _)| *other == now) {
            Some((_, names)) => names.push(row.name),
            None => groups.push((now, vec![row.name])),
        }
    }
    for (now, names) in groups {
        let shown = names[..names.len().min(NAMED)].join(", ");
        let more = if names.len() > NAMED { ", .. (all: corravisk explain)" } else { "" };
        let what = if now.shifts_dates_alone() {
            "dates shifted, times kept as they came".into()
        } else {
            now.main().words()
        };
        writeln!(out, "because of {option}, {what}: {} attributes: {shown}{more}", names.len())?;
    }
    Ok(())
}

/// What to say of an attribute that must never be kept, if some of it is.
fn warning(options: u64, tag: u32) -> Option<String> {
    let keeps = Actions::of(options, true, tag).keeps_something();
    keeps.then(|| format!("WARNING: {} goes out as it came in", attributes::printed(tag)))
}

/// The list whose value the library writes for an element with this tag and this VR, and that value. Where both
/// lists have it, the study's is named.
pub fn from_list(settings: &Settings, tag: u32, vr: [u8; 2]) -> Option<(&'static str, String)> {
    let mut entries = LISTS.into_iter().zip(&settings.lists).flat_map(|(name, list)| {
        list.entries.iter().filter(move |entry| entry.tag == tag).map(move |entry| (name, &entry.value))
    });
    let given = written(settings, tag, vr)?;
    let is_given = |value: &str| given == value.as_bytes() || text::trimmed(&given) == value.as_bytes();
    entries.find(|(_, value)| is_given(value)).map(|(name, value)| (name, value.clone()))
}

/// What the library writes for an element with this tag and this VR that is empty; none if it writes no such
/// element or refuses it.
fn written(settings: &Settings, tag: u32, vr: [u8; 2]) -> Option<Vec<u8>> {
    let mut data = tag.rotate_left(16).to_le_bytes().to_vec();
    data.extend(vr);
    data.extend(if vrs::has_long_header(vr) { &[0; 6][..] } else { &[0; 2] });
    let mut out = [0; 4_096];
    let accepted = library::deidentify(&settings.request(&data, 0), &mut [], &mut out).ok()?;
    let export = &out[..accepted.length];
    let part = library::view(export, tag.into()).ok()??;
    Some(export[part].to_vec())
}

#[cfg(test)]
mod tests {
    use super::*;

    #[test]
    fn what_is_kept_is_warned_of() {
        // Rows is kept, the name is not.
        let rows = warning(0, 0x0028_0010);
        assert_eq!(rows.as_deref(), Some("WARNING: (0028,0010) goes out as it came in"));
        assert_eq!(warning(0b11_1100, 0x0010_0010), None);
    }
}
