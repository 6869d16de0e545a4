//! `corravisk explain`: for each row of the table, what the library will do with such an attribute.

use std::io::Write;

use crate::actions::Actions;
use crate::arguments::Arguments;
use crate::attributes::{self, Row, read_tag, rows};
use crate::json::Json;
use crate::outcome::{Ended, reported};
use crate::printer::tell;
use crate::settings::Settings;
use crate::stop::Stop;
use crate::summary::{Summary, from_list};
use crate::text;

/// Rules beside the table, each with a tag to ask for.
const RULES: [Row; 6] = [
    Row { printed: "(gggg,0000)", name: "Group Length, of any group", tag: 0x0010_0000 },
    Row {
        printed: "(0012,0062)",
        name: "Patient Identity Removed, top level; then written anew",
        tag: 0x0012_0062,
    },
    Row { printed: "(0012,0063)", name: "De-identification Method, the same", tag: 0x0012_0063 },
    Row {
        printed: "(0012,0064)",
        name: "De-identification Method Code Sequence, the same",
        tag: 0x0012_0064,
    },
    Row {
        printed: "(0028,0303)",
        name: "Longitudinal Temporal Information Modified, the same",
        tag: 0x0028_0303,
    },
    Row { printed: "any other", name: "not named by the table, such as (0028,0010) Rows", tag: 0x0028_0010 },
];

/// What is done with the attributes of a row.
struct Explained {
    row: Row,
    words: String,
    /// What would be done without options, if that is something else.
    basic: Option<String>,
    /// What a list writes, and which.
    listed: Option<(&'static str, String)>,
}

pub fn run(mut arguments: Arguments, out: &mut impl Write) -> Result<(), Stop> {
    let json = arguments.flag("--json")?;
    let settings = reported(settings(arguments), json, None, out)?;
    if let Err(refusal) = settings.judge(&[], 0) {
        if json {
            let about = vec![("settings", settings.json())];
            writeln!(out, "{}", Ended::Refused(refusal).report(about, vec![]))?;
            out.flush()?;
        }
        tell(settings.line(refusal));
        return Err(Stop::Refused);
    }
    let explained = rows().iter().chain(&RULES).map(|row| explain(row, &settings));
    if json {
        let rows = explained.map(Explained::json).collect();
        let about = vec![("settings", settings.json())];
        let told = vec![("because_of", Summary::of(&settings).json()), ("rows", Json::List(rows))];
        return Ok(writeln!(out, "{}", Ended::Well.report(about, told))?);
    }
    Summary::of(&settings).print(out)?;
    writeln!(out)?;
    for explained in explained {
        writeln!(out, "{}", explained.line())?;
    }
    Ok(())
}

/// The settings of a call that has nothing else.
fn settings(mut arguments: Arguments) -> Result<Settings, Stop> {
    let settings = Settings::from(&mut arguments)?;
    match &arguments.words()?[..] {
        [] => Ok(settings),
        [word, ..] => Err(Stop::Usage(format!("explain takes settings alone, not {}", word.display()))),
    }
}

fn explain(row: &Row, settings: &Settings) -> Explained {
    let now = Actions::of(settings.options, true, row.tag);
    let basic = Actions::of(0, true, row.tag);
    Explained {
        row: *row,
        words: now.words(),
        basic: (basic != now).then(|| basic.main().words()),
        listed: read_tag(row.printed).and_then(|tag| from_list(settings, tag, attributes::likely_vr(tag))),
    }
}

impl Explained {
    fn line(&self) -> String {
        let mark = if self.basic.is_some() { '*' } else { ' ' };
        let Row { printed, name, .. } = self.row;
        let basic =
            self.basic.as_ref().map(|basic| format!("   [without --keep: {basic}]")).unwrap_or_default();
        let listed = self
            .listed
            .as_ref()
            .map(|(name, value)| format!("   {name} list: {}", text::quoted(value.as_bytes())));
        let listed = listed.unwrap_or_default();
        let printed = if printed.contains("odd") { "private" } else { printed };
        format!("{mark} {printed:<11} {name:<56} {}{listed}{basic}", self.words)
    }

    fn json(self) -> Json {
        Json::Object(vec![
            ("tag", self.row.printed.into()),
            ("name", self.row.name.into()),
            ("action", self.words.into()),
            ("without_keep", self.basic.into()),
            ("list", self.listed.as_ref().map(|(name, _)| *name).into()),
            ("value", self.listed.map(|(_, value)| value).into()),
        ])
    }
}
