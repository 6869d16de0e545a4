//! `corravisk view IN TAG`: one attribute of the top level.

use std::ffi::OsString;
use std::io::Write;
use std::ops::Range;
use std::path::{Path, PathBuf};

use library::Refusal;

use crate::arguments::Arguments;
use crate::attributes;
use crate::files::read_data_set;
use crate::json::Json;
use crate::outcome::{Ended, Refused, reported};
use crate::printer::tell;
use crate::stop::Stop;
use crate::text;

pub fn run(mut arguments: Arguments, out: &mut impl Write) -> Result<(), Stop> {
    let raw = arguments.flag("--raw")?;
    let json = arguments.flag("--json")?;
    let call = arguments.words().and_then(|words| Call::from(&words, raw && json));
    let call = reported(call, json, None, out)?;
    let data = reported(read_data_set(&call.path), json, Some(&call.path), out)?;
    let viewed = library::view(&data, call.tag.into());
    if json {
        writeln!(out, "{}", call.json(&viewed, &data))?;
    }
    let part = match viewed {
        Ok(part) => part.map(|place| &data[place]),
        Err(refusal) => {
            out.flush()?;
            Refused::of(refusal, &data).tell(&call.path);
            return Err(Stop::Refused);
        }
    };
    match part {
        _ if json => {}
        Some(part) if raw => out.write_all(part)?,
        None if raw => {
            let (path, tag) = (call.path.display(), attributes::printed(call.tag));
            tell(format_args!("corravisk: {path}: {tag} is absent"));
        }
        _ => writeln!(out, "{}", call.line(part))?,
    }
    Ok(())
}

/// What a call asks for.
struct Call {
    path: PathBuf,
    tag: u32,
}

impl Call {
    fn from(words: &[OsString], raw_and_json: bool) -> Result<Call, Stop> {
        let [path, tag] = words else {
            return Err(Stop::Usage("view takes a data set and a tag: corravisk view IN 0010,0010".into()));
        };
        let tag = tag.to_str().and_then(attributes::read_tag).ok_or_else(|| {
            Stop::Usage(format!("not a tag: {}; one is written as 0010,0010", Path::new(tag).display()))
        })?;
        if raw_and_json {
            return Err(Stop::Usage("--raw and --json do not go together".into()));
        }
        Ok(Call { path: path.into(), tag })
    }

    /// For a person.
    fn line(&self, part: Option<&[u8]>) -> String {
        let name = attributes::name(self.tag).map(|name| format!(" {name}")).unwrap_or_default();
        let value = match part {
            Some(part) => {
                text::printable(part).map_or_else(|| text::hex(part), |text| text::quoted(text.as_bytes()))
            }
            None => "absent".into(),
        };
        format!("{}{name}: {value}", attributes::printed(self.tag))
    }

    /// For a program.
    fn json(&self, viewed: &Result<Option<Range<usize>>, Refusal>, data: &[u8]) -> Json {
        let place = viewed.as_ref().ok().and_then(Option::clone);
        let about =
            vec![("input", self.path.as_path().into()), ("tag", attributes::printed(self.tag).into())];
        let shown = vec![
            ("found", place.is_some().into()),
            ("start", place.as_ref().map(|place| place.start).into()),
            ("length", place.as_ref().map(Range::len).into()),
            ("text", place.and_then(|place| text::printable(&data[place])).into()),
        ];
        Ended::of(viewed).report(about, shown)
    }
}
