//! `corravisk dump IN`: a listing, an element a line. The library judges the shape; what is damaged is listed up
//! to its first fault, and then refused.

use std::io::Write;
use std::path::PathBuf;

use crate::arguments::Arguments;
use crate::attributes;
use crate::files::read_data_set;
use crate::json::Json;
use crate::outcome::{Ended, Refused, reported};
use crate::stop::Stop;
use crate::text;
use crate::vrs;
use crate::walk::{Met, walk};

/// Where names begin, if the value leaves room.
const NAMES: usize = 60;

pub fn run(mut arguments: Arguments, out: &mut impl Write) -> Result<(), Stop> {
    let json = arguments.flag("--json")?;
    let path = reported(path(arguments), json, None, out)?;
    let data = reported(read_data_set(&path), json, Some(&path), out)?;
    // Any tag will do: the whole shape is judged for every one.
    let judged = library::view(&data, 0);
    let limit = judged.as_ref().err().map_or(data.len(), |refusal| refusal.offset);
    if json {
        let mut elements = Vec::new();
        let mut add = |depth: usize, met: Met| {
            elements.push(element(&met, depth));
            Ok::<(), Stop>(())
        };
        walk(&data, limit, &mut add)?;
        let about = vec![("input", path.as_path().into())];
        writeln!(out, "{}", Ended::of(&judged).report(about, vec![("elements", Json::List(elements))]))?;
    } else {
        let mut print = |depth: usize, met: Met| writeln!(out, "{}{}", "  ".repeat(depth), line(&met, depth));
        walk(&data, limit, &mut print)?;
    }
    if let Err(refusal) = judged {
        out.flush()?;
        Refused::of(refusal, &data).tell(&path);
        return Err(Stop::Refused);
    }
    Ok(())
}

/// The one data set of a call.
fn path(arguments: Arguments) -> Result<PathBuf, Stop> {
    match &arguments.words()?[..] {
        [path] => Ok(path.into()),
        _ => Err(Stop::Usage("dump takes one data set: corravisk dump IN".into())),
    }
}

/// For a program. An item is told by its number in its sequence; what a sequence holds is behind it, one deeper.
fn element(met: &Met, depth: usize) -> Json {
    let (tag, vr, value) = match *met {
        Met::Item(number) => return Json::Object(vec![("depth", depth.into()), ("item", number.into())]),
        Met::Sequence { tag } => (tag, *b"SQ", None),
        Met::Element { tag, vr, value } => (tag, vr, Some(value)),
    };
    Json::Object(vec![
        ("depth", depth.into()),
        ("tag", attributes::printed(tag).into()),
        ("vr", vrs::letters(vr).into()),
        ("name", attributes::name(tag).into()),
        ("length", value.map(<[u8]>::len).into()),
        ("text", value.and_then(text::printable).into()),
    ])
}

/// For a person.
fn line(met: &Met, depth: usize) -> String {
    let (tag, front) = match *met {
        Met::Item(number) => return format!("item {number}"),
        Met::Sequence { tag } => (tag, format!("{} SQ", attributes::printed(tag))),
        Met::Element { tag, vr, value } => {
            let (printed, letters) = (attributes::printed(tag), vrs::letters(vr));
            (tag, format!("{printed} {letters} {}", text::value(vr, value)))
        }
    };
    match attributes::name(tag) {
        Some(name) => format!("{front:<width$}  {name}", width = NAMES - 2 * depth.min(NAMES / 2)),
        None => front,
    }
}
