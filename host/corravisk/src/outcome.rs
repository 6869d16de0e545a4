//! How a run ended, told alike by every command: in a line on standard error, and in every report for programs by
//! two fields. `refusal` is the library's no, with its `number`, `offset` and `condition`; `error` is a wrong call
//! or a file that makes trouble, with the `input` that it came up at, if it did at one, and `what` is wrong. Each is
//! null where there is no such thing.

use std::io::Write;
use std::path::Path;

use library::Refusal;

use crate::json::{Field, Json};
use crate::printer::tell;
use crate::stop::Stop;

/// How a run ended.
pub enum Ended<'e> {
    Well,
    Refused(Refusal),
    /// Why it came to nothing, and at which input.
    Stopped(&'e Stop, Option<&'e Path>),
}

impl Ended<'_> {
    pub fn of<T>(outcome: &Result<T, Refusal>) -> Self {
        outcome.as_ref().map_or_else(|refusal| Ended::Refused(*refusal), |_| Ended::Well)
    }

    /// A report: what it is about, how that ended, and what came of it.
    pub fn report(&self, about: Vec<Field>, came_of_it: Vec<Field>) -> Json {
        Json::Object(about.into_iter().chain(self.fields()).chain(came_of_it).collect())
    }

    fn fields(&self) -> [Field; 2] {
        let (refusal, error) = match self {
            Ended::Well => (None, Json::Null),
            Ended::Refused(refusal) => (Some(*refusal), Json::Null),
            Ended::Stopped(stop, input) => {
                let error = vec![("input", (*input).into()), ("what", stop.to_string().into())];
                (None, Json::Object(error))
            }
        };
        [refusal_field(refusal), ("error", error)]
    }
}

/// The field of a refusal, also in what a report says of one data set among several.
pub fn refusal_field(refusal: Option<Refusal>) -> Field {
    let refusal = refusal.map(|refusal| {
        Json::Object(vec![
            ("number", refusal.number.into()),
            ("offset", refusal.offset.into()),
            ("condition", refusal.condition().into()),
        ])
    });
    ("refusal", refusal.into())
}

/// Where a report is wanted and this makes an end of the call, the report that says so.
pub fn reported<T>(
    outcome: Result<T, Stop>,
    json: bool,
    input: Option<&Path>,
    out: &mut impl Write,
) -> Result<T, Stop> {
    if let (Err(stop), true) = (&outcome, json) {
        writeln!(out, "{}", Ended::Stopped(stop, input).report(vec![], vec![]))?;
    }
    outcome
}

/// A refusal in a line for standard error.
pub fn line(refusal: Refusal, subject: &str) -> String {
    format!("corravisk: {subject}: refused, {refusal}")
}

/// The library's no to a data set.
#[derive(Clone, Copy, Debug)]
pub struct Refused {
    pub refusal: Refusal,
    /// Whether the data set looks like a whole file.
    has_header: bool,
}

impl Refused {
    pub fn of(refusal: Refusal, data: &[u8]) -> Refused {
        // A whole DICOM file begins so.
        Refused { refusal, has_header: data.get(128..132) == Some(b"DICM") }
    }

    /// Tells it on standard error, with a hint where the data set looks like a whole file.
    pub fn tell(self, path: &Path) {
        let path = path.display();
        tell(line(self.refusal, &path.to_string()));
        if self.has_header {
            tell(format_args!(
                "corravisk: {path}: this looks like a file with a header; only bare data sets are taken"
            ));
        }
    }
}

#[cfg(test)]
mod tests {
    use super::*;

    #[test]
    fn every_report_has_both_fields() {
        let report = |ended: Ended| ended.report(vec![("input", "in".into())], vec![]).to_string();
        assert_eq!(report(Ended::Well), "{\"input\":\"in\",\"refusal\":null,\"error\":null}");
        let refusal = Refusal { number: 10, offset: 96 };
        assert_eq!(
            report(Ended::Refused(refusal)),
            "{\"input\":\"in\",\"refusal\":{\"number\":10,\"offset\":96,\"condition\":\"an item nested 9 deep\"},\
             \"error\":null}"
        );
        let stop = Stop::Usage("no".into());
        assert_eq!(
            report(Ended::Stopped(&stop, Some(Path::new("other")))),
            "{\"input\":\"in\",\"refusal\":null,\"error\":{\"input\":\"other\",\"what\":\"no\"}}"
        );
    }

    #[test]
    fn a_refusal_is_told_with_its_place() {
        let told = |number| line(Refusal { number, offset: 14 }, "in");
        assert!(told(6).starts_with("corravisk: in: refused, No. 6 at offset 14: the bytes end"));
        assert!(told(13).starts_with("corravisk: in: refused, No. 13: more new UIDs"));
    }
}
