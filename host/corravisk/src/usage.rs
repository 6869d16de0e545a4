//! How the command is called.

use std::io::Write;

use crate::stop::Stop;

const ALL: &str = "\
corravisk takes the patient out of DICOM data sets, by a proved library.

  corravisk export IN.. OUT --root UID   write a data set, or several into a folder, with the patient taken out
  corravisk explain                      say what will be done with each attribute under given settings
  corravisk dump IN                      list a data set
  corravisk view IN TAG                  show one attribute of its top level
  corravisk help COMMAND                 say more about one of them

Data sets are bare: Explicit VR Little Endian without a file header.
Exit status: 0 done, 1 refused (number and condition on standard error), 2 a wrong call or a file that cannot be
read or written.
";

const SETTINGS: &str = "  --keep NAME,..     keep more than the basic profile does: full-dates or modified-dates, patient, device, uids,
                     institution
  --shift-days N     with modified-dates, and needed there: shift dates by N days, -36500 to 36500
  --study FILE       values to write, one a line: 0010,0010 SUBJ7
  --site FILE        the same; asked where the study's list has nothing
";

const EXPORT: &str = "\
corravisk export IN OUT --root UID [settings]
corravisk export IN IN .. FOLDER --root UID [settings]

Writes IN with the patient taken out. OUT takes its name only when it is whole; a refused IN writes nothing.

  --root UID         new UIDs are this, a dot and a number; at most 59 characters
";

const EXPORT_MORE: &str = "  --ledger FILE      the UIDs met so far; read, and written anew with each export. Without it, numbers start at 1
                     and another call gives the same new UIDs to other old ones
  --json             a report for programs on standard output
";

const EXPLAIN: &str = "\
corravisk explain [settings]

Prints for each row of Table E.1-1 what the library will do with such an attribute. Rows that the settings change
are marked with *.

";

const DUMP: &str = "\
corravisk dump IN

Lists a data set, an element a line. A damaged one is listed up to its first fault.

  --json             a report for programs
";

const VIEW: &str = "\
corravisk view IN TAG

Shows the attribute TAG (as 0010,0010) of the top level, or says that it is absent. The whole shape is judged first.

  --raw              write the bytes themselves
  --json             a report for programs
";

/// Prints how a command is called, or all of them.
pub fn print(command: Option<&str>, out: &mut impl Write) -> Result<(), Stop> {
    let text = match command {
        Some("export") => [EXPORT, SETTINGS, EXPORT_MORE].concat(),
        Some("explain") => [EXPLAIN, SETTINGS, "  --json             a report for programs\n"].concat(),
        Some("dump") => DUMP.into(),
        Some("view") => VIEW.into(),
        None | Some("help" | "--help" | "-h") => ALL.into(),
        Some(other) => return Err(Stop::Usage(format!("no such command: {other}"))),
    };
    Ok(write!(out, "{text}")?)
}
