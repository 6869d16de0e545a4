//! The second program: a plain station that takes the patient out of a DICOM data set.
//!
//! It was written from document 01 (the specification) and the settled readings of it, and uses no code of the
//! proved station's, so that the answers of the two can be compared byte for byte. What they share is what they were
//! made from: document 01, the readings, and one transcription of Table E.1-1 (data/table-e1-1.tsv), which is
//! compiled in here and from which the proved station's rows are made. An error in these shows in no comparison.
//! Comments name the section of document 01, or the reading (F1, A7, W14 ...), that a piece of code follows.
//!
//! | module | subject |
//! |---|---|
//! | `refusal` | the fourteen reasons to say no |
//! | `vr` | value representations: header form, list service, dummies, padding |
//! | `layout` | the walk over a data set, and every rule about its shape |
//! | `table` | Table E.1-1: rows, repeating lines, either-or letters |
//! | `options` | the option number, its codes and meanings |
//! | `actions` | from a tag to its letter, from letter and VR to what is done |
//! | `uid` | what a UID is, and which UIDs a value holds |
//! | `ledger` | slots, numbers, new UIDs |
//! | `dates` | calendar dates and their shift |
//! | `lists` | the replacement lists |
//! | `writing` | bytes of the output, markers included |
//! | `station` | the two entries |
#![forbid(unsafe_code)]

mod actions;
mod dates;
mod layout;
mod ledger;
mod lists;
mod options;
mod refusal;
mod station;
mod table;
mod uid;
mod vr;
mod writing;

pub use station::{Report, View, deidentify, view};
