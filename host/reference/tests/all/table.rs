//! Every line of the printed table under every option number, read here a second time, by the columns' places.

use crate::pieces::*;
use crate::station::*;

const PRINTED: &str = include_str!(concat!(env!("CARGO_MANIFEST_DIR"), "/../../data/table-e1-1.tsv"));

/// Places of the six options' columns, by the options' bits.
const OPTION_COLUMNS: [usize; 6] = [10, 11, 9, 7, 6, 8];
const BASIC_COLUMN: usize = 4;

/// The lines that name a single tag which may stand in a data set, doubles left away.
fn lines() -> Vec<(u32, Vec<&'static str>)> {
    let mut lines = Vec::<(u32, Vec<&str>)>::new();
    for line in PRINTED.lines().skip(1) {
        let cells: Vec<&str> = line.split('\t').collect();
        let digits: String = cells[1].chars().filter(char::is_ascii_hexdigit).collect();
        let Ok(tag) = u32::from_str_radix(&digits, 16) else { continue };
        let single = digits.len() == 8 && !cells[1].contains('x') && !cells[1].contains("where");
        if single && tag >> 16 >= 8 && !lines.iter().any(|(other, _)| *other == tag) {
            lines.push((tag, cells));
        }
    }
    lines
}

/// The letter by document 01; a double's first line has the C, which is the letter it gets (A16).
fn letter(cells: &[&str], options: u64) -> char {
    let chosen = OPTION_COLUMNS.iter().enumerate().filter(|(bit, _)| options >> bit & 1 == 1);
    let letters: String = chosen.map(|(_, &column)| cells[column]).collect();
    if letters.contains('C') {
        'C'
    } else if letters.contains('K') {
        'K'
    } else {
        match cells[BASIC_COLUMN] {
            "X" => 'X',
            "Z" | "X/Z" => 'Z',
            "D" | "Z/D" | "X/D" | "X/Z/D" => 'D',
            "U" | "X/Z/U*" => 'U',
            other => panic!("{other}"),
        }
    }
}

#[test]
fn every_line_gets_its_letter_under_every_option_number() {
    let lines = lines();
    assert_eq!(lines.len(), 600);
    for options in (0..64).filter(|options| options & 3 != 3) {
        let station = Station { options, ledger: vec![], room: Some(1_000), ..Station::default() };
        for (tag, cells) in &lines {
            let text = element(*tag, "LO", "text");
            let outcome = station.run(&text);
            let letter = letter(cells, options);
            if letter == 'U' {
                assert_eq!(outcome.report.refusal, 11, "{tag:08X} {options}");
                continue;
            }
            let expected = match letter {
                'X' => vec![],
                'K' => vec![text],
                'Z' => vec![element(*tag, "LO", "")],
                _ => vec![element(*tag, "LO", "ANON")],
            };
            assert_eq!(outcome.export(), export(options, &expected), "{tag:08X} {options}");
        }
    }
}

#[test]
fn every_date_row_is_shifted_under_modified_dates_and_no_other_row_is() {
    let station = Station { ledger: vec![], room: Some(1_000), ..Station::shifting(1) };
    let mut shifted = 0;
    for (tag, cells) in &lines() {
        let outcome = station.run(&element(*tag, "DA", "20201231"));
        let day_after = export(MODIFIED_DATES, &[element(*tag, "DA", "20210101")]);
        assert_eq!(outcome.export() == day_after, cells[11] == "C", "{tag:08X}");
        shifted += u32::from(cells[11] == "C");
    }
    assert_eq!(shifted, 161);
}
