//! Dates that are shifted: the readings D.

use super::*;

pub fn all() -> Vec<Edge> {
    let dated = |name, vr, from: &str, days, to: &str| {
        Edge::new(name, &[element(ACQUISITION, vr, from)])
            .shift(days)
            .writes(&[element(ACQUISITION, vr, to)], [0, 1, 0, 0])
    };
    let bad = |name, vr, value: &str, days| {
        Edge::new(name, &[element(CHARACTER_SET, "CS", "MR"), element(ACQUISITION, vr, value)])
            .shift(days)
            .refused(12, 10)
    };
    vec![
        dated("D3 empty", "DA", "", 9, ""),
        dated("D3 empty DT", "DT", "", 9, ""),
        dated("D1 by 0", "DA", "20200229", 0, "20200229"),
        dated("two dates and a space", "DA", "20200301\\20210301 ", -1, "20200229\\20210228 "),
        dated("the longest shift", "DA", "20000101", 36_500, "20991207"),
        dated("the longest shift back", "DA", "20000101", -36_500, "19000125"),
        dated("the first day", "DA", "00010102", -1, "00010101"),
        dated("the last day", "DA", "99991230", 1, "99991231"),
        dated("a year's end", "DA", "20191231", 1, "20200101"),
        dated("1900 has no leap day", "DA", "19000228", 1, "19000301"),
        dated("2000 has one", "DA", "20000228", 1, "20000229"),
        dated(
            "D4 time and zone are copied",
            "DT",
            "20200301123456.789+0100\\20200301",
            -1,
            "20200229123456.789+0100\\20200229",
        ),
        dated("D4 anything is copied", "DT", "20200301x\0 ~", 1, "20200302x\0 ~"),
        bad("D1 judged by 0 too", "DA", "20200230", 0),
        bad("D5 year 0", "DA", "00000101", 0),
        bad("D5 out of the years", "DA", "99991231", 1),
        bad("D5 out of the years in front", "DA", "00010101", -1),
        bad("month 13", "DA", "20201301", 0),
        bad("month 0", "DA", "20200001", 0),
        bad("day 0", "DA", "20200100", 0),
        bad("day 32", "DA", "20200132", 0),
        bad("19000229", "DA", "19000229", 0),
        bad("D2 two spaces", "DA", "20200301  ", 0),
        bad("D2 spaces alone", "DA", "  ", 0),
        bad("D2 a zero byte", "DA", "20200301\\20200302\0", 0),
        bad("D2 an old date", "DA", "2020.03.01", 0),
        bad("D2 a range", "DA", "20200301-20200302 ", 0),
        bad("D2 a backslash at the end", "DA", "20200301\\ ", 0),
        bad("D2 no digit", "DA", "2020030:", 0),
        bad("D6 the third date", "DA", "20200301\\20200302\\20200399", 0),
        bad("D4 a short DT", "DT", "202003", 0),
        bad("D4 a short second DT", "DT", "2020030112\\2020 ", 0),
        bad("D4 an empty part", "DT", "20200301\\\\20200302", 0),
        bad("D4 a lone space", "DT", "  ", 0),
    ]
}
