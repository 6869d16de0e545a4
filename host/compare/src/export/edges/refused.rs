//! Each refusal, the order of them, and what they leave: the readings R, with F20, F22, U12 and U13.

use super::*;
use crate::export::entry;

pub fn all() -> Vec<Edge> {
    let bad_shape = || vec![0; 7];
    let bad_uid = || element(SOP_INSTANCE, "UI", "bad!");
    let bad_date = || element(STUDY_DATE, "DA", "nodate!!");
    let edge = |name| Edge::new(name, &[bad_shape()]);
    // Everything is wrong at once, and then less and less.
    let all_wrong = |name| edge(name).options(64).root("").ledger(vec![7; 64], 2).study(vec![0x80]).room(0);
    let dirty = || [slots(&["1.1"]), vec![0xDD; 200]].concat();
    let entered = || uids(STUDY, "1.2");
    vec![
        all_wrong("R order: 1 first").refused(1, 0),
        all_wrong("R order: then 2").options(0).refused(2, 0),
        all_wrong("R order: then 3").options(0).root("1").refused(3, 0),
        all_wrong("R order: then 4").options(0).root("1").ledger(dirty(), 1).refused(4, 0),
        edge("R order: then the shape").refused(6, 0).room(0),
        Edge::new("R1 both date options", &[]).options(3).refused(1, 0),
        Edge::new("R1 64", &[]).options(64).refused(1, 0),
        Edge::new("R1 the greatest number", &[]).options(u64::MAX).refused(1, 0),
        Edge::new("R1 a bit above 32", &[]).options(1 << 32).refused(1, 0),
        Edge::new("R6 36,500", &[]).options(2).shift(36_500).writes(&[], [0; 4]),
        Edge::new("R6 36,501", &[]).shift(36_501).refused(1, 0),
        Edge::new("R6 -36,501", &[]).shift(-36_501).refused(1, 0),
        Edge::new("R6 the least shift", &[]).shift(i64::MIN).refused(1, 0),
        shifted_without_the_option(),
        Edge::new("F20 shape before values", &[bad_uid(), vec![0xFF; 8]]).refused(7, 12),
        Edge::new("R4 11 before 12", &[bad_uid(), bad_date()]).shift(0).refused(11, 0),
        Edge::new("R4 12 before 11", &[bad_date(), element(STUDY, "UI", "bad!")]).shift(0).refused(12, 0),
        Edge::new("values before 13", &[entered(), element(SERIES_UID, "UI", "bad!")])
            .ledger(vec![], 0)
            .refused(11, 12),
        Edge::new("R8 13 before 14", &[entered()]).ledger(vec![], 0).room(0).refused(13, 0),
        Edge::new("11 in an item", &[sequence(SERIES, &[item(&[bad_uid()])])]).refused(11, 20),
        Edge::new("12 in an item", &[undefined_nest(2, SERIES, bad_date())]).shift(0).refused(12, 40),
        Edge::new("U13 14 enters nothing", &[entered()]).ledger(dirty(), 1).room(150).refused(14, 0),
        Edge::new("U13 13 enters nothing", &[uids(STUDY, "1.2\\1.3\\1.4\\1.5\\1.6")])
            .ledger(dirty(), 1)
            .refused(13, 0),
        Edge::new("R3 dirt behind the slots in use", &[vec![0; 3]]).ledger(dirty(), 1).refused(6, 0),
        Edge::new("R3 also for 1", &[]).options(64).ledger(dirty(), 1).refused(1, 0),
        Edge::new("U12 ledger untouched: 1", &[]).options(64).ledger(dirty(), 5).refused(1, 0),
        Edge::new("U12 ledger untouched: 2", &[]).root("1.").ledger(dirty(), 5).refused(2, 0),
        Edge::new("U12 ledger untouched: 3", &[]).ledger(dirty(), 5).refused(3, 0),
        Edge::new("3 one above the slots", &[]).ledger(dirty(), 5).refused(3, 0),
        Edge::new("3 all slots", &[]).ledger(vec![0xDD; 264], 4),
        Edge::new("3 a count that overflows", &[]).ledger(dirty(), 1 << 58).refused(3, 0),
        Edge::new("3 the greatest count", &[]).ledger(dirty(), u64::MAX).refused(3, 0),
        Edge::new("3 above 1,024", &[]).ledger(vec![1; 1_025 * 64], 1_025).refused(3, 0),
        Edge::new("R7 14 with a list", &[element(NAME, "PN", "")])
            .study(entry(NAME, "SUBJ7"))
            .room(153)
            .refused(14, 0),
        Edge::new("R7 no room at all", &[]).room(0).refused(14, 0),
        Edge::new("7 in what is removed", &[sequence(PRIVATE, &[element(MODALITY, "CS", "")])])
            .refused(7, 12),
        Edge::new("8", &[element(MODALITY, "cs", "")]).refused(8, 0),
        Edge::new("9", &[head(PIXELS, "OB", UNDEFINED), sequence_end()]).refused(9, 0),
    ]
}

/// A shift that is not zero, and no Modified Dates.
fn shifted_without_the_option() -> Edge {
    let mut edge = Edge::new("R6 a shift without Modified Dates", &[]).refused(1, 0);
    edge.settings.shift = 1;
    edge
}

/// F22: the longest data set and one that is a byte longer, one after the other. All but the header is zeros
/// that nobody touches, and it is removed, so that the machine need not find room for it twice.
pub fn longest(mut each: impl FnMut(&Edge)) {
    const LONGEST: usize = 268_435_456;
    let long = |name, size| {
        let mut data = vec![0; size];
        let front = head(PRIVATE, "OB", 268_435_444);
        data[..front.len()].copy_from_slice(&front);
        Edge { data: Lent::whole(data), ..Edge::new(name, &[]) }
    };
    each(&long("F22 exactly the longest", LONGEST).writes(&[], [0, 0, 0, 1]));
    each(&long("F22 a byte too long", LONGEST + 1).refused(5, 0));
    each(&long("F22 too long with a bad list", LONGEST + 1).study(vec![0x80]).refused(4, 0));
}
