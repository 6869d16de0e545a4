//! The comparison of the library's answers about actions with what the second program does: every tag of the
//! table and those of the rules beside it, at both levels, with every VR, under every option number.

use crate::fates::fate;
use crate::pieces::*;
use crate::tags;

/// Tags that rules speak of, and ones that have no row.
const BESIDE_THE_TABLE: [u32; 22] = [
    0x0008_0000,
    0x0008_0001,
    0x0008_0005,
    0x0008_0060,
    0x0009_0010,
    0x0010_0000,
    0x0012_0062,
    0x0012_0063,
    0x0012_0064,
    0x0028_0303,
    0x4FFE_3000,
    0x5000_0010,
    0x50FE_FFFF,
    0x5100_0010,
    0x6000_3000,
    0x6000_3001,
    0x60FE_4000,
    0x6001_3000,
    0x6100_3000,
    0x7FE0_0010,
    0xFFFC_FFFC,
    0xFFFD_0010,
];

#[derive(Default)]
pub struct Actions {
    pub cases: u64,
    pub differ: u64,
    /// How often each fate came up.
    fates: [u64; 8],
}

/// Answers by number, as the C interface gives them.
pub type Action = fn(u64, bool, u64, u64) -> u64;

impl Actions {
    /// One in `every` of all there is to ask.
    pub fn compare(action: Action, every: usize) -> Actions {
        let mut actions = Actions::default();
        let options = (0..64).filter(|number| number & 3 != 3);
        let vrs = SHORT_VRS.iter().chain(&LONG_VRS).chain(&["SQ"]);
        let vrs: Vec<[u8; 2]> = vrs.map(|vr| vr.as_bytes().try_into().expect("two letters")).collect();
        let tags = tags::of_table().iter().chain(&BESIDE_THE_TABLE);
        let mut turn = 0;
        for options in options {
            for &tag in tags.clone() {
                for top in [true, false] {
                    for &vr in &vrs {
                        turn += 1;
                        if turn % every == 0 {
                            actions.one(action, options, top, tag, vr);
                        }
                    }
                }
            }
        }
        actions
    }

    fn one(&mut self, action: Action, options: u64, top: bool, tag: u32, vr: [u8; 2]) {
        let expected = fate(options, top, tag, vr);
        let given = action(options, top, tag.into(), u16::from_le_bytes(vr).into());
        self.cases += 1;
        self.fates[expected as usize] += 1;
        if given != expected as u64 {
            self.differ += 1;
            if self.differ <= 3 {
                let vr = String::from_utf8_lossy(&vr);
                println!("DIFFERENCE in actions: options {options} top {top} tag {tag:08X} VR {vr}");
                println!("  given {given}, expected {} ({expected:?})", expected as u64);
            }
        }
    }

    pub fn print(&self) {
        const NAMES: [&str; 8] =
            ["removed", "kept", "walked into", "emptied", "dummy", "renamed", "shifted", "refused"];
        println!("actions: {} cases", self.cases);
        for (name, count) in NAMES.iter().zip(self.fates) {
            println!("  {name:<24}{count:>10}");
        }
    }

    pub fn lacks_something(&self) -> bool {
        self.fates.contains(&0)
    }
}
