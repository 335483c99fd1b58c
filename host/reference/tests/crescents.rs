//! What the generator makes of logs that rot from above.

use reference::crescent::{last_depth, GREATEST, LEAST};
use reference::generate::*;
use reference::layout::*;
use std::collections::BTreeSet;

const SEED: u64 = 0x00c4_e5ce;

fn is_crescent(words: &Words) -> bool {
    words[SECTION] == 5
}

#[test]
fn every_row_is_met_at_its_ends() {
    let mut random = Random::new(SEED);
    let members = survey(&mut random, Spread::Wide, 100_000);
    let met: BTreeSet<(u16, u16)> = members
        .iter()
        .filter(|words| is_crescent(words))
        .map(|words| (words[S1], words[S2]))
        .collect();
    for diameter in LEAST..=GREATEST {
        let last = last_depth(diameter);
        for depth in [0, 1, last, last + 1, 17, 18, 60] {
            assert!(met.contains(&(diameter, depth)), "seed {SEED:#x}, {diameter}, {depth}");
        }
    }
}

/// Depth is rot: it grows, within the row too, and but for the dead load nothing else changes.
#[test]
fn a_worse_survey_has_deeper_crescents() {
    let mut random = Random::new(SEED);
    let members = survey(&mut random, Spread::Wide, 64);
    let (mut deeper, mut within) = (0, 0);
    for round in 0..600 {
        let worse = worse_survey(&mut random, &members, Wear::Any, 0);
        for (one, other) in members.iter().zip(&worse).filter(|(one, _)| is_crescent(one)) {
            let mut alike = *other;
            [alike[DEAD_LOAD], alike[S2]] = [one[DEAD_LOAD], one[S2]];
            assert_eq!(alike, *one, "seed {SEED:#x}, round {round}");
            assert!(other[S2] >= one[S2], "seed {SEED:#x}, round {round}");
            deeper += u32::from(other[S2] > one[S2]);
            within += u32::from(other[S2] > one[S2] && other[S2] <= last_depth(other[S1]));
        }
    }
    assert!(deeper > 100 && within > 100, "{deeper} deeper, {within} of them within the row");
}
