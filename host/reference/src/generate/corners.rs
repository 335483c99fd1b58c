//! Records whose numbers are all at an edge of their range.

use crate::layout::*;

/// Every record of this kind and section with each used number at its least or its greatest; the
/// species go round. Where A of a joint would be above B the record is not sound.
fn corners_of(kind: u16, code: u16) -> Vec<Words> {
    let limits: Vec<Limit> = used(kind, code).copied().collect();
    let mut all = Vec::new();
    for choice in 0..1u32 << limits.len() {
        let mut words: Words = [0; 16];
        [words[KIND], words[SECTION]] = [kind, code];
        if has_species(kind) {
            words[SPECIES] = u16::try_from(choice % 8).expect("below 8") + 1;
        }
        for (i, &(word, least, greatest)) in limits.iter().enumerate() {
            words[word] = if choice >> i & 1 == 0 { least } else { greatest };
        }
        if in_truss(kind) {
            words[FROM_SUPPORT] = words[FROM_SUPPORT].min(words[SPAN] - 1);
        }
        all.push(words);
    }
    all
}

/// The corners of every kind and section.
pub fn corners() -> Vec<Words> {
    let pairs =
        (1..=LAST_KIND).flat_map(|kind| sections(kind).iter().map(move |code| (kind, *code)));
    pairs.flat_map(|(kind, code)| corners_of(kind, code)).collect()
}
