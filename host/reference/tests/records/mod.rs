//! A record of each kind, and the stringer whose log rots from above.

use reference::layout::Words;

/// A record by its sixteen numbers: kind, species, l, d, x, h, q, code, s1 to s6, A, B.
pub const STRINGER: Words = [1, 1, 500, 140, 0, 0, 100, 1, 28, 0, 1, 0, 0, 0, 0, 0];
pub const CRESCENT: Words = [1, 2, 500, 140, 0, 0, 100, 5, 30, 4, 2, 0, 0, 0, 0, 0];
pub const BEAM: Words = [2, 3, 300, 0, 200, 0, 0, 2, 20, 25, 1, 0, 4, 0, 0, 0];
pub const CHORD: Words = [3, 4, 1000, 500, 200, 150, 500, 2, 5, 20, 0, 0, 4, 3, 0, 0];
pub const DOWELS: Words = [4, 5, 1000, 500, 200, 10, 0, 3, 1, 16, 10, 6, 1, 20, 3, 4];
pub const KEYS: Words = [5, 6, 1000, 500, 200, 150, 0, 4, 400, 20, 0, 0, 0, 0, 3, 4];
pub const PLATES: Words = [6, 0, 1000, 500, 200, 150, 0, 4, 9999, 0, 0, 0, 0, 0, 3, 4];
pub const CLOSE: Words = [7, 7, 600, 60, 2, 10, 100, 1, 30, 1, 2, 0, 0, 0, 20, 1];

pub const ALL: [Words; 8] = [STRINGER, CRESCENT, BEAM, CHORD, DOWELS, KEYS, PLATES, CLOSE];

/// The record with some words changed.
pub fn with(mut words: Words, changes: &[(usize, u16)]) -> Words {
    changes.iter().for_each(|&(word, value)| words[word] = value);
    words
}
