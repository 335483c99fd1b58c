//! Logs that rot from above only, section code 5: W by appendix 3 of VSN 12-73.

use crate::section::log_modulus;

/// The least and the greatest diameter that have a row, cm.
pub const LEAST: u16 = 14;
pub const GREATEST: u16 = 36;

const ROWS: usize = (GREATEST - LEAST + 1) as usize;
/// The columns of the appendix: depth 1 to 17 cm.
const COLUMNS: usize = 17;

/// W by depth, in tenths of a cm³, from depth 1; 0 past the row's end.
type Printed = [u32; COLUMNS];
/// W by depth, in tenths of a cm³, from depth 0.
type Standing = [u32; COLUMNS + 1];

/// The lines W of appendix 3 as printed, its misprints included. The first two rows are printed
/// in tenths of a cm³, the others in whole cm³.
#[rustfmt::skip]
const APPENDIX_3: [Printed; ROWS] = [
    /* 14 */ tenths(&[2255, 1859, 1499, 1196, 925, 694, 500]),
    /* 15 */ tenths(&[2808, 2348, 1939, 1568, 1243, 962, 720]),
    /* 16 */ whole(&[345, 292, 244, 201, 163, 129, 100, 75]),
    /* 17 */ whole(&[420, 357, 302, 253, 208, 168, 133, 103]),
    /* 18 */ whole(&[499, 431, 369, 312, 261, 215, 174, 138, 105]),
    /* 19 */ whole(&[592, 516, 445, 381, 322, 269, 222, 179, 142]),
    /* 20 */ whole(&[694, 610, 531, 459, 392, 332, 277, 227, 184, 146]),
    /* 21 */ whole(&[809, 715, 628, 547, 472, 404, 341, 285, 234, 189]),
    /* 22 */ whole(&[935, 832, 735, 645, 562, 485, 414, 350, 292, 240, 194]),
    /* 23 */ whole(&[1074, 960, 854, 754, 662, 576, 497, 425, 359, 300, 246]),
    /* 24 */ whole(&[1225, 1101, 985, 875, 773, 678, 590, 509, 435, 368, 307, 252]),
    /* 25 */ whole(&[1391, 1256, 1128, 1008, 896, 791, 694, 604, 521, 445, 376, 314]),
    /* 26 */ whole(&[1571, 1424, 1285, 1155, 1032, 917, 810, 710, 618, 533, 455, 384, 320]),
    /* 27 */ whole(&[1765, 1606, 1456, 1314, 1180, 1054, 937, 827, 725, 631, 544, 464, 392]),
    /* 28 */ whole(&[1975, 1804, 1642, 1488, 1342, 1201, 1077, 957, 843, 740, 644, 555, 474, 400]),
    /* 29 */ whole(&[2201, 2017, 1842, 1676, 1518, 1370, 1230, 1099, 976, 861, 755, 656, 566, 483]),
    /* 30 */ whole(&[2444, 2246, 2058, 1879, 1709, 1549, 1397, 1254, 1120, 995, 878, 769, 669, 577, 492]),
    /* 31 */ whole(&[2704, 2492, 2290, 2098, 1916, 1742, 1578, 1423, 1278, 1141, 1013, 894, 783, 681, 587]),
    /* 32 */ whole(&[2981, 2755, 2540, 2334, 2138, 1951, 1775, 1607, 1450, 1292, 1162, 1031, 910, 797, 693, 597]),
    /* 33 */ whole(&[3277, 3037, 2806, 2586, 2376, 2176, 1986, 1806, 1636, 1475, 1324, 1182, 1049, 926, 811, 705]),
    /* 34 */ whole(&[3595, 3336, 3091, 2856, 2632, 2418, 2214, 2021, 1838, 1664, 1500, 1346, 1202, 1067, 941, 824, 717]),
    /* 35 */ whole(&[3927, 3655, 3394, 3145, 2954, 2677, 2459, 2252, 2055, 1868, 1692, 1525, 1368, 1221, 1084, 956, 838]),
    /* 36 */ whole(&[4281, 3994, 3717, 3451, 3197, 2954, 2721, 2499, 2289, 2088, 1898, 1719, 1549, 1390, 1241, 1101, 941]),
];

/// A row in tenths of a cm³.
const fn tenths(row: &[u32]) -> Printed {
    in_units_of(1, row)
}

/// A row in whole cm³.
const fn whole(row: &[u32]) -> Printed {
    in_units_of(10, row)
}

const fn in_units_of(unit: u32, row: &[u32]) -> Printed {
    let mut printed = [0; COLUMNS];
    let mut i = 0;
    while i < row.len() {
        printed[i] = unit * row[i];
        i += 1;
    }
    printed
}

/// From left to right, the sound W first: where a printed W is above the one that stands to its
/// left, the left one stands.
const fn standing(sound: u32, printed: &Printed) -> Standing {
    let mut row = [0; COLUMNS + 1];
    row[0] = sound;
    let mut depth = 1;
    while depth < row.len() {
        let (left, here) = (row[depth - 1], printed[depth - 1]);
        row[depth] = if here > left { left } else { here };
        depth += 1;
    }
    row
}

const fn table() -> [Standing; ROWS] {
    let mut rows = [[0; COLUMNS + 1]; ROWS];
    let mut i = 0;
    while i < ROWS {
        rows[i] = standing(10 * log_modulus(LEAST + i as u16), &APPENDIX_3[i]);
        i += 1;
    }
    rows
}

/// Worked out by the compiler: the twin looks W up as the library does.
static TABLE: [Standing; ROWS] = table();

/// W of one log in tenths of a cm³, for a diameter that has a row; 0 past the row's end.
pub(crate) fn crescent_modulus(diameter: u16, depth: u16) -> u32 {
    let row = &TABLE[usize::from(diameter - LEAST)];
    row.get(usize::from(depth)).copied().unwrap_or(0)
}

/// The last depth that the row of a diameter has, cm.
pub fn last_depth(diameter: u16) -> u16 {
    let row = &APPENDIX_3[usize::from(diameter - LEAST)];
    row.iter().zip(1..).filter(|(w, _)| **w > 0).map(|(_, depth)| depth).max().unwrap_or(0)
}

#[cfg(test)]
mod tests {
    use super::*;

    #[test]
    fn diameter_14_with_depth_2_has_185_9() {
        assert_eq!(crescent_modulus(14, 2), 1859);
    }

    #[test]
    fn depth_0_has_the_sound_w() {
        for diameter in LEAST..=GREATEST {
            assert_eq!(crescent_modulus(diameter, 0), 10 * log_modulus(diameter));
        }
    }

    /// Two diameters have as many depths each, up to the 17 columns of the page.
    #[test]
    fn the_lengths_of_the_rows() {
        let lengths: Vec<u16> = (LEAST..=GREATEST).map(last_depth).collect();
        let expected =
            [7, 7, 8, 8, 9, 9, 10, 10, 11, 11, 12, 12, 13, 13, 14, 14, 15, 15, 16, 16, 17, 17, 17];
        assert_eq!(lengths, expected);
    }

    #[test]
    fn the_last_entry_of_every_row() {
        let last = |diameter| crescent_modulus(diameter, last_depth(diameter));
        let entries: Vec<u32> = (LEAST..=GREATEST).map(last).collect();
        let whole = [
            50, 72, 75, 103, 105, 142, 146, 189, 194, 246, 252, 314, 320, 392, 400, 483, 492, 587,
            597, 705, 717, 838, 941,
        ];
        assert_eq!(entries, whole.map(|w| 10 * w));
    }

    #[test]
    fn nothing_is_left_past_the_end_of_a_row() {
        for diameter in LEAST..=GREATEST {
            for depth in last_depth(diameter) + 1..=60 {
                assert_eq!(crescent_modulus(diameter, depth), 0, "{diameter}, {depth}");
            }
        }
    }

    #[test]
    fn no_row_rises() {
        for row in TABLE {
            assert!(row.is_sorted_by(|left, right| left >= right), "{row:?}");
        }
    }

    /// No printed W is above its left one, so the rule shows on other rows only.
    #[test]
    fn the_left_one_stands() {
        let row = |sound, printed: &[u32]| standing(sound, &tenths(printed))[..6].to_vec();
        assert_eq!(row(90, &[80, 85, 70, 75, 60]), [90, 80, 80, 70, 70, 60]);
        // The one that stands to the left, not the one that is printed there.
        assert_eq!(row(90, &[80, 99, 88, 88]), [90, 80, 80, 80, 80, 0]);
        // For depth 1 the sound W is the left one.
        assert_eq!(row(90, &[95, 92]), [90, 90, 90, 0, 0, 0]);
        let as_printed = (LEAST..).zip(&APPENDIX_3).all(|(diameter, printed)| {
            (1..).zip(printed).all(|(depth, w)| crescent_modulus(diameter, depth) == *w)
        });
        assert!(as_printed, "a printed W is above its left one");
    }
}
