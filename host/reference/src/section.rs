//! Net sections: section modulus W in cm³, moments of inertia I and J in cm⁴, area F in cm², dowel
//! capacity T in kgf.

use crate::crescent::crescent_modulus;
use crate::fraction::{over, whole, Fraction};
use crate::reader::Member;

/// W of a log by net diameter 13 to 39.
const LOG_W: [u32; 27] = [
    216, 269, 331, 402, 482, 573, 673, 785, 909, 1045, 1194, 1357, 1534, 1726, 1932, 2155, 2394,
    2651, 2925, 3217, 3528, 3859, 4209, 4580, 4973, 5387, 5824,
];
const LEAST_LOG: u16 = 13;

/// W of one log; 0 below the table.
pub(crate) const fn log_modulus(net_diameter: u16) -> u32 {
    match net_diameter.checked_sub(LEAST_LOG) {
        Some(row) => LOG_W[row as usize],
        None => 0,
    }
}

/// W of so many tiers of logs: the top one is decayed, the others sound.
fn in_tiers(top: Fraction, diameter: u16, tiers: u16) -> Fraction {
    top + whole(u32::from(tiers - 1) * log_modulus(diameter))
}

/// Net width and net height of a sawn piece.
fn net_piece(s: &[u16; 6]) -> (i128, i128) {
    (s[0].saturating_sub(s[2]).into(), s[1].saturating_sub(s[3]).into())
}

/// W of a section in bending: code 1 rots all round, code 5 from above, and code 2 is sawn.
pub fn section_modulus(member: &Member) -> Fraction {
    let s = &member.s;
    match member.code {
        1 => in_tiers(whole(log_modulus(s[0].saturating_sub(2 * s[1]))), s[0], s[2]),
        5 => in_tiers(over(crescent_modulus(s[0], s[1]).into(), 10), s[0], s[2]),
        _ => {
            let (b, h) = net_piece(s);
            over(i128::from(s[4]) * b * h * h, 6)
        }
    }
}

/// "I is W times half the net height, taken for each tier and added": of one log the net height is
/// its net diameter.
fn log_inertia(net_diameter: u16) -> Fraction {
    whole(log_modulus(net_diameter)) * over(net_diameter.into(), 2)
}

/// I of a closely spaced stringer, cm⁴: code 1, whose top tier is decayed and whose others are
/// sound, or code 2.
pub fn moment_of_inertia(member: &Member) -> Fraction {
    let s = &member.s;
    match member.code {
        1 => {
            let top = log_inertia(s[0].saturating_sub(2 * s[1]));
            top + whole(s[2] - 1) * log_inertia(s[0])
        }
        _ => section_modulus(member) * over(net_piece(s).1, 2),
    }
}

/// J of the deck over closely spaced stringers, cm⁴: "the boards' width × net thickness³ / 12,
/// times count, net thickness being h − B".
pub fn deck_inertia(member: &Member) -> Fraction {
    let thickness = i128::from(member.h.saturating_sub(member.b));
    over(i128::from(member.a) * thickness.pow(3), 12) * whole(member.x)
}

/// F of a section, code 2 or 4.
pub fn area(member: &Member) -> Fraction {
    let s = &member.s;
    let (gross, lost) = if member.code == 2 {
        let (b, h) = net_piece(s);
        (i128::from(s[4]) * b * h, s[5])
    } else {
        (i128::from(s[0]), s[1])
    };
    whole((gross - i128::from(lost)).max(0))
}

/// T of one cut of a dowel, code 3: the least of table 4's terms.
pub fn dowel_capacity(member: &Member) -> Fraction {
    let s = &member.s;
    let delta = over(s[1].into(), 10);
    let c = whole(s[2].saturating_sub(s[4]));
    let a = whole(s[3].saturating_sub(s[4]));
    let (middle, outer, bent, a_squares, limit) = match s[0] {
        1 => (45, 70, 165, 2, 230),
        2 => (45, 70, 230, 1, 370),
        _ => (25, 45, 40, 2, 60),
    };
    let square = delta * delta;
    let terms = [
        whole(middle) * c * delta,
        whole(outer) * a * delta,
        whole(bent) * square + whole(a_squares) * a * a,
        whole(limit) * square,
    ];
    terms.into_iter().reduce(|least, term| if term < least { term } else { least }).unwrap()
}
