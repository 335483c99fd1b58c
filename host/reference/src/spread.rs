//! How the deck over closely spaced stringers spreads a wheel's load: the stiffness number k, the
//! shares of the stringers, and β, the most that the wheels of an axle bring to one of them.

use crate::fraction::{over, whole};
use crate::reader::Member;
use crate::section::{deck_inertia, moment_of_inertia};

/// k and β are kept in ten-thousandths.
pub const WHOLE: i128 = 10_000;
/// The greatest k, ten.
pub const GREATEST_K: i128 = 100_000;

/// "The stiffness number k = 8d³I / (l³J) is kept in ten-thousandths, rounded half up, at most
/// 100000 of them." "J = 0 takes the greatest k."
pub fn stiffness_number(member: &Member) -> i128 {
    let (i, j) = (moment_of_inertia(member), deck_inertia(member));
    if j == whole(0) {
        return GREATEST_K;
    }
    let [d, l] = [member.d, member.l].map(i128::from);
    let k = whole(8 * d.pow(3)) * i / (whole(l.pow(3)) * j);
    (k * whole(WHOLE) + over(1, 2)).floor().min(GREATEST_K)
}

/// The shares of the loaded stringer and of those one, two and three places from it, all over one
/// divisor. "Any stringer farther off has share 0."
#[derive(Clone, Copy, Debug, PartialEq, Eq)]
pub struct Shares {
    pub parts: [i128; 4],
    pub divisor: i128,
}

impl Shares {
    /// The part of a stringer so many places from the loaded one, to either side.
    fn part(&self, places: i128) -> i128 {
        let places = usize::try_from(places.abs()).expect("a few places");
        self.parts.get(places).copied().unwrap_or(0)
    }
}

/// "For k of 1/3 or more the shares of the loaded stringer and its neighbours are (1+2k) and 1 over
/// 3+2k." Both are multiplied by 10⁴, as k is in ten-thousandths.
fn three_stringers(k: i128) -> Shares {
    let one = WHOLE;
    Shares { parts: [one + 2 * k, one, 0, 0], divisor: 3 * one + 2 * k }
}

/// "Below, they are 1+18k+7k², 1+11k, 1−3k over 5+34k+7k²." All are multiplied by 10⁸.
fn five_stringers(k: i128) -> Shares {
    let (one, k, square) = (WHOLE.pow(2), WHOLE * k, k.pow(2));
    Shares {
        parts: [one + 18 * k + 7 * square, one + 11 * k, one - 3 * k, 0],
        divisor: 5 * one + 34 * k + 7 * square,
    }
}

/// "For k below 0.055 the shares are 1+72k+131k²+26k³, 1+57k+46k², 1+23k−18k², 1−18k+3k² over
/// 7+196k+193k²+26k³." All are multiplied by 10¹².
fn seven_stringers(k: i128) -> Shares {
    let (one, square, cube) = (WHOLE.pow(3), WHOLE * k.pow(2), k.pow(3));
    let k = WHOLE.pow(2) * k;
    Shares {
        parts: [
            one + 72 * k + 131 * square + 26 * cube,
            one + 57 * k + 46 * square,
            one + 23 * k - 18 * square,
            one - 18 * k + 3 * square,
        ],
        divisor: 7 * one + 196 * k + 193 * square + 26 * cube,
    }
}

/// The spread of a stiffness number: from 1/3 up, below it, and below 0.055. "At 0.055 and above
/// nothing moves."
pub fn shares(k: i128) -> Shares {
    if 3 * k >= WHOLE {
        three_stringers(k)
    } else if 1000 * k >= 55 * WHOLE {
        five_stringers(k)
    } else {
        seven_stringers(k)
    }
}

/// Stringers that are tried, counted from the one under a wheel. The other wheel stands at most ten
/// spacings from it, as the track is at most 300 and the spacing at least 30, and no share reaches
/// farther than three: these are more than any load reaches.
const TRIED: std::ops::RangeInclusive<i128> = -20..=30;

/// "With E = md + r (m whole, r below d), β is the greatest over whole j of
/// share(|j|) + ((d−r) × share(|j−m|) + r × share(|j−m−1|)) / d": over the shares' divisor times d.
fn greatest_influence(shares: &Shares, spacing: i128, track: i128) -> i128 {
    let (d, m, r) = (spacing, track / spacing, track % spacing);
    let influence =
        |j: i128| d * shares.part(j) + (d - r) * shares.part(j - m) + r * shares.part(j - m - 1);
    TRIED.map(influence).max().expect("stringers are tried")
}

/// β of a stiffness number: "It is kept in ten-thousandths, rounded up."
pub fn beta(k: i128, spacing: u16, track: u16) -> i128 {
    let (shares, d) = (shares(k), i128::from(spacing));
    over(WHOLE * greatest_influence(&shares, d, track.into()), shares.divisor * d).ceiling()
}
