//! A gauge's readings by their bits: good ones, and such as are none for every reason.

use super::Random;

/// A good reading is a number of 64ths of a mm from 0 to this one.
pub const LAST_READING: u16 = 512 * 64 - 1;

const SIGN: u32 = 1 << 31;
const INFINITY: u32 = f32::INFINITY.to_bits();
/// The bits of 512 mm.
const TOO_GREAT: u32 = 512f32.to_bits();

/// The bits of so many 64ths of a mm.
pub fn reading_bits(count: u16) -> u32 {
    (f32::from(count) / 64.0).to_bits()
}

/// The good readings at the ends, and at each power of two with its neighbours.
pub fn edge_readings() -> Vec<u16> {
    let powers = (0..15).map(|power| 1 << power).flat_map(|count| [count - 1, count, count + 1]);
    let mut all: Vec<u16> = powers.chain([LAST_READING - 1, LAST_READING]).collect();
    all.sort_unstable();
    all.dedup();
    all
}

/// A good reading up to this one, the edges often.
pub(super) fn good(random: &mut Random, most: u16) -> u16 {
    match random.below(3) {
        0 => most,
        1 => *random.pick(&edge_readings()).min(&most),
        _ => random.between(0, most),
    }
}

/// Bits from the least to the greatest: both often, and these.
fn among(random: &mut Random, least: u32, greatest: u32, these: u32) -> u32 {
    let any = random.large(least, greatest);
    *random.pick(&[least, greatest, these, any, any])
}

/// Why bits are no reading.
#[derive(Clone, Copy, Debug, PartialEq, Eq, PartialOrd, Ord)]
pub enum NoReading {
    NotANumber,
    Infinite,
    MinusZero,
    /// A good reading but for its sign.
    Negative,
    Denormal,
    /// Above 0 and below 1/64.
    Small,
    /// An odd number of 128ths.
    Half,
    /// 512 or more.
    Great,
    /// A good reading with one further bit set.
    OneBit,
    /// Any bits between 1/64 and 512 of which the last is set.
    Noise,
}

use NoReading::*;

impl NoReading {
    pub const ALL: [NoReading; 10] =
        [NotANumber, Infinite, MinusZero, Negative, Denormal, Small, Half, Great, OneBit, Noise];

    /// Bits that are no reading for this reason.
    pub fn bits(self, random: &mut Random) -> u32 {
        let count = random.between(1, LAST_READING);
        let sign = *random.pick(&[0, SIGN]);
        match self {
            NotANumber => sign | among(random, INFINITY + 1, SIGN - 1, f32::NAN.to_bits()),
            Infinite => sign | INFINITY,
            MinusZero => SIGN,
            Negative => SIGN | reading_bits(good(random, LAST_READING).max(1)),
            Denormal => {
                let least_normal = f32::MIN_POSITIVE.to_bits();
                sign | among(random, 1, least_normal - 1, least_normal / 2)
            }
            Small => {
                let [least, half] = [f32::MIN_POSITIVE, 1.0 / 128.0].map(f32::to_bits);
                among(random, least, reading_bits(1) - 1, half)
            }
            Half => (f32::from(2 * good(random, LAST_READING) + 1) / 128.0).to_bits(),
            Great if random.once_in(3) => reading_bits(random.between(LAST_READING + 1, u16::MAX)),
            Great => among(random, TOO_GREAT, INFINITY - 1, 1024f32.to_bits()),
            // So many bits stand behind those of a whole number of 64ths.
            OneBit => reading_bits(count) | 1 << random.below(23 - count.ilog2() as usize),
            Noise => random.large(reading_bits(1), TOO_GREAT - 1) | 1,
        }
    }
}

/// Three good readings with this elastic deflection in 64ths; the first is any, or next to the two
/// others.
pub fn deflected(random: &mut Random, by: u16) -> [u32; 3] {
    let after = good(random, LAST_READING - by);
    let (loaded, any) = (after + by, good(random, LAST_READING));
    let empty = *random.pick(&[0, any, any, after, loaded, after.saturating_sub(1)]);
    [empty, loaded, after].map(reading_bits)
}

/// Three good readings of which the last is above the second, by one 64th often.
pub fn risen(random: &mut Random) -> [u32; 3] {
    let any = good(random, LAST_READING - 1);
    let by = 1 + *random.pick(&[0, 0, 1, any]);
    let [empty, after, loaded] = deflected(random, by);
    [empty, loaded, after]
}
