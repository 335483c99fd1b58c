//! The shares of closely spaced stringers against appendix 8 of VSN 12-73, which prints them by k
//! for three, five and seven stringers, and against example 2.

use reference::spread::{beta, shares, Shares, WHOLE};

/// k in ten-thousandths, then the shares in thousandths, as printed.
type Row<const PRINTED: usize> = (i128, [i128; PRINTED]);

/// "На три элемента": α₁, α₂. Four rows more are printed below 1/3, where more stringers share.
const THREE: [Row<2>; 20] = [
    (100_000, [914, 43]),
    (90_000, [904, 48]),
    (80_000, [894, 53]),
    (70_000, [882, 59]),
    (60_000, [866, 67]),
    (50_000, [846, 77]),
    (40_000, [818, 91]),
    (35_000, [800, 100]),
    (30_000, [778, 111]),
    (25_000, [750, 125]),
    (20_000, [714, 143]),
    (15_000, [666, 167]),
    (10_000, [600, 200]),
    (9000, [582, 209]),
    (8000, [564, 218]),
    (7000, [544, 228]),
    (6000, [524, 238]),
    (5000, [500, 250]),
    (4000, [474, 263]),
    // Printed 0.333 for 1/3, and one ten-thousandth above it here.
    (3334, [454, 273]),
];

/// "На пять элементов": α₁, α₂, α₃.
const FIVE: [Row<3>; 21] = [
    (3000, [444, 272, 6]),
    (2800, [436, 271, 11]),
    (2600, [430, 270, 15]),
    (2400, [422, 269, 21]),
    (2200, [414, 267, 26]),
    (2000, [404, 265, 33]),
    (1900, [398, 264, 37]),
    (1800, [394, 263, 41]),
    (1700, [388, 261, 45]),
    (1600, [382, 260, 49]),
    (1500, [376, 258, 54]),
    (1400, [370, 256, 59]),
    (1300, [362, 255, 64]),
    (1200, [356, 253, 70]),
    (1100, [346, 251, 76]),
    (1000, [338, 248, 83]),
    (900, [330, 245, 90]),
    (800, [320, 242, 98]),
    (700, [310, 238, 107]),
    (600, [298, 235, 116]),
    (550, [292, 233, 121]),
];

/// "На семь элементов": α₁, α₂, α₃, α₄. The printed shares add to one but for their rounding, to
/// 1.002 at the most.
const SEVEN: [Row<4>; 8] = [
    (500, [284, 228, 126, 4]),
    (400, [268, 221, 128, 18]),
    (300, [250, 211, 130, 35]),
    (200, [226, 196, 134, 57]),
    (100, [194, 175, 137, 91]),
    (50, [170, 161, 140, 114]),
    (10, [150, 147, 142, 136]),
    (0, [143, 143, 143, 143]),
];

/// Every share within so many ten-thousandths of the printed one, multiplied out by the divisor,
/// and none beyond those that are printed.
fn near<const PRINTED: usize>((k, printed): Row<PRINTED>, within: i128) {
    let Shares { parts, divisor } = shares(k);
    for (part, thousandths) in parts.into_iter().zip(printed) {
        let apart = (10_000 * part - 10 * thousandths * divisor).abs();
        assert!(apart <= within * divisor, "k {k}: {part} / {divisor}, printed {thousandths}");
    }
    assert!(parts[PRINTED..].iter().all(|&part| part == 0), "k {k}: {parts:?}");
}

#[test]
fn three_stringers_as_printed() {
    THREE.into_iter().for_each(|row| near(row, 15));
}

#[test]
fn five_stringers_as_printed() {
    FIVE.into_iter().for_each(|row| near(row, 15));
}

/// The farthest is α₃ at k = 0.05: printed 0.126, 2.105 / 17.28575 = 0.1218.
#[test]
fn seven_stringers_as_printed() {
    SEVEN.into_iter().for_each(|row| near(row, 45));
}

/// "k = 0.159 gives the shares 0.38, 0.26, 0.05 of example 2", rounded to hundredths.
#[test]
fn example_2() {
    let Shares { parts, divisor } = shares(1590);
    let hundredths = parts.map(|part| (200 * part + divisor) / (2 * divisor));
    assert_eq!(hundredths, [38, 26, 5, 0]);
}

/// Example 2 goes on: d = 60, E = 190 = 3 × 60 + 10. Printed are β = 0.381 under a wheel, which is
/// the greatest, and 33.4 kgf/cm for W = 1642 of a log that rots from above, which kind 7 has no
/// section code for, K = 1, n = 1.4, q = 0.97, l = 500.
#[test]
fn example_2_to_the_end() {
    let beta = beta(1590, 60, 190);
    assert_eq!(beta, 3817);
    // Tenths of kgf/cm, rounded. The divisor is times 10⁵, as n is in tenths and β in
    // ten-thousandths; 2.4 × 0.97 × 500² = 582,000.
    let (front, divisor) = (3072 * 1642 - 582_000, 14 * beta * 500 * 500);
    assert_eq!((2 * 10 * 100_000 * front + divisor) / (2 * divisor), 334);
}

/// The shares of both sides add to one, and none is negative, for every k that can be kept: over
/// seven stringers, over five and over three.
#[test]
fn the_shares_add_to_one() {
    for k in 0..=10 * WHOLE {
        let Shares { parts, divisor } = shares(k);
        let [own, next, second, third] = parts;
        assert_eq!(own + 2 * (next + second + third), divisor, "k {k}");
        let reached = match k {
            0..=549 => 4,
            550..=3333 => 3,
            _ => 2,
        };
        let (near, far) = parts.split_at(reached);
        assert!(near.iter().all(|&part| part > 0), "k {k}: {parts:?}");
        assert!(far.iter().all(|&part| part == 0), "k {k}: {parts:?}");
    }
}

/// 549 ten-thousandths are below 0.055, 550 are not.
#[test]
fn seven_stringers_below_0_055() {
    // k = 0.0549, k² = 0.00301401, k³ = 0.000165469149; all are multiplied by 10¹²:
    // 1 + 3.9528 + 0.39483531 + 0.004302197874, 1 + 3.1293 + 0.13864446, 1 + 1.2627 − 0.05425218
    // and 1 − 0.9882 + 0.00904203 over 7 + 10.7604 + 0.58170393 + 0.004302197874.
    let seven = Shares {
        parts: [5_351_937_507_874, 4_267_944_460_000, 2_208_447_820_000, 20_842_030_000],
        divisor: 18_346_406_127_874,
    };
    // k = 0.055, k² = 0.003025; all are multiplied by 10⁸:
    // 1 + 0.99 + 0.021175, 1 + 0.605 and 1 − 0.165 over 5 + 1.87 + 0.021175.
    let five = Shares { parts: [201_117_500, 160_500_000, 83_500_000, 0], divisor: 689_117_500 };
    assert_eq!([shares(549), shares(550)], [seven, five]);
}

/// 3333 ten-thousandths are below 1/3, 3334 are above: there the loads reach three stringers.
#[test]
fn three_stringers_from_one_third() {
    // 1 − 3k is one ten-thousandth, times 10⁸.
    assert_eq!(shares(3333).parts[2], 10_000);
    assert_eq!(shares(3334), Shares { parts: [16_668, 10_000, 0, 0], divisor: 36_668 });
}
