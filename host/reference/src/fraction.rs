//! Exact fractions of whole numbers with a divisor above 0.
//! A product that leaves 128 bits ends the run: it never gives a wrong figure.

use std::cmp::Ordering;
use std::ops::{Add, Div, Mul, Sub};

/// `numerator / divisor`, the divisor above 0. Not reduced.
#[derive(Clone, Copy, Debug)]
pub struct Fraction {
    numerator: i128,
    divisor: i128,
}

/// The fraction `numerator / divisor`.
pub fn over(numerator: i128, divisor: i128) -> Fraction {
    assert!(divisor > 0, "a divisor must be above 0");
    Fraction { numerator, divisor }
}

/// A whole number as a fraction.
pub fn whole(number: impl Into<i128>) -> Fraction {
    over(number.into(), 1)
}

fn product(a: i128, b: i128) -> i128 {
    a.checked_mul(b).expect("a product beyond 128 bits")
}

impl Fraction {
    /// Rounded down: the greatest whole number not above it.
    pub fn floor(self) -> i128 {
        self.numerator.div_euclid(self.divisor)
    }

    /// Rounded up: the least whole number not below it.
    pub fn ceiling(self) -> i128 {
        -(-self.numerator).div_euclid(self.divisor)
    }

    /// Both numerators over one divisor, and that divisor: their own where it is the same, as the
    /// sum of two loads of one member needs; else the product of both.
    fn multiplied_out(self, other: Fraction) -> (i128, i128, i128) {
        if self.divisor == other.divisor {
            return (self.numerator, other.numerator, self.divisor);
        }
        let [a, b] = [(self, other), (other, self)].map(|(n, d)| product(n.numerator, d.divisor));
        (a, b, product(self.divisor, other.divisor))
    }
}

impl Add for Fraction {
    type Output = Fraction;
    fn add(self, other: Fraction) -> Fraction {
        let (a, b, divisor) = self.multiplied_out(other);
        over(a.checked_add(b).expect("a sum beyond 128 bits"), divisor)
    }
}

impl Sub for Fraction {
    type Output = Fraction;
    fn sub(self, other: Fraction) -> Fraction {
        self + over(-other.numerator, other.divisor)
    }
}

impl Mul for Fraction {
    type Output = Fraction;
    fn mul(self, other: Fraction) -> Fraction {
        over(product(self.numerator, other.numerator), product(self.divisor, other.divisor))
    }
}

impl Div for Fraction {
    type Output = Fraction;
    /// By a fraction above 0 only.
    fn div(self, other: Fraction) -> Fraction {
        over(product(self.numerator, other.divisor), product(self.divisor, other.numerator))
    }
}

impl PartialEq for Fraction {
    fn eq(&self, other: &Fraction) -> bool {
        self.partial_cmp(other) == Some(Ordering::Equal)
    }
}

impl PartialOrd for Fraction {
    fn partial_cmp(&self, other: &Fraction) -> Option<Ordering> {
        let (a, b, _) = self.multiplied_out(*other);
        Some(a.cmp(&b))
    }
}

#[cfg(test)]
mod tests {
    use super::*;

    #[test]
    fn rounding_goes_down_and_up_on_both_sides_of_zero() {
        assert_eq!((over(7, 2).floor(), over(7, 2).ceiling()), (3, 4));
        assert_eq!((over(-7, 2).floor(), over(-7, 2).ceiling()), (-4, -3));
        assert_eq!((over(6, 2).floor(), over(6, 2).ceiling()), (3, 3));
    }

    #[test]
    fn the_four_operations_are_exact() {
        assert_eq!(over(1, 2) + over(1, 3), over(5, 6));
        assert_eq!(over(1, 2) - over(2, 3), over(-1, 6));
        assert_eq!(over(2, 3) * over(3, 4), over(1, 2));
        assert_eq!(over(1, 2) / over(3, 4), over(2, 3));
        assert!(over(1, 3) < over(1, 2));
        let most = i128::MAX / 2;
        assert_eq!(over(most, most) + over(1, most), over(most + 1, most));
    }
}
