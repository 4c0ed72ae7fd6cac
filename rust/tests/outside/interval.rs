//! Real numbers between two bounds, each a whole number of 1/2^56. Every step rounds the lower bound down and the upper one up, so that
//! the number itself stays between them; a product that 128 bits do not hold ends the test.

use std::ops::{Add, Div, Mul, Sub};

const ONE: i128 = 1 << 56;

/// A real number from `low` / 2^56 to `high` / 2^56.
#[derive(Clone, Copy, Debug)]
pub struct Interval {
    low: i128,
    high: i128,
}

fn product(x: i128, y: i128) -> i128 {
    x.checked_mul(y).expect("a product of 128 bits")
}

/// A quotient by a divisor above 0, rounded up.
fn quotient_up(over: i128, divisor: i128) -> i128 {
    -(-over).div_euclid(divisor)
}

impl Interval {
    /// A fraction with a divisor above 0.
    pub fn fraction(over: i128, divisor: i128) -> Interval {
        Interval { low: ONE, high: ONE }.times(over).over(divisor)
    }

    /// Pi: its first 18 decimals are below it, and above it once the last of them is raised.
    pub fn pi() -> Interval {
        const DECIMALS: i128 = 3_141_592_653_589_793_238;
        let low = Interval::fraction(DECIMALS, 10_i128.pow(18)).low;
        let high = Interval::fraction(DECIMALS + 1, 10_i128.pow(18)).high;
        Interval { low, high }
    }

    /// The number times a whole one that is not below 0.
    pub fn times(self, factor: i128) -> Interval {
        Interval { low: product(self.low, factor), high: product(self.high, factor) }
    }

    /// The number over a whole one above 0.
    pub fn over(self, divisor: i128) -> Interval {
        Interval { low: self.low.div_euclid(divisor), high: quotient_up(self.high, divisor) }
    }

    /// The square root of a number that is not below 0.
    pub fn root(self) -> Interval {
        Interval { low: product(self.low, ONE).isqrt(), high: product(self.high, ONE).isqrt() + 1 }
    }

    /// The cosine by 24 terms of its series. What they leave out is at most the next term, either way, as no derivative of the cosine
    /// is beyond 1.
    pub fn cosine(self) -> Interval {
        let square = self * self;
        let (mut sum, mut term) = (Interval::fraction(0, 1), Interval::fraction(1, 1));
        for k in 0..24 {
            sum = if k % 2 == 0 { sum + term } else { sum - term };
            term = (term * square).over((2 * k + 1) * (2 * k + 2));
        }
        Interval { low: sum.low - term.high, high: sum.high + term.high }
    }

    /// The nearest whole number, which the bounds have to settle: they round to the same one, and neither is a half.
    pub fn nearest(self) -> i128 {
        let [low, high] = [self.low, self.high].map(|bound| {
            assert_ne!(bound.rem_euclid(ONE), ONE / 2, "a half");
            (bound + ONE / 2).div_euclid(ONE)
        });
        assert_eq!(low, high, "a half lies between the bounds {self:?}");
        low
    }

    /// How far it is from a whole number at most, in millionths of 1, rounded up.
    pub fn apart(self, whole: i128) -> i128 {
        let distance = (self.low - whole * ONE).abs().max((self.high - whole * ONE).abs());
        quotient_up(product(distance, 1_000_000), ONE)
    }

    /// The bounds of four quotients by divisors above 0.
    fn around(quotients: [(i128, i128); 4]) -> Interval {
        let low = quotients.map(|(over, divisor)| over.div_euclid(divisor));
        let high = quotients.map(|(over, divisor)| quotient_up(over, divisor));
        Interval { low: low.into_iter().fold(low[0], i128::min), high: high.into_iter().fold(high[0], i128::max) }
    }
}

impl Add for Interval {
    type Output = Interval;

    fn add(self, other: Interval) -> Interval {
        Interval { low: self.low + other.low, high: self.high + other.high }
    }
}

impl Sub for Interval {
    type Output = Interval;

    fn sub(self, other: Interval) -> Interval {
        Interval { low: self.low - other.high, high: self.high - other.low }
    }
}

impl Mul for Interval {
    type Output = Interval;

    fn mul(self, other: Interval) -> Interval {
        let bounds = [(self.low, other.low), (self.low, other.high), (self.high, other.low), (self.high, other.high)];
        Interval::around(bounds.map(|(x, y)| (product(x, y), ONE)))
    }
}

/// By a number above 0.
impl Div for Interval {
    type Output = Interval;

    fn div(self, other: Interval) -> Interval {
        let bounds = [(self.low, other.low), (self.low, other.high), (self.high, other.low), (self.high, other.high)];
        Interval::around(bounds.map(|(x, y)| (product(x, ONE), y)))
    }
}
