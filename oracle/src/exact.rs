// Whole numbers of any size, and f64s as counts of 2^-1074: exact fractions, multiplied out.

use std::cmp::Ordering;

/// A whole number, 64 bits to a digit, the lowest first, no zero on top.
#[derive(Clone, Debug, Default, PartialEq, Eq)]
pub struct Natural(Vec<u64>);

impl Natural {
    fn trimmed(mut digits: Vec<u64>) -> Self {
        while digits.last() == Some(&0) {
            digits.pop();
        }
        Self(digits)
    }

    pub fn new(x: u64) -> Self {
        Self::trimmed(vec![x])
    }

    /// x · 2^shift
    pub fn shifted(x: u64, shift: usize) -> Self {
        let mut digits = vec![0; shift / 64];
        let wide = u128::from(x) << (shift % 64);
        digits.extend([wide as u64, (wide >> 64) as u64]);
        Self::trimmed(digits)
    }

    pub fn power_of_two(power: usize) -> Self {
        Self::shifted(1, power)
    }

    /// The size of a finite f64 as a whole number of 2^-1074.
    pub fn count(x: f64) -> Self {
        assert!(x.is_finite());
        let bits = x.to_bits();
        let fraction = bits & ((1 << 52) - 1);
        match (bits >> 52 & 0x7FF) as usize {
            0 => Self::new(fraction),
            exponent => Self::shifted(fraction | 1 << 52, exponent - 1),
        }
    }

    fn digit(&self, i: usize) -> u64 {
        self.0.get(i).copied().unwrap_or(0)
    }

    pub fn plus(&self, other: &Self) -> Self {
        let mut digits = Vec::new();
        let mut carry = 0;
        for i in 0..self.0.len().max(other.0.len()) + 1 {
            let sum = u128::from(self.digit(i)) + u128::from(other.digit(i)) + carry;
            digits.push(sum as u64);
            carry = sum >> 64;
        }
        Self::trimmed(digits)
    }

    /// How far the two are apart.
    pub fn gap(&self, other: &Self) -> Self {
        let (more, less) = if self < other {
            (other, self)
        } else {
            (self, other)
        };
        let mut digits = Vec::new();
        let mut borrow = false;
        for i in 0..more.0.len() {
            let (part, first) = more.digit(i).overflowing_sub(less.digit(i));
            let (part, second) = part.overflowing_sub(u64::from(borrow));
            digits.push(part);
            borrow = first || second;
        }
        Self::trimmed(digits)
    }

    pub fn times(&self, other: &Self) -> Self {
        let mut digits = vec![0; self.0.len() + other.0.len() + 1];
        for (i, &x) in self.0.iter().enumerate() {
            let mut carry = 0;
            for (j, &y) in other.0.iter().enumerate() {
                let sum = u128::from(x) * u128::from(y) + u128::from(digits[i + j]) + carry;
                digits[i + j] = sum as u64;
                carry = sum >> 64;
            }
            digits[i + other.0.len()] = carry as u64;
        }
        Self::trimmed(digits)
    }

    pub fn square(&self) -> Self {
        self.times(self)
    }

    /// The quotient as an f64, to some 15 digits.
    pub fn ratio(&self, other: &Self) -> f64 {
        let top = |x: &Self| {
            let places = x.0.len().max(2);
            let high = x.digit(places - 1) as f64 * 2f64.powi(64) + x.digit(places - 2) as f64;
            (high, places as i32)
        };
        let ((a, i), (b, j)) = (top(self), top(other));
        a / b * 2f64.powi(64 * (i - j))
    }
}

impl PartialOrd for Natural {
    fn partial_cmp(&self, other: &Self) -> Option<Ordering> {
        Some(self.cmp(other))
    }
}

impl Ord for Natural {
    fn cmp(&self, other: &Self) -> Ordering {
        let sizes = self.0.len().cmp(&other.0.len());
        sizes.then_with(|| self.0.iter().rev().cmp(other.0.iter().rev()))
    }
}

/// (x - y)² and (x + y)², of counts: what a surface between two indices reflects head-on, as a fraction.
pub fn head_on(x: f64, y: f64) -> (Natural, Natural) {
    let (a, b) = (Natural::count(x), Natural::count(y));
    (a.gap(&b).square(), a.plus(&b).square())
}
