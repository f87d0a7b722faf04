// A seeded generator of f64s: special values, limits, multiples of the period, squares, subnormals, optics.

use crate::section2::{PI, T};

/// splitmix64.
#[derive(Clone)]
pub struct Rng(u64);

impl Rng {
    pub fn new(seed: u64) -> Self {
        Self(seed)
    }

    pub fn bits(&mut self) -> u64 {
        self.0 = self.0.wrapping_add(0x9E37_79B9_7F4A_7C15);
        let mut z = self.0;
        z = (z ^ (z >> 30)).wrapping_mul(0xBF58_476D_1CE4_E5B9);
        z = (z ^ (z >> 27)).wrapping_mul(0x94D0_49BB_1331_11EB);
        z ^ (z >> 31)
    }

    /// A number below `n`.
    pub fn below(&mut self, n: usize) -> usize {
        ((u128::from(self.bits()) * n as u128) >> 64) as usize
    }

    /// True once in `n` times.
    pub fn one_in(&mut self, n: usize) -> bool {
        self.below(n) == 0
    }

    pub fn pick<X: Copy>(&mut self, from: &[X]) -> X {
        from[self.below(from.len())]
    }

    /// Uniform in [0, 1).
    pub fn unit(&mut self) -> f64 {
        (self.bits() >> 11) as f64 / (1_u64 << 53) as f64
    }

    pub fn uniform(&mut self, lo: f64, hi: f64) -> f64 {
        lo + (hi - lo) * self.unit()
    }

    /// A random significand with an exponent uniform in lo..=hi, positive.
    pub fn log(&mut self, lo: i32, hi: i32) -> f64 {
        let exponent = lo + self.below((hi - lo + 1) as usize) as i32;
        let biased = (exponent + 1023).clamp(1, 2046) as u64;
        f64::from_bits(biased << 52 | self.bits() >> 12)
    }

    pub fn signed(&mut self, x: f64) -> f64 {
        if self.one_in(2) {
            -x
        } else {
            x
        }
    }
}

/// The float `steps` places further up (down if negative), by value; stays at NaN and the infinities.
pub fn neighbour(x: f64, steps: i64) -> f64 {
    if x.is_nan() || x.is_infinite() {
        return x;
    }
    let magnitude = (x.to_bits() & !(1 << 63)) as i64;
    let ordered = if x.is_sign_negative() {
        -magnitude
    } else {
        magnitude
    };
    let moved = ordered + steps;
    if moved < 0 {
        f64::from_bits(moved.unsigned_abs() | 1 << 63)
    } else {
        f64::from_bits(moved as u64)
    }
}

/// Few values that stand for all kinds of f64.
pub const CORE: [f64; 30] = [
    f64::NAN,
    f64::INFINITY,
    f64::NEG_INFINITY,
    0.0,
    -0.0,
    1.0,
    -1.0,
    f64::from_bits(0x3FF0_0000_0000_0001),
    f64::from_bits(0x3FEF_FFFF_FFFF_FFFF),
    0.5,
    -0.5,
    2.0,
    -3.0,
    f64::from_bits(1),
    -f64::from_bits(1),
    f64::from_bits(0x000F_FFFF_FFFF_FFFF),
    f64::MIN_POSITIVE,
    -f64::MIN_POSITIVE,
    f64::MAX,
    f64::MIN,
    T,
    PI,
    -PI,
    PI / 2.0,
    1e-14,
    -1e-14,
    1e300,
    1e-300,
    1.5e-154,
    1.4e154,
];

/// NaNs of other bits: quiet, signalling, negative.
const NANS: [u64; 5] = [
    0xFFF8_0000_0000_0000,
    0x7FF0_0000_0000_0001,
    0xFFF0_0000_0000_0001,
    0x7FFF_FFFF_FFFF_FFFF,
    0xFFFF_FFFF_FFFF_FFFF,
];

/// The gate's limits, the guards of the Rust, the ends in section 2.
pub const LIMITS: [f64; 36] = [
    100.0,
    10_000.0,
    100_000.0,
    0.25,
    0.875,
    4.0,
    1e-28,
    1e-30,
    1e-15,
    1e-12,
    710.0,
    -746.0,
    709.782712893384,
    -708.396418532264,
    -745.133219101941,
    550.0,
    1.38,
    1.46,
    2.3,
    88.0,
    112.0,
    32.0,
    15.0,
    3.0,
    8.0,
    16.0,
    64.0,
    1024.0,
    1048576.0,
    9007199254740992.0,
    1e-7,
    3.16e-8,
    std::f64::consts::FRAC_1_SQRT_2,
    0.1,
    std::f64::consts::SQRT_2,
    6.7e7,
];

/// The special values: CORE, NaNs of other bits, the limits and whole multiples of π/2 with their neighbours, powers of two.
pub fn specials() -> Vec<f64> {
    let mut list = CORE.to_vec();
    list.extend(NANS.map(f64::from_bits));
    for limit in LIMITS {
        list.extend([neighbour(limit, -1), limit, neighbour(limit, 1), -limit]);
    }
    for k in 1..=16 {
        let m = f64::from(k) * (PI / 2.0);
        list.extend([neighbour(m, -1), m, neighbour(m, 1)]);
        list.extend([neighbour(-m, -1), -m, neighbour(-m, 1)]);
    }
    for x in [f64::MIN_POSITIVE, f64::MAX, 1.0] {
        list.extend([-1, 1].map(|step| neighbour(x, step)));
        list.extend([-1, 1].map(|step| -neighbour(x, step)));
    }
    for length in 1..=52 {
        list.push(f64::from_bits(1 << (length - 1)));
        list.push(f64::from_bits((1 << length) - 1));
    }
    for exponent in [
        -1000, -600, -537, -500, -100, -53, -52, -47, -46, -30, -27, -26, -10,
    ] {
        let power = 2_f64.powi(exponent);
        list.extend([
            power,
            -power,
            1.0 / power,
            -1.0 / power,
            1.0 - power,
            1.0 + power,
        ]);
    }
    list
}

/// A subnormal whose significand has a random length.
pub fn subnormal(rng: &mut Rng) -> f64 {
    let length = 1 + rng.below(52) as u32;
    let top = 1_u64 << (length - 1);
    let x = f64::from_bits(top | (rng.bits() & (top - 1)));
    rng.signed(x)
}

/// A multiple of T, π, π/2 or π/4, or a float near it.
pub fn multiple(rng: &mut Rng) -> f64 {
    let unit = rng.pick(&[T, PI, PI / 2.0, PI / 4.0]);
    let bits = 1 + rng.below(30);
    let k = (rng.bits() >> (64 - bits)) as f64;
    let x = neighbour(k * unit, rng.below(5) as i64 - 2);
    rng.signed(x)
}

/// A square of a short number, or a float near it.
pub fn square(rng: &mut Rng) -> f64 {
    let bits = 1 + rng.below(53);
    let root = (rng.bits() >> (64 - bits)) as f64 * 2_f64.powi(rng.below(1000) as i32 - 520);
    neighbour(root * root, rng.below(5) as i64 - 2)
}

/// A number with few significant bits, so that results are exact or tie.
pub fn short(rng: &mut Rng) -> f64 {
    let x = rng.below(1 << 8) as f64 * 2_f64.powi(rng.below(20) as i32 - 12);
    rng.signed(x)
}

/// An index, wavelength, thickness or angle as they occur.
pub fn optical(rng: &mut Rng) -> f64 {
    match rng.below(4) {
        0 => rng.uniform(1.0, 4.0),
        1 => rng.uniform(100.0, 10_000.0),
        2 => rng.uniform(0.0, 100_000.0),
        _ => rng.uniform(-PI, PI),
    }
}

/// Any f64 at all, special ones often.
pub fn any(rng: &mut Rng) -> f64 {
    match rng.below(12) {
        0 | 1 => rng.pick(&CORE),
        2 => {
            let limit = rng.pick(&LIMITS);
            let x = neighbour(limit, rng.below(5) as i64 - 2);
            rng.signed(x)
        }
        3 => multiple(rng),
        4 => square(rng),
        5 => subnormal(rng),
        6 => short(rng),
        7 => optical(rng),
        8 => {
            let x = rng.log(-30, 30);
            rng.signed(x)
        }
        9 => {
            let x = rng.log(-1022, 1023);
            rng.signed(x)
        }
        10 => f64::from_bits(rng.pick(&NANS)),
        _ => f64::from_bits(rng.bits()),
    }
}
