// Document 01, section 2: the borrowed functions, with their meaning to the letter and plain loops. The first line of sin and
// cos is that of document 02, slip 7.

/// One period, 0x401921FB54442D18.
pub const T: f64 = f64::from_bits(0x4019_21FB_5444_2D18);
/// π is T/2.
pub const PI: f64 = T / 2.0;
/// T with the low 28 bits of its significand cleared.
pub const T1: f64 = f64::from_bits(T.to_bits() >> 28 << 28);
/// t of slip 7: what T lacks of 2π.
pub const LOW: f64 = 2.4492935982947064e-16;
/// Up to here slip 7's line holds.
pub const THICK: f64 = 1_048_576.0;

/// IEEE 754 squareRoot: the hardware's.
pub fn sqrt(x: f64) -> f64 {
    x.sqrt()
}

/// C's fmod: the platform's `%`.
pub fn rem(x: f64, y: f64) -> f64 {
    x % y
}

/// a if a > b, else b.
pub fn max(a: f64, b: f64) -> f64 {
    if a > b {
        a
    } else {
        b
    }
}

/// lo if x < lo, hi if x > hi, else x; NaN stays.
pub fn clamp(x: f64, lo: f64, hi: f64) -> f64 {
    if x < lo {
        lo
    } else if x > hi {
        hi
    } else {
        x
    }
}

/// Clears the sign bit.
pub fn abs(x: f64) -> f64 {
    f64::from_bits(x.to_bits() & !(1 << 63))
}

/// The sign bit is set.
fn sign_bit(x: f64) -> bool {
    x.to_bits() >> 63 == 1
}

/// x·x.
pub fn powi2(x: f64) -> f64 {
    x * x
}

/// x·((x·x)·(x·x)).
pub fn powi5(x: f64) -> f64 {
    x * ((x * x) * (x * x))
}

/// The whole number nearest to q, ties to even; a zero is +0. Below 2^53 the rest is exact.
fn nearest_whole(q: f64) -> f64 {
    let mut k = q as i64;
    let rest = abs(q - k as f64);
    if rest > 0.5 || (rest == 0.5 && k % 2 != 0) {
        k += if q < 0.0 { -1 } else { 1 };
    }
    k as f64
}

/// Slip 7: up to 2^20 the nearest whole number of turns is taken off, in three parts; beyond it r = x % T.
pub fn first_line(x: f64) -> f64 {
    if abs(x) <= THICK {
        let k = nearest_whole(x / T);
        ((x - k * T1) - k * (T - T1)) - k * LOW
    } else {
        rem(x, T)
    }
}

/// The first line; above π subtract T, below -π add T.
fn first_fold(x: f64) -> f64 {
    let r = first_line(x);
    if r > PI {
        r - T
    } else if r < -PI {
        r + T
    } else {
        r
    }
}

pub fn sin(x: f64) -> f64 {
    clamp(sin_before_clamp(x), -1.0, 1.0)
}

pub fn sin_before_clamp(x: f64) -> f64 {
    let mut r = first_fold(x);
    if r > PI / 2.0 {
        r = PI - r;
    } else if r < -(PI / 2.0) {
        r = -PI - r;
    }
    let z = r * r;
    let mut p = 1.0;
    for m in (1..=10).rev() {
        p = 1.0 - (p * z) / whole((2 * m) * (2 * m + 1));
    }
    r * p
}

pub fn cos(x: f64) -> f64 {
    clamp(cos_before_clamp(x), -1.0, 1.0)
}

pub fn cos_before_clamp(x: f64) -> f64 {
    let mut a = abs(first_fold(x));
    let negate = a > PI / 2.0;
    if negate {
        a = PI - a;
    }
    let z = a * a;
    let mut p = 1.0;
    for m in (1..=11).rev() {
        p = 1.0 - (p * z) / whole((2 * m - 1) * (2 * m));
    }
    if negate {
        -p
    } else {
        p
    }
}

pub fn exp(x: f64) -> f64 {
    if x.is_nan() {
        return x;
    }
    if x > 710.0 {
        return f64::INFINITY;
    }
    if x < -746.0 {
        return 0.0;
    }
    let y = x / 1024.0;
    let mut p = 1.0;
    for m in (1..=14).rev() {
        p = 1.0 + (y * p) / whole(m);
    }
    for _ in 0..10 {
        p = p * p;
    }
    p
}

pub fn atan(x: f64) -> f64 {
    if x.is_nan() {
        return x;
    }
    let a = abs(x);
    let mut t = if a > 1.0 { 1.0 / a } else { a };
    for _ in 0..2 {
        t = t / (1.0 + sqrt(1.0 + t * t));
    }
    let z = t * t;
    let mut p = 0.0;
    for m in (0..=12).rev() {
        p = 1.0 / whole(2 * m + 1) - z * p;
    }
    let q = 4.0 * (t * p);
    with_sign(if a > 1.0 { PI / 2.0 - q } else { q }, x)
}

pub fn asin(x: f64) -> f64 {
    2.0 * atan(x / (1.0 + sqrt(1.0 - x * x)))
}

pub fn atan2(y: f64, x: f64) -> f64 {
    if y.is_nan() || x.is_nan() {
        return f64::NAN;
    }
    if y.is_infinite() && x.is_infinite() {
        let quarter = PI / 4.0;
        let v = if sign_bit(x) { 3.0 * quarter } else { quarter };
        return with_sign(v, y);
    }
    if y == 0.0 || x.is_infinite() {
        return with_sign(if sign_bit(x) { PI } else { 0.0 }, y);
    }
    if x == 0.0 || y.is_infinite() {
        return with_sign(PI / 2.0, y);
    }
    let q = atan(y / x);
    if x < 0.0 && 0.0 < y {
        q + PI
    } else if x < 0.0 && y < 0.0 {
        q - PI
    } else {
        q
    }
}

/// `v`, which is not negative, with the sign of `of`.
fn with_sign(v: f64, of: f64) -> f64 {
    if sign_bit(of) {
        -v
    } else {
        v
    }
}

/// A small whole number, exact.
fn whole(m: i32) -> f64 {
    f64::from(m)
}

/// The methods that the substitution gives to f64 alone.
pub trait Real: Copy {
    fn s2_sin(self) -> f64;
    fn s2_cos(self) -> f64;
    fn s2_atan(self) -> f64;
    fn s2_asin(self) -> f64;
    fn s2_atan2(self, x: f64) -> f64;
    fn s2_max(self, other: f64) -> f64;
    fn s2_clamp(self, lo: f64, hi: f64) -> f64;
    fn s2_powi2(self) -> f64;
    fn s2_powi5(self) -> f64;
    fn s2_abs(self) -> f64;
}

impl Real for f64 {
    fn s2_sin(self) -> f64 {
        sin(self)
    }
    fn s2_cos(self) -> f64 {
        cos(self)
    }
    fn s2_atan(self) -> f64 {
        atan(self)
    }
    fn s2_asin(self) -> f64 {
        asin(self)
    }
    fn s2_atan2(self, x: f64) -> f64 {
        atan2(self, x)
    }
    fn s2_max(self, other: f64) -> f64 {
        max(self, other)
    }
    fn s2_clamp(self, lo: f64, hi: f64) -> f64 {
        clamp(self, lo, hi)
    }
    fn s2_powi2(self) -> f64 {
        powi2(self)
    }
    fn s2_powi5(self) -> f64 {
        powi5(self)
    }
    fn s2_abs(self) -> f64 {
        abs(self)
    }
}

/// `exp`, which f64 takes from section 2 and `Complex` has of its own.
pub trait Exp {
    fn s2_exp(self) -> Self;
}

/// `sqrt`, likewise.
pub trait Sqrt {
    fn s2_sqrt(self) -> Self;
}

impl Exp for f64 {
    fn s2_exp(self) -> f64 {
        exp(self)
    }
}

impl Sqrt for f64 {
    fn s2_sqrt(self) -> f64 {
        sqrt(self)
    }
}

impl Exp for crate::reference::thin_film::Complex {
    fn s2_exp(self) -> Self {
        self.exp()
    }
}

impl Sqrt for crate::reference::thin_film::Complex {
    fn s2_sqrt(self) -> Self {
        self.sqrt()
    }
}
