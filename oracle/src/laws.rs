// `oracle laws`: 02 slip 10 on the original's `JonesMatrix::mul` and `identity`. Random matrices of finite entries, overflow and
// subnormals included, and what their products come to.

use crate::progress::Progress;
use crate::reference::polarization::JonesMatrix;
use crate::reference::thin_film::Complex;
use crate::values::{any, subnormal, Rng};

/// How many pairs of plates were tried, which of them reach what the laws allow for, and where a law failed.
#[derive(Default)]
pub struct Laws {
    pub pairs: u64,
    pub with_subnormals: u64,
    pub with_infinities: u64,
    pub with_nans: u64,
    pub other_zeros: u64,
    pub broken: u64,
}

/// A finite part of any size.
fn part(rng: &mut Rng) -> f64 {
    let x = match rng.below(8) {
        0 => 0.0,
        1 => rng.pick(&[1.0, f64::MAX, f64::MIN_POSITIVE, f64::from_bits(1)]),
        2 => subnormal(rng).abs(),
        3 => rng.log(500, 1023),
        4 => rng.log(-1022, -500),
        5 => rng.log(-1022, 1023),
        6 => rng.uniform(0.0, 2.0),
        _ => any(rng).abs(),
    };
    let x = if x.is_finite() { x } else { 1.5 };
    rng.signed(x)
}

fn entry(rng: &mut Rng) -> Complex {
    let (re, im) = (part(rng), part(rng));
    Complex { re, im }
}

fn zero(rng: &mut Rng) -> Complex {
    let (re, im) = (rng.signed(0.0), rng.signed(0.0));
    Complex { re, im }
}

/// A matrix that is zero off the diagonal, of either sign.
fn plate(rng: &mut Rng) -> JonesMatrix {
    JonesMatrix {
        m: [[entry(rng), zero(rng)], [zero(rng), entry(rng)]],
    }
}

fn parts(j: &JonesMatrix) -> Vec<f64> {
    j.m.iter().flatten().flat_map(|z| [z.re, z.im]).collect()
}

/// Equal in value: zeros of both signs are equal, all NaNs are one.
fn same(a: &[f64], b: &[f64]) -> bool {
    let equal = |(x, y): (&f64, &f64)| x == y || x.is_nan() && y.is_nan();
    a.len() == b.len() && a.iter().zip(b).all(equal)
}

/// Tries both laws on `count` pairs. What is expected of pair number `spoiled` is wrong.
pub fn laws(seed: u64, count: u64, spoiled: Option<u64>) -> Laws {
    let mut rng = Rng::new(seed);
    let mut progress = Progress::new("pairs of plates", count);
    let mut seen = Laws::default();
    for made in 0..count {
        let (a, b) = (plate(&mut rng), plate(&mut rng));
        let (first, mut second) = (parts(&a.mul(&b)), parts(&b.mul(&a)));
        second[0] = if spoiled == Some(made) {
            7.25
        } else {
            second[0]
        };
        let full = JonesMatrix {
            m: std::array::from_fn(|_| std::array::from_fn(|_| entry(&mut rng))),
        };
        let one = JonesMatrix::identity();
        let whole = parts(&full);
        let unmoved = [one.mul(&full), full.mul(&one)];
        let holds = same(&first, &second) && unmoved.iter().all(|j| same(&parts(j), &whole));
        let any_of = |f: fn(&f64) -> bool| u64::from(first.iter().any(f));
        let bits = |x: &f64| if x.is_nan() { 0 } else { x.to_bits() };
        seen.pairs += 1;
        seen.with_subnormals += any_of(|x| x.is_subnormal());
        seen.with_infinities += any_of(|x| x.is_infinite());
        seen.with_nans += any_of(|x| x.is_nan());
        seen.other_zeros += u64::from(!first.iter().map(bits).eq(second.iter().map(bits)));
        if !holds {
            if seen.broken == 0 {
                println!("a law fails: {a:?}, {b:?}, {full:?}");
            }
            seen.broken += 1;
        }
        progress.step();
    }
    seen
}

impl Laws {
    /// Whether no law failed, and there were pairs.
    pub fn hold(&self) -> bool {
        self.pairs > 0 && self.broken == 0
    }

    pub fn table(&self) -> String {
        format!(
            "order of two plates, identity: {} of {} agree\n  products with subnormals {}, infinities {}, NaNs {}; other signs of zeros {}\n",
            self.pairs - self.broken,
            self.pairs,
            self.with_subnormals,
            self.with_infinities,
            self.with_nans,
            self.other_zeros
        )
    }
}
