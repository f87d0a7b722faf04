// `oracle phase`: the first line of sin and cos (document 02, slip 7) worked out a second way, in whole numbers, and how far its r
// is from x less whole turns of 2π, which the old line's is not near.

use crate::exact::Natural;
use crate::section2::{first_line, rem, PI, T, THICK};
use crate::values::{multiple, neighbour, Rng};

/// t is LOW_DIGITS / 2^104, T is T_DIGITS / 2^50.
const LOW_DIGITS: i128 = 0x11_A626_3314_5C07;
const T_DIGITS: i128 = 0x19_21FB_5444_2D18;

/// 2π to 190 places after the point: high · 2^126 + low.
const TWO_PI: (u128, u128) = (
    0x6_487E_D511_0B46_11A6,
    0x098C_C517_01B8_39A2_5204_9C11_14CF_98E8,
);

/// What is proved of r, in 2^-110.
const PROVED: u64 = (1 << 58) + 5_529_392;

/// A positive finite f64 as significand and exponent: m·2^e.
fn parts(x: f64) -> (u64, i32) {
    let (biased, low) = (x.to_bits() >> 52 & 0x7FF, x.to_bits() & ((1 << 52) - 1));
    match biased {
        0 => (low, -1074),
        _ => (low | 1 << 52, biased as i32 - 1075),
    }
}

/// n / 2^shift to the nearest whole number, ties to even.
fn nearest(n: u128, shift: u32) -> u128 {
    if shift == 0 {
        return n;
    }
    if shift > 127 {
        return 0;
    }
    let (whole, rest) = (n >> shift, n & ((1 << shift) - 1));
    let half = 1 << (shift - 1);
    whole + u128::from(rest > half || (rest == half && whole % 2 == 1))
}

/// n with its 53 highest digits, rounded.
fn short(n: u128) -> u128 {
    let digits = 128 - n.leading_zeros();
    let shift = digits.saturating_sub(53);
    nearest(n, shift) << shift
}

/// The nearest whole number of the rounded quotient, for an x of 0 to 2^20.
fn turns(x: f64) -> i128 {
    let (m, e) = parts(x / T);
    assert!(e < 0);
    nearest(u128::from(m), e.unsigned_abs()) as i128
}

/// r for an x of 0 to 2^20: x - k·T is a whole number of 2^-51 and nothing is lost; k·t and the last difference are rounded.
pub fn whole_first_line(x: f64) -> f64 {
    let k = turns(x);
    if k == 0 {
        return x;
    }
    let (m, e) = parts(x);
    assert!((-51..0).contains(&e));
    let left = (i128::from(m) << (e + 51)) - k * (T_DIGITS << 1);
    let low = short((k * LOW_DIGITS) as u128) as i128;
    let last = (left << 53) - low;
    let size = short(last.unsigned_abs()) as f64 * 2f64.powi(-104);
    if last < 0 {
        -size
    } else {
        size
    }
}

/// |r - (x - k·2π)| in counts of 2^-1074, for an x of 0 to 2^20 and any r.
fn off(x: f64, r: f64, k: i128) -> Natural {
    let (high, low) = TWO_PI;
    let wide = |n: u128, shift: usize| {
        let low = Natural::shifted(n as u64, shift);
        low.plus(&Natural::shifted((n >> 64) as u64, shift + 64))
    };
    let two_pi = wide(high, 1074 - 190 + 126).plus(&wide(low, 1074 - 190));
    let taken = two_pi.times(&Natural::new(k as u64));
    let (x, size) = (Natural::count(x), Natural::count(r));
    if r < 0.0 {
        taken.gap(&x.plus(&size))
    } else {
        taken.plus(&size).gap(&x)
    }
}

/// An angle of 0 to 2^20: any, thick films' phases, beside multiples of π/4, beside 2^20, small.
fn angle(rng: &mut Rng) -> f64 {
    let x = match rng.below(8) {
        0 => neighbour(THICK, -(rng.below(64) as i64)),
        1 => rng.uniform(0.0, PI),
        2 => rng.log(-1022, 20),
        3 | 4 => rng.uniform(0.0, 25_000.0),
        5 => rng.uniform(0.0, THICK),
        _ => multiple(rng).abs(),
    };
    if x <= THICK {
        x
    } else {
        rng.unit() * THICK
    }
}

/// Random angles; prints how far the new line and the old one are off at most. True where both readings agree, the line is odd
/// but for zeros, and the new one is within the proved bound. The second reading of angle number `spoiled` is wrong.
pub fn measure(seed: u64, count: u64, spoiled: Option<u64>) -> bool {
    let mut rng = Rng::new(seed);
    let bound = Natural::shifted(PROVED, 1074 - 110);
    let mut worst = [(Natural::default(), 0.0), (Natural::default(), 0.0)];
    let mut different = 0_u64;
    for made in 0..count {
        let x = angle(&mut rng);
        let (r, k) = (first_line(x), turns(x));
        let again = whole_first_line(x).to_bits() ^ u64::from(spoiled == Some(made));
        let opposite = first_line(-x);
        let odd = opposite.to_bits() == (-r).to_bits() || (r == 0.0 && opposite.to_bits() == 0);
        if r.to_bits() != again || !odd {
            if different == 0 {
                println!("x {x:?}: r {r:?}, by whole numbers {again:016X}, of -x {opposite:?}");
            }
            different += 1;
        }
        // The old line takes off as many turns as go into x.
        let old = rem(x, T);
        let all = ((x - old) / T).round() as i128;
        let found = [off(x, r, k), off(x, old, all)];
        for (found, best) in found.into_iter().zip(&mut worst) {
            if found > best.0 {
                *best = (found, x);
            }
        }
    }
    let whole = Natural::power_of_two(1074);
    println!("first line: {} of {count} agree", count - different);
    for (name, (found, x)) in ["slip 7", "x % T"].iter().zip(&worst) {
        println!(
            "{name}: r is {:e} off at most, at {x:?}",
            found.ratio(&whole)
        );
    }
    println!("proved: {:e}", bound.ratio(&whole));
    count > 0 && different == 0 && worst[0].0 <= bound
}
