// Ranges of indices (document 02, slip 9): random ones, the two floats by the original's `fresnel_dielectric`, and what
// holds of them, with whole numbers.

use crate::exact::{head_on, Natural};
use crate::reference::fresnel::fresnel_dielectric;
use crate::values::{any, neighbour, Rng};

/// n1 low, n1 high, n2 low, n2 high.
pub type Ends = [f64; 4];

/// How many 2^-53 the gap may exceed the true spread by, as is proved.
pub const EXCESS: u64 = 18;

fn index(rng: &mut Rng) -> f64 {
    let beside = |rng: &mut Rng, x: f64| neighbour(x, rng.below(9) as i64 - 4);
    match rng.below(8) {
        0 => beside(rng, 1.0),
        1 => beside(rng, 4.0),
        2 => rng.pick(&[1.0, 1.38, 1.46, 1.5, 1.52, 2.0, 2.3, 3.0, 4.0]),
        _ => rng.uniform(1.0, 4.0),
    }
}

/// Both in order.
fn sorted(x: f64, y: f64) -> [f64; 2] {
    if y < x {
        [y, x]
    } else {
        [x, y]
    }
}

/// Ranges that touch, are equal, nested, one point, next to each other or apart; seldom ones that are refused.
pub fn random(rng: &mut Rng) -> Ends {
    let inside = |x: f64| x.clamp(1.0, 4.0);
    let (x, y, z, w) = (index(rng), index(rng), index(rng), index(rng));
    let [a, b] = sorted(inside(x), inside(y));
    let [c, d] = sorted(inside(z), inside(w));
    let step = rng.below(17) as i64 - 8;
    let mut ends = match rng.below(10) {
        0 => [a, b, b, sorted(b, d)[1]],
        1 => [a, b, a, b],
        2 => [a, a, c, c],
        3 => [a, a, a, inside(neighbour(a, step.abs()))],
        4 => [a, b, inside(neighbour(b, step.abs())), 4.0],
        5 => [sorted(a, c)[0], 4.0, c, d],
        6 => [c, d, 1.0, sorted(1.0, inside(neighbour(c, step)))[1]],
        7 => [x, y, z, w],
        _ => [a, b, c, d],
    };
    if rng.one_in(16) {
        ends[rng.below(4)] = any(rng);
    }
    ends
}

fn good([low, high]: [f64; 2]) -> bool {
    (1.0..=4.0).contains(&low) && (1.0..=4.0).contains(&high) && low <= high
}

/// A low and a high reflectance; none where the ranges are refused.
pub fn range([a, b, c, d]: Ends) -> Option<[f64; 2]> {
    if !(good([a, b]) && good([c, d])) {
        return None;
    }
    let little = 2f64.powi(-49);
    let at = |x, y| fresnel_dielectric(1.0, x, y).0;
    let (first, second) = (at(b, c) * (1.0 + little), at(a, d) * (1.0 + little));
    let high = if first > second { first } else { second };
    let low = match () {
        _ if b < c => at(b, c) * (1.0 - little),
        _ if a > d => at(a, d) * (1.0 - little),
        _ => 0.0,
    };
    Some([low, high])
}

/// Whether p is at most q: fractions, multiplied out.
fn at_most(p: &(Natural, Natural), q: &(Natural, Natural)) -> bool {
    p.0.times(&q.1) <= q.0.times(&p.1)
}

/// An f64 of a range, its ends often.
fn value(rng: &mut Rng, low: f64, high: f64) -> f64 {
    match rng.below(6) {
        0 => low,
        1 => high,
        2 => neighbour(low, 1).min(high),
        _ => rng.uniform(low, high).clamp(low, high),
    }
}

/// What the slip asks of a low and a high: how far their gap exceeds the true spread, in 2^-53 and without a sign, or what is wrong.
/// The true spread is taken from all four corners, and each of `pairs` random pairs of values must lie between.
pub fn excess(
    [a, b, c, d]: Ends,
    [low, high]: [f64; 2],
    pairs: usize,
    rng: &mut Rng,
) -> Result<f64, &'static str> {
    if !(0.0 <= low && low <= high && high <= 1.0) || low.is_sign_negative() {
        return Err("not 0 to low to high to 1");
    }
    let one = Natural::power_of_two(1074);
    let given = |x: f64| (Natural::count(x), one.clone());
    let (low, high) = (given(low), given(high));
    for _ in 0..pairs {
        let exact = head_on(value(rng, a, b), value(rng, c, d));
        if !at_most(&low, &exact) || !at_most(&exact, &high) {
            return Err("a pair of values lies outside");
        }
    }
    let corners = [(a, c), (a, d), (b, c), (b, d)].map(|(x, y)| head_on(x, y));
    let (mut most, mut least) = (&corners[0], &corners[0]);
    for corner in &corners {
        if at_most(most, corner) {
            most = corner;
        }
        if at_most(corner, least) {
            least = corner;
        }
    }
    let nothing = (Natural::default(), Natural::new(1));
    if c <= b && a <= d {
        least = &nothing;
    }
    // high + least and low + most, over all denominators
    let both = most.1.times(&least.1);
    let left = high
        .0
        .times(&both)
        .plus(&least.0.times(&most.1).times(&one));
    let right = low.0.times(&both).plus(&most.0.times(&least.1).times(&one));
    let allowed = Natural::new(EXCESS)
        .times(&Natural::power_of_two(1021))
        .times(&both);
    if left > right.plus(&allowed) {
        return Err("the gap exceeds the spread by too much");
    }
    let unit = Natural::power_of_two(1021).times(&both);
    Ok(left.gap(&right).ratio(&unit))
}
