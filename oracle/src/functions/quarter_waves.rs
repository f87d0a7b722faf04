// Group quarter_waves: 02 slip 11 by whole numbers. Every f64 from 16 up is a count of 2^-48, so that quotient and rest of p and q
// are those of two u128; a p below q is its own rest.

use crate::arguments::Arg::{Film, Index, Thickness, Wavelength};
use crate::arguments::Style;
use crate::functions::Function;
use crate::values::{neighbour, Rng};

/// The remainder that was lent, before the call.
const BEFORE: f64 = -7.25;

/// The count and what is over; none outside the limits.
pub fn quarter_waves([n, thickness, wavelength]: [f64; 3]) -> Option<(u64, f64)> {
    let admitted = (1.0..=4.0).contains(&n)
        && (0.0..=100_000.0).contains(&thickness)
        && (100.0..=10_000.0).contains(&wavelength);
    if !admitted {
        return None;
    }
    let (p, q) = ((n * thickness).abs(), wavelength / 4.0);
    if p < q {
        return Some((0, p));
    }
    let (p, q) = (units(p), units(q));
    Some(((p / q) as u64, length(p % q)))
}

/// An f64 from 16 up in units of 2^-48.
fn units(x: f64) -> u128 {
    let exponent = (x.to_bits() >> 52) - (1023 + 4);
    let digits = x.to_bits() & ((1 << 52) - 1) | 1 << 52;
    u128::from(digits) << exponent
}

/// So many units, as the f64 that is exactly these.
fn length(units: u128) -> f64 {
    let unit = (1_u64 << 48) as f64;
    let x = units as f64 / unit;
    assert_eq!((x * unit) as u128, units, "the remainder is no f64");
    x
}

pub fn table() -> Vec<Function> {
    vec![Function {
        number: 155,
        group: "quarter_waves",
        name: "dihkelu_quarter_waves",
        args: &[Film],
        weight: 1,
        call: |a, r| match quarter_waves(a.floats()) {
            Some((count, remainder)) => {
                r.int(count);
                r.float(remainder);
            }
            None => {
                r.int(14 << 32);
                r.float(BEFORE);
            }
        },
    }]
}

/// A film of about `count` quarter waves; the thickness is so many f64s beside the rounded one.
fn near(n: f64, wavelength: f64, count: u64, steps: i64) -> [f64; 3] {
    let thickness = count as f64 * (wavelength / 4.0) / n;
    [n, neighbour(thickness, steps), wavelength]
}

/// The most quarter waves of this index within the limits.
fn most(n: f64, wavelength: f64) -> u64 {
    (n * 100_000.0 / (wavelength / 4.0)) as u64
}

/// n, thickness and wavelength, mostly within the limits and near a whole number of quarter waves.
pub fn push(rng: &mut Rng, style: Style, words: &mut Vec<u64>) {
    let wild = style != Style::Plain && rng.one_in(4);
    if wild || rng.one_in(4) {
        let style = if wild { style } else { Style::Plain };
        for arg in [Index, Thickness, Wavelength] {
            arg.push(rng, style, words);
        }
        return;
    }
    let n = rng.uniform(1.0, 4.0);
    let longest = rng.pick(&[400.0, 10_000.0]);
    let wavelength = rng.uniform(100.0, longest);
    let most = if rng.one_in(4) {
        20
    } else {
        most(n, wavelength) + 1
    };
    let steps = rng.below(9) as i64 - 4;
    let film = near(n, wavelength, rng.below(most as usize) as u64, steps);
    words.extend(film.map(f64::to_bits));
}

/// The neighbours of all whole multiples within the limits, for some indices and wavelengths.
pub fn multiples() -> impl Iterator<Item = [f64; 3]> {
    let indices = [1.0, 1.38, 1.5, 2.3, 2.307783427626831, 4.0];
    let wavelengths = [100.0, 486.1, 550.0, 632.8, 1064.0, 10_000.0];
    let films = move |n: f64, wavelength: f64| {
        (0..=most(n, wavelength))
            .flat_map(move |count| (-2..=2).map(move |steps| near(n, wavelength, count, steps)))
    };
    let both = indices
        .into_iter()
        .flat_map(move |n| wavelengths.map(|wavelength| (n, wavelength)));
    both.flat_map(move |(n, wavelength)| films(n, wavelength))
}

/// Each limit from both sides, each special number in each place, and known answers.
pub fn cases() -> Vec<Vec<u64>> {
    let usual = [1.5, 100.0, 550.0];
    let mut films = vec![
        [2.307783427626831, 30173.46609148967, 486.1],
        [1.5, 91.66666666666666, 550.0],
        [4.0, 100_000.0, 100.0],
        [1.0, 100_000.0, 10_000.0],
    ];
    let ends = [[1.0, 4.0], [0.0, 100_000.0], [100.0, 10_000.0]];
    for place in 0..3 {
        let mut put = |x: f64| {
            let mut film = usual;
            film[place] = x;
            films.push(film);
        };
        for end in ends[place] {
            (-2..=2).for_each(|steps| put(neighbour(end, steps)));
        }
        crate::values::CORE.iter().for_each(|x| put(*x));
        put(-0.0);
    }
    films
        .iter()
        .map(|film| film.map(f64::to_bits).to_vec())
        .collect()
}
