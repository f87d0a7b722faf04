// The calls that one law covers: each is made of the library with the arguments of a record, and what it returns and leaves is held
// to the record's results, which are the original Rust's.

use crate::arguments::random;
use crate::dihkelu;
use crate::exports::returned;
use crate::functions::{table, Function};
use crate::progress::Progress;
use crate::record::{bits, Arguments};
use crate::values::Rng;

/// The numbers of these calls.
pub const NUMBERS: std::ops::RangeInclusive<u16> = 206..=229;

/// A list as it is lent.
fn lent(room: u64) -> Vec<f64> {
    vec![-7.25; room as usize]
}

fn floats(a: &mut Arguments, count: u64) -> Vec<f64> {
    (0..count).map(|_| a.float()).collect()
}

/// What was returned, and the whole list.
fn left(outcome: Result<u32, dihkelu::Refusal>, list: &[f64]) -> Vec<u64> {
    let mut words = vec![returned(outcome)];
    words.extend(list.iter().map(|x| bits(*x)));
    words
}

/// The results of a record's call of the library.
fn made(number: u16, words: &[u64]) -> Vec<u64> {
    let a = &mut Arguments::new(words);
    match number {
        206 => {
            let (room, code, design) = (a.int(), a.int() as u32, a.float());
            let (n, angles, wavelengths) = (a.floats(), a.int(), a.int());
            let (angles, wavelengths) = (floats(a, angles), floats(a, wavelengths));
            let count = a.int();
            let flat = floats(a, count);
            let mut list = lent(room);
            let outcome =
                dihkelu::evaluate_list(code, design, n, &angles, &wavelengths, &flat, &mut list);
            left(outcome, &list)
        }
        207 => vec![u64::from(dihkelu::invalid_argument(a.floats()))],
        214 => vec![returned(dihkelu::coating_from_name(&a.bytes()))],
        227 => {
            let (mut output, code) = (vec![0xA5; a.int() as usize], a.int() as u32);
            let mut words = vec![returned(dihkelu::coating_name(code, &mut output))];
            words.extend(output.into_iter().map(u64::from));
            words
        }
        228 => {
            let part = dihkelu::trim(&a.bytes());
            vec![0, part.start as u64, part.len() as u64]
        }
        229 => {
            let (mut list, wavelength, number) = (lent(a.int()), a.float(), a.int() as u32);
            let outcome = dihkelu::answers_at(&a.bytes(), number, wavelength, &mut list);
            left(outcome, &list)
        }
        _ => {
            let mut list = lent(a.int());
            let outcome = single(number, a, &mut list);
            left(outcome, &list)
        }
    }
}

/// A count, then so many numbers.
fn numbers(a: &mut Arguments) -> Vec<f64> {
    let count = a.int();
    floats(a, count)
}

/// A call that writes to a list and takes numbers and lists of them alone.
fn single(number: u16, a: &mut Arguments, list: &mut [f64]) -> Result<u32, dihkelu::Refusal> {
    match number {
        208 => dihkelu::fresnel_dielectric(a.float(), a.float(), a.float(), list),
        209 => dihkelu::fresnel_unpolarized(a.float(), a.float(), a.float(), list),
        210 => dihkelu::schlick_approx(a.float(), a.float(), a.float(), list),
        211 => dihkelu::surface_fresnel_jones(a.float(), a.float(), a.float(), list),
        212 => dihkelu::quarter_wave_ar(a.float(), a.float(), a.float(), list),
        213 => dihkelu::bragg_mirror(a.float(), a.float(), a.int() as u32, a.float(), list),
        215 => dihkelu::to_stokes(&numbers(a), list),
        216 => dihkelu::jones_normalize(&numbers(a), list),
        217 => dihkelu::jones_intensity(&numbers(a), list),
        218 => dihkelu::stokes_figures(&numbers(a), list),
        219 => dihkelu::jones_apply(&numbers(a), &numbers(a), list),
        220 => dihkelu::jones_mul(&numbers(a), &numbers(a), list),
        221 => dihkelu::mueller_apply(&numbers(a), &numbers(a), list),
        222 => dihkelu::diattenuator(&numbers(a), list),
        223 => dihkelu::linear_polarizer(a.float(), list),
        224 => dihkelu::retarder(a.float(), a.float(), list),
        225 => dihkelu::quarter_wave_plate(a.float(), list),
        226 => dihkelu::half_wave_plate(a.float(), list),
        _ => unreachable!("no such call"),
    }
}

/// Holds each of these calls to the Rust on `count` records. Returns for each its name and how many differ.
pub fn compare(seed: u64, count: u64, spoiled: Option<u64>) -> Vec<(&'static str, u64)> {
    let calls = table().into_iter().filter(|f| NUMBERS.contains(&f.number));
    calls
        .map(|function| (function.name, differ(&function, seed, count, spoiled)))
        .collect()
}

fn differ(function: &Function, seed: u64, count: u64, spoiled: Option<u64>) -> u64 {
    let mut rng = Rng::new(seed);
    let mut progress = Progress::new(function.name, count);
    let mut different = 0;
    for number in 0..count {
        let words = random(function.args, &mut rng);
        let ours = made(function.number, &words);
        let mut theirs = function.record(words.clone()).results;
        theirs[0] ^= u64::from(spoiled == Some(number));
        if ours != theirs {
            if different == 0 {
                println!(
                    "{}: arguments {words:X?}, Rust {theirs:X?}, proved {ours:X?}",
                    function.name
                );
            }
            different += 1;
        }
        progress.step();
    }
    different
}
