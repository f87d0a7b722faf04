// The proved program as static libraries: their externs, and their comparison with the Rust bit for bit.

use crate::bench::{Scalar, Work};

/// Names of the scalar functions, in the order of `Scalars`.
pub const NAMES: [&str; 7] = ["sqrt", "sin", "cos", "exp", "atan", "asin", "atan2"];

/// The scalar functions of one side. Those of one argument leave the second alone.
pub type Scalars = [Scalar; 7];

#[cfg(feature = "proved")]
mod linked {
    extern "C" {
        fn dihkelu_sqrt(x: f64) -> f64;
        fn dihkelu_sin(x: f64) -> f64;
        fn dihkelu_cos(x: f64) -> f64;
        fn dihkelu_exp(x: f64) -> f64;
        fn dihkelu_atan(x: f64) -> f64;
        fn dihkelu_asin(x: f64) -> f64;
        fn dihkelu_atan2(y: f64, x: f64) -> f64;
    }

    // These take and return plain numbers and touch no memory.
    pub fn scalars() -> super::Scalars {
        [
            |x, _| unsafe { dihkelu_sqrt(x) },
            |x, _| unsafe { dihkelu_sin(x) },
            |x, _| unsafe { dihkelu_cos(x) },
            |x, _| unsafe { dihkelu_exp(x) },
            |x, _| unsafe { dihkelu_atan(x) },
            |x, _| unsafe { dihkelu_asin(x) },
            |y, x| unsafe { dihkelu_atan2(y, x) },
        ]
    }
}

/// The proved scalar functions, if the library is linked.
pub fn scalars() -> Option<Scalars> {
    #[cfg(feature = "proved")]
    return Some(linked::scalars());
    #[cfg(not(feature = "proved"))]
    None
}

#[cfg(feature = "proved")]
use crate::exports::linked_evaluate;

/// The proved workloads, in the order of `bench::WORKS`; a bare surface alone is not exported.
pub fn works() -> Option<Vec<Option<Work>>> {
    #[cfg(feature = "proved")]
    return Some(evaluations());
    #[cfg(not(feature = "proved"))]
    None
}

/// A whole run of a sheet.
pub fn run_of(_sheet: Vec<u8>) -> Option<Work> {
    #[cfg(feature = "proved")]
    return Some(Box::new(move || {
        let mut list = [0.0; 128];
        let count = crate::exports::linked_run(&_sheet, &mut list) as usize;
        list[2 * count - 2] + list[2 * count - 1]
    }));
    #[cfg(not(feature = "proved"))]
    None
}

/// A band of a sheet.
pub fn band_of(_band: (Vec<u8>, Vec<f64>, Vec<u32>)) -> Option<Work> {
    #[cfg(feature = "proved")]
    return Some(Box::new(move || {
        let (sheet, wavelengths, weights) = &_band;
        let mut list = [0.0; 2];
        crate::exports::linked_band(sheet, wavelengths, weights, &mut list);
        list[0] + list[1]
    }));
    #[cfg(not(feature = "proved"))]
    None
}

#[cfg(feature = "proved")]
fn evaluations() -> Vec<Option<Work>> {
    use crate::bench::{layers, places, STACK_INDICES};
    let over = |code: u32, count: usize| -> Option<Work> {
        let flat: Vec<f64> = layers().iter().take(count).flatten().copied().collect();
        let places = places();
        Some(Box::new(move || {
            let mut list = [0.0; 16];
            let transmitted = |at: &crate::bench::Place| {
                let at = [at.n_incident, at.n_substrate, at.angle, at.wavelength];
                linked_evaluate(code, 550.0, at, &flat, &mut list);
                list[10]
            };
            places.iter().map(transmitted).sum()
        }))
    };
    let mut works = vec![None, over(2, 0), over(4, 0), over(5, 16), over(5, 64)];
    works.extend(crate::bench::run_sheets().into_iter().map(run_of));
    let gate = |sheet: Vec<u8>| -> Option<Work> {
        Some(Box::new(move || crate::exports::linked_gate(&sheet) as f64))
    };
    works.extend(crate::bench::gate_sheets().into_iter().map(gate));
    let step = |sheet: Vec<u8>| -> Option<Work> {
        let count = crate::exports::linked_gate(&sheet);
        let read = crate::sheet::gate(&sheet).expect("admitted");
        let state = crate::train::State {
            done: count - 1,
            s: 1.0,
            p: 1.0,
            wavelength: read.wavelength,
        };
        Some(Box::new(move || {
            let (_, next) = crate::exports::linked_step(&sheet, state);
            next.s + next.p
        }))
    };
    works.extend(crate::bench::step_sheets().into_iter().map(step));
    let stack = |text: &'static str| -> Option<Work> {
        Some(Box::new(move || {
            let mut list = [0.0; 192];
            let count =
                crate::exports::linked_stack(text.as_bytes(), STACK_INDICES, 550.0, &mut list);
            list[count as usize - 1]
        }))
    };
    works.extend(crate::bench::stack_texts().into_iter().map(stack));
    works.push(band_of(crate::bench::longest_band()));
    works
}

/// Holds `dihkelu_evaluate` against `SurfaceCoating::evaluate` on `count` calls. Returns how many differ.
#[cfg(feature = "proved")]
fn compare_evaluate(seed: u64, count: u64, spoiled: Option<u64>) -> u64 {
    use crate::arguments::random;
    use crate::progress::Progress;
    use crate::record::bits;
    use crate::values::Rng;

    let table = crate::functions::table();
    let function = table.iter().find(|f| f.number == 70).expect("evaluate");
    let mut rng = Rng::new(seed);
    let mut progress = Progress::new("evaluate", count);
    let mut different = 0;
    for made in 0..count {
        let words = random(function.args, &mut rng);
        let float = |i: usize| f64::from_bits(words[i]);
        let flat: Vec<f64> = (7..words.len()).map(float).collect();
        let at = [float(2), float(3), float(4), float(5)];
        let mut list = [0.0; 16];
        let returned = linked_evaluate(words[0] as u32, float(1), at, &flat, &mut list);
        let mut ours = vec![returned >> 32];
        match returned >> 32 {
            0 => ours.extend(list.iter().map(|x| bits(*x))),
            _ => ours.push(returned & 0xFFFF_FFFF),
        }
        let mut theirs = function.record(words.clone()).results;
        theirs[0] ^= u64::from(spoiled == Some(made));
        if ours != theirs || (ours[0] == 0 && returned != 16) {
            if different == 0 {
                println!("evaluate: arguments {words:X?}, Rust {theirs:X?}, proved {ours:X?}");
            }
            different += 1;
        }
        progress.step();
    }
    different
}

/// Prints how many agree. Returns whether all do, and there are some.
fn agree(name: &str, count: u64, different: u64, what: &str) -> bool {
    println!("{name}: {} of {count}{what} agree", count - different);
    count > 0 && different == 0
}

/// Holds the library against section 2 on `count` arguments for each function, against `SurfaceCoating::evaluate` on
/// as many, against the stack shorthand, both Mueller matrices, ranges of indices and quarter waves on as many, and against
/// the train, lists of actions and edition 1 sheets on a tenth as many sheets. Returns whether all agree. What is expected of call number `spoiled` of each is
/// wrong, so that the comparison can be tried itself.
pub fn compare(seed: u64, count: u64, spoiled: Option<u64>) -> Option<bool> {
    use crate::arguments::{random, Arg};
    use crate::record::bits;
    use crate::values::Rng;

    let proved = scalars()?;
    let reference = crate::bench::reference_scalars();
    let arguments: [&[Arg]; 7] = [
        &[Arg::Square],
        &[Arg::Angle],
        &[Arg::Angle],
        &[Arg::Exponent],
        &[Arg::Any],
        &[Arg::Sine],
        &[Arg::Any, Arg::Any],
    ];
    let mut all_agree = true;
    for (i, name) in NAMES.iter().enumerate() {
        let mut rng = Rng::new(seed);
        let mut different = 0_u64;
        for made in 0..count {
            let words = random(arguments[i], &mut rng);
            let first = f64::from_bits(words[0]);
            let second = f64::from_bits(words.get(1).copied().unwrap_or(0));
            let theirs = bits(reference[i](first, second)) ^ u64::from(spoiled == Some(made));
            let ours = bits(proved[i](first, second));
            if ours != theirs {
                if different == 0 {
                    println!(
                        "{name}: arguments {words:X?}, section 2 {theirs:016X}, proved {ours:016X}"
                    );
                }
                different += 1;
            }
        }
        all_agree &= agree(name, count, different, "");
    }
    #[cfg(feature = "proved")]
    {
        let different = compare_evaluate(seed, count, spoiled);
        all_agree &= agree("evaluate", count, different, "");
        let different = crate::exports::compare_stacks(seed, count, spoiled);
        all_agree &= agree("stack", count, different, "");
        let [rust, born_wolf] = crate::exports::compare_muellers(seed, count, spoiled);
        all_agree &= agree("to_mueller", count, rust, "");
        all_agree &= agree("mueller_born_wolf", count, born_wolf, "");
        let (different, most) = crate::exports::compare_ranges(seed, count, spoiled);
        all_agree &= agree("reflectance_range", count, different, "");
        println!("  a gap exceeds the true spread by {most:.3} 2^-53 at most");
        let [random, whole] = crate::exports::compare_quarter_waves(seed, count, spoiled);
        all_agree &= agree("quarter waves", random.0, random.1, "");
        all_agree &= agree("quarter waves about whole ones", whole.0, whole.1, "");
        for (name, different) in crate::calls::compare(seed, count, spoiled) {
            all_agree &= agree(name.trim_start_matches("dihkelu_"), count, different, "");
        }
        let sheets = (count / 10).max(count.min(1));
        let (calls, different) = crate::exports::compare_trains(seed, sheets, spoiled);
        all_agree &= agree(
            "gate, start, step, retune, run, answers",
            sheets,
            different,
            " sheets",
        );
        println!("  in {calls} calls");
        let (actions, different) = crate::exports::compare_lists(seed, sheets, spoiled);
        all_agree &= agree("steps and retunes", sheets, different, " lists");
        println!("  in {actions} actions");
        let (calls, different, became) = crate::exports::compare_edition_1(seed, sheets, spoiled);
        all_agree &= agree("edition 1", sheets, different, " sheets");
        println!("  in {calls} calls; {became} sheets of edition 2 became edition 1");
        let [lines, answered, different] = crate::exports::compare_bands(seed, sheets, spoiled);
        all_agree &= agree("band", sheets, different, " bands");
        println!("  in {lines} lines, {answered} bands answered");
    }
    Some(all_agree)
}
