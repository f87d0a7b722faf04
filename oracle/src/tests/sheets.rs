// 01's example and edges, each limit of the gate, and the train over random sheets.

use crate::band::{at_wavelength, band, random as random_band};
use crate::examples::examples;
use crate::functions::train::actions;
use crate::sheet::{gate, Layer, Refusal};
use crate::sheet_cases::{cases, limits, metals, IN_ORDER};
use crate::sheets::{
    damaged, example, gilded, largest, largest_of_two, mixed, retuned, sheet, valid, varied,
};
use crate::train::{listed, program, retune, run, start, step, Action, State};
use crate::values::Rng;

const EXAMPLE: [u32; 16] = [
    0x10000001, 0x20000000, 0x407F4000, 0x00000000, 0x3FE00000, 0x00000000, 0x3FE00000, 0x00000000,
    0x30000000, 0x3FF00000, 0x00000000, 0x40080000, 0x00000000, 0x00000000, 0x00000000, 0x50000001,
];

fn bytes(words: &[u32]) -> Vec<u8> {
    words.iter().flat_map(|word| word.to_be_bytes()).collect()
}

fn refused(bytes: &[u8]) -> (u64, u64) {
    match gate(bytes) {
        Ok(sheet) => (0, sheet.surfaces.len() as u64),
        Err(Refusal { number, place }) => (number, place),
    }
}

#[test]
fn the_example_prints_its_lines() {
    assert_eq!(bytes(&EXAMPLE), example().bytes());
    let lines = "1 T 3FD8000000000000 3FD8000000000000\nsum 3FE8000000000000\n";
    assert_eq!(program(&bytes(&EXAMPLE)), lines);
    assert_eq!(program(&[]), "refused 4 0\n");
    assert_eq!(program(&[0; 36]), "refused 5 0\n");
}

#[test]
fn edges() {
    let with_wavelength = |x: f64| {
        let mut plan = example();
        plan.beam[0] = x;
        refused(&plan.bytes())
    };
    assert_eq!(with_wavelength(100.0), (0, 1));
    assert_eq!(with_wavelength(99.0), (6, 1));

    let with_layers = |count: usize| {
        let mut plan = example();
        plan.surfaces[0].payload = 10;
        plan.surfaces[0].layers = vec![vec![1.5, 0.0, 10.0]; count];
        refused(&plan.bytes())
    };
    assert_eq!(with_layers(16), (0, 1));
    assert_eq!(with_layers(17), (5, 8 + 7 + 16 * 7));

    let with_surfaces = |count: usize| {
        let mut plan = example();
        plan.surfaces = vec![plan.surfaces[0].clone(); count];
        refused(&plan.bytes())
    };
    assert_eq!(with_surfaces(0), (0, 0));
    assert_eq!(with_surfaces(64), (0, 64));
    assert_eq!(with_surfaces(65), (5, 8 + 64 * 7));
}

#[test]
fn lengths() {
    let whole = largest().bytes();
    assert_eq!(whole.len(), 30_500);
    assert_eq!(refused(&whole), (0, 64));
    assert_eq!(refused(&whole[..30_496]), (5, 7_624));
    assert_eq!(refused(&[whole.as_slice(), &[0; 4]].concat()), (4, 0));
    assert_eq!(refused(&whole[..35]), (4, 0));
    assert_eq!(refused(&whole[..32]), (4, 0));
    assert_eq!(refused(&whole[..37]), (4, 0));
}

/// Every length about the two limits, under first words that are OPEN of an edition or not.
#[test]
fn lengths_by_the_first_word() {
    let whole = largest_of_two().bytes();
    assert_eq!(whole.len(), 39_460);
    assert_eq!(refused(&whole), (0, 64));
    for first in [0x1000_0001, 0x1000_0002, 0x1000_0003, 0x2000_0002, 2, 0] {
        let most = if first == 0x1000_0002_u32 {
            39_460
        } else {
            30_500
        };
        for length in (30_490..=30_510).chain(39_450..=39_470) {
            let mut bytes = whole.clone();
            bytes.resize(length, 0);
            bytes[..4].copy_from_slice(&first.to_be_bytes());
            let four = length % 4 != 0 || length > most;
            assert_eq!(refused(&bytes) == (4, 0), four, "{first:x} {length}");
        }
    }
}

/// Slip 3's grammar and gate.
#[test]
fn kind_6() {
    let plan = mixed();
    assert_eq!(refused(&plan.bytes()), (0, 3));
    for (edition, told) in [(0, (5, 0)), (1, (5, 22)), (3, (5, 0))] {
        let mut plan = plan.clone();
        plan.edition = edition;
        assert_eq!(refused(&plan.bytes()), told);
    }
    // Its raw words past the end; a payload; a bare surface before it.
    let words = plan.write().words;
    assert_eq!(refused(&bytes(&words[..30])), (5, 22));
    assert_eq!(refused(&bytes(&words[..31])), (5, 31));
    let changed = |place: usize, word: u32| {
        let mut words = words.clone();
        words[place] = word;
        refused(&bytes(&words))
    };
    assert_eq!(changed(22, 0x6000_0001), (5, 22));
    assert_eq!(changed(8, 0x3000_0000), (5, 15));
    // 17 layers of either kind.
    let with_layers = |count: usize, every: usize| {
        let mut plan = plan.clone();
        let layers = &mut plan.surfaces[0].layers;
        *layers = vec![vec![1.5, 0.0, 10.0]; count];
        for layer in layers.iter_mut().step_by(every) {
            *layer = vec![1.5, 0.01, 0.0, 10.0];
        }
        refused(&plan.bytes())
    };
    assert_eq!(with_layers(16, 1), (0, 3));
    assert_eq!(with_layers(16, 2), (0, 3));
    assert_eq!(with_layers(17, 1), (5, 8 + 7 + 16 * 9));
    assert_eq!(with_layers(17, 2), (5, 8 + 7 + 8 * 9 + 8 * 7));
    // 6 at its own word.
    for field in 0..4 {
        for x in [f64::NAN, f64::INFINITY, -1e9] {
            let mut plan = plan.clone();
            plan.surfaces[0].layers[1][field] = x;
            assert_eq!(refused(&plan.bytes()), (6, 22));
        }
    }
}

/// Its index, by hand: at 500 nm u2 is 0.25, so that A + (B + C/u2)/u2 is A + 4·B + 16·C.
#[test]
fn the_index_of_a_kind_6() {
    let film = Layer::Cauchy([1.5, 0.0625, 0.015625], 80.0).film(500.0);
    assert_eq!((film.n, film.thickness_nm), (2.0, 80.0));
    assert_eq!(film.k.to_bits(), 0);
}

#[test]
fn grammar() {
    let changed = |place: usize, word: u32| {
        let mut words = EXAMPLE;
        words[place] = word;
        refused(&bytes(&words))
    };
    // OPEN and BEAM.
    for word in [0, 0x1000_0000, 0x1000_0003, 0x2000_0001, 0x2000_0002] {
        assert_eq!(changed(0, word), (5, 0));
    }
    assert_eq!(changed(0, 0x1000_0002), (0, 1));
    for word in [0, 0x2000_0001, 0x3000_0000, 0x5000_0000] {
        assert_eq!(changed(1, word), (5, 1));
    }
    // Payloads of a SURFACE, and kinds in its place.
    for payload in 0..16 {
        assert_eq!(changed(8, 0x3000_0000 | payload), (0, 1));
    }
    for word in [
        0x3000_0010,
        0x3000_010A,
        0x3FFF_FFFF,
        0,
        0x4000_0000,
        0x6000_0000,
    ] {
        assert_eq!(changed(8, word), (5, 8));
    }
    // An END too early: its count is looked at before the words after it.
    assert_eq!(changed(8, 0x5000_0000), (5, 9));
    assert_eq!(changed(8, 0x5000_0001), (5, 8));
    // END's count; a LAYER after a bare surface; raw words past the end; END missing.
    for word in [0x5000_0000, 0x5000_0002, 0x4000_0000, 0x3000_0000] {
        assert_eq!(changed(15, word), (5, 15));
    }
    assert_eq!(refused(&bytes(&EXAMPLE[..15])), (5, 15));
    assert_eq!(refused(&bytes(&EXAMPLE[..14])), (5, 8));
    assert_eq!(refused(&bytes(&EXAMPLE[..9])), (5, 8));
    let mut two_ends = EXAMPLE.to_vec();
    two_ends.push(0x5000_0001);
    assert_eq!(refused(&bytes(&two_ends)), (5, 16));
    // 5 before 6.
    let mut words = EXAMPLE;
    words[2] = 0;
    words[15] = 0x5000_0002;
    assert_eq!(refused(&bytes(&words)), (5, 15));
}

#[test]
fn each_limit_has_two_sides() {
    for (inside, outside) in limits().into_iter().chain(metals()) {
        assert!(gate(&inside).is_ok(), "{:?}", refused(&inside));
        assert_eq!(refused(&outside).0, 6);
    }
}

#[test]
fn a_layer_at_fault_has_its_own_word_and_a_preset_its_surfaces() {
    let mut plan = varied();
    plan.surfaces[0].layers[1][1] = 1e-9;
    assert_eq!(refused(&plan.bytes()), (6, 8 + 7 + 7));
    let mut plan = example();
    plan.surfaces[0].payload = 4;
    plan.surfaces[0].numbers = [2.0, 4.0, 0.7];
    assert_eq!(refused(&plan.bytes()), (6, 8));
    plan.surfaces[0].payload = 0;
    assert_eq!(refused(&plan.bytes()), (0, 1));
}

/// Slip 12: the word is that of the first layer outside the old limits, of the first surface under neither set.
#[test]
fn the_word_of_a_metal_film() {
    let plan = gilded();
    assert_eq!(refused(&plan.bytes()), (0, 3));
    // The surface's second layer is the first outside the old limits; any of its layers may be at fault.
    let second = 8 + 7 + 7 + 7 + 7;
    for (layer, field, x) in [
        (0, 0, 0.06),
        (1, 1, 8.1),
        (2, 1, 1e300),
        (3, 3, 100_001.0),
        (3, 0, f64::INFINITY),
        (0, 1, f64::NAN),
    ] {
        let mut plan = plan.clone();
        plan.surfaces[1].layers[layer][field] = x;
        let word = if layer == 0 { second - 7 } else { second };
        assert_eq!(refused(&plan.bytes()), (6, word), "{layer} {field} {x}");
    }
    let mut plan = plan.clone();
    plan.surfaces[1].numbers[2] = 1e-3;
    assert_eq!(refused(&plan.bytes()), (6, second));
    plan.surfaces[0].layers = vec![plan.surfaces[0].layers[0].clone(); 5];
    assert_eq!(refused(&plan.bytes()), (6, 8 + 7));
    plan.surfaces[0].payload = 9;
    plan.surfaces[0].layers.clear();
    plan.surfaces[1].numbers[2] = -0.0;
    assert_eq!(refused(&plan.bytes()), (0, 3));
}

/// The sum in the order of the list, by hand.
#[test]
fn the_sum_in_its_order() {
    let term = |layer: &[f64; 3]| 2.0 * std::f64::consts::PI * layer[2] / 1000.0 * layer[1];
    let sum = |from: f64, layer: &[f64; 3]| from + term(layer);
    assert_eq!(IN_ORDER.iter().fold(0.0, sum), 16.0);
    assert_eq!(IN_ORDER.iter().rev().fold(0.0, sum), 16.000000000000004);
}

/// A wavelength set anew is tested on the sum.
#[test]
fn a_retune_of_a_metal_film() {
    let sheet = gate(&gilded().bytes()).expect("admitted");
    let term = |w: f64| 2.0 * std::f64::consts::PI * 20.0 / w * 8.0;
    assert!(term(100.0) <= 16.0);
    assert!(sheet.holds(0, 550.0) && sheet.holds(3, 100.0));
    let mut plan = gilded();
    plan.surfaces[0].layers[0][2] = 100.0;
    let sheet = gate(&plan.bytes()).expect("admitted");
    assert!(!sheet.holds(0, 300.0) && sheet.holds(1, 300.0) && sheet.holds(0, 400.0));
}

#[test]
fn refusals_of_step_and_run() {
    let sheet = varied().bytes();
    let at = |done: u64| {
        step(
            &sheet,
            State {
                done,
                s: 1.0,
                p: 1.0,
                wavelength: 550.0,
            },
        )
    };
    let seven = Err(Refusal {
        number: 7,
        place: 0,
    });
    assert!(at(2).is_ok());
    assert_eq!(at(3), seven);
    assert_eq!(at(u64::MAX), seven);
    let mut list = [7.0; 9];
    let eight = Err(Refusal {
        number: 8,
        place: 0,
    });
    assert_eq!(run(&sheet, &mut list[..5]), eight);
    assert_eq!(list, [7.0; 9]);
    assert_eq!(run(&sheet, &mut list), Ok(3));
    assert_eq!(list[6..], [7.0; 3]);
    assert!(list[..6].iter().all(|x| *x < 1.0));
}

#[test]
fn a_run_is_step_after_step_and_never_grows() {
    let mut rng = Rng::new(12);
    for _ in 0..300 {
        let bytes = valid(&mut rng).bytes();
        let sheet = gate(&bytes).expect("valid");
        let count = sheet.surfaces.len();
        let mut list = vec![0.0; 2 * count];
        assert_eq!(run(&bytes, &mut list), Ok(count));
        let mut state = start(&sheet);
        for powers in list.chunks(2) {
            let before = state;
            state = step(&bytes, state).expect("valid");
            assert_eq!(powers[0].to_bits(), state.s.to_bits());
            assert_eq!(powers[1].to_bits(), state.p.to_bits());
            assert!(0.0 <= state.s && state.s <= before.s);
            assert!(0.0 <= state.p && state.p <= before.p);
        }
        assert_eq!(step(&bytes, state).map_err(|r| r.number), Err(7));
        let list = listed(&sheet, &vec![Action::Step; count + 2]);
        assert_eq!(list[count + 1], (7, state));
        assert!(list[..count].iter().all(|(number, _)| *number == 0));
    }
}

/// Slip 5's grammar and gate.
#[test]
fn kind_7() {
    let plan = retuned();
    assert_eq!(refused(&plan.bytes()), (0, 3));
    let words = plan.write().words;
    // OPEN and BEAM, a SURFACE with a LAYER and a kind 6; then the kind 7.
    let at = 8 + 7 + 7 + 9;
    assert_eq!(words[at], 0x7000_0000);
    let changed = |place: usize, word: u32| {
        let mut words = words.clone();
        words[place] = word;
        refused(&bytes(&words))
    };
    assert_eq!(changed(0, 0x1000_0001), (5, 22));
    assert_eq!(changed(at, 0x7000_0001), (5, at as u64));
    for word in [0x7000_0000, 0x4000_0000, 0x5000_0001, 0x3000_0010, 0] {
        assert_eq!(changed(at + 3, word), (5, at as u64 + 3));
    }
    // Its raw words past the end, and nothing after it.
    assert_eq!(refused(&bytes(&words[..at + 2])), (5, at as u64));
    assert_eq!(refused(&bytes(&words[..at + 3])), (5, at as u64 + 3));
    // Edition 1 has none; after a 64th surface it is at the kind 7 itself.
    let mut bare = example();
    bare.surfaces[0].retune = Some(632.8);
    assert_eq!(refused(&bare.bytes()), (5, 8));
    bare.edition = 2;
    assert_eq!(refused(&bare.bytes()), (0, 1));
    bare.surfaces = vec![example().surfaces[0].clone(); 65];
    bare.surfaces[64].retune = Some(632.8);
    assert_eq!(refused(&bare.bytes()), (5, 8 + 64 * 7));
    // 6 at its own word, or at the layer that fails at it.
    let mut plan = plan.clone();
    for wavelength in [f64::NAN, 99.0, 10_001.0, f64::INFINITY] {
        plan.surfaces[1].retune = Some(wavelength);
        assert_eq!(refused(&plan.bytes()), (6, at as u64));
    }
    plan.surfaces[1].retune = Some(632.8);
    plan.surfaces[2].retune = Some(100.0);
    plan.surfaces[2].layers[0] = vec![1.45, 0.035, 0.0, 0.0];
    let layer = at as u64 + 3 + 7 + 3 + 7;
    assert_eq!(refused(&plan.bytes()), (6, layer));
}

/// By hand: the kind 7 wins over a retune and lasts; a refused retune keeps what was held; after the last surface a
/// retune is allowed.
#[test]
fn retunes_by_hand() {
    let sheet = gate(&retuned().bytes()).expect("admitted");
    let list = [
        Action::Retune(600.0),
        Action::Step,
        Action::Retune(99.0),
        Action::Retune(700.0),
        Action::Step,
        Action::Retune(f64::NAN),
        Action::Step,
        Action::Step,
        Action::Retune(5000.0),
    ];
    let told: Vec<(u64, u64, f64)> = listed(&sheet, &list)
        .into_iter()
        .map(|(number, state)| (number, state.done, state.wavelength))
        .collect();
    let expected = [
        (0, 0, 600.0),
        (0, 1, 600.0),
        (11, 1, 600.0),
        (0, 1, 700.0),
        (0, 2, 632.8),
        (11, 2, 632.8),
        (0, 3, 1064.0),
        (7, 3, 1064.0),
        (0, 3, 5000.0),
    ];
    assert_eq!(told, expected);
}

/// A step from a state that holds a bad wavelength: 7, then 11, also where the next surface has a kind 7.
#[test]
fn elevens() {
    let sheet = retuned().bytes();
    let state = |done, wavelength| State {
        done,
        s: 1.0,
        p: 1.0,
        wavelength,
    };
    let number = |outcome: Result<State, Refusal>| outcome.map_or_else(|r| r.number, |_| 0);
    for wavelength in [f64::NAN, 99.999, 10_000.1, f64::INFINITY] {
        for done in 0..3 {
            assert_eq!(number(step(&sheet, state(done, wavelength))), 11);
        }
        assert_eq!(number(step(&sheet, state(3, wavelength))), 7);
        assert_eq!(number(retune(&sheet, state(4, 550.0), wavelength)), 11);
        assert_eq!(number(retune(&sheet, state(4, wavelength), 550.0)), 0);
    }
    assert_eq!(number(step(&[], state(9, f64::NAN))), 4);
    assert_eq!(number(retune(&[], state(9, f64::NAN), 0.0)), 4);
}

/// By hand: 3/8 at every line of 01's example, the refusals in their order, and a BEAM of -0.
#[test]
fn bands_by_hand() {
    let plain = example().bytes();
    let means = band(&plain, &[500.0, 700.0], &[1, 1000]);
    assert_eq!(means, Ok([0.375, 0.375]));
    let refused = |bytes: &[u8], wavelengths: &[f64], weights: &[u32]| {
        let refusal = band(bytes, wavelengths, weights).expect_err("refused");
        (refusal.number, refusal.place)
    };
    assert_eq!(refused(&[], &[], &[]), (4, 0));
    assert_eq!(refused(&retuned().bytes(), &[], &[]).0, 12);
    assert_eq!(refused(&plain, &[], &[]), (15, 64));
    assert_eq!(refused(&plain, &[f64::NAN], &[0, 0]), (15, 64));
    assert_eq!(refused(&plain, &[500.0; 65], &[1; 65]), (15, 64));
    assert_eq!(refused(&plain, &[f64::NAN, 500.0], &[1, 1001]), (15, 1));
    assert_eq!(refused(&plain, &[500.0, 99.0], &[1, 1]), (16, 1));
    let mut none = example();
    none.surfaces.clear();
    none.beam = [500.0, -0.0, 1.0];
    let means = band(&none.bytes(), &[500.0], &[3]).expect("answered");
    assert_eq!(means.map(f64::to_bits), [0.0, 1.0].map(f64::to_bits));
}

/// What is judged by the gate of the sheet with a line's wavelength is what slip 5 tests of it.
#[test]
fn a_line_passes_where_the_gate_says_so() {
    let mut rng = Rng::new(41);
    let mut met = [0; 17];
    for _ in 0..600 {
        let (bytes, wavelengths, weights) = random_band(&mut rng);
        met[band(&bytes, &wavelengths, &weights).map_or_else(|r| r.number, |_| 0) as usize] += 1;
        let Ok(sheet) = gate(&bytes) else { continue };
        for wavelength in wavelengths {
            let admitted = gate(&at_wavelength(&bytes, wavelength)).is_ok();
            assert_eq!(admitted, sheet.holds(0, wavelength));
        }
    }
    assert!([0, 4, 5, 6, 12, 15, 16].iter().all(|n| met[*n] > 0));
}

/// The list as a whole is one call after another.
#[test]
fn a_list_is_one_call_after_another() {
    let mut rng = Rng::new(14);
    let mut met = [0; 12];
    for _ in 0..300 {
        let bytes = valid(&mut rng).bytes();
        let sheet = gate(&bytes).expect("valid");
        let list = actions(&mut rng, &bytes);
        let mut state = start(&sheet);
        for (action, (number, next)) in list.iter().zip(listed(&sheet, &list)) {
            let outcome = match action {
                Action::Step => step(&bytes, state),
                Action::Retune(wavelength) => retune(&bytes, state, *wavelength),
            };
            met[number as usize] += 1;
            assert_eq!(outcome.map_or_else(|r| r.number, |_| 0), number);
            state = outcome.unwrap_or(state);
            assert_eq!(state, next);
        }
    }
    assert!([0, 7, 11].iter().all(|n| met[*n] > 100), "{met:?}");
}

#[test]
fn the_examples_have_their_refusals() {
    let mut names = Vec::new();
    for (name, bytes) in examples() {
        let number = name
            .strip_prefix("refused_")
            .map_or(0, |rest| rest.as_bytes()[0] - b'0');
        assert_eq!(refused(&bytes).0, u64::from(number), "{name}");
        names.push(name);
    }
    names.sort();
    names.dedup();
    assert_eq!(names.len(), 78);
}

#[test]
fn every_refusal_is_met() {
    let mut met = [0; 7];
    for bytes in cases() {
        met[refused(&bytes).0 as usize] += 1;
    }
    assert!([0, 4, 5, 6].iter().all(|n| met[*n] > 20), "{met:?}");
    let mut rng = Rng::new(13);
    let mut met = [0; 7];
    for _ in 0..2000 {
        met[refused(&damaged(&mut rng)).0 as usize] += 1;
        met[refused(&sheet(&mut rng)).0 as usize] += 1;
    }
    assert!([0, 4, 5, 6].iter().all(|n| met[*n] > 100), "{met:?}");
}
