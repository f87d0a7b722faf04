// The train through the static library `dihkelu`: gate, start, step, retune, lists of these, whole run and answers, held
// against `sheet` and `train`, with what a refusal leaves in what was lent.

use crate::arguments::{random, Arg};
use crate::band;
use crate::dihkelu;
use crate::functions::born_wolf::to_mueller_born_wolf;
use crate::functions::edition_1::{edition_1, need, written};
use crate::functions::exports::{mueller, reflectance_range, stack};
use crate::functions::quarter_waves::{multiples, quarter_waves};
use crate::functions::train::{actions, tune};
use crate::progress::Progress;
use crate::ranges;
use crate::record::{bits, numbers, Arguments};
use crate::reference::polarization::JonesMatrix;
use crate::sheet::{gate, Refusal};
use crate::sheets::sheet;
use crate::train::{answers, listed, retune, run, start, step, Action, Light, State};
use crate::values::{any, Rng};

// What each call returned, as one number.

pub fn linked_gate(sheet: &[u8]) -> u64 {
    returned(dihkelu::gate(sheet))
}

/// A state as the library takes it, and back.
fn train_of(state: State) -> dihkelu::Train {
    dihkelu::Train {
        surfaces_done: state.done as u32,
        s: state.s,
        p: state.p,
        wavelength_nm: state.wavelength,
    }
}

fn state_of(train: dihkelu::Train) -> State {
    State {
        done: u64::from(train.surfaces_done),
        s: train.s,
        p: train.p,
        wavelength: train.wavelength_nm,
    }
}

/// What a call returned, and the state that it left of the one that it was lent.
fn moved(
    lent: State,
    call: impl FnOnce(&mut dihkelu::Train) -> Result<u32, dihkelu::Refusal>,
) -> (u64, State) {
    let mut train = train_of(lent);
    let outcome = call(&mut train);
    (returned(outcome), state_of(train))
}

pub fn linked_start(sheet: &[u8], lent: State) -> (u64, State) {
    moved(lent, |train| dihkelu::start(sheet, train))
}

pub fn linked_step(sheet: &[u8], lent: State) -> (u64, State) {
    moved(lent, |train| dihkelu::step(sheet, train))
}

pub fn linked_retune(sheet: &[u8], lent: State, wavelength: f64) -> (u64, State) {
    moved(lent, |train| dihkelu::retune(sheet, train, wavelength))
}

pub fn linked_run(sheet: &[u8], list: &mut [f64]) -> u64 {
    returned(dihkelu::run(sheet, list))
}

pub fn linked_edition_1(sheet: &[u8], output: &mut [u8]) -> u64 {
    returned(dihkelu::edition_1(sheet, output))
}

pub fn linked_answers(sheet: &[u8], surface: u32, list: &mut [f64]) -> u64 {
    returned(dihkelu::answers(sheet, surface, list))
}

pub fn linked_band(sheet: &[u8], wavelengths: &[f64], weights: &[u32], list: &mut [f64]) -> u64 {
    returned(dihkelu::band(sheet, wavelengths, weights, list))
}

/// `at` is n_incident, n_substrate, angle, wavelength.
pub fn linked_evaluate(
    code: u32,
    design: f64,
    at: [f64; 4],
    flat: &[f64],
    list: &mut [f64],
) -> u64 {
    returned(dihkelu::evaluate(code, design, at, flat, list))
}

/// `n` is the index of H, of L and of M.
pub fn linked_stack(text: &[u8], n: [f64; 3], design: f64, list: &mut [f64]) -> u64 {
    returned(dihkelu::stack(text, n, design, list))
}

/// Both conversions, the Rust's first.
pub fn linked_muellers() -> [fn(&[f64], &mut [f64]) -> u64; 2] {
    [
        |jones, list| returned(dihkelu::to_mueller(jones, list)),
        |jones, list| returned(dihkelu::mueller_born_wolf(jones, list)),
    ]
}

/// `ends` are n1 low, n1 high, n2 low, n2 high.
pub fn linked_reflectance_range([a, b, c, d]: ranges::Ends, list: &mut [f64]) -> u64 {
    returned(dihkelu::reflectance_range([a, b], [c, d], list))
}

/// `film` is n, thickness, wavelength.
pub fn linked_quarter_waves(film: [f64; 3], remainder: &mut f64) -> u64 {
    let [n, thickness, wavelength] = film;
    returned(dihkelu::quarter_waves(n, thickness, wavelength, remainder))
}

/// What a call returned, as one number.
pub fn returned(outcome: Result<u32, dihkelu::Refusal>) -> u64 {
    match outcome {
        Ok(value) => u64::from(value),
        Err(refusal) => u64::from(refusal.number) << 32 | u64::from(refusal.place),
    }
}

/// A NaN with a payload of its own: a store, even of a NaN, would show.
fn odd(i: usize) -> f64 {
    f64::from_bits(0x7FF4_0000_0000_0001 + i as u64)
}

fn filled(count: usize) -> Vec<f64> {
    (0..count).map(odd).collect()
}

fn packed(refusal: Refusal) -> u64 {
    refusal.number << 32 | refusal.place
}

/// Whether a call returned what it should and left the list so: `written` at its front, the rest as it was.
fn left(returned: u64, expected: u64, list: &[f64], written: &[f64]) -> bool {
    let front = list.iter().zip(written).all(|(x, y)| bits(*x) == bits(*y));
    let rest = |i: usize| list[i].to_bits() == odd(i).to_bits();
    returned == expected && front && (written.len()..list.len()).all(rest)
}

/// What a call is expected to return and to write; 8 where the list is too short for it.
fn expected(answer: Result<(u64, Vec<f64>), Refusal>, room: usize) -> (u64, Vec<f64>) {
    match answer {
        Err(refusal) => (packed(refusal), Vec::new()),
        Ok((_, written)) if written.len() > room => (8 << 32, Vec::new()),
        Ok((number, written)) => (number, written),
    }
}

/// A state whose floats are NaNs of their own: a store, even of a NaN, would show.
fn odd_state() -> State {
    State {
        done: 7,
        s: odd(0),
        p: odd(1),
        wavelength: odd(2),
    }
}

/// Whether a call returned what it should and left the state so: the next one, all NaNs being one, or each bit as lent.
fn stands(ours: (u64, State), lent: State, theirs: Result<(u64, State), Refusal>) -> bool {
    let floats = |state: State| [state.s, state.p, state.wavelength];
    let (number, state, pattern): (u64, State, fn(f64) -> u64) = match theirs {
        Ok((number, state)) => (number, state, bits),
        Err(refusal) => (packed(refusal), lent, f64::to_bits),
    };
    ours.0 == number
        && ours.1.done == state.done
        && floats(ours.1).map(pattern) == floats(state).map(pattern)
}

fn step_agrees(bytes: &[u8], state: State) -> bool {
    let next = step(bytes, state).map(|next| (next.done, next));
    stands(linked_step(bytes, state), state, next)
}

fn retune_agrees(bytes: &[u8], state: State, wavelength: f64) -> bool {
    let next = retune(bytes, state, wavelength).map(|next| (next.done, next));
    stands(linked_retune(bytes, state, wavelength), state, next)
}

/// A list of actions from Start: each number and each state, held to those that the sheet and the list alone give.
fn list_agrees(bytes: &[u8], actions: &[Action], spoiled: bool) -> bool {
    let Ok(sheet) = gate(bytes) else {
        return true;
    };
    let mut state = linked_start(bytes, odd_state()).1;
    let listed = listed(&sheet, actions);
    actions.iter().zip(listed).all(|(action, (number, next))| {
        let number = number ^ u64::from(spoiled);
        let ours = match action {
            Action::Step => linked_step(bytes, state),
            Action::Retune(wavelength) => linked_retune(bytes, state, *wavelength),
        };
        let theirs = match number {
            0 => Ok((next.done, next)),
            _ => Err(Refusal { number, place: 0 }),
        };
        let agrees = stands(ours, state, theirs) && ours.1.done == next.done;
        state = ours.1;
        agrees && [state.s, state.p].map(bits) == [next.s, next.p].map(bits)
    })
}

/// Holds lists of up to 200 steps and retunes on random sheets against the slip's words. Returns actions, and lists that
/// differ.
pub fn compare_lists(seed: u64, count: u64, spoiled: Option<u64>) -> (u64, u64) {
    let mut rng = Rng::new(seed);
    let mut progress = Progress::new("lists", count);
    let (mut made, mut different) = (0, 0);
    for number in 0..count {
        let bytes = loop {
            let bytes = sheet(&mut rng);
            if gate(&bytes).is_ok() {
                break bytes;
            }
        };
        let mut list = actions(&mut rng, &bytes);
        if spoiled == Some(number) {
            list.push(Action::Step);
        }
        made += list.len() as u64;
        if !list_agrees(&bytes, &list, spoiled == Some(number)) {
            if different == 0 {
                println!("list: sheet {bytes:02X?}, {list:?}");
            }
            different += 1;
        }
        progress.step();
    }
    (made, different)
}

/// A surface's answers as `dihkelu_answers` lays them out; 7 where there is no such surface.
fn laid_out(bytes: &[u8], surface: u32) -> Result<Vec<f64>, Refusal> {
    let sheet = gate(bytes)?;
    let none = Refusal {
        number: 7,
        place: 0,
    };
    let number = surface as usize;
    let surface = sheet.surfaces.get(number).ok_or(none)?;
    let answers = answers(surface, sheet.met(number));
    let (coated, powers, response) = match &answers.light {
        Light::Bare(p) => (0.0, [p.reflected, p.transmitted].concat(), Vec::new()),
        Light::Coated(r) => {
            let powers = vec![
                r.reflectance_s,
                r.reflectance_p,
                r.transmittance_s,
                r.transmittance_p,
            ];
            (1.0, powers, numbers(r).to_vec())
        }
    };
    let mut list = vec![coated];
    list.extend(powers);
    for jones in &answers.jones {
        list.extend(jones.m.iter().flatten().flat_map(|z| [z.re, z.im]));
    }
    for mueller in &answers.mueller {
        list.extend(mueller.m.iter().flatten());
    }
    list.extend(response);
    Ok(list)
}

fn answers_agree(bytes: &[u8], surface: u32, room: usize) -> bool {
    let mut list = filled(room);
    let returned = linked_answers(bytes, surface, &mut list);
    let answer = laid_out(bytes, surface).map(|numbers| (numbers.len() as u64, numbers));
    let (number, written) = expected(answer, room);
    left(returned, number, &list, &written)
}

/// Every call on one sheet: calls made, and the name of the first that differs. Where it is `spoiled`, what is expected
/// of the gate is wrong.
fn sheet_agrees(bytes: &[u8], rng: &mut Rng, spoiled: bool) -> (u64, Option<&'static str>) {
    let gated = gate(bytes);
    let count = gated.as_ref().map_or(0, |sheet| sheet.surfaces.len());
    let counted = gated.as_ref().map(|sheet| sheet.surfaces.len() as u64);
    let mut calls = 1;
    let number = counted.unwrap_or_else(|r| packed(*r));
    if linked_gate(bytes) != number ^ u64::from(spoiled) {
        return (calls, Some("gate"));
    }
    let fresh = gate(bytes).map(|x| (count as u64, start(&x)));
    calls += 1;
    if !stands(linked_start(bytes, odd_state()), odd_state(), fresh) {
        return (calls, Some("start"));
    }
    for room in [0, (2 * count).saturating_sub(1), 2 * count, 2 * count + 3] {
        let mut list = filled(room);
        let returned = linked_run(bytes, &mut list);
        let mut theirs = vec![0.0; 2 * count];
        let answer = run(bytes, &mut theirs).map(|n| (n as u64, theirs));
        let (number, written) = expected(answer, room);
        calls += 1;
        if !left(returned, number, &list, &written) {
            return (calls, Some("run"));
        }
    }
    let mut state = gated.as_ref().map_or_else(|_| odd_state(), start);
    for _ in 0..count.min(6) + 2 {
        calls += 1;
        if !step_agrees(bytes, state) {
            return (calls, Some("step"));
        }
        state = step(bytes, state).unwrap_or(state);
    }
    for done in [
        0,
        1,
        rng.below(70) as u64,
        rng.bits() >> 32,
        u64::from(u32::MAX),
    ] {
        let near = gated.as_ref().map_or(550.0, |sheet| sheet.wavelength);
        let state = State {
            done,
            s: any(rng),
            p: any(rng),
            wavelength: tune(rng, near),
        };
        calls += 2;
        if !step_agrees(bytes, state) {
            return (calls, Some("step of any state"));
        }
        if !retune_agrees(bytes, state, tune(rng, near)) {
            return (calls, Some("retune of any state"));
        }
    }
    for surface in [0, rng.below(count + 1), count, rng.bits() as usize >> 3] {
        calls += 1;
        if !answers_agree(bytes, surface as u32, rng.pick(&[0, 52, 53, 68, 69, 72])) {
            return (calls, Some("answers"));
        }
    }
    (calls, None)
}

/// Holds the exports against the Rust on `count` random sheets, valid and damaged. Returns calls and sheets that differ.
pub fn compare_trains(seed: u64, count: u64, spoiled: Option<u64>) -> (u64, u64) {
    let mut rng = Rng::new(seed);
    let mut progress = Progress::new("sheets", count);
    let (mut calls, mut different) = (0, 0);
    for number in 0..count {
        let bytes = sheet(&mut rng);
        let (made, first) = sheet_agrees(&bytes, &mut rng, spoiled == Some(number));
        calls += made;
        progress.step();
        if let Some(name) = first {
            if different == 0 {
                println!("{name}: sheet {bytes:02X?}");
            }
            different += 1;
        }
    }
    (calls, different)
}

/// An output of so many bytes, none like its neighbours.
fn blank(count: usize) -> Vec<u8> {
    (0..count).map(|i| (i * 37 + i / 256 + 11) as u8).collect()
}

/// `dihkelu_edition_1` on one sheet with outputs of every length about the need, every byte held; and the new sheet's
/// runs, steps and answers, held to those of the old one. Calls made, and whether all agree.
fn edition_1_agrees(bytes: &[u8], rng: &mut Rng, spoiled: bool) -> (u64, bool) {
    let need = need(bytes);
    let mut rooms = vec![0, 1, bytes.len(), rng.below(need + 1), need + 100];
    rooms.extend(need.saturating_sub(9)..need + 10);
    let mut calls = 0;
    for room in rooms {
        let mut output = blank(room);
        let returned = linked_edition_1(bytes, &mut output);
        let (number, left) = written(bytes, &blank(room));
        calls += 1;
        if returned != number ^ u64::from(spoiled) || output != left {
            return (calls, false);
        }
    }
    let Ok(new) = edition_1(bytes) else {
        return (calls, true);
    };
    // The same from the start on, and written once more as it is.
    let mut again = blank(new.len());
    let run = |sheet: &[u8]| {
        let mut list = filled(130);
        let returned = linked_run(sheet, &mut list);
        (
            returned,
            list.iter().map(|x| x.to_bits()).collect::<Vec<u64>>(),
        )
    };
    let steps = |sheet: &[u8]| {
        let (number, mut state) = linked_start(sheet, odd_state());
        let mut seen = vec![number, bits(state.s), bits(state.p)];
        for _ in 0..number.min(8) + 1 {
            let (number, next) = linked_step(sheet, state);
            state = next;
            seen.extend([number, bits(state.s), bits(state.p), bits(state.wavelength)]);
        }
        seen
    };
    let surface = rng.below(65) as u32;
    let answers = |sheet: &[u8]| {
        let mut list = filled(69);
        let returned = linked_answers(sheet, surface, &mut list);
        (
            returned,
            list.iter().map(|x| x.to_bits()).collect::<Vec<u64>>(),
        )
    };
    calls += 1;
    let alike = linked_edition_1(&new, &mut again) == new.len() as u64
        && again == new
        && new.starts_with(&[0x10, 0, 0, 1])
        && (bytes[3] == 2 || new == bytes)
        && run(&new) == run(bytes)
        && steps(&new) == steps(bytes)
        && answers(&new) == answers(bytes);
    (calls, alike)
}

/// Holds `dihkelu_edition_1` against 02 slip 6 on `count` random sheets, valid and damaged, of both editions. Returns calls, sheets
/// that differ, and how many sheets of edition 2 became one of edition 1.
pub fn compare_edition_1(seed: u64, count: u64, spoiled: Option<u64>) -> (u64, u64, u64) {
    let mut rng = Rng::new(seed);
    let mut progress = Progress::new("edition 1", count);
    let (mut calls, mut different, mut became) = (0, 0, 0);
    for number in 0..count {
        let bytes = sheet(&mut rng);
        let (made, agrees) = edition_1_agrees(&bytes, &mut rng, spoiled == Some(number));
        calls += made;
        became += u64::from(edition_1(&bytes).is_ok_and(|new| new != bytes));
        if !agrees {
            if different == 0 {
                println!("edition 1: sheet {bytes:02X?}");
            }
            different += 1;
        }
        progress.step();
    }
    (calls, different, became)
}

/// Holds `dihkelu_band` against the slip's words on `count` bands. Returns how many lines they have, how many bands are
/// answered and how many differ, or have a mean outside 0 to 1.
pub fn compare_bands(seed: u64, count: u64, spoiled: Option<u64>) -> [u64; 3] {
    let mut rng = Rng::new(seed);
    let mut progress = Progress::new("bands", count);
    let [mut lines, mut answered, mut different] = [0; 3];
    for made in 0..count {
        let (bytes, wavelengths, weights) = band::random(&mut rng);
        let room = rng.pick(&[0, 1, 2, 2, 2, 2, 3]);
        let mut list = filled(room);
        let returned = linked_band(&bytes, &wavelengths, &weights, &mut list);
        let means = band::band(&bytes, &wavelengths, &weights);
        let within = means.map_or(true, |m| m.iter().all(|x| (0.0..=1.0).contains(x)));
        answered += u64::from(means.is_ok());
        lines += wavelengths.len() as u64;
        let answer = means.map(|m| (wavelengths.len() as u64, m.to_vec()));
        let (number, written) = expected(answer, room);
        let number = number ^ u64::from(spoiled == Some(made));
        if !left(returned, number, &list, &written) || !within {
            if different == 0 {
                println!("band: sheet {bytes:02X?}, {wavelengths:?}, {weights:?}, returned {returned:X}, not {number:X}, left {list:?}");
            }
            different += 1;
        }
        progress.step();
    }
    [lines, answered, different]
}

/// Holds `dihkelu_quarter_waves` against whole numbers on these films. Returns how many there are and how many differ.
fn compare_films(films: impl Iterator<Item = [f64; 3]>, spoiled: Option<u64>) -> (u64, u64) {
    let (mut made, mut different) = (0, 0);
    for film in films {
        let mut list = filled(1);
        let returned = linked_quarter_waves(film, &mut list[0]);
        let (number, written) = match quarter_waves(film) {
            Some((count, remainder)) => (count, vec![remainder]),
            None => (14 << 32, Vec::new()),
        };
        let number = number ^ u64::from(spoiled == Some(made));
        if !left(returned, number, &list, &written) {
            if different == 0 {
                println!("quarter waves: {film:?}, returned {returned:X}, not {number:X}, left {list:?}, not {written:?}");
            }
            different += 1;
        }
        made += 1;
    }
    (made, different)
}

/// The same on `count` random films, and on the neighbours of all whole multiples.
pub fn compare_quarter_waves(seed: u64, count: u64, spoiled: Option<u64>) -> [(u64, u64); 2] {
    let function = &crate::functions::quarter_waves::table()[0];
    let mut rng = Rng::new(seed);
    let film = |_| Arguments::new(&random(function.args, &mut rng)).floats();
    [
        compare_films((0..count).map(film), spoiled),
        compare_films(multiples(), None),
    ]
}

/// Holds `dihkelu_stack` against the second reading of the stack shorthand on `count` texts. Returns how many differ.
pub fn compare_stacks(seed: u64, count: u64, spoiled: Option<u64>) -> u64 {
    let function = &crate::functions::shorthand::table()[0];
    let mut rng = Rng::new(seed);
    let mut progress = Progress::new("stacks", count);
    let mut different = 0;
    for made in 0..count {
        let words = random(function.args, &mut rng);
        let mut a = Arguments::new(&words);
        let [h, l, m, design] = a.floats();
        let text = a.bytes();
        let room = rng.pick(&[0, 3, 45, 191, 192, 200]);
        let mut list = filled(room);
        let returned = linked_stack(&text, [h, l, m], design, &mut list);
        let (number, written) = expected(stack(&text, [h, l, m], design), room);
        let number = number ^ u64::from(spoiled == Some(made));
        if !left(returned, number, &list, &written) {
            if different == 0 {
                println!("stack: {text:02X?}, arguments {words:X?}, returned {returned:X}, not {number:X}");
            }
            different += 1;
        }
        progress.step();
    }
    different
}

/// Holds `dihkelu_to_mueller` against the Rust and `dihkelu_mueller_born_wolf` against 02 slip 8 on `count` Jones matrices,
/// some of which have not 8 numbers. Returns how many of each differ.
pub fn compare_muellers(seed: u64, count: u64, spoiled: Option<u64>) -> [u64; 2] {
    let conversions = [|j: &JonesMatrix| j.to_mueller(), to_mueller_born_wolf];
    let linked = linked_muellers();
    let mut rng = Rng::new(seed);
    let mut progress = Progress::new("Mueller matrices", count);
    let mut different = [0; 2];
    for made in 0..count {
        let words = random(&[Arg::Matrix], &mut rng);
        let numbers: Vec<f64> = words[1..].iter().map(|w| f64::from_bits(*w)).collect();
        for (i, conversion) in conversions.into_iter().enumerate() {
            let room = rng.pick(&[0, 15, 16, 16, 16, 20]);
            let mut list = filled(room);
            let returned = linked[i](&numbers, &mut list);
            let (number, written) = expected(mueller(&numbers, conversion), room);
            let number = number ^ u64::from(spoiled == Some(made));
            if !left(returned, number, &list, &written) {
                if different[i] == 0 {
                    println!("Mueller matrix: {words:X?}, returned {returned:X}, not {number:X}");
                }
                different[i] += 1;
            }
        }
        progress.step();
    }
    different
}

/// Holds `dihkelu_reflectance_range` against the original's `fresnel_dielectric` and against exact fractions, with 10 pairs of values
/// in each, on `count` pairs of ranges. Returns how many differ, and the most that a gap exceeds the true spread by, in 2^-53.
pub fn compare_ranges(seed: u64, count: u64, spoiled: Option<u64>) -> (u64, f64) {
    let mut rng = Rng::new(seed);
    let mut progress = Progress::new("ranges", count);
    let (mut different, mut most) = (0, 0f64);
    for made in 0..count {
        let ends = ranges::random(&mut rng);
        let room = rng.pick(&[0, 1, 2, 2, 2, 2, 3]);
        let mut list = filled(room);
        let returned = linked_reflectance_range(ends, &mut list);
        let (number, written) = expected(reflectance_range(ends), room);
        let number = number ^ u64::from(spoiled == Some(made));
        let mut found = match left(returned, number, &list, &written) {
            true => Ok(0.0),
            false => Err("another number or list"),
        };
        if let (Ok(_), 2) = (found, returned) {
            found = ranges::excess(ends, [list[0], list[1]], 10, &mut rng);
        }
        match found {
            Ok(excess) => most = most.max(excess),
            Err(what) => {
                if different == 0 {
                    println!(
                        "reflectance_range: {what}, {ends:?}, returned {returned:X}, {list:?}"
                    );
                }
                different += 1;
            }
        }
        progress.step();
    }
    (different, most)
}
