// Groups sheet and train: the gate, Start, a step, a retune, lists of them, a whole run, a surface's answers.

use crate::arguments::Arg::{Actions, Answers, Retune, Run, Sheet, Start, Step};
use crate::functions::names::{cases as byte_cases, push};
use crate::functions::Function;
use crate::record::{bits, Arguments, Words};
use crate::sheet::{gate, Refusal};
use crate::sheet_cases::cases;
use crate::sheets::{largest, largest_of_two, line, mixed, retuned, sheet, valid, varied};
use crate::train::{answers, listed, retune, run, start, step, Action, Light, State};
use crate::values::{any, neighbour, Rng};

fn push_state(r: &mut Words, state: State) {
    r.int(0);
    r.int(state.done);
    r.floats(&[state.s, state.p, state.wavelength]);
}

/// Surfaces done, s, p and the wavelength held.
pub fn state_of(a: &mut Arguments) -> State {
    let done = a.int();
    let [s, p, wavelength] = a.floats();
    State {
        done,
        s,
        p,
        wavelength,
    }
}

/// The word of a step in a list; any other is the pattern of a retune's wavelength.
const STEP: u64 = u64::MAX;

fn action(word: u64) -> Action {
    match word {
        STEP => Action::Step,
        _ => Action::Retune(f64::from_bits(word)),
    }
}

/// All numbers and states of a list in one word: turned by one bit before each is added to it without carry.
fn digest(list: &[(u64, State)]) -> u64 {
    let words = |(number, state): &(u64, State)| {
        let floats = [state.s, state.p, state.wavelength].map(bits);
        [&[*number, state.done][..], &floats].concat()
    };
    let all = list.iter().flat_map(words);
    all.fold(0, |sum: u64, word| sum.rotate_left(1) ^ word)
}

fn push_refusal(r: &mut Words, refusal: Refusal) {
    r.refusal(refusal.number, refusal.place);
}

pub fn table() -> Vec<Function> {
    vec![
        Function {
            number: 160,
            group: "sheet",
            name: "gate",
            args: &[Sheet],
            weight: 2,
            call: |a, r| match gate(&a.bytes()) {
                Err(refusal) => push_refusal(r, refusal),
                Ok(sheet) => {
                    r.int(0);
                    r.int(sheet.surfaces.len() as u64);
                }
            },
        },
        Function {
            number: 170,
            group: "train",
            name: "start",
            args: &[Start],
            weight: 1,
            call: |a, r| match gate(&a.bytes()) {
                Err(refusal) => push_refusal(r, refusal),
                Ok(sheet) => push_state(r, start(&sheet)),
            },
        },
        Function {
            number: 171,
            group: "train",
            name: "step",
            args: &[Step],
            weight: 2,
            call: |a, r| {
                let state = state_of(a);
                match step(&a.bytes(), state) {
                    Err(refusal) => push_refusal(r, refusal),
                    Ok(state) => push_state(r, state),
                }
            },
        },
        Function {
            number: 172,
            group: "train",
            name: "run",
            args: &[Run],
            weight: 2,
            call: |a, r| {
                let mut list = vec![0.0; a.int() as usize];
                match run(&a.bytes(), &mut list) {
                    Err(refusal) => push_refusal(r, refusal),
                    Ok(count) => {
                        r.int(0);
                        r.int(count as u64);
                        r.floats(&list[..2 * count]);
                    }
                }
            },
        },
        Function {
            number: 173,
            group: "train",
            name: "answers",
            args: &[Answers],
            weight: 2,
            call: |a, r| {
                let number = a.int() as usize;
                match gate(&a.bytes()) {
                    Err(refusal) => push_refusal(r, refusal),
                    Ok(sheet) if number >= sheet.surfaces.len() => r.refusal(7, 0),
                    Ok(sheet) => {
                        let answers = answers(&sheet.surfaces[number], sheet.met(number));
                        r.int(0);
                        match &answers.light {
                            Light::Bare(powers) => {
                                r.int(0);
                                r.floats(&powers.reflected);
                                r.floats(&powers.transmitted);
                            }
                            Light::Coated(response) => {
                                r.int(1);
                                r.response(response);
                            }
                        }
                        answers.jones.iter().for_each(|jones| r.matrix(jones.m));
                        answers
                            .mueller
                            .iter()
                            .for_each(|mueller| r.mueller(*mueller));
                    }
                }
            },
        },
        Function {
            number: 174,
            group: "train",
            name: "actions",
            args: &[Actions],
            weight: 3,
            call: |a, r| {
                let count = a.int();
                let actions: Vec<Action> = (0..count).map(|_| action(a.int())).collect();
                match gate(&a.bytes()) {
                    Err(refusal) => push_refusal(r, refusal),
                    Ok(sheet) => {
                        let list = listed(&sheet, &actions);
                        push_state(r, list.last().map_or(start(&sheet), |last| last.1));
                        r.int(digest(&list));
                        list.iter().for_each(|(number, _)| r.int(*number));
                    }
                }
            },
        },
        Function {
            number: 175,
            group: "train",
            name: "retune",
            args: &[Retune],
            weight: 2,
            call: |a, r| {
                let wavelength = a.float();
                let state = state_of(a);
                match retune(&a.bytes(), state, wavelength) {
                    Err(refusal) => push_refusal(r, refusal),
                    Ok(state) => push_state(r, state),
                }
            },
        },
    ]
}

fn surfaces(bytes: &[u8]) -> Option<usize> {
    gate(bytes).ok().map(|sheet| sheet.surfaces.len())
}

pub fn push_sheet(rng: &mut Rng, words: &mut Vec<u64>) {
    push(&sheet(rng), words);
}

/// A train that may be, or one that never was.
pub fn push_step(rng: &mut Rng, words: &mut Vec<u64>) {
    let bytes = sheet(rng);
    step_words(rng, &bytes, words);
}

/// A wavelength for a retune: near one, beside it, at a limit, at or beside a line, or anything at all.
pub fn tune(rng: &mut Rng, near: f64) -> f64 {
    match rng.below(8) {
        0 | 1 => near * rng.uniform(0.9, 1.1),
        2 => neighbour(near, rng.below(5) as i64 - 2),
        3 => neighbour(rng.pick(&[100.0, 10_000.0]), rng.below(3) as i64 - 1),
        4 => any(rng),
        5 => rng.pick(&[f64::NAN, f64::INFINITY, 0.0, -500.0, 99.0]),
        _ => line(rng),
    }
}

/// Behind the wavelength of a retune, a state.
pub fn push_retune(rng: &mut Rng, words: &mut Vec<u64>) {
    let bytes = sheet(rng);
    retune_words(rng, &bytes, words);
}

fn retune_words(rng: &mut Rng, bytes: &[u8], words: &mut Vec<u64>) {
    let near = gate(bytes).map_or(550.0, |sheet| sheet.wavelength);
    words.push(tune(rng, near).to_bits());
    step_words(rng, bytes, words);
}

fn step_words(rng: &mut Rng, bytes: &[u8], words: &mut Vec<u64>) {
    let count = surfaces(bytes).unwrap_or(3);
    let done = match rng.below(8) {
        0 => 0,
        1 => count as u64,
        2 => rng.pick(&[count as u64 + 1, 63, 64, 65, u64::from(u32::MAX)]),
        _ => rng.below(count.max(1)) as u64,
    };
    let wild = rng.one_in(5);
    words.push(done);
    for _ in 0..2 {
        let power = if wild { any(rng) } else { rng.unit() };
        words.push(power.to_bits());
    }
    // The wavelength that the steps before leave, or another.
    let held = match gate(bytes) {
        Ok(sheet) if done > 0 && done <= count as u64 => sheet.met(done as usize - 1),
        Ok(sheet) => sheet.wavelength,
        Err(_) => 550.0,
    };
    let other = rng.one_in(3);
    words.push(if other { tune(rng, held) } else { held }.to_bits());
    push(bytes, words);
}

/// A list that is too short, exact, or longer.
pub fn push_run(rng: &mut Rng, words: &mut Vec<u64>) {
    let bytes = sheet(rng);
    run_words(rng, &bytes, words);
}

fn run_words(rng: &mut Rng, bytes: &[u8], words: &mut Vec<u64>) {
    let exact = 2 * surfaces(bytes).unwrap_or(2);
    let room = match rng.below(8) {
        0 => exact.saturating_sub(1),
        1 => rng.below(exact + 1),
        2 => exact + 1,
        3 => 128,
        _ => exact,
    };
    words.push(room as u64);
    push(bytes, words);
}

/// A list of up to 200 steps and retunes.
pub fn actions(rng: &mut Rng, bytes: &[u8]) -> Vec<Action> {
    let (count, near) = match gate(bytes) {
        Ok(sheet) => (sheet.surfaces.len(), sheet.wavelength),
        Err(_) => (2, 550.0),
    };
    let most = match rng.below(8) {
        0 => 200,
        1 => rng.below(201),
        _ => (2 * count + 4).min(200),
    };
    let length = rng.below(most + 1);
    let often = rng.pick(&[1, 2, 2, 3, 8]);
    let one = |rng: &mut Rng| {
        if rng.one_in(often) {
            Action::Retune(tune(rng, near))
        } else {
            Action::Step
        }
    };
    (0..length).map(|_| one(rng)).collect()
}

fn actions_words(actions: &[Action], bytes: &[u8], words: &mut Vec<u64>) {
    words.push(actions.len() as u64);
    words.extend(actions.iter().map(|action| match action {
        Action::Step => STEP,
        // Not the pattern of a step, which is a NaN's too.
        Action::Retune(wavelength) => bits(*wavelength),
    }));
    push(bytes, words);
}

pub fn push_actions(rng: &mut Rng, words: &mut Vec<u64>) {
    let bytes = sheet(rng);
    actions_words(&actions(rng, &bytes), &bytes, words);
}

/// A surface that the sheet has, and few that it has not; sheets that are refused are few.
fn numbered(rng: &mut Rng) -> (u64, Vec<u8>) {
    let bytes = loop {
        let bytes = if rng.one_in(10) {
            sheet(rng)
        } else {
            valid(rng).bytes()
        };
        if surfaces(&bytes) != Some(0) {
            break bytes;
        }
    };
    let count = surfaces(&bytes).unwrap_or(1);
    let number = match rng.below(16) {
        0 => count as u64,
        1 => rng.pick(&[count as u64 + 1, 64, u64::from(u32::MAX)]),
        _ => rng.below(count) as u64,
    };
    (number, bytes)
}

pub fn push_answers(rng: &mut Rng, words: &mut Vec<u64>) {
    let (number, bytes) = numbered(rng);
    words.push(number);
    push(&bytes, words);
}

/// Behind the wavelength of a retune.
pub fn push_answers_at(rng: &mut Rng, words: &mut Vec<u64>) {
    let (number, bytes) = numbered(rng);
    let near = gate(&bytes).map_or(550.0, |sheet| sheet.wavelength);
    words.extend([tune(rng, near).to_bits(), number]);
    push(&bytes, words);
}

pub fn sheet_cases() -> Vec<Vec<u64>> {
    byte_cases(&cases())
}

/// One fixed sheet of eight, and the longest one of either edition.
fn few_cases() -> Vec<Vec<u8>> {
    let mut list: Vec<Vec<u8>> = cases().into_iter().step_by(8).collect();
    list.retain(|bytes| bytes.len() < 2000);
    list.push(largest().bytes());
    list.push(largest_of_two().bytes());
    list
}

pub fn start_cases() -> Vec<Vec<u64>> {
    byte_cases(&few_cases())
}

pub fn step_cases() -> Vec<Vec<u64>> {
    let mut rng = Rng::new(7);
    let mut list = Vec::new();
    for bytes in few_cases() {
        let mut words = Vec::new();
        step_words(&mut rng, &bytes, &mut words);
        list.push(words);
    }
    // Each surface of a sheet, and steps past its end.
    for done in [0, 1, 2, 3, 4, 64, u64::from(u32::MAX)] {
        for wavelength in [550.0, 632.8, 100.0, 99.0, f64::NAN, f64::INFINITY] {
            let mut words = vec![done];
            words.extend([0.5_f64, 1.0, wavelength].map(f64::to_bits));
            push(&retuned().bytes(), &mut words);
            list.push(words);
        }
    }
    list
}

pub fn run_cases() -> Vec<Vec<u64>> {
    let mut rng = Rng::new(8);
    let mut list = Vec::new();
    for bytes in few_cases() {
        let mut words = Vec::new();
        run_words(&mut rng, &bytes, &mut words);
        list.push(words);
    }
    for room in 0..=8 {
        let mut words = vec![room];
        push(&retuned().bytes(), &mut words);
        list.push(words);
    }
    list
}

pub fn answers_cases() -> Vec<Vec<u64>> {
    let mut list = Vec::new();
    let (varied, mixed, retuned) = (varied().bytes(), mixed().bytes(), retuned().bytes());
    for (number, bytes) in [
        (0, &varied),
        (1, &varied),
        (2, &varied),
        (3, &varied),
        (u64::from(u32::MAX), &varied),
        (0, &mixed),
        (1, &mixed),
        (2, &mixed),
        (3, &mixed),
        (0, &retuned),
        (1, &retuned),
        (2, &retuned),
        (63, &largest().bytes()),
        (64, &largest().bytes()),
        (63, &largest_of_two().bytes()),
    ] {
        let mut words = vec![number];
        push(bytes, &mut words);
        list.push(words);
    }
    list
}

/// Each of the fixed surfaces after retunes that pass, that fail by themselves and that fail on a layer.
pub fn answers_at_cases() -> Vec<Vec<u64>> {
    let mut list = Vec::new();
    for words in answers_cases() {
        for wavelength in [550.0, 100.0, 99.0, 10_000.0, f64::NAN] {
            list.push([&[f64::to_bits(wavelength)], words.as_slice()].concat());
        }
    }
    list
}

pub fn retune_cases() -> Vec<Vec<u64>> {
    let mut rng = Rng::new(9);
    let mut list = Vec::new();
    for bytes in few_cases() {
        let mut words = Vec::new();
        retune_words(&mut rng, &bytes, &mut words);
        list.push(words);
    }
    for done in [0, 1, 2, 3, 4, 64, u64::from(u32::MAX)] {
        for wavelength in [550.0, 100.0, 99.0, 10_000.0, f64::NAN, f64::INFINITY] {
            let mut words = vec![f64::to_bits(wavelength), done];
            words.extend([0.5_f64, 1.0, f64::NAN].map(f64::to_bits));
            push(&retuned().bytes(), &mut words);
            list.push(words);
        }
    }
    list
}

pub fn actions_cases() -> Vec<Vec<u64>> {
    let mut rng = Rng::new(10);
    let mut list = Vec::new();
    let mut add = |actions: &[Action], bytes: &[u8]| {
        let mut words = Vec::new();
        actions_words(actions, bytes, &mut words);
        list.push(words);
    };
    for count in 0..=6 {
        add(&vec![Action::Step; count], &mixed().bytes());
        add(&vec![Action::Step; count], &retuned().bytes());
    }
    add(&[Action::Step; 65], &largest().bytes());
    add(&[Action::Step; 200], &largest_of_two().bytes());
    for bytes in few_cases() {
        let list = actions(&mut rng, &bytes);
        add(&list, &bytes);
    }
    list
}
