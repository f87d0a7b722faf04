// Group exports: the calls of the C interface (include/dihkelu.h). A record has what a call returns, and after it the
// whole list, or each number of the state, that it was lent, as it left it.

use crate::arguments::Arg::{self, *};
use crate::arguments::Style;
use crate::band::band;
use crate::functions::born_wolf::to_mueller_born_wolf;
use crate::functions::thin_film::surface_coating;
use crate::functions::train::state_of;
use crate::functions::{shorthand, Function};
use crate::ranges::{self, Ends};
use crate::record::{absorptance, Arguments, Words};
use crate::reference::polarization::{JonesMatrix, MuellerMatrix};
use crate::reference::thin_film::{CoatingResponse, ThinFilmLayer};
use crate::section2;
use crate::sheet::{gate, Refusal};
use crate::train::{self, answers, met_after, retune, run, start, step, Light, State};
use crate::values::{neighbour, Rng};

/// The one number of a list before the call.
const BEFORE: f64 = -7.25;

/// Lengths of a list at the ends of what a response and the answers of a surface need.
pub const ROOMS: [u64; 12] = [0, 15, 16, 17, 52, 53, 54, 68, 69, 69, 69, 72];

/// Lengths of a list about what stacks need.
pub const STACK_ROOMS: [u64; 10] = [0, 2, 3, 5, 6, 44, 45, 191, 192, 200];

type Call = fn(&mut Arguments, &mut Words);

pub fn packed(refusal: Refusal) -> u64 {
    refusal.number << 32 | refusal.place
}

pub fn refused(number: u64) -> Refusal {
    Refusal { number, place: 0 }
}

/// What is returned, and the list of `room` numbers: those written at its front; 8 where they do not fit.
pub fn leave(r: &mut Words, room: u64, answer: Result<(u64, Vec<f64>), Refusal>) {
    let room = room as usize;
    let (returned, written) = match answer {
        Err(refusal) => (packed(refusal), Vec::new()),
        Ok((_, written)) if written.len() > room => (packed(refused(8)), Vec::new()),
        Ok(answer) => answer,
    };
    r.int(returned);
    r.floats(&written);
    r.floats(&vec![BEFORE; room - written.len()]);
}

/// The state that dihkelu_start is lent.
const LENT: State = State {
    done: 7,
    s: BEFORE,
    p: BEFORE,
    wavelength: BEFORE,
};

/// What is returned, and the state that was lent: the next one, or as it was.
fn leave_state(r: &mut Words, answer: Result<(u64, State), Refusal>, lent: State) {
    let (returned, state) = answer.unwrap_or_else(|refusal| (packed(refusal), lent));
    r.int(returned);
    r.int(state.done);
    r.floats(&[state.s, state.p, state.wavelength]);
}

fn response(r: &CoatingResponse) -> Vec<f64> {
    let parts = [r.rs, r.rp, r.ts, r.tp];
    let mut list: Vec<f64> = parts.iter().flat_map(|z| [z.re, z.im]).collect();
    list.extend([r.reflectance_s, r.reflectance_p]);
    list.extend([r.transmittance_s, r.transmittance_p]);
    list.extend([r.phase_rs_rad, r.phase_rp_rad]);
    list.extend([
        absorptance(r.reflectance_s, r.transmittance_s),
        absorptance(r.reflectance_p, r.transmittance_p),
    ]);
    list
}

/// A surface's answers, by its number.
fn surface(bytes: &[u8], number: u64) -> Result<(u64, Vec<f64>), Refusal> {
    let sheet = gate(bytes)?;
    let surface = sheet.surfaces.get(number as usize).ok_or(refused(7))?;
    Ok(laid_out(&answers(surface, sheet.met(number as usize))))
}

/// Answers in the order of include/dihkelu.h, and how many numbers these are.
fn laid_out(answers: &train::Answers) -> (u64, Vec<f64>) {
    let mut list = Vec::new();
    let last = match &answers.light {
        Light::Bare(powers) => {
            list.push(0.0);
            list.extend(powers.reflected);
            list.extend(powers.transmitted);
            Vec::new()
        }
        Light::Coated(r) => {
            list.extend([1.0, r.reflectance_s, r.reflectance_p]);
            list.extend([r.transmittance_s, r.transmittance_p]);
            response(r)
        }
    };
    for jones in &answers.jones {
        list.extend(jones.m.iter().flatten().flat_map(|z| [z.re, z.im]));
    }
    for mueller in &answers.mueller {
        list.extend(mueller.m.iter().flatten());
    }
    list.extend(last);
    (list.len() as u64, list)
}

/// `SurfaceCoating::evaluate`: 1 for a code that stands for no coating and for layers that are cut off; 1 before 3.
fn evaluate(
    code: u64,
    design: f64,
    at: [f64; 4],
    flat: &[f64],
) -> Result<(u64, Vec<f64>), Refusal> {
    if !(1..=8).contains(&code) || flat.len() % 3 != 0 {
        return Err(refused(1));
    }
    let layer = |l: &[f64]| ThinFilmLayer {
        n: l[0],
        k: l[1],
        thickness_nm: l[2],
    };
    let layers: Vec<ThinFilmLayer> = flat.chunks(3).map(layer).collect();
    let [n_incident, n_substrate, angle, wavelength] = at;
    let too_many = code == 5 && layers.len() > 64;
    let answer = surface_coating(code, design, layers)
        .evaluate(n_incident, n_substrate, angle, wavelength)
        .map_err(|_| refused(1))?;
    if too_many {
        return Err(refused(3));
    }
    let list = response(&answer);
    Ok((list.len() as u64, list))
}

/// `evaluate` of one angle and wavelength after the other: the first refusal has its case for its place. No case has the
/// place of lists of unequal length.
pub fn evaluate_list(
    (code, design): (u64, f64),
    [n_incident, n_substrate]: [f64; 2],
    angles: &[f64],
    wavelengths: &[f64],
    flat: &[f64],
) -> Result<(u64, Vec<f64>), Refusal> {
    if angles.len() != wavelengths.len() {
        return Err(Refusal {
            number: 1,
            place: 1 << 28,
        });
    }
    let mut list = Vec::new();
    for (i, (angle, wavelength)) in angles.iter().zip(wavelengths).enumerate() {
        let at = [n_incident, n_substrate, *angle, *wavelength];
        let at_case = |refusal: Refusal| Refusal {
            place: i as u64,
            ..refusal
        };
        list.extend(evaluate(code, design, at, flat).map_err(at_case)?.1);
    }
    Ok((list.len() as u64, list))
}

/// The first argument that the Rust refuses beside three that it takes, counted from 1; 0 where it refuses none.
pub fn invalid_argument(given: [f64; 4]) -> u64 {
    let fails = |i: &usize| {
        let mut at = [1.0, 1.5, 0.5, 550.0];
        at[*i] = given[*i];
        let [n_incident, n_substrate, angle, wavelength] = at;
        let coating = surface_coating(1, 550.0, Vec::new());
        coating
            .evaluate(n_incident, n_substrate, angle, wavelength)
            .is_err()
    };
    (0..4).find(fails).map_or(0, |i| i as u64 + 1)
}

/// The layers of a text of the stack shorthand: n, k, thickness of one after the other.
pub fn stack(text: &[u8], n: [f64; 3], design: f64) -> Result<(u64, Vec<f64>), Refusal> {
    let layers =
        shorthand::stack(text, n, design).map_err(|(number, place)| Refusal { number, place })?;
    let list: Vec<f64> = layers
        .iter()
        .flat_map(|l| [l.n, l.k, l.thickness_nm])
        .collect();
    Ok((list.len() as u64, list))
}

/// A count, then so many numbers.
pub fn floats(a: &mut Arguments) -> Vec<f64> {
    (0..a.int()).map(|_| a.float()).collect()
}

/// The Mueller matrix of a Jones matrix by its numbers, row after row; 1 where there are not 8.
pub fn mueller(
    numbers: &[f64],
    conversion: fn(&JonesMatrix) -> MuellerMatrix,
) -> Result<(u64, Vec<f64>), Refusal> {
    let words: Vec<u64> = numbers.iter().map(|x| x.to_bits()).collect();
    if words.len() != 8 {
        return Err(refused(1));
    }
    let jones = Arguments::new(&words).jones();
    Ok((16, conversion(&jones).m.concat()))
}

/// A low and a high reflectance, or 13.
pub fn reflectance_range(ends: Ends) -> Result<(u64, Vec<f64>), Refusal> {
    let [low, high] = ranges::range(ends).ok_or(refused(13))?;
    Ok((2, vec![low, high]))
}

/// Ranges at the ends of what is allowed.
pub fn range_cases() -> Vec<Vec<u64>> {
    let (under, over) = (neighbour(1.0, -1), neighbour(4.0, 1));
    let mut list = vec![
        [1.0, 4.0, 1.0, 4.0],
        [1.0, 1.0, 4.0, 4.0],
        [1.0, 1.5, 1.5, 2.0],
        [1.5, 2.0, 1.0, 1.5],
        [1.5, 1.5, 1.5, 1.5],
        [1.5, 1.4, 1.0, 2.0],
        [1.0, 2.0, 1.5, 1.4],
        [1.0, neighbour(1.0, 1), neighbour(4.0, -1), 4.0],
    ];
    for bad in [
        under,
        over,
        f64::NAN,
        -0.0,
        f64::INFINITY,
        f64::NEG_INFINITY,
    ] {
        for place in 0..4 {
            let mut ends = [1.0, 1.5, 2.0, 4.0];
            ends[place] = bad;
            list.push(ends);
        }
    }
    list.iter()
        .map(|ends| ends.map(f64::to_bits).to_vec())
        .collect()
}

pub fn table() -> Vec<Function> {
    let export = |number, name, args: &'static [Arg], weight, call: Call| Function {
        number,
        group: "exports",
        name,
        args,
        weight,
        call,
    };
    vec![
        export(180, "dihkelu_gate", &[Start], 1, |a, r| {
            let gated = gate(&a.bytes());
            r.int(gated.map_or_else(packed, |sheet| sheet.surfaces.len() as u64));
        }),
        export(181, "dihkelu_start", &[Start], 1, |a, r| {
            let fresh = gate(&a.bytes()).map(|x| (x.surfaces.len() as u64, start(&x)));
            leave_state(r, fresh, LENT);
        }),
        export(182, "dihkelu_step", &[Step], 1, |a, r| {
            let state = state_of(a);
            let next = step(&a.bytes(), state);
            leave_state(r, next.map(|next| (next.done, next)), state);
        }),
        export(183, "dihkelu_run", &[Run], 1, |a, r| {
            let room = a.int();
            let mut list = vec![0.0; room as usize];
            let ran = run(&a.bytes(), &mut list);
            leave(r, room, ran.map(|n| (n as u64, list[..2 * n].to_vec())));
        }),
        export(184, "dihkelu_answers", &[Room, Answers], 1, |a, r| {
            let (room, number) = (a.int(), a.int());
            leave(r, room, surface(&a.bytes(), number));
        }),
        export(
            185,
            "dihkelu_evaluate",
            &[
                Room, AnyCode, Wavelength, Index, Index, Angle, Wavelength, Flat,
            ],
            4,
            |a, r| {
                let (room, code, design) = (a.int(), a.int(), a.float());
                let at = a.floats();
                leave(r, room, evaluate(code, design, at, &floats(a)));
            },
        ),
        export(
            186,
            "dihkelu_stack",
            &[StackRoom, Index, Index, Index, Wavelength, Stack],
            4,
            |a, r| {
                let (room, [h, l, m, design]) = (a.int(), a.floats());
                leave(r, room, stack(&a.bytes(), [h, l, m], design));
            },
        ),
        export(
            187,
            "dihkelu_to_mueller",
            &[MatrixRoom, Matrix],
            1,
            |a, r| {
                let (room, numbers) = (a.int(), floats(a));
                leave(r, room, mueller(&numbers, |jones| jones.to_mueller()));
            },
        ),
        export(
            188,
            "dihkelu_mueller_born_wolf",
            &[MatrixRoom, Matrix],
            1,
            |a, r| {
                let (room, numbers) = (a.int(), floats(a));
                leave(r, room, mueller(&numbers, to_mueller_born_wolf));
            },
        ),
        export(
            189,
            "dihkelu_reflectance_range",
            &[Pair, Ranges],
            2,
            |a, r| {
                let (room, ends) = (a.int(), a.floats());
                leave(r, room, reflectance_range(ends));
            },
        ),
        export(190, "dihkelu_sqrt", &[Square], 4, |a, r| {
            r.float(section2::sqrt(a.float()));
        }),
        export(191, "dihkelu_sin", &[Angle], 4, |a, r| {
            r.float(section2::sin(a.float()));
        }),
        export(192, "dihkelu_cos", &[Angle], 4, |a, r| {
            r.float(section2::cos(a.float()));
        }),
        export(193, "dihkelu_exp", &[Exponent], 4, |a, r| {
            r.float(section2::exp(a.float()));
        }),
        export(194, "dihkelu_atan", &[Any], 4, |a, r| {
            r.float(section2::atan(a.float()));
        }),
        export(195, "dihkelu_asin", &[Sine], 4, |a, r| {
            r.float(section2::asin(a.float()));
        }),
        export(196, "dihkelu_atan2", &[Any, Any], 4, |a, r| {
            r.float(section2::atan2(a.float(), a.float()));
        }),
        export(197, "dihkelu_retune", &[Retune], 1, |a, r| {
            let wavelength = a.float();
            let state = state_of(a);
            let next = retune(&a.bytes(), state, wavelength);
            leave_state(r, next.map(|next| (next.done, next)), state);
        }),
        export(205, "dihkelu_band", &[Pair, Band], 2, |a, r| {
            let (room, lines, weights) = (a.int(), a.int(), a.int());
            let wavelengths: Vec<f64> = (0..lines).map(|_| a.float()).collect();
            let weights: Vec<u32> = (0..weights).map(|_| a.int() as u32).collect();
            let means = band(&a.bytes(), &wavelengths, &weights);
            leave(r, room, means.map(|means| (lines, means.to_vec())));
        }),
        export(
            206,
            "dihkelu_evaluate_list",
            &[CasesRoom, AnyCode, Wavelength, Index, Index, Cases, Flat],
            2,
            |a, r| {
                let (room, code, design) = (a.int(), a.int(), a.float());
                let (n, counts) = (a.floats(), [a.int(), a.int()]);
                let [angles, wavelengths] =
                    counts.map(|count| (0..count).map(|_| a.float()).collect::<Vec<f64>>());
                let answer = evaluate_list((code, design), n, &angles, &wavelengths, &floats(a));
                leave(r, room, answer);
            },
        ),
        export(
            207,
            "dihkelu_invalid_argument",
            &[Index, Index, Angle, Wavelength],
            1,
            |a, r| {
                r.int(invalid_argument(a.floats()));
            },
        ),
        export(229, "dihkelu_answers_at", &[Room, AnswersAt], 2, |a, r| {
            let (room, wavelength, number) = (a.int(), a.float(), a.int());
            let met = met_after(&a.bytes(), number, wavelength);
            let answer = met.map(|(surface, at)| laid_out(&answers(&surface, at)));
            leave(r, room, answer);
        }),
    ]
}

/// Lengths of a list at the ends of what a few cases need.
pub const CASES_ROOMS: [u64; 12] = [0, 15, 16, 31, 32, 47, 48, 64, 64, 64, 65, 80];

/// Up to four angles and wavelengths behind their counts; one in twelve has one more of either.
pub fn push_cases(rng: &mut Rng, style: Style, words: &mut Vec<u64>) {
    let count = rng.below(5);
    let more = match rng.below(24) {
        0 => [1, 0],
        1 => [0, 1],
        _ => [0, 0],
    };
    words.extend(more.map(|m| (count + m) as u64));
    for (arg, m) in [(Angle, more[0]), (Wavelength, more[1])] {
        for _ in 0..count + m {
            let odd = style != Style::Plain && rng.one_in(4);
            arg.push(rng, if odd { style } else { Style::Plain }, words);
        }
    }
}

/// Each pair of counts up to 4, and a case that is refused at each place.
pub fn case_cases() -> Vec<Vec<u64>> {
    let mut cases = Vec::new();
    for angles in 0..5_u64 {
        for wavelengths in 0..5_u64 {
            let mut words = vec![angles, wavelengths];
            words.extend((0..angles).map(|i| (0.25 * i as f64).to_bits()));
            words.extend((0..wavelengths).map(|i| (500.0 + i as f64).to_bits()));
            for place in 0..angles + wavelengths {
                let mut spoiled = words.clone();
                spoiled[2 + place as usize] = f64::NAN.to_bits();
                cases.push(spoiled);
            }
            cases.push(words);
        }
    }
    cases
}

/// Lengths of a list at the ends of what a Mueller matrix needs.
pub const MATRIX_ROOMS: [u64; 6] = [0, 15, 16, 16, 17, 20];

/// The numbers of a Jones matrix behind their count; one in eight has too few or too many.
pub fn push_matrix(rng: &mut Rng, style: Style, words: &mut Vec<u64>) {
    let count = if rng.one_in(8) { rng.below(11) } else { 8 };
    words.push(count as u64);
    for _ in 0..count {
        Part.push(rng, style, words);
    }
}

/// Every count up to 10.
pub fn matrix_cases() -> Vec<Vec<u64>> {
    let numbers = |count: u64| (1..=count).map(|i| (i as f64 / 4.0).to_bits());
    let case = |count: u64| std::iter::once(count).chain(numbers(count)).collect();
    (0..=10).map(case).collect()
}

/// Layers in a flat list; one in eight has its last layer cut off.
pub fn push_flat(rng: &mut Rng, style: Style, words: &mut Vec<u64>) {
    let mut layers = Vec::new();
    Layers.push(rng, style, &mut layers);
    let mut flat = layers.split_off(1);
    if rng.one_in(8) {
        flat.truncate(flat.len().saturating_sub(1 + rng.below(2)));
    }
    words.push(flat.len() as u64);
    words.extend(flat);
}

/// Lists of up to 65 layers, whole and with one or two numbers cut off.
pub fn flat_cases() -> Vec<Vec<u64>> {
    let layer = [1.38_f64, 0.0, 99.6].map(f64::to_bits);
    let mut cases = Vec::new();
    for count in [0, 1, 2, 16, 64, 65] {
        for cut in 0..3 {
            let mut flat = layer.repeat(count);
            flat.truncate(flat.len().saturating_sub(cut));
            let mut words = vec![flat.len() as u64];
            words.extend(flat);
            cases.push(words);
        }
    }
    cases
}
