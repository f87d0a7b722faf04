// Arguments of the recorded functions: what each may be, and random choices.

use crate::band;
use crate::functions::{
    born_wolf, calls, edition_1, exports, names, quarter_waves, shorthand, train,
};
use crate::ranges;
use crate::section2::{PI, T};
use crate::values::{any, multiple, neighbour, optical, short, square, subnormal, Rng, CORE};

/// What an argument is. All up to `Divisor` are one f64; the others are integers or longer.
#[derive(Clone, Copy, Debug, PartialEq, PartialOrd)]
pub enum Arg {
    /// Any f64.
    Any,
    /// An angle in radians.
    Angle,
    /// An argument of exp.
    Exponent,
    /// A part of a complex number.
    Part,
    Index,
    Extinction,
    Wavelength,
    Thickness,
    /// The cosine of an angle.
    Cosine,
    /// An argument of asin.
    Sine,
    /// An argument of sqrt.
    Square,
    /// A power, an intensity, an element of a Stokes vector.
    Power,
    /// The second argument of `%`.
    Divisor,
    /// A 32-bit word.
    Word,
    /// Pairs of a mirror.
    Pairs,
    /// A SurfaceCoating's code, 1 to 8.
    Code,
    /// A Coating's code, 5 to 8.
    CustomCode,
    /// A list of up to 65 layers.
    Layers,
    /// A list of up to 64 layers.
    Layers64,
    /// A name of ASCII bytes, seldom others.
    Name,
    /// A text of the stack shorthand, or one near it.
    Stack,
    /// n, thickness and wavelength of a film, often near a whole number of quarter waves.
    Film,
    /// Bytes of any kind.
    Bytes,
    /// A sheet.
    Sheet,
    /// A sheet, with fewer fixed cases.
    Start,
    /// Surfaces done, s, p and the wavelength held, then a sheet.
    Step,
    /// A wavelength, then the same.
    Retune,
    /// A list's length, then a sheet.
    Run,
    /// The length of an output for an edition 1 sheet, then a sheet.
    Old,
    /// A surface's number, counted from 0, then a sheet.
    Answers,
    /// A wavelength for a retune, then the same.
    AnswersAt,
    /// A count of actions, each of them, then a sheet.
    Actions,
    /// Counts of wavelengths and of weights, each of these, then a sheet.
    Band,
    /// The length of a list that holds two numbers.
    Pair,
    /// The length of a list that holds a response or a surface's answers.
    Room,
    /// The length of a list for a stack.
    StackRoom,
    /// Two ranges of indices by their four ends.
    Ranges,
    /// Any code of a coating, also one that stands for none.
    AnyCode,
    /// A part that is whole and at most 1,024 in size.
    Whole,
    /// The length of a list that holds a Mueller matrix.
    MatrixRoom,
    /// A Jones matrix as a count of numbers and the numbers, seldom other than 8.
    Matrix,
    /// Layers as a count of numbers, then n, k and thickness one after the other; the last layer may be cut off.
    Flat,
    /// The length of a list that holds the responses of up to four cases.
    CasesRoom,
    /// Counts of angles and of wavelengths, seldom unequal, then each of these.
    Cases,
    /// The length of a list that holds what a single function gives.
    CallRoom,
    /// A count of numbers, seldom other than 4, and the numbers.
    Four,
    /// The same of 16.
    Sixteen,
}

/// How an argument is chosen.
#[derive(Clone, Copy, PartialEq)]
pub enum Style {
    /// As it occurs in optics.
    Plain,
    /// Anything at all.
    Wild,
    /// One of the few special values.
    Core,
}

impl Arg {
    pub fn is_float(self) -> bool {
        self <= Arg::Divisor
    }

    /// A usual value of an argument that is one f64.
    pub fn plain(self, rng: &mut Rng) -> f64 {
        let signed_log = |rng: &mut Rng, lo, hi| {
            let x = rng.log(lo, hi);
            rng.signed(x)
        };
        match (self, rng.below(10)) {
            (Arg::Angle, 0..=4) => rng.uniform(-PI / 2.0, PI / 2.0),
            (Arg::Angle, 5 | 6) => multiple(rng),
            (Arg::Angle, 7) => rng.uniform(-100.0, 100.0),
            (Arg::Angle, 8) => rng.pick(&[0.0, -0.0, PI / 4.0, PI / 3.0, 1.0]),
            (Arg::Angle, _) => signed_log(rng, -30, 20),
            (Arg::Exponent, 0..=4) => rng.uniform(-750.0, 715.0),
            (Arg::Exponent, 5 | 6) => rng.uniform(-2.0, 2.0),
            (Arg::Exponent, 7) => {
                let end = rng.pick(&[710.0, -746.0, 709.782712893384, -745.1332, -708.3964]);
                neighbour(end, rng.below(9) as i64 - 4)
            }
            (Arg::Exponent, _) => signed_log(rng, -60, 9),
            (Arg::Part, 0..=4) => rng.uniform(-2.0, 2.0),
            (Arg::Part, 5) => short(rng),
            (Arg::Part, 6) => rng.pick(&[0.0, -0.0]),
            (Arg::Part, 7) => signed_log(rng, -48, -45),
            (Arg::Part, _) => signed_log(rng, -60, 60),
            (Arg::Index, 0..=5) => rng.uniform(1.0, 4.0),
            (Arg::Index, 6..=8) => rng.pick(&[1.0, 1.33, 1.38, 1.46, 1.5, 1.52, 2.3, 3.0, 4.0]),
            (Arg::Index, _) => rng.log(-3, 4),
            (Arg::Extinction, 0..=4) => rng.pick(&[0.0, 0.0, 0.0, -0.0]),
            (Arg::Extinction, 5..=7) => rng.uniform(0.0, 8.0),
            (Arg::Extinction, _) => signed_log(rng, -10, 9),
            (Arg::Wavelength, 0..=5) => rng.uniform(100.0, 10_000.0),
            (Arg::Wavelength, 6..=8) => {
                rng.pick(&[550.0, 500.0, 632.8, 1064.0, 100.0, 10_000.0, 400.0])
            }
            (Arg::Wavelength, _) => rng.log(-2, 20),
            (Arg::Thickness, 0..=3) => rng.uniform(0.0, 500.0),
            (Arg::Thickness, 4) => rng.pick(&[0.0, -0.0, 100_000.0, 88.0, 112.0, 32.0, 15.0]),
            (Arg::Thickness, 5..=7) => {
                let design = rng.pick(&[550.0, 500.0, 632.8]);
                design / (4.0 * rng.pick(&[1.38, 1.46, 2.3, 1.0]))
            }
            (Arg::Thickness, 8) => rng.uniform(0.0, 100_000.0),
            (Arg::Thickness, _) => rng.log(-10, 16),
            (Arg::Cosine, 0..=5) => rng.unit(),
            (Arg::Cosine, 6) => rng.uniform(-1.2, 1.2),
            (Arg::Cosine, 7) => 1.0 - rng.log(-53, -1),
            (Arg::Cosine, 8) => rng.log(-60, -1),
            (Arg::Cosine, _) => rng.pick(&[0.0, -0.0, 1.0, 0.5]),
            (Arg::Sine, _) => {
                let x = Arg::Cosine.plain(rng);
                rng.signed(x)
            }
            (Arg::Square, 0..=3) => square(rng),
            (Arg::Square, 4) => subnormal(rng).abs(),
            (Arg::Square, 5..=7) => rng.log(-1022, 1023),
            (Arg::Square, _) => rng.uniform(0.0, 100.0),
            (Arg::Power, 0..=5) => rng.uniform(-1.0, 1.0),
            (Arg::Power, 6) => rng.pick(&[0.0, -0.0, 1.0, 0.5]),
            (Arg::Power, 7) => neighbour(1e-15, rng.below(5) as i64 - 2),
            (Arg::Power, _) => signed_log(rng, -60, 4),
            (Arg::Divisor, 0..=5) => T,
            _ => match rng.below(3) {
                0 => signed_log(rng, -30, 30),
                1 => short(rng),
                _ => optical(rng),
            },
        }
    }

    fn float(self, rng: &mut Rng, style: Style) -> f64 {
        match style {
            Style::Plain => self.plain(rng),
            Style::Core => rng.pick(&CORE),
            Style::Wild if rng.one_in(3) => rng.log(-1022, 1023),
            Style::Wild => any(rng),
        }
    }

    /// Appends a random choice.
    pub fn push(self, rng: &mut Rng, style: Style, words: &mut Vec<u64>) {
        let plain = style == Style::Plain;
        match self {
            Arg::Word if plain => words.push(rng.bits() >> 32),
            Arg::Word => words.push(any(rng).to_bits() >> rng.pick(&[32, 32, 44, 63])),
            Arg::Pairs if plain => words.push(rng.below(10) as u64),
            Arg::Pairs => {
                let large = rng.pick(&[30, 31, 32, 33, 63, 64, 65, 1 << 31, u64::from(u32::MAX)]);
                words.push(if rng.one_in(2) {
                    large
                } else {
                    rng.below(40) as u64
                });
            }
            Arg::Code if rng.one_in(2) => words.push(5),
            Arg::Code => words.push(1 + rng.below(8) as u64),
            Arg::CustomCode if rng.one_in(2) => words.push(5),
            Arg::CustomCode => words.push(5 + rng.below(4) as u64),
            Arg::Layers => layers(rng, style, 65, words),
            Arg::Layers64 => layers(rng, style, 64, words),
            Arg::Name => names::push(&names::name(rng), words),
            Arg::Bytes => names::push(&names::bytes(rng), words),
            Arg::Stack => names::push(&shorthand::text(rng), words),
            Arg::Film => quarter_waves::push(rng, style, words),
            Arg::Sheet | Arg::Start => train::push_sheet(rng, words),
            Arg::Step => train::push_step(rng, words),
            Arg::Run => train::push_run(rng, words),
            Arg::Old => edition_1::push_old(rng, words),
            Arg::Answers => train::push_answers(rng, words),
            Arg::AnswersAt => train::push_answers_at(rng, words),
            Arg::Retune => train::push_retune(rng, words),
            Arg::Actions => train::push_actions(rng, words),
            Arg::Band => band::push_band(rng, words),
            Arg::Pair => words.push(rng.pick(&[0, 1, 2, 2, 2, 3])),
            Arg::Room => words.push(rng.pick(&exports::ROOMS)),
            Arg::StackRoom if rng.one_in(2) => words.push(200),
            Arg::StackRoom => words.push(rng.pick(&exports::STACK_ROOMS)),
            Arg::Ranges => words.extend(ranges::random(rng).map(f64::to_bits)),
            Arg::AnyCode if rng.one_in(10) => words.push(rng.pick(&[0, 9, u64::from(u32::MAX)])),
            Arg::AnyCode => Arg::Code.push(rng, style, words),
            Arg::MatrixRoom => words.push(rng.pick(&exports::MATRIX_ROOMS)),
            Arg::Matrix => exports::push_matrix(rng, style, words),
            Arg::Whole => words.push(born_wolf::whole(rng).to_bits()),
            Arg::Flat => exports::push_flat(rng, style, words),
            Arg::CasesRoom => words.push(rng.pick(&exports::CASES_ROOMS)),
            Arg::Cases => exports::push_cases(rng, style, words),
            Arg::CallRoom => words.push(rng.pick(&calls::CALL_ROOMS)),
            Arg::Four => calls::push_numbers(rng, style, 4, words),
            Arg::Sixteen => calls::push_numbers(rng, style, 16, words),
            _ => words.push(self.float(rng, style).to_bits()),
        }
    }
}

/// A random list of layers: its count, then n, k and thickness of each.
fn layers(rng: &mut Rng, style: Style, most: usize, words: &mut Vec<u64>) {
    let count = match rng.below(40) {
        0 | 1 => 15,
        2 | 3 => 16,
        4 => 63,
        5 => 64,
        6 => most,
        7 => rng.below(most + 1),
        8 | 9 => rng.below(13),
        _ => rng.below(5),
    };
    let lossless = rng.one_in(2);
    words.push(count as u64);
    for _ in 0..count {
        for field in [Arg::Index, Arg::Extinction, Arg::Thickness] {
            let odd = style != Style::Plain && rng.one_in(4);
            let chosen = if odd { style } else { Style::Plain };
            let x = match field {
                Arg::Extinction if lossless && !odd => 0.0,
                _ => field.float(rng, chosen),
            };
            words.push(x.to_bits());
        }
    }
}

/// Random argument words.
pub fn random(args: &[Arg], rng: &mut Rng) -> Vec<u64> {
    let mode = rng.below(20);
    let odd = rng.below(args.len().max(1));
    let mut words = Vec::new();
    for (i, arg) in args.iter().enumerate() {
        let style = match mode {
            0..=8 => Style::Plain,
            9..=13 if i != odd => Style::Plain,
            9..=12 => Style::Wild,
            13 => Style::Core,
            14..=17 => Style::Wild,
            _ => Style::Core,
        };
        arg.push(rng, style, &mut words);
    }
    if rng.one_in(5) {
        relate(rng, args, &mut words);
    }
    words
}

/// Makes one number equal, opposite or next to another of its kind.
fn relate(rng: &mut Rng, args: &[Arg], words: &mut [u64]) {
    // Numbers stand one word each, before any list.
    let (to, from) = (rng.below(args.len().max(1)), rng.below(args.len().max(1)));
    let alike = |i: usize| args[i].is_float() && args[i] == args[to];
    let Some(from) = (from..args.len())
        .chain(0..from)
        .find(|i| *i != to && alike(*i))
    else {
        return;
    };
    let x = f64::from_bits(words[from]);
    let y = match rng.below(5) {
        0 | 1 => x,
        2 => -x,
        3 => neighbour(x, 1),
        _ => neighbour(x, -1),
    };
    words[to] = y.to_bits();
}
