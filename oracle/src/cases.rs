// The fixed cases of the recorded functions: special values in every argument, and usual ones together.

use crate::arguments::{Arg, Style};
use crate::band;
use crate::functions::{
    born_wolf, calls, edition_1, exports, names, quarter_waves, shorthand, train,
};
use crate::section2::PI;
use crate::values::{neighbour, specials, Rng, CORE};

/// Fewer still than CORE.
const FEW: [f64; 9] = [
    f64::NAN,
    f64::INFINITY,
    f64::NEG_INFINITY,
    0.0,
    -0.0,
    1.0,
    -1.0,
    2.5,
    -1e-310,
];

impl Arg {
    /// The special values of this argument, each as its words.
    fn specials(self) -> Vec<Vec<u64>> {
        let single = |list: &[u64]| list.iter().map(|n| vec![*n]).collect();
        match self {
            Arg::Word => single(&[
                0,
                1,
                2,
                0x000F_FFFF,
                0x0010_0000,
                0x3FF0_0000,
                0x7FF0_0000,
                0x7FF8_0000,
                0x8000_0000,
                u64::from(u32::MAX),
            ]),
            Arg::Pairs => single(&[0, 1, 2, 7, 30, 31, 32, 33, 64, u64::from(u32::MAX)]),
            Arg::Code => single(&[1, 2, 3, 4, 5, 6, 7, 8]),
            Arg::CustomCode => single(&[5, 6, 7, 8]),
            Arg::Layers => layer_cases(&[0, 1, 2, 15, 16, 63, 64, 65, 65]),
            Arg::Layers64 => layer_cases(&[0, 1, 2, 15, 16, 63, 64]),
            Arg::Name => names::cases(&names::names()),
            Arg::Bytes => names::cases(&names::byte_strings()),
            Arg::Stack => names::cases(&shorthand::texts()),
            Arg::Film => quarter_waves::cases(),
            Arg::Sheet => train::sheet_cases(),
            Arg::Start => train::start_cases(),
            Arg::Step => train::step_cases(),
            Arg::Run => train::run_cases(),
            Arg::Old => edition_1::old_cases(),
            Arg::Answers => train::answers_cases(),
            Arg::AnswersAt => train::answers_at_cases(),
            Arg::Retune => train::retune_cases(),
            Arg::Actions => train::actions_cases(),
            Arg::Band => band::cases(),
            Arg::Pair => single(&[0, 1, 2, 3]),
            Arg::Room => single(&exports::ROOMS),
            Arg::StackRoom => single(&exports::STACK_ROOMS),
            Arg::Ranges => exports::range_cases(),
            Arg::AnyCode => single(&[0, 1, 2, 3, 4, 5, 6, 7, 8, 9, u64::from(u32::MAX)]),
            Arg::MatrixRoom => single(&exports::MATRIX_ROOMS),
            Arg::Matrix => exports::matrix_cases(),
            Arg::Whole => born_wolf::wholes().map(|x| vec![x.to_bits()]).to_vec(),
            Arg::Flat => exports::flat_cases(),
            Arg::CasesRoom => single(&exports::CASES_ROOMS),
            Arg::Cases => exports::case_cases(),
            Arg::CallRoom => single(&calls::CALL_ROOMS),
            Arg::Four => calls::number_cases(4),
            Arg::Sixteen => calls::number_cases(16),
            _ => CORE.iter().map(|x| vec![x.to_bits()]).collect(),
        }
    }

    /// Usual values that are tried together with those of the other arguments; none if there would be too many.
    fn usual(self) -> Vec<Vec<u64>> {
        let floats = |list: &[f64]| list.iter().map(|x| vec![x.to_bits()]).collect();
        match self {
            Arg::Index => floats(&[1.0, 1.5]),
            Arg::Angle => floats(&[0.0, -0.5, PI / 2.0, neighbour(PI / 2.0, -1), 1.2, PI]),
            Arg::Cosine => floats(&[0.0, -0.0, 0.5, 1.0, 1e-9]),
            Arg::Wavelength => floats(&[550.0]),
            Arg::Pairs => vec![vec![0], vec![7], vec![31]],
            Arg::Code | Arg::CustomCode => self.specials(),
            Arg::Layers | Arg::Layers64 => {
                let fields = [1.38, 0.0, 99.6, 2.3, 0.25, 40.0];
                vec![[2].into_iter().chain(fields.map(f64::to_bits)).collect()]
            }
            _ => Vec::new(),
        }
    }
}

/// Plain lists of the given lengths, and one layer with each special value in each field.
fn layer_cases(counts: &[usize]) -> Vec<Vec<u64>> {
    let mut rng = Rng::new(64);
    let fields = [Arg::Index, Arg::Extinction, Arg::Thickness];
    let mut cases = Vec::new();
    for count in counts {
        let mut words = vec![*count as u64];
        for _ in 0..*count {
            words.extend(fields.map(|field| field.plain(&mut rng).to_bits()));
        }
        cases.push(words);
    }
    for place in 0..3 {
        for special in CORE {
            let mut layer = [1.38, 0.0, 100.0];
            layer[place] = special;
            let mut words = vec![1];
            words.extend(layer.map(f64::to_bits));
            cases.push(words);
        }
    }
    cases
}

/// Every choice for the next argument behind every choice so far.
fn grid(left: &[Vec<u64>], right: &[Vec<u64>]) -> Vec<Vec<u64>> {
    left.iter()
        .flat_map(|words| {
            right
                .iter()
                .map(move |more| [words.as_slice(), more].concat())
        })
        .collect()
}

/// The fixed cases: special values in every argument, usual ones together, lists that are too long.
pub fn cases(args: &[Arg]) -> Vec<Vec<u64>> {
    let floats = args.iter().all(|arg| arg.is_float());
    let words =
        |list: &[f64]| -> Vec<Vec<u64>> { list.iter().map(|x| vec![x.to_bits()]).collect() };
    let all = |lists: &[Vec<Vec<u64>>]| {
        lists
            .iter()
            .fold(vec![vec![]], |left, right| grid(&left, right))
    };
    let mut cases = match args {
        [] => vec![vec![]],
        [_] if floats => words(&specials()),
        [_, _] if floats => all(&[words(&CORE), words(&CORE)]),
        [Arg::Word, Arg::Word] => all(&[args[0].specials(), args[1].specials()]),
        [Arg::Any, Arg::Any, Arg::Any] => all(&[words(&FEW), words(&FEW), words(&FEW)]),
        _ => one_at_a_time(args),
    };
    if args.len() > 2 {
        let usual: Vec<_> = args.iter().map(|arg| arg.usual()).collect();
        cases.extend(all(&usual));
        cases.extend(too_long(args));
    }
    cases
}

/// 65 layers beside several coatings, with every number right and with each of them wrong in turn.
fn too_long(args: &[Arg]) -> Vec<Vec<u64>> {
    if args.last() != Some(&Arg::Layers) {
        return Vec::new();
    }
    let mut cases = Vec::new();
    for code in [2, 5, 6] {
        for wrong in 0..args.len() {
            let mut words = Vec::new();
            for (i, arg) in args.iter().enumerate() {
                match arg {
                    Arg::Code | Arg::CustomCode => words.push(code),
                    Arg::Layers => {
                        words.push(65);
                        words.extend([1.38, 0.0, 10.0].map(f64::to_bits).repeat(65));
                    }
                    _ if i == wrong => {
                        words.push([f64::NAN, 0.0, f64::INFINITY, -1.0][i % 4].to_bits())
                    }
                    _ => words.extend(&arg.usual()[0]),
                }
            }
            cases.push(words);
        }
    }
    if args[0] == Arg::CustomCode {
        cases.retain(|words| words[0] != 2);
    }
    cases
}

fn one_at_a_time(args: &[Arg]) -> Vec<Vec<u64>> {
    let mut rng = Rng::new(1);
    let mut cases = Vec::new();
    for odd in 0..args.len() {
        for special in args[odd].specials() {
            let mut words = Vec::new();
            for (i, arg) in args.iter().enumerate() {
                if i == odd {
                    words.extend(&special);
                } else {
                    arg.push(&mut rng, Style::Plain, &mut words);
                }
            }
            cases.push(words);
        }
    }
    cases
}
