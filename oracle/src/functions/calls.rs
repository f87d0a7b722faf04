// Group calls: the calls of the C interface (include/dihkelu.h) that are single functions of the Rust. A record has what a call returns,
// and after it the whole list that it was lent, as it left it.

use crate::arguments::Arg::{self, *};
use crate::arguments::Style;
use crate::functions::exports::{floats, leave, packed, refused};
use crate::functions::names::{from_format_name, trim};
use crate::functions::thin_film::surface_coating;
use crate::functions::Function;
use crate::record::{Arguments, Words};
use crate::reference::fresnel::{fresnel_dielectric, fresnel_unpolarized, schlick_approx};
use crate::reference::polarization::{
    surface_fresnel_jones, JonesMatrix, JonesVector, StokesVector,
};
use crate::reference::thin_film::{Coating, SurfaceCoating};
use crate::sheet::Refusal;
use crate::values::Rng;

/// Lengths of a list at the ends of what these calls need.
pub const CALL_ROOMS: [u64; 15] = [0, 1, 2, 3, 4, 5, 6, 7, 8, 8, 9, 15, 16, 16, 20];

type Call = fn(&mut Arguments, &mut Words);
type Answer = Result<(u64, Vec<f64>), Refusal>;

fn counted(list: Vec<f64>) -> Answer {
    Ok((list.len() as u64, list))
}

fn entries(jones: &JonesMatrix) -> Vec<f64> {
    let entries = jones.m.iter().flatten();
    entries.flat_map(|z| [z.re, z.im]).collect()
}

fn parts(v: &JonesVector) -> Vec<f64> {
    vec![v.ex.re, v.ex.im, v.ey.re, v.ey.im]
}

fn parameters(s: &StokesVector) -> Vec<f64> {
    vec![s.s0, s.s1, s.s2, s.s3]
}

/// So many numbers, read by `read`; 1 for another count.
fn taken<T>(numbers: &[f64], count: usize, read: fn(&mut Arguments) -> T) -> Result<T, Refusal> {
    let words: Vec<u64> = numbers.iter().map(|x| x.to_bits()).collect();
    if words.len() != count {
        return Err(refused(1));
    }
    Ok(read(&mut Arguments::new(&words)))
}

fn of_vector(a: &mut Arguments, r: &mut Words, call: fn(JonesVector) -> Vec<f64>) {
    let (room, numbers) = (a.int(), floats(a));
    let vector = taken(&numbers, 4, |a| a.jones_vector());
    leave(r, room, vector.and_then(|v| counted(call(v))));
}

/// The numbers of a coating's layers.
fn layers(coating: Coating) -> Answer {
    let Coating::Multilayer { layers } = coating else {
        unreachable!("layers");
    };
    let numbers = layers.iter().flat_map(|l| [l.n, l.k, l.thickness_nm]);
    counted(numbers.collect())
}

/// The code of a name's coating.
fn code(name: &[u8]) -> u64 {
    match from_format_name(name) {
        Err(place) => packed(Refusal {
            number: 2,
            place: place as u64,
        }),
        Ok(None) => 0,
        Ok(Some(coating)) => match coating {
            SurfaceCoating::IdealAr => 1,
            SurfaceCoating::MgF2 {
                design_wavelength_nm,
            } => {
                assert_eq!(design_wavelength_nm, 550.0);
                2
            }
            SurfaceCoating::BroadbandAr => 3,
            SurfaceCoating::HighReflectanceMirror => 4,
            SurfaceCoating::Custom(_) => unreachable!("no name of a custom coating"),
        },
    }
}

/// The name of a code's coating; 2 for a code that has none.
fn name(code: u64) -> Result<&'static str, Refusal> {
    match code {
        1..=8 => Ok(surface_coating(code, 550.0, Vec::new()).to_format_name()),
        _ => Err(refused(2)),
    }
}

/// What is returned, and each byte of the output that was lent: the name at its front, or as it was.
fn leave_name(r: &mut Words, room: u64, answer: Result<&'static str, Refusal>) {
    let mut output = vec![0xA5; room as usize];
    r.int(match answer {
        Err(refusal) => packed(refusal),
        Ok(name) if name.len() > output.len() => packed(refused(8)),
        Ok(name) => {
            output[..name.len()].copy_from_slice(name.as_bytes());
            name.len() as u64
        }
    });
    output.into_iter().for_each(|b: u8| r.int(u64::from(b)));
}

pub fn table() -> Vec<Function> {
    let call = |number, name, args: &'static [Arg], call: Call| Function {
        number,
        group: "calls",
        name,
        args,
        weight: 1,
        call,
    };
    let plate = |number, name, f: Call| call(number, name, &[CallRoom, Angle], f);
    let vector = |number, name, f: Call| call(number, name, &[CallRoom, Four], f);
    let surface = |number, name, f: Call| call(number, name, &[CallRoom, Cosine, Index, Index], f);
    vec![
        surface(208, "dihkelu_fresnel_dielectric", |a, r| {
            let (room, [cos, n1, n2]) = (a.int(), a.floats());
            let (rs, rp) = fresnel_dielectric(cos, n1, n2);
            leave(r, room, counted(vec![rs, rp]));
        }),
        surface(209, "dihkelu_fresnel_unpolarized", |a, r| {
            let (room, [cos, n1, n2]) = (a.int(), a.floats());
            let (reflected, transmitted) = fresnel_unpolarized(cos, n1, n2);
            leave(r, room, counted(vec![reflected, transmitted]));
        }),
        surface(210, "dihkelu_schlick_approx", |a, r| {
            let (room, [cos, n1, n2]) = (a.int(), a.floats());
            leave(r, room, counted(vec![schlick_approx(cos, n1, n2)]));
        }),
        call(
            211,
            "dihkelu_surface_fresnel_jones",
            &[CallRoom, Index, Index, Angle],
            |a, r| {
                let (room, [n1, n2, angle]) = (a.int(), a.floats());
                let matrices = surface_fresnel_jones(n1, n2, angle).map_err(|_| refused(1));
                let both = matrices.and_then(|(x, y)| counted([entries(&x), entries(&y)].concat()));
                leave(r, room, both);
            },
        ),
        call(
            212,
            "dihkelu_quarter_wave_ar",
            &[CallRoom, Index, Index, Wavelength],
            |a, r| {
                let (room, [ambient, substrate, design]) = (a.int(), a.floats());
                leave(
                    r,
                    room,
                    layers(Coating::quarter_wave_ar(ambient, substrate, design)),
                );
            },
        ),
        call(
            213,
            "dihkelu_bragg_mirror",
            &[StackRoom, Index, Index, Pairs, Wavelength],
            |a, r| {
                let (room, [high, low]) = (a.int(), a.floats());
                let (pairs, design) = (a.int(), a.float());
                let answer = match pairs {
                    0..=31 => layers(Coating::bragg_mirror(high, low, pairs as usize, design)),
                    _ => Err(refused(3)),
                };
                leave(r, room, answer);
            },
        ),
        call(214, "dihkelu_coating_from_name", &[Name], |a, r| {
            r.int(code(&a.bytes()));
        }),
        vector(215, "dihkelu_to_stokes", |a, r| {
            of_vector(a, r, |v| parameters(&v.to_stokes()));
        }),
        vector(216, "dihkelu_jones_normalize", |a, r| {
            of_vector(a, r, |v| parts(&v.normalize()));
        }),
        vector(217, "dihkelu_jones_intensity", |a, r| {
            of_vector(a, r, |v| vec![v.intensity()]);
        }),
        vector(218, "dihkelu_stokes_figures", |a, r| {
            let (room, numbers) = (a.int(), floats(a));
            let stokes = taken(&numbers, 4, |a| a.stokes());
            let figures = |s: StokesVector| {
                counted(vec![
                    s.degree_of_polarization(),
                    s.degree_of_linear_polarization(),
                    s.degree_of_circular_polarization(),
                    s.orientation_angle_rad(),
                    s.ellipticity_angle_rad(),
                ])
            };
            leave(r, room, stokes.and_then(figures));
        }),
        call(
            219,
            "dihkelu_jones_apply",
            &[CallRoom, Matrix, Four],
            |a, r| {
                let (room, matrix, field) = (a.int(), floats(a), floats(a));
                let matrix = taken(&matrix, 8, |a| a.jones());
                let field = taken(&field, 4, |a| a.jones_vector());
                let both = matrix.and_then(|m| field.and_then(|v| counted(parts(&m.apply(v)))));
                leave(r, room, both);
            },
        ),
        call(
            220,
            "dihkelu_jones_mul",
            &[CallRoom, Matrix, Matrix],
            |a, r| {
                let (room, left, right) = (a.int(), floats(a), floats(a));
                let left = taken(&left, 8, |a| a.jones());
                let right = taken(&right, 8, |a| a.jones());
                let both = left.and_then(|x| right.and_then(|y| counted(entries(&x.mul(&y)))));
                leave(r, room, both);
            },
        ),
        call(
            221,
            "dihkelu_mueller_apply",
            &[CallRoom, Sixteen, Four],
            |a, r| {
                let (room, matrix, beam) = (a.int(), floats(a), floats(a));
                let matrix = taken(&matrix, 16, |a| a.mueller());
                let beam = taken(&beam, 4, |a| a.stokes());
                let both = matrix.and_then(|m| beam.and_then(|s| counted(parameters(&m.apply(s)))));
                leave(r, room, both);
            },
        ),
        vector(222, "dihkelu_diattenuator", |a, r| {
            of_vector(a, r, |v| entries(&JonesMatrix::diattenuator(v.ex, v.ey)));
        }),
        plate(223, "dihkelu_linear_polarizer", |a, r| {
            let (room, angle) = (a.int(), a.float());
            leave(
                r,
                room,
                counted(entries(&JonesMatrix::linear_polarizer(angle))),
            );
        }),
        call(
            224,
            "dihkelu_retarder",
            &[CallRoom, Angle, Angle],
            |a, r| {
                let (room, [retardance, axis]) = (a.int(), a.floats());
                leave(
                    r,
                    room,
                    counted(entries(&JonesMatrix::retarder(retardance, axis))),
                );
            },
        ),
        plate(225, "dihkelu_quarter_wave_plate", |a, r| {
            let (room, axis) = (a.int(), a.float());
            leave(
                r,
                room,
                counted(entries(&JonesMatrix::quarter_wave_plate(axis))),
            );
        }),
        plate(226, "dihkelu_half_wave_plate", |a, r| {
            let (room, axis) = (a.int(), a.float());
            leave(
                r,
                room,
                counted(entries(&JonesMatrix::half_wave_plate(axis))),
            );
        }),
        call(227, "dihkelu_coating_name", &[CallRoom, AnyCode], |a, r| {
            let (room, code) = (a.int(), a.int());
            leave_name(r, room, name(code));
        }),
        call(228, "dihkelu_trim", &[Bytes], |a, r| {
            let (place, length) = trim(&a.bytes());
            r.int(0);
            r.int(place as u64);
            r.int(length as u64);
        }),
    ]
}

/// So many numbers behind their count; one in eight has too few or too many.
pub fn push_numbers(rng: &mut Rng, style: Style, usual: usize, words: &mut Vec<u64>) {
    let count = if rng.one_in(8) {
        rng.below(usual + 3)
    } else {
        usual
    };
    words.push(count as u64);
    for _ in 0..count {
        Part.push(rng, style, words);
    }
}

/// Every count up to two too many.
pub fn number_cases(usual: u64) -> Vec<Vec<u64>> {
    let numbers = |count: u64| (1..=count).map(|i| (i as f64 / 4.0).to_bits());
    let case = |count: u64| std::iter::once(count).chain(numbers(count)).collect();
    (0..=usual + 2).map(case).collect()
}
