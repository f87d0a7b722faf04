// Group born_wolf: 02 slip 8, worked out a second way. A column comes from a pair of beams, a sign and a divisor; the Stokes
// parameters are products of complex numbers, S3 = 2·Im(Ex*·Ey); whole beams are transformed in whole numbers.

use crate::arguments::Arg::{Part, Whole};
use crate::functions::Function;
use crate::reference::polarization::{JonesMatrix, JonesVector, MuellerMatrix};
use crate::reference::thin_film::Complex;
use crate::values::Rng;

/// The largest size of a whole part.
pub const MOST: i64 = 1024;

/// Two beams, each Ex and Ey as re, im; whether the second is added or taken away; what the outcome is divided by.
type Column = ([[f64; 4]; 2], f64, f64);

const COLUMNS: [Column; 4] = [
    ([[1.0, 0.0, 0.0, 0.0], [0.0, 0.0, 1.0, 0.0]], 1.0, 2.0),
    ([[1.0, 0.0, 0.0, 0.0], [0.0, 0.0, 1.0, 0.0]], -1.0, 2.0),
    ([[1.0, 0.0, 1.0, 0.0], [1.0, 0.0, -1.0, 0.0]], -1.0, 4.0),
    ([[1.0, 0.0, 0.0, 1.0], [1.0, 0.0, 0.0, -1.0]], -1.0, 4.0),
];

fn conjugate(z: Complex) -> Complex {
    Complex {
        re: z.re,
        im: -z.im,
    }
}

/// S0 = |Ex|² + |Ey|², S1 = |Ex|² - |Ey|², S2 = 2·Re(Ex·Ey*), S3 = 2·Im(Ex*·Ey).
fn stokes(v: JonesVector) -> [f64; 4] {
    let square = |z: Complex| z.re * z.re + z.im * z.im;
    [
        square(v.ex) + square(v.ey),
        square(v.ex) - square(v.ey),
        2.0 * (v.ex * conjugate(v.ey)).re,
        2.0 * (conjugate(v.ex) * v.ey).im,
    ]
}

fn beam([a, b, c, d]: [f64; 4]) -> JonesVector {
    JonesVector {
        ex: Complex { re: a, im: b },
        ey: Complex { re: c, im: d },
    }
}

/// The Mueller matrix over Stokes vectors with S3 = 2·Im(Ex*·Ey).
pub fn to_mueller_born_wolf(jones: &JonesMatrix) -> MuellerMatrix {
    let columns = COLUMNS.map(|(beams, sign, divisor)| {
        let [first, second] = beams.map(|parts| stokes(jones.apply(beam(parts))));
        std::array::from_fn::<f64, 4, _>(|i| (first[i] + sign * second[i]) / divisor)
    });
    MuellerMatrix {
        m: std::array::from_fn(|i| std::array::from_fn(|j| columns[j][i])),
    }
}

/// A complex number of whole parts.
type Gauss = [i64; 2];

fn times([a, b]: Gauss, [c, d]: Gauss) -> Gauss {
    [a * c - b * d, a * d + b * c]
}

fn plus([a, b]: Gauss, [c, d]: Gauss) -> Gauss {
    [a + c, b + d]
}

/// The Stokes parameters of what a Jones matrix makes of a beam: m00, m01, m10, m11, Ex, Ey, with nothing rounded.
pub fn whole_stokes(parts: [i64; 12]) -> [i64; 4] {
    let z = |i: usize| [parts[2 * i], parts[2 * i + 1]];
    let ex = plus(times(z(0), z(4)), times(z(1), z(5)));
    let ey = plus(times(z(2), z(4)), times(z(3), z(5)));
    let square = |[a, b]: Gauss| a * a + b * b;
    let cross = times([ex[0], -ex[1]], ey);
    [
        square(ex) + square(ey),
        square(ex) - square(ey),
        2 * cross[0],
        2 * cross[1],
    ]
}

pub fn table() -> Vec<Function> {
    vec![
        Function {
            number: 150,
            group: "born_wolf",
            name: "to_mueller_born_wolf",
            args: &[Part; 8],
            weight: 1,
            call: |a, r| r.mueller(to_mueller_born_wolf(&a.jones())),
        },
        Function {
            number: 151,
            group: "born_wolf",
            name: "to_mueller_born_wolf, applied",
            args: &[Whole; 12],
            weight: 1,
            call: |a, r| r.floats(&whole_stokes(a.floats().map(|x| x as i64)).map(|s| s as f64)),
        },
    ]
}

/// A part that is whole and at most 1,024 in size, a zero of either sign among them.
pub fn whole(rng: &mut Rng) -> f64 {
    match rng.below(8) {
        0 => rng.pick(&[0.0, -0.0, 1.0, -1.0]),
        1 => rng.pick(&[1024.0, -1024.0, 1023.0, -1023.0]),
        2 => rng.below(7) as f64 - 3.0,
        _ => rng.below(2 * MOST as usize + 1) as f64 - MOST as f64,
    }
}

/// Parts that are tried in every place.
pub fn wholes() -> [f64; 9] {
    [0.0, -0.0, 1.0, -1.0, 2.0, 1024.0, -1024.0, 1023.0, -1023.0]
}
