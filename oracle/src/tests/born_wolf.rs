// 02 slip 8, executed: empty space, the law on whole parts and where it ends, the column whose sign `to_mueller` turns.

use crate::functions::born_wolf::{to_mueller_born_wolf, whole, whole_stokes};
use crate::reference::polarization::{JonesMatrix, JonesVector, MuellerMatrix, StokesVector};
use crate::reference::thin_film::Complex;
use crate::values::Rng;

fn parts(s: StokesVector) -> [f64; 4] {
    [s.s0, s.s1, s.s2, s.s3]
}

/// The Jones matrix and the beam of twelve parts.
fn beam(x: [f64; 12]) -> (JonesMatrix, JonesVector) {
    let z = |i: usize| Complex {
        re: x[2 * i],
        im: x[2 * i + 1],
    };
    let matrix = JonesMatrix {
        m: [[z(0), z(1)], [z(2), z(3)]],
    };
    (matrix, JonesVector { ex: z(4), ey: z(5) })
}

/// Whether the matrix of twelve parts transforms their beam as the Jones matrix does, zeros of both signs being equal.
fn transforms(x: [f64; 12]) -> bool {
    let (jones, v) = beam(x);
    let ours = parts(to_mueller_born_wolf(&jones).apply(v.to_stokes()));
    ours == parts(jones.apply(v).to_stokes())
}

#[test]
fn empty_space_is_the_identity() {
    let bits = |m: MuellerMatrix| m.m.map(|row| row.map(f64::to_bits));
    let ours = to_mueller_born_wolf(&JonesMatrix::identity());
    assert_eq!(bits(ours), bits(MuellerMatrix::identity()));
}

#[test]
fn whole_beams_are_transformed_exactly() {
    let mut rng = Rng::new(8);
    for _ in 0..200_000 {
        let x = std::array::from_fn(|_| whole(&mut rng));
        assert!(transforms(x), "{x:?}");
        let (jones, v) = beam(x);
        let exact = whole_stokes(x.map(|part| part as i64)).map(|s| s as f64);
        assert_eq!(parts(jones.apply(v).to_stokes()), exact, "{x:?}");
    }
}

#[test]
fn larger_wholes_are_rounded() {
    let mut rng = Rng::new(8);
    let large = |rng: &mut Rng| rng.below(1 << 15) as f64 - f64::from(1 << 14);
    let wrong = (0..10_000)
        .filter(|_| !transforms(std::array::from_fn(|_| large(&mut rng))))
        .count();
    assert!(wrong > 0);
}

#[test]
fn the_fourth_column_of_to_mueller_has_the_other_sign() {
    let mut rng = Rng::new(8);
    for _ in 0..1000 {
        let (jones, _) = beam(std::array::from_fn(|_| rng.uniform(-2.0, 2.0)));
        let (ours, theirs) = (to_mueller_born_wolf(&jones), jones.to_mueller());
        for (a, b) in ours.m.iter().zip(&theirs.m) {
            let turned = [b[0], b[1], b[2], -b[3]];
            assert!(a.iter().zip(turned).all(|(x, y)| (x - y).abs() < 1e-13));
        }
    }
}

/// Of diag(x, y) by the formula: with c + i s = x*·y, every operation rounded.
fn diagonal(x: Complex, y: Complex) -> [[f64; 4]; 4] {
    let square = |z: Complex| z.re * z.re + z.im * z.im;
    let (sum, gap) = (0.5 * (square(x) + square(y)), 0.5 * (square(x) - square(y)));
    let (c, s) = (x.re * y.re + x.im * y.im, x.re * y.im - x.im * y.re);
    [
        [sum, gap, 0.0, 0.0],
        [gap, sum, 0.0, 0.0],
        [0.0, 0.0, c, -s],
        [0.0, 0.0, s, c],
    ]
}

/// Whether the columns are those of the formula, in value, for parts of which the largest are below 2^`most`.
fn columns_hold(rng: &mut Rng, most: i32) -> bool {
    let mut part = || {
        let x = match rng.below(6) {
            0 => 0.0,
            1 => f64::from_bits(rng.bits() >> 12),
            2 => rng.log(most - 1, most - 1),
            3 => rng.log(-1022, most - 1),
            _ => rng.uniform(0.0, 2.0),
        };
        rng.signed(x)
    };
    let (x, y) = (Complex::new(part(), part()), Complex::new(part(), part()));
    to_mueller_born_wolf(&JonesMatrix::diattenuator(x, y)).m == diagonal(x, y)
}

#[test]
fn columns_of_a_diagonal_matrix() {
    let mut rng = Rng::new(8);
    assert!((0..200_000).all(|_| columns_hold(&mut rng, 500)));
    assert!((0..1000).any(|_| !columns_hold(&mut rng, 520)));
}
