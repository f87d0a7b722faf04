// 02 slip 10, executed: the laws hold where they are claimed, every kind of number is met, and a law that fails is found.

use crate::laws::laws;
use crate::reference::polarization::JonesMatrix;
use crate::reference::thin_film::Complex;

#[test]
fn the_laws_hold() {
    let seen = laws(10, 100_000, None);
    assert!(seen.hold(), "{}", seen.table());
    let kinds = [
        seen.with_subnormals,
        seen.with_infinities,
        seen.with_nans,
        seen.other_zeros,
    ];
    assert!(kinds.iter().all(|count| *count > 100), "{}", seen.table());
}

#[test]
fn a_broken_law_is_found() {
    assert_eq!(laws(10, 100, Some(50)).broken, 1);
    assert!(!laws(10, 0, None).hold());
}

fn matrix(m: [f64; 4]) -> JonesMatrix {
    let real = |re| Complex { re, im: 0.0 };
    JonesMatrix {
        m: [[real(m[0]), real(m[1])], [real(m[2]), real(m[3])]],
    }
}

/// docs/DIFFERENCES.md: where the laws end.
#[test]
fn the_laws_end_there() {
    let both = |x| Complex { re: x, im: x };
    let (a, b) = (
        JonesMatrix::diattenuator(both(-1.0), both(1.0)),
        JonesMatrix::diattenuator(both(1.0), both(-1.0)),
    );
    assert!(a.mul(&b).m[0][1].im.is_sign_negative());
    assert!(b.mul(&a).m[0][1].im.is_sign_positive());
    let (x, turn) = (matrix([1.0, 0.0, 0.0, 0.0]), matrix([0.0, 1.0, 0.0, 0.0]));
    assert_eq!(
        [x.mul(&turn).m[0][1].re, turn.mul(&x).m[0][1].re],
        [1.0, 0.0]
    );
    let infinite = matrix([f64::INFINITY, 0.0, 0.0, 0.0]);
    assert!(JonesMatrix::identity().mul(&infinite).m[0][0].im.is_nan());
    let large = JonesMatrix::diattenuator(both(f64::MAX), both(0.0));
    assert!(large.mul(&large).m[0][0].re.is_nan());
}
