// Section 2: the edges of the readings' notes 14 to 28, and the platform's `%` and square root by whole numbers.

use crate::record::bits;
use crate::section2::*;
use crate::values::{any, multiple, neighbour, square, subnormal, Rng};

const INF: f64 = f64::INFINITY;
const NAN: f64 = f64::NAN;

/// Equal bits, all NaNs one.
fn same(a: f64, b: f64) {
    assert_eq!(bits(a), bits(b), "{a:e} is not {b:e}");
}

#[test]
fn max_takes_the_second_unless_greater() {
    same(max(NAN, 0.0), 0.0);
    same(max(0.0, NAN), NAN);
    same(max(0.0, -0.0), -0.0);
    same(max(-0.0, 0.0), 0.0);
    same(max(2.0, 1.0), 2.0);
    same(max(-INF, -1.0), -1.0);
}

#[test]
fn clamp_looks_at_the_low_end_first() {
    same(clamp(-0.0, 0.0, 1.0), -0.0);
    same(clamp(NAN, 0.0, 1.0), NAN);
    same(clamp(0.5, 1.0, 0.0), 1.0);
    same(clamp(2.0, 1.0, 0.0), 0.0);
    same(clamp(2.0, 0.0, 1.0), 1.0);
    same(clamp(-2.0, 0.0, 1.0), 0.0);
    same(clamp(2.0, NAN, NAN), 2.0);
}

#[test]
fn abs_and_powers() {
    same(abs(-0.0), 0.0);
    same(abs(-INF), INF);
    same(abs(NAN), NAN);
    same(powi2(-3.0), 9.0);
    same(powi5(-3.0), -243.0);
    same(powi5(1.1), 1.1 * ((1.1 * 1.1) * (1.1 * 1.1)));
}

#[test]
fn periods_are_those_of_the_rust() {
    assert_eq!(T.to_bits(), 0x4019_21FB_5444_2D18);
    same(PI, std::f64::consts::PI);
    same(PI / 2.0, std::f64::consts::FRAC_PI_2);
    same(PI / 4.0, std::f64::consts::FRAC_PI_4);
    assert_eq!((3.0 * (PI / 4.0)).to_bits(), 0x4002_D97C_7F33_21D2);
}

#[test]
fn folds_are_strict() {
    same(sin(PI), 0.0);
    same(sin(-PI), 0.0);
    same(sin(0.0), 0.0);
    same(sin(-0.0), -0.0);
    same(cos(PI), -1.0);
    same(cos(-PI), -1.0);
    same(cos(T), 1.0);
    same(cos(-0.0), 1.0);
    for x in [NAN, INF, -INF] {
        same(sin(x), NAN);
        same(cos(x), NAN);
    }
}

/// Document 02, slip 7.
#[test]
fn whole_turns_are_taken_off() {
    assert_eq!(T1.to_bits(), 0x4019_21FB_5000_0000);
    assert_eq!(LOW.to_bits(), 0x3CB1_A626_3314_5C07);
    same(first_line(0.0), 0.0);
    same(first_line(-0.0), -0.0);
    same(sin(T), -LOW);
    same(sin(-T), LOW);
    // The quotients are 1/2, 3/2 and 29/2, ties; after two turns r is below -π.
    same(first_line(PI), PI);
    assert_eq!(first_line(3.0 * PI).to_bits(), 0xC009_21FB_5444_2D19);
    same(
        first_line(29.0 * PI),
        first_line(f64::from_bits(0x4056_C6CB_C45D_C8DE)),
    );
    same(sin(29.0 * PI), 0.0);
    same(sin(-29.0 * PI), 0.0);
    // 2^20 has the new line, the next f64 the old one.
    assert_eq!(first_line(THICK).to_bits(), 0x3FD5_8E8E_C12C_0AA8);
    assert_eq!(first_line(-THICK).to_bits(), 0xBFD5_8E8E_C12C_0AA8);
    let beyond = neighbour(THICK, 1);
    same(first_line(beyond), rem(beyond, T));
    assert_eq!(first_line(beyond).to_bits(), 0x3FD5_8E8E_C177_4700);
}

#[test]
fn both_readings_of_the_first_line_agree() {
    assert!(crate::phase::measure(3, 20_000, None));
    assert!(!crate::phase::measure(3, 100, Some(99)));
    assert!(!crate::phase::measure(3, 0, None));
}

#[test]
fn exp_has_its_ends() {
    same(exp(710.0), INF);
    same(exp(f64::from_bits(710.0_f64.to_bits() + 1)), INF);
    same(exp(INF), INF);
    same(exp(-746.0), 0.0);
    same(exp(-747.0), 0.0);
    same(exp(-INF), 0.0);
    same(exp(0.0), 1.0);
    same(exp(-0.0), 1.0);
    same(exp(NAN), NAN);
    assert!(exp(709.0).is_finite() && exp(-740.0) > 0.0);
}

#[test]
fn atan_and_asin_keep_the_sign_bit() {
    same(atan(-0.0), -0.0);
    same(atan(0.0), 0.0);
    same(atan(INF), PI / 2.0);
    same(atan(-INF), -(PI / 2.0));
    same(atan(NAN), NAN);
    same(asin(-0.0), -0.0);
    same(asin(1.0000000000000002), NAN);
    same(asin(-2.0), NAN);
    same(asin(NAN), NAN);
}

#[test]
fn atan2_tries_its_cases_in_order() {
    same(atan2(0.0, 0.0), 0.0);
    same(atan2(-0.0, 0.0), -0.0);
    same(atan2(0.0, -0.0), PI);
    same(atan2(-0.0, -0.0), -PI);
    same(atan2(-0.0, 2.0), -0.0);
    same(atan2(-0.0, -2.0), -PI);
    same(atan2(0.0, INF), 0.0);
    same(atan2(0.0, -INF), PI);
    same(atan2(3.0, INF), 0.0);
    same(atan2(-3.0, INF), -0.0);
    same(atan2(3.0, -INF), PI);
    same(atan2(3.0, 0.0), PI / 2.0);
    same(atan2(-3.0, -0.0), -PI / 2.0);
    same(atan2(INF, 0.0), PI / 2.0);
    same(atan2(-INF, -5.0), -PI / 2.0);
    same(atan2(INF, INF), PI / 4.0);
    same(atan2(-INF, INF), -PI / 4.0);
    same(atan2(INF, -INF), 3.0 * (PI / 4.0));
    same(atan2(-INF, -INF), -(3.0 * (PI / 4.0)));
    same(atan2(NAN, INF), NAN);
    same(atan2(0.0, NAN), NAN);
    // The quotient underflows.
    same(atan2(1e-300, -1e300), PI);
    same(atan2(-1e-300, -1e300), -PI);
    same(atan2(-1e-300, 1e300), -0.0);
    // The quotient overflows.
    same(atan2(1e300, 1e-300), PI / 2.0);
    same(atan2(1e300, -1e-300), PI / 2.0);
}

/// Worked out by another program, written from section 2 and slip 7 in another language.
#[test]
fn series_have_these_bits() {
    for (x, expected) in [
        (sin(1.0), 0x3FEA_ED54_8F09_0CEE),
        (sin(2.0), 0x3FED_18F6_EAD1_B445),
        (sin(-3.0), 0xBFC2_1038_6DB6_D557),
        (sin(100000.0), 0x3FA2_4DAA_9C52_7E9C),
        (sin(1048576.0), 0x3FD5_26CC_B2FC_8655),
        (sin(1e+300), 0xBFE5_2EC0_76F4_DF9B),
        (cos(1.0), 0x3FE1_4A28_0FB5_068C),
        (cos(2.0), 0xBFDA_A226_5753_7208),
        (cos(-3.0), 0xBFEF_AE04_BE85_E5D3),
        (cos(100000.0), 0xBFEF_FAC3_841B_3DA7),
        (cos(1048576.0), 0x3FEE_33AD_A92F_E2AE),
        (cos(1e+300), 0x3FE7_FC3F_18DD_E1DB),
        (exp(1.0), 0x4005_BF0A_8B14_5459),
        (exp(-20.0), 0x3E21_B486_55F3_7276),
        (exp(700.0), 0x7F0D_945D_F4F8_BD5A),
        (exp(-745.0), 0x0000_0000_0000_0001),
        (exp(1e-09), 0x3FF0_0000_0044_B800),
        (atan(0.5), 0x3FDD_AC67_0561_BB4F),
        (atan(1.0), 0x3FE9_21FB_5444_2D19),
        (atan(3.0), 0x3FF3_FC17_6B7A_8560),
        (atan(-10000000000.0), 0xBFF9_21FB_543D_4DE0),
        (atan(1e-320), 0x0000_0000_0000_07E8),
        (asin(0.5), 0x3FE0_C152_382D_7366),
        (asin(1.0), 0x3FF9_21FB_5444_2D19),
        (asin(-0.99), 0xBFF6_DE3C_6F33_D51D),
        (atan2(1.0, 2.0), 0x3FDD_AC67_0561_BB4F),
        (atan2(1.0, -2.0), 0x4005_6C6E_7397_F5AE),
        (atan2(-3.0, -0.5), 0xBFFB_C66E_44CB_C074),
        (atan2(1e-05, 100000.0), 0x3DDB_7CDF_D9D7_BDBB),
    ] {
        assert_eq!(x.to_bits(), expected, "{x:e}");
    }
}

#[test]
fn minus_flips_the_sign_bit_of_zeros() {
    assert_eq!((-std::hint::black_box(0.0_f64)).to_bits(), 1 << 63);
    assert_eq!((-std::hint::black_box(-0.0_f64)).to_bits(), 0);
    assert!(!NAN.is_finite() && !INF.is_finite() && f64::MAX.is_finite());
}

#[test]
fn series_are_near_the_platform() {
    let mut rng = Rng::new(9);
    let near = |a: f64, b: f64, within: f64| assert!((a - b).abs() <= within, "{a:e} {b:e}");
    for _ in 0..20_000 {
        let x = rng.uniform(-PI, PI);
        near(sin(x), x.sin(), 4e-15);
        near(cos(x), x.cos(), 4e-15);
        let x = rng.uniform(-THICK, THICK);
        near(sin(x), x.sin(), 4e-15);
        near(cos(x), x.cos(), 4e-15);
        let x = rng.uniform(-10.0, 10.0);
        near(atan(x), x.atan(), 2e-15);
        let x = rng.uniform(-1.0, 1.0);
        near(asin(x), x.asin(), 1e-12);
        let y = rng.uniform(-1.0, 1.0);
        near(atan2(y, x), y.atan2(x), 4e-15);
        let x = rng.uniform(-700.0, 700.0);
        near(exp(x) / x.exp(), 1.0, 1e-11);
    }
}

#[test]
fn known_roots() {
    same(sqrt(f64::from_bits(1)), 2_f64.powi(-537));
    same(sqrt(-0.0), -0.0);
    same(sqrt(INF), INF);
    same(sqrt(-INF), NAN);
    same(sqrt(-f64::from_bits(1)), NAN);
    same(sqrt(NAN), NAN);
}

/// A positive finite f64 as significand and exponent: m·2^e.
fn parts(x: f64) -> (u128, i32) {
    let (biased, low) = (x.to_bits() >> 52 & 0x7FF, x.to_bits() & ((1 << 52) - 1));
    match biased {
        0 => (u128::from(low), -1074),
        _ => (u128::from(low | 1 << 52), biased as i32 - 1075),
    }
}

/// The nearest f64 of the root, by whole numbers: the radicand is moved to 105 or 106 bits.
fn whole_sqrt(x: f64) -> f64 {
    let (mut m, mut e) = parts(x);
    while m < 1 << 104 || e % 2 != 0 {
        m <<= 1;
        e -= 1;
    }
    let (mut low, mut high) = (1_u128 << 52, 1_u128 << 53);
    while high - low > 1 {
        let middle = (low + high) / 2;
        if middle * middle <= m {
            low = middle;
        } else {
            high = middle;
        }
    }
    // The root lies above the middle of low and low + 1 if the rest exceeds low; it is never on the middle.
    let nearest = if m - low * low > low { low + 1 } else { low };
    nearest as f64 * 2_f64.powi(e / 2)
}

#[test]
fn the_root_is_the_nearest() {
    let mut rng = Rng::new(10);
    for _ in 0..20_000 {
        let x = match rng.below(4) {
            0 => square(&mut rng),
            1 => subnormal(&mut rng),
            _ => any(&mut rng),
        };
        let x = abs(x);
        if x > 0.0 && x < INF {
            same(sqrt(x), whole_sqrt(x));
        }
    }
}

/// The exact remainder of finite numbers, y not zero, by whole numbers.
fn whole_rem(x: f64, y: f64) -> f64 {
    let ((mx, ex), (my, ey)) = (parts(abs(x)), parts(abs(y)));
    let (rest, e) = if ex >= ey {
        let double = |rest: u128, _| (rest * 2) % my;
        ((0..ex - ey).fold(mx % my, double), ey)
    } else if ey - ex > 70 {
        (mx, ex)
    } else {
        (mx % (my << (ey - ex)), ex)
    };
    // Exact: the rest has at most 53 bits. Two steps, since 2^e may lie below the normals.
    let magnitude = rest as f64 * 2_f64.powi(e / 2) * 2_f64.powi(e - e / 2);
    if x.is_sign_negative() {
        -magnitude
    } else {
        magnitude
    }
}

#[test]
fn the_remainder_is_exact() {
    let mut rng = Rng::new(11);
    for _ in 0..20_000 {
        let x = match rng.below(3) {
            0 => multiple(&mut rng),
            _ => any(&mut rng),
        };
        let y = if rng.one_in(2) { T } else { any(&mut rng) };
        if x.is_finite() && y.is_finite() && y != 0.0 {
            same(rem(x, y), whole_rem(x, y));
        }
    }
    same(rem(INF, T), NAN);
    same(rem(1.0, 0.0), NAN);
    same(rem(-1.0, INF), -1.0);
    same(rem(-0.0, T), -0.0);
    same(rem(-T, T), -0.0);
}
