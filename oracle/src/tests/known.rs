// 01's known answers and wrong turns, over the original with section 2's meanings.

use crate::functions::names::{from_format_name, names, trim};
use crate::functions::quarter_waves::{multiples, quarter_waves};
use crate::record::{absorptance, bits, numbers};
use crate::reference::fresnel::{fresnel_dielectric, schlick_approx};
use crate::reference::polarization::{
    surface_coating_jones, surface_fresnel_jones, JonesMatrix, JonesVector, MuellerMatrix,
    StokesVector,
};
use crate::reference::thin_film::{Coating, Complex, SurfaceCoating, ThinFilmLayer};
use crate::section2::{sin, PI};
use crate::values::neighbour;

#[test]
fn complex_division_gives_zero_below_1e_28() {
    let one = Complex::real(1.0);
    let by = |exponent: i32| one / Complex::real(2_f64.powi(exponent));
    assert_eq!(by(-46), Complex::real(2_f64.powi(46)));
    assert_eq!(by(-47), Complex::zero());
    let nan = one / Complex::real(f64::NAN);
    assert!(nan.re.is_nan() && nan.im.is_nan());
}

#[test]
fn no_layers() {
    let custom = SurfaceCoating::Custom(Coating::Multilayer { layers: Vec::new() });
    let r = custom.evaluate(1.0, 3.0, 0.0, 550.0).expect("answer");
    let words = |z: Complex| [bits(z.re), bits(z.im)];
    for z in [r.rs, r.rp] {
        assert_eq!(words(z), [bits(-0.5), bits(0.0)]);
    }
    for z in [r.ts, r.tp] {
        assert_eq!(z, Complex::real(0.5));
    }
    assert_eq!([r.reflectance_s, r.reflectance_p], [0.25; 2]);
    assert_eq!([r.transmittance_s, r.transmittance_p], [0.75; 2]);
    assert_eq!([r.phase_rs_rad, r.phase_rp_rad], [PI; 2]);
    assert_eq!(numbers(&r)[14..].to_vec(), [0.0; 2]);
}

#[test]
fn what_stays_in_the_glass() {
    let words = [(0.3, 0.6), (1.0, 1.0), (-1.0, 0.0)].map(|(r, t)| absorptance(r, t).to_bits());
    assert_eq!(words, [0x3FB9_9999_9999_9998, 0, 1_f64.to_bits()]);
    for x in [0.0, 1.0, f64::INFINITY, f64::NAN] {
        assert!(absorptance(x, f64::NAN).is_nan() && absorptance(f64::NAN, x).is_nan());
    }
}

#[test]
fn quarter_waves_by_whole_numbers() {
    let given = |film| quarter_waves(film).map(|(count, over)| (count, over.to_bits()));
    let below = [2.307783427626831, 30173.46609148967, 486.1];
    assert_eq!(given(below), Some((572, 0x405E_6199_9999_97E8)));
    assert_eq!(given([1.5, 91.66666666666666, 550.0]), Some((1, 0)));
    assert_eq!(given([4.0, 100_000.0, 100.0]), Some((16_000, 0)));
    assert_eq!(given([1.0, -0.0, 10_000.0]), Some((0, 0)));
    assert_eq!(given([f64::NAN, 1.0, 550.0]), None);
    // the platform's fmod is exact, and so is what is left for the count
    for film in multiples() {
        let (p, q) = (film[0] * film[1], film[2] / 4.0);
        let over = p.abs() % q;
        let expected = (((p - over) / q).round() as u64, over.to_bits());
        assert!(
            given(film).is_none_or(|found| found == expected),
            "{film:?}"
        );
    }
}

#[test]
fn fresnel() {
    assert_eq!(fresnel_dielectric(1.0, 1.0, 3.0), (0.25, 0.25));
    assert_eq!(fresnel_dielectric(0.0, 1.0, 1.0), (1.0, 1.0));
    assert_eq!(schlick_approx(0.0, 1.0, 3.0), 1.0);
}

#[test]
fn stokes() {
    let left = JonesVector::new(Complex::real(1.0), Complex::new(0.0, 1.0));
    assert_eq!(left.to_stokes(), StokesVector::new(2.0, 0.0, 0.0, 2.0));
    assert!(JonesVector::circular_right().to_stokes().s3 < 0.0);
    let faint = StokesVector::new(1e-15, 1e-15, 0.0, 0.0);
    assert_eq!(faint.degree_of_polarization(), 0.0);
    // Sums begin at +0.
    let minus = MuellerMatrix { m: [[-0.0; 4]; 4] };
    let dark = minus.apply(StokesVector::new(1.0, 1.0, 1.0, 1.0));
    assert_eq!(bits(dark.s0), 0);
    // The fourth column of empty space has the sign of circular_right.
    assert!(JonesMatrix::identity().to_mueller().m[3][3] < 0.0);
}

#[test]
fn coating_names() {
    let of = |name: &str| from_format_name(name.as_bytes());
    let mgf2 = SurfaceCoating::MgF2 {
        design_wavelength_nm: 550.0,
    };
    assert_eq!(of(" mgf2 "), Ok(Some(mgf2)));
    assert_eq!(of("CUSTOM"), Ok(Some(SurfaceCoating::IdealAr)));
    assert_eq!(of("none"), Ok(None));
    assert_eq!(of("MIRROR2"), Ok(Some(SurfaceCoating::IdealAr)));
    assert_eq!(of("xBBARx"), Ok(Some(SurfaceCoating::BroadbandAr)));
    assert_eq!(of("hr"), Ok(Some(SurfaceCoating::HighReflectanceMirror)));
    assert_eq!(from_format_name(&[0xFF; 33]), Err(32));
    assert_eq!(from_format_name(b"AR\xFF"), Err(2));
}

#[test]
fn trim_is_the_rusts_on_ascii() {
    for name in names() {
        let Ok(text) = std::str::from_utf8(&name) else {
            continue;
        };
        let part = text.trim();
        let place = part.as_ptr() as usize - text.as_ptr() as usize;
        assert_eq!(trim(&name), (place, part.len()), "{text:?}");
    }
    assert_eq!(trim(b"   "), (0, 0));
    assert_eq!(trim(b"\x85 AR \xA0"), (0, 6));
}

fn film(n: f64, thickness: f64) -> ThinFilmLayer {
    ThinFilmLayer::dielectric(n, thickness)
}

#[test]
fn layers_turn_only_when_the_light_comes_from_the_denser_side() {
    let layers = vec![film(1.38, 90.0), film(2.3, 40.0)];
    let mut turned = layers.clone();
    turned.reverse();
    let coating = |layers: &Vec<ThinFilmLayer>| Coating::Multilayer {
        layers: layers.clone(),
    };
    let custom = SurfaceCoating::Custom(coating(&layers));
    for (n_incident, n_substrate, expected) in [
        (1.5, 1.0, &turned),
        (1.5, 1.5, &layers),
        (1.0, 1.5, &layers),
    ] {
        let ours = custom.evaluate(n_incident, n_substrate, 0.3, 550.0);
        let plain = coating(expected).evaluate(n_incident, n_substrate, 0.3, 550.0);
        assert_eq!(ours, plain);
    }
}

#[test]
fn the_two_signs_of_rp_oppose() {
    let bare = Coating::Multilayer { layers: Vec::new() };
    let tmm = bare.evaluate(1.0, 1.5, 0.3, 550.0).expect("answer");
    let (reflection, _) = surface_fresnel_jones(1.0, 1.5, 0.3).expect("answer");
    assert!(tmm.rp.re * reflection.m[1][1].re < 0.0);
    assert!(tmm.rs.re * reflection.m[0][0].re > 0.0);
    let (coated, _) = surface_coating_jones(&tmm);
    assert_eq!(coated.m[1][1], tmm.rp);
}

#[test]
fn grazing_light_between_equal_indices_is_no_total_reflection() {
    // The float below π/2 has the sine 1, so that abs sin_t is 1 and not above it.
    let angle = neighbour(PI / 2.0, -1);
    assert_eq!(sin(angle), 1.0);
    let (_, transmission) = surface_fresnel_jones(1.5, 1.5, angle).expect("answer");
    assert_eq!(transmission.m[0][0], Complex::real(2.0));
    assert_eq!(fresnel_dielectric(0.0, 1.5, 1.5), (1.0, 1.0));
}

#[test]
fn a_nan_does_not_come_through_max() {
    let root = Complex::new(f64::NAN, 1.0).sqrt();
    assert_eq!([bits(root.re), bits(root.im)], [0, 0]);
    let root = Complex::new(1.0, f64::NAN).sqrt();
    assert_eq!([bits(root.re), bits(root.im)], [0, bits(-0.0)]);
}
