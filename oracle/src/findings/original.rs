// Findings of the original Rust, `original` being either side (see findings.rs).

use super::{finding, hex, Finding};
use original::fresnel::{fresnel_dielectric, schlick_approx};
use original::polarization::{
    surface_coating_jones, surface_fresnel_jones, JonesMatrix, JonesVector, MuellerMatrix,
    StokesVector,
};
use original::thin_film::{Coating, CoatingResponse, Complex, SurfaceCoating, ThinFilmLayer};

pub fn findings() -> Vec<Finding> {
    let mut list = conventions();
    list.extend(total_reflection());
    list.extend(powers());
    list.extend(layers());
    list.extend(complex());
    list.extend(jones_and_stokes());
    list.extend(fresnel());
    list
}

fn z(z: Complex) -> String {
    format!("{:.4} {:+.4}i", z.re, z.im)
}

/// Layers of n, k and thickness.
fn films(list: &[[f64; 3]]) -> Coating {
    let film = |[n, k, d]: &[f64; 3]| ThinFilmLayer::absorbing(*n, *k, *d);
    Coating::Multilayer {
        layers: list.iter().map(film).collect(),
    }
}

/// The answer of a coating at n_incident, n_substrate, angle, and 550 nm.
fn answer(coating: SurfaceCoating, [n0, n1, angle]: [f64; 3]) -> CoatingResponse {
    let response = coating.evaluate(n0, n1, angle, 550.0);
    response.expect("an answer")
}

fn solved(list: &[[f64; 3]], at: [f64; 3]) -> CoatingResponse {
    answer(SurfaceCoating::Custom(films(list)), at)
}

/// rs, rp, ts, tp of a bare surface.
fn bare([n1, n2, angle]: [f64; 3]) -> [Complex; 4] {
    let (r, t) = surface_fresnel_jones(n1, n2, angle).expect("an answer");
    [r.m[0][0], r.m[1][1], t.m[0][0], t.m[1][1]]
}

fn conventions() -> Vec<Finding> {
    let at = [1.0, 1.5, 0.6];
    let (coated, [rs, rp, ts, tp]) = (solved(&[], at), bare(at));
    let near = |a: f64, b: f64| (a - b).abs() < 1e-12;
    let same = near(coated.rs.re, rs.re) && near(coated.ts.re, ts.re);
    let four = |x: f64| format!("{x:.4}");
    let powers = [coated.transmittance_s, coated.transmittance_p].map(four);
    let through = surface_coating_jones(&coated).1.to_mueller();
    let past = JonesMatrix::diattenuator(ts, tp).to_mueller();
    let transmitted = "[0][0] of the transmitted light's Mueller matrix";
    vec![
        finding("rp, 1 to 1.5 at 0.6, solver", four(coated.rp.re), "-0.1439"),
        finding("rp, 1 to 1.5 at 0.6, Fresnel", four(rp.re), "0.1439"),
        finding("tp, 1 to 1.5 at 0.6, solver", four(coated.tp.re), "0.8561"),
        finding("tp, 1 to 1.5 at 0.6, Fresnel", four(tp.re), "0.7626"),
        finding("rs and ts are the same there", same, "true"),
        finding("T_s, T_p there", powers.join(", "), "0.9351, 0.9793"),
        finding(transmitted, four(through.m[0][0]), "0.6441"),
        finding("the same, bare", four(past.m[0][0]), "0.5685"),
    ]
}

fn total_reflection() -> Vec<Finding> {
    let at = [1.5, 1.0, 1.0];
    let (coated, [rs, rp, ts, _]) = (solved(&[], at), bare(at));
    vec![
        finding("rs, 1.5 to 1 at 1, solver", z(coated.rs), "0.0509 +0.9987i"),
        finding("rs, 1.5 to 1 at 1, Fresnel", z(rs), "0.0509 -0.9987i"),
        finding("rp, 1.5 to 1 at 1, solver", z(coated.rp), "0.6410 -0.7675i"),
        finding("rp, 1.5 to 1 at 1, Fresnel", z(rp), "-0.6410 -0.7675i"),
        finding("ts, 1.5 to 1 at 1, solver", z(coated.ts), "1.0509 +0.9987i"),
        finding("ts, 1.5 to 1 at 1, Fresnel", z(ts), "0.0000 +0.0000i"),
    ]
}

fn powers() -> Vec<Finding> {
    let at = [1.0, 1.5, 0.0];
    let mirror = answer(SurfaceCoating::HighReflectanceMirror, at);
    let ideal = answer(SurfaceCoating::Custom(Coating::IdealMirror), at);
    let split = answer(SurfaceCoating::Custom(Coating::IdealBeamsplitter), at);
    let steep = solved(&[], [1.0, 1.5, 2.0]);
    let amplitudes = |r: CoatingResponse| format!("{:.4}, {:.4}", r.rs.re, r.rp.re);
    let label = SurfaceCoating::HighReflectanceMirror.label();
    let wide = [2.0, -1.0].map(|angle| films(&[]).evaluate(1.0, 1.5, angle, 550.0).is_ok());
    let beyond = format!("{:.2}, {}", steep.rs.re, steep.reflectance_s);
    let in_phase = format!("{:.4}", (split.rs + split.ts).norm_sq());
    let film = Coating::quarter_wave_ar(1.0, 1.5, 550.0);
    let through = [SurfaceCoating::IdealAr, SurfaceCoating::Custom(film)]
        .map(|coating| answer(coating, at))
        .map(|r| format!("{:.4}, {:.4}", r.ts.norm_sq(), r.transmittance_s));
    let [ideal_ar, quarter_wave] = through;
    vec![
        finding("the mirror's label", label, "Mirror (99.9%)"),
        finding(
            "its R, 1 to 1.5, 0, 550",
            format!("{:.5}", mirror.reflectance_s),
            "0.99805",
        ),
        finding("its rs, rp", amplitudes(mirror), "-0.9990, -0.9990"),
        finding(
            "rs, rp of the ideal mirror",
            amplitudes(ideal),
            "-1.0000, 1.0000",
        ),
        finding(
            "|r|² of the beamsplitter",
            split.rs.norm_sq(),
            "0.5000000000000001",
        ),
        finding("R of the beamsplitter", split.reflectance_s, "0.5"),
        finding("|r + t|² of the beamsplitter", in_phase, "2.0000"),
        finding("|ts|², T of IdealAr, 1 to 1.5", ideal_ar, "1.0000, 1.0000"),
        finding(
            "|ts|², T of quarter_wave_ar, 1 to 1.5",
            quarter_wave,
            "0.6667, 1.0000",
        ),
        finding("rs, R_s, 1 to 1.5 at 2", beyond, "-2.07, 1"),
        finding(
            "evaluate at 2 and at -1 is Ok",
            format!("{wide:?}"),
            "[true, true]",
        ),
    ]
}

fn layers() -> Vec<Finding> {
    let one = |layer: [f64; 3]| solved(&[layer], [1.0, 1.5, 0.0]);
    let (thick, thinner) = (one([1.0, 5.0, 7000.0]), one([1.0, 5.0, 6000.0]));
    let gain = one([1.0, -0.1, 500.0]);
    let six = |r: CoatingResponse| format!("{:.6}", r.reflectance_s);
    let overflows = format!("{}, {}", thick.reflectance_s, thick.transmittance_s);
    let holds = format!(
        "{:.4}, {:.2e}",
        thinner.reflectance_s, thinner.transmittance_s
    );
    let clamped = format!("{:.4}, {}", gain.ts.norm_sq(), gain.transmittance_s);
    let two = [[2.0, 0.0, 50.0], [1.38, 0.0, 100.0]];
    let listed = films(&two)
        .evaluate(1.5, 1.0, 0.0, 550.0)
        .expect("an answer");
    vec![
        finding("R, T, layer 1, 5, 7000 on 1.5", overflows, "NaN, 0"),
        finding("R, T, layer 1, 5, 6000 on 1.5", holds, "0.8621, 1.43e-298"),
        finding(
            "R, layer of n = NaN",
            one([f64::NAN, 0.0, 100.0]).reflectance_s,
            "NaN",
        ),
        finding(
            "R, layer of n = 0 on 1.5",
            six(one([0.0, 0.0, 100.0])),
            "0.040000",
        ),
        finding(
            "R, layer 1.38, 0, -100 on 1.5",
            six(one([1.38, 0.0, -100.0])),
            "0.014111",
        ),
        finding(
            "R, layer 1.38, 0, 100 on 1.5",
            six(one([1.38, 0.0, 100.0])),
            "0.014111",
        ),
        finding("|ts|², T, layer 1, -0.1, 500 on 1.5", clamped, "2.1175, 1"),
        finding(
            "R, layers 2 and 1.38, 1.5 to 1",
            six(solved(&two, [1.5, 1.0, 0.0])),
            "0.234540",
        ),
        finding("the same, Coating::evaluate", six(listed), "0.025086"),
    ]
}

fn complex() -> Vec<Finding> {
    let large = Complex::real(1e200);
    let root = |re: f64, im: f64| Complex::new(re, im).sqrt();
    vec![
        finding(
            "1 / 0",
            z(Complex::real(1.0) / Complex::zero()),
            "0.0000 +0.0000i",
        ),
        finding("1e200 / 1e200", (large / Complex::real(1e200)).re, "NaN"),
        finding("norm of 1e200", large.norm(), "inf"),
        finding("norm of 1e-200", Complex::real(1e-200).norm(), "0"),
        finding("root of -1 - 0i, imaginary", root(-1.0, -0.0).im, "1"),
        finding("root of 1 + 1e-10i, imaginary", root(1.0, 1e-10).im, "0"),
        finding(
            "root of NaN + 1i",
            z(root(f64::NAN, 1.0)),
            "0.0000 +0.0000i",
        ),
    ]
}

fn jones_and_stokes() -> Vec<Finding> {
    let s3 = |v: JonesVector| format!("{:.4}", v.to_stokes().s3);
    let along_x = |x: f64| JonesVector::new(Complex::real(x), Complex::zero());
    let plate = JonesMatrix::quarter_wave_plate(0.0).apply(JonesVector::linear_45());
    let space = JonesMatrix::identity().to_mueller();
    let large = JonesVector::new(Complex::real(1e200), Complex::real(1e200)).to_stokes();
    let all = format!("{}, {}, {}, {}", large.s0, large.s1, large.s2, large.s3);
    let degree = |s0: f64, s1: f64| StokesVector::new(s0, s1, 0.0, 0.0).degree_of_polarization();
    let zero = MuellerMatrix::identity().apply(StokesVector::new(1.0, -0.0, 0.0, 0.0));
    let both = |x: f64| Complex::new(x, x);
    let orders = |a: JonesMatrix, b: JonesMatrix| [a.mul(&b).m[0][1], b.mul(&a).m[0][1]];
    let diagonal = |x: Complex, y: Complex| JonesMatrix::diattenuator(x, y);
    let plates = orders(
        diagonal(both(-1.0), both(1.0)),
        diagonal(both(1.0), both(-1.0)),
    );
    let (one, none) = (Complex::real(1.0), Complex::zero());
    let turn = JonesMatrix {
        m: [[none, one], [none, none]],
    };
    let turned = orders(diagonal(one, none), turn);
    let endless_plate =
        JonesMatrix::identity().mul(&diagonal(Complex::real(f64::INFINITY), none));
    let [_, rp, ..] = bare([1.0, 1.5, 2.0]);
    let endless = surface_fresnel_jones(1.0, 1.5, f64::INFINITY).is_err();
    vec![
        finding(
            "S3 of circular_right",
            s3(JonesVector::circular_right()),
            "-1.0000",
        ),
        finding(
            "S3 of circular_left",
            s3(JonesVector::circular_left()),
            "1.0000",
        ),
        finding(
            "S3 of linear_45 behind quarter_wave_plate(0)",
            s3(plate),
            "-1.0000",
        ),
        finding(
            "S0 of linear_45",
            JonesVector::linear_45().to_stokes().s0,
            "1.0000000000000002",
        ),
        finding(
            "to_mueller of the identity, [3][3]",
            format!("{:.4}", space.m[3][3]),
            "-1.0000",
        ),
        finding(
            "to_mueller of the identity, [0][2]",
            format!("{:.4e}", space.m[0][2]),
            "2.2204e-16",
        ),
        finding(
            "normalize of (1e200, 0)",
            along_x(1e200).normalize().ex.re,
            "0",
        ),
        finding(
            "normalize of (1e-14, 0)",
            format!("{:e}", along_x(1e-14).normalize().ex.re),
            "1e-14",
        ),
        finding("Stokes vector of (1e200, 1e200)", all, "inf, NaN, inf, 0"),
        finding(
            "degree of polarization, (1e-15, 1e-15, 0, 0)",
            degree(1e-15, 1e-15),
            "0",
        ),
        finding(
            "degree of polarization, (1, 1e-170, 0, 0)",
            degree(1.0, 1e-170),
            "0",
        ),
        finding(
            "degree of polarization, (NaN, 0, 0, 0)",
            degree(f64::NAN, 0.0),
            "NaN",
        ),
        finding(
            "degree of polarization, (-1, 1, 0, 0)",
            degree(-1.0, 1.0),
            "0",
        ),
        finding(
            "unpolarized(NaN)",
            StokesVector::unpolarized(f64::NAN).s0,
            "0",
        ),
        finding(
            "the Mueller identity's S1 of -0",
            hex(zero.s1),
            "0x0000000000000000",
        ),
        finding(
            "diag(-1 - i, 1 + i) and diag(1 + i, -1 - i) in either order, [0][1], imaginary",
            format!("{} and {:+}", plates[0].im, plates[1].im),
            "-0 and +0",
        ),
        finding(
            "diag(1, 0) and [[0, 1], [0, 0]] in either order, [0][1]",
            format!("{} and {}", turned[0].re, turned[1].re),
            "1 and 0",
        ),
        finding(
            "identity times diag(∞, 0), [0][0], imaginary",
            endless_plate.m[0][0].im,
            "NaN",
        ),
        finding(
            "rp, 1 to 1.5 at 2, Fresnel",
            format!("{:.2}", rp.re),
            "-8.30",
        ),
        finding(
            "surface_fresnel_jones refuses an infinite angle",
            endless,
            "true",
        ),
    ]
}

fn fresnel() -> Vec<Finding> {
    let at = |cos: f64, n1: f64, n2: f64| {
        let (s, p) = fresnel_dielectric(cos, n1, n2);
        format!("{s:.2}, {p:.2}")
    };
    vec![
        finding(
            "fresnel_dielectric(1, 1e-30, 4e-30)",
            at(1.0, 1e-30, 4e-30),
            "0.36, 0.36",
        ),
        finding(
            "fresnel_dielectric(1, 1e-31, 4e-31)",
            at(1.0, 1e-31, 4e-31),
            "0.00, 0.00",
        ),
        finding(
            "fresnel_dielectric(NaN, 1, 1.5)",
            at(f64::NAN, 1.0, 1.5),
            "NaN, NaN",
        ),
        finding(
            "schlick_approx(0.5, NaN, 1.5)",
            schlick_approx(0.5, f64::NAN, 1.5),
            "NaN",
        ),
    ]
}
