// Beyond section 3's limits: for each limit loosened in a must-fail edit an input at which the claim is false.

use crate::measure::all_finite;
use crate::reference::thin_film::{
    evaluate_tmm_multilayer, CoatingResponse, SurfaceCoating, ThinFilmLayer,
};
use crate::section2::{cos, PI};
use crate::sheet::{limits, Layer, Refusal, Sheet, Surface};
use crate::train::answers;

fn sheet(wavelength: f64, ends: [f64; 3], layers: &[[f64; 3]]) -> Sheet {
    let film = |[n, k, thickness_nm]: &[f64; 3]| ThinFilmLayer {
        n: *n,
        k: *k,
        thickness_nm: *thickness_nm,
    };
    let [n_incident, n_substrate, angle] = ends;
    Sheet {
        wavelength,
        s: 1.0,
        p: 1.0,
        surfaces: vec![Surface {
            word: 8,
            reflected: false,
            coating: 5,
            n_incident,
            n_substrate,
            angle,
            layers: layers
                .iter()
                .map(|layer| (15, Layer::Fixed(film(layer))))
                .collect(),
            retune: None,
        }],
    }
}

fn solve(wavelength: f64, ends: [f64; 3], layers: &[[f64; 3]]) -> CoatingResponse {
    let sheet = sheet(wavelength, ends, layers);
    let films = sheet.surfaces[0].films(wavelength);
    evaluate_tmm_multilayer(ends[0], ends[1], ends[2], wavelength, &films).expect("solved")
}

fn refused(sheet: &Sheet) -> u64 {
    match limits(sheet) {
        Err(Refusal { number: 6, place }) => place,
        other => panic!("{other:?}"),
    }
}

/// limits and solver_bounds, `bent_four_times`: total reflection within a thick layer overflows.
#[test]
fn light_bent_further() {
    let sheet = sheet(100.0, [2.0, 2.0, 1.0], &[[1.0, 0.0, 100_000.0]]);
    assert_eq!(refused(&sheet), 15);
    assert!(!all_finite(&answers(&sheet.surfaces[0], 100.0)));
    assert!(solve(100.0, [2.0, 2.0, 1.0], &[[1.0, 0.0, 100_000.0]])
        .rs
        .re
        .is_nan());
}

/// limits, `grazing_light`: a cosine of zero.
#[test]
fn grazing_light() {
    let sheet = sheet(100.0, [1.0, 1.5, PI / 2.0], &[]);
    assert!(cos(PI / 2.0) >= 0.0);
    assert_eq!(refused(&sheet), 8);
    assert!(!all_finite(&answers(&sheet.surfaces[0], 100.0)));
    assert!(solve(100.0, [1.0, 1.5, PI / 2.0], &[])
        .transmittance_s
        .is_nan());
}

/// `wavelength_from_zero`: the surface refuses, the solver divides by zero.
#[test]
fn no_wavelength() {
    assert_eq!(refused(&sheet(0.0, [1.0, 1.0, 0.0], &[])), 1);
    assert!(SurfaceCoating::IdealAr
        .evaluate(1.0, 1.0, 0.0, 0.0)
        .is_err());
    assert!(solve(0.0, [1.0, 1.0, 0.0], &[[1.0, 0.0, 0.0]])
        .rs
        .re
        .is_nan());
}

/// surface, `power_without_its_clamp`: |t|^2 is above 1.
#[test]
fn power_of_the_amplitude() {
    assert_eq!(
        solve(100.0, [4.0, 1.0, 0.0], &[]).ts.norm_sq(),
        2.5600000000000005
    );
}

/// solver_bounds, `substrate_from_zero`, `lossy_layer` and `half_of_the_power`.
#[test]
fn solver_beyond() {
    assert!(solve(100.0, [1.0, 0.0, 0.0], &[]).rs.re.is_nan());
    assert!(solve(100.0, [1.0, 1.0, 0.0], &[[1.0, 1.0, 100_000.0]])
        .rs
        .re
        .is_nan());
    assert_eq!(solve(100.0, [1.0, 1.0, 0.0], &[]).transmittance_s, 1.0);
}
