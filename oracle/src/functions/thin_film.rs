// Group thin_film: layers, coatings, responses, the solver. Coating codes are 01's, with 8 for Custom(IdealAr).

use crate::arguments::Arg::{self, *};
use crate::functions::{scalar, Function};
use crate::record::{Arguments, Words};
use crate::reference::error::OpticsError;
use crate::reference::thin_film::{
    evaluate_tmm_multilayer, mat_mul_2x2, Coating, CoatingResponse, SurfaceCoating, ThinFilmLayer,
};

/// The most explicit layers, and the most pairs of a mirror.
pub const MOST_LAYERS: usize = 64;
pub const MOST_PAIRS: u64 = 31;

/// Codes 5 to 8.
pub fn coating(code: u64, layers: Vec<ThinFilmLayer>) -> Coating {
    match code {
        5 => Coating::Multilayer { layers },
        6 => Coating::IdealBeamsplitter,
        7 => Coating::IdealMirror,
        8 => Coating::IdealAr,
        _ => panic!("coating code {code}"),
    }
}

/// Codes 1 to 8.
pub fn surface_coating(
    code: u64,
    design_wavelength_nm: f64,
    layers: Vec<ThinFilmLayer>,
) -> SurfaceCoating {
    match code {
        1 => SurfaceCoating::IdealAr,
        2 => SurfaceCoating::MgF2 {
            design_wavelength_nm,
        },
        3 => SurfaceCoating::BroadbandAr,
        4 => SurfaceCoating::HighReflectanceMirror,
        _ => SurfaceCoating::Custom(coating(code, layers)),
    }
}

/// A `Coating` as words: its code, then its layers (none if it is ideal).
fn push_coating(r: &mut Words, coating: &Coating) {
    let (code, layers): (u64, &[ThinFilmLayer]) = match coating {
        Coating::Multilayer { layers } => (5, layers),
        Coating::IdealBeamsplitter => (6, &[]),
        Coating::IdealMirror => (7, &[]),
        Coating::IdealAr => (8, &[]),
    };
    r.int(code);
    r.layers(layers);
}

/// A `SurfaceCoating` that holds no layers: its code, then the design wavelength (+0 but for MgF2).
pub fn push_named(r: &mut Words, coating: &SurfaceCoating) {
    let (code, design) = match coating {
        SurfaceCoating::IdealAr => (1, 0.0),
        SurfaceCoating::MgF2 {
            design_wavelength_nm,
        } => (2, *design_wavelength_nm),
        SurfaceCoating::BroadbandAr => (3, 0.0),
        SurfaceCoating::HighReflectanceMirror => (4, 0.0),
        SurfaceCoating::Custom(_) => panic!("a custom coating has no name"),
    };
    r.int(code);
    r.float(design);
}

/// Refusal 1, then 3 for explicit layers, else the response.
fn push_outcome(r: &mut Words, explicit: usize, outcome: Result<CoatingResponse, OpticsError>) {
    match outcome {
        Err(OpticsError::InvalidParameter(_)) => r.refusal(1, 0),
        Err(other) => panic!("the Rust gave {other:?}"),
        Ok(_) if explicit > MOST_LAYERS => r.refusal(3, 0),
        Ok(response) => {
            r.int(0);
            r.response(&response);
        }
    }
}

/// The count of explicit layers: that of the list for code 5, else none.
fn explicit(code: u64, layers: &[ThinFilmLayer]) -> usize {
    if code == 5 {
        layers.len()
    } else {
        0
    }
}

const RESPONSE: &[Arg] = &[
    Part, Part, Part, Part, Part, Part, Part, Part, Power, Power, Power, Power, Angle, Angle,
    Power, Power,
];

pub fn table() -> Vec<Function> {
    type Call = fn(&mut Arguments, &mut Words);
    let film = |number, name, args: &'static [Arg], weight, call: Call| Function {
        number,
        group: "thin_film",
        name,
        args,
        weight,
        call,
    };
    let mut all = vec![
        film(
            60,
            "ThinFilmLayer::dielectric",
            &[Index, Thickness],
            4,
            |a, r| {
                let layer = ThinFilmLayer::dielectric(a.float(), a.float());
                r.floats(&[layer.n, layer.k, layer.thickness_nm]);
            },
        ),
        film(
            61,
            "ThinFilmLayer::absorbing",
            &[Index, Extinction, Thickness],
            4,
            |a, r| {
                let layer = ThinFilmLayer::absorbing(a.float(), a.float(), a.float());
                r.floats(&[layer.n, layer.k, layer.thickness_nm]);
            },
        ),
        film(
            62,
            "CoatingResponse::unpolarized_reflectance",
            RESPONSE,
            2,
            |a, r| {
                r.float(a.response().unpolarized_reflectance());
            },
        ),
        film(
            63,
            "CoatingResponse::unpolarized_transmittance",
            RESPONSE,
            2,
            |a, r| {
                r.float(a.response().unpolarized_transmittance());
            },
        ),
        film(
            64,
            "Coating::quarter_wave_ar",
            &[Index, Index, Wavelength],
            8,
            |a, r| {
                push_coating(
                    r,
                    &Coating::quarter_wave_ar(a.float(), a.float(), a.float()),
                );
            },
        ),
        film(
            65,
            "Coating::bragg_mirror",
            &[Index, Index, Pairs, Wavelength],
            2,
            |a, r| {
                let (high, low, pairs, design) = (a.float(), a.float(), a.int(), a.float());
                if pairs > MOST_PAIRS {
                    return r.refusal(3, 0);
                }
                r.int(0);
                push_coating(r, &Coating::bragg_mirror(high, low, pairs as usize, design));
            },
        ),
        film(66, "SurfaceCoating::mgf2_default", &[], 0, |_, r| {
            push_named(r, &SurfaceCoating::mgf2_default());
        }),
        film(
            67,
            "SurfaceCoating::to_coating",
            &[Code, Wavelength, Index, Layers],
            2,
            |a, r| {
                let (code, design, n_substrate, layers) =
                    (a.int(), a.float(), a.float(), a.layers());
                if explicit(code, &layers) > MOST_LAYERS {
                    return r.refusal(3, 0);
                }
                r.int(0);
                push_coating(
                    r,
                    &surface_coating(code, design, layers).to_coating(n_substrate),
                );
            },
        ),
        film(
            68,
            "SurfaceCoating::label",
            &[Code, Wavelength],
            1,
            |a, r| {
                let coating = surface_coating(a.int(), a.float(), Vec::new());
                r.bytes(coating.label().as_bytes());
            },
        ),
        film(
            69,
            "Coating::evaluate",
            &[CustomCode, Index, Index, Angle, Wavelength, Layers],
            4,
            |a, r| {
                let code = a.int();
                let [n_incident, n_substrate, angle, wavelength] = a.floats();
                let layers = a.layers();
                let count = explicit(code, &layers);
                let coating = coating(code, layers);
                let outcome = coating.evaluate(n_incident, n_substrate, angle, wavelength);
                push_outcome(r, count, outcome);
            },
        ),
        film(
            70,
            "SurfaceCoating::evaluate",
            &[Code, Wavelength, Index, Index, Angle, Wavelength, Layers],
            6,
            |a, r| {
                let (code, design) = (a.int(), a.float());
                let [n_incident, n_substrate, angle, wavelength] = a.floats();
                let layers = a.layers();
                let count = explicit(code, &layers);
                let coating = surface_coating(code, design, layers);
                let outcome = coating.evaluate(n_incident, n_substrate, angle, wavelength);
                push_outcome(r, count, outcome);
            },
        ),
        film(
            71,
            "evaluate_tmm_multilayer",
            &[Index, Index, Angle, Wavelength, Layers64],
            2,
            |a, r| {
                let [n_incident, n_substrate, angle, wavelength] = a.floats();
                let layers = a.layers();
                let outcome =
                    evaluate_tmm_multilayer(n_incident, n_substrate, angle, wavelength, &layers);
                push_outcome(r, layers.len(), outcome);
            },
        ),
        film(72, "mat_mul_2x2", &[Part; 16], 2, |a, r| {
            r.matrix(mat_mul_2x2(a.matrix(), a.matrix()));
        }),
    ];
    all.extend(scalar::fresnel());
    all
}
