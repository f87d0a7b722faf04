// Document 01, section 7, and document 02, slip 5: a surface's answers, the train's state, steps, retunes, lists of
// them, the whole run and the program.

use crate::reference::fresnel::fresnel_dielectric;
use crate::reference::polarization::{
    surface_coating_jones, surface_fresnel_jones, JonesMatrix, MuellerMatrix,
};
use crate::reference::thin_film::{Coating, CoatingResponse, SurfaceCoating};
use crate::section2::cos;
use crate::sheet::{gate, Refusal, Sheet, Surface};

/// Surfaces done, s, p and the wavelength held.
#[derive(Clone, Copy, Debug, PartialEq)]
pub struct State {
    pub done: u64,
    pub s: f64,
    pub p: f64,
    pub wavelength: f64,
}

#[derive(Clone, Copy, Debug, PartialEq)]
pub enum Action {
    Step,
    Retune(f64),
}

/// R_s, R_p, T_s, T_p.
#[derive(Clone, Copy, Debug, PartialEq)]
pub struct Powers {
    pub reflected: [f64; 2],
    pub transmitted: [f64; 2],
}

/// Section 4's response, or section 5's powers if the surface is bare.
#[derive(Debug)]
pub enum Light {
    Bare(Powers),
    Coated(CoatingResponse),
}

/// A surface's answers; the matrices are those of reflection and transmission.
#[derive(Debug)]
pub struct Answers {
    pub light: Light,
    pub jones: [JonesMatrix; 2],
    pub mueller: [MuellerMatrix; 2],
}

fn coating(surface: &Surface, wavelength: f64) -> Option<SurfaceCoating> {
    let layers = || surface.films(wavelength);
    Some(match surface.coating {
        0 => return None,
        1 => SurfaceCoating::IdealAr,
        2 => SurfaceCoating::MgF2 {
            design_wavelength_nm: 550.0,
        },
        3 => SurfaceCoating::BroadbandAr,
        4 => SurfaceCoating::HighReflectanceMirror,
        5 => SurfaceCoating::Custom(Coating::Multilayer { layers: layers() }),
        6 => SurfaceCoating::Custom(Coating::IdealBeamsplitter),
        7 => SurfaceCoating::Custom(Coating::IdealMirror),
        code => panic!("coating code {code}"),
    })
}

/// The answers of a surface of an admitted sheet: the Rust refuses none of these.
fn light(surface: &Surface, wavelength: f64) -> Light {
    let (n_incident, n_substrate, angle) = (surface.n_incident, surface.n_substrate, surface.angle);
    match coating(surface, wavelength) {
        None => {
            let (rs, rp) = fresnel_dielectric(cos(angle), n_incident, n_substrate);
            Light::Bare(Powers {
                reflected: [rs, rp],
                transmitted: [1.0 - rs, 1.0 - rp],
            })
        }
        Some(coating) => Light::Coated(
            coating
                .evaluate(n_incident, n_substrate, angle, wavelength)
                .expect("admitted"),
        ),
    }
}

pub fn answers(surface: &Surface, wavelength: f64) -> Answers {
    let light = light(surface, wavelength);
    let (reflection, transmission) = match &light {
        Light::Coated(response) => surface_coating_jones(response),
        Light::Bare(_) => {
            surface_fresnel_jones(surface.n_incident, surface.n_substrate, surface.angle)
                .expect("admitted")
        }
    };
    Answers {
        light,
        jones: [reflection, transmission],
        mueller: [reflection.to_mueller(), transmission.to_mueller()],
    }
}

pub fn powers(light: &Light) -> Powers {
    match light {
        Light::Bare(powers) => *powers,
        Light::Coated(r) => Powers {
            reflected: [r.reflectance_s, r.reflectance_p],
            transmitted: [r.transmittance_s, r.transmittance_p],
        },
    }
}

pub fn start(sheet: &Sheet) -> State {
    State {
        done: 0,
        s: sheet.s,
        p: sheet.p,
        wavelength: sheet.wavelength,
    }
}

fn pass(surface: &Surface, state: State) -> State {
    let wavelength = surface.retune.map_or(state.wavelength, |(_, own)| own);
    let powers = powers(&light(surface, wavelength));
    let [s, p] = if surface.reflected {
        powers.reflected
    } else {
        powers.transmitted
    };
    State {
        done: state.done + 1,
        s: state.s * s,
        p: state.p * p,
        wavelength,
    }
}

fn refused(number: u64) -> Refusal {
    Refusal { number, place: 0 }
}

/// One step: 4, 5, 6, 7, 11 in that order, each with the state as before.
pub fn step(bytes: &[u8], state: State) -> Result<State, Refusal> {
    let sheet = gate(bytes)?;
    if state.done >= sheet.surfaces.len() as u64 {
        return Err(refused(7));
    }
    if !sheet.holds(state.done, state.wavelength) {
        return Err(refused(11));
    }
    Ok(pass(&sheet.surfaces[state.done as usize], state))
}

/// A retune: 4, 5, 6, 11 in that order, each with the state as before.
pub fn retune(bytes: &[u8], state: State, wavelength: f64) -> Result<State, Refusal> {
    let sheet = gate(bytes)?;
    if !sheet.holds(state.done, wavelength) {
        return Err(refused(11));
    }
    Ok(State {
        wavelength,
        ..state
    })
}

/// A surface of a sheet and the wavelength that it is met with where the train is retuned right before it is stepped: the
/// one that the step leaves behind. 4, 5, 6, 7, 11 in that order.
pub fn met_after(bytes: &[u8], number: u64, wavelength: f64) -> Result<(Surface, f64), Refusal> {
    let mut sheet = gate(bytes)?;
    if number >= sheet.surfaces.len() as u64 {
        return Err(refused(7));
    }
    let before = State {
        done: number,
        ..start(&sheet)
    };
    let after = step(bytes, retune(bytes, before, wavelength)?)?;
    Ok((sheet.surfaces.swap_remove(number as usize), after.wavelength))
}

/// A list of actions from Start, by the slip's words and no call: how each is answered (0, 7 or 11) and the state after
/// it. A step takes the surface of its own number among the steps; an action's wavelength is found by looking back.
pub fn listed(sheet: &Sheet, actions: &[Action]) -> Vec<(u64, State)> {
    let count = sheet.surfaces.len();
    let mut before = 0;
    // How many steps stand before each action, and how it is answered.
    let mut told = Vec::new();
    for action in actions {
        let number = match action {
            Action::Step => 7 * u64::from(before >= count),
            Action::Retune(w) => 11 * u64::from(!sheet.holds(before.min(count) as u64, *w)),
        };
        told.push((before, number));
        before += usize::from(*action == Action::Step);
    }
    // The wavelength that an action leaves behind, where it leaves one.
    let left = |k: usize| match (actions[k], told[k]) {
        (Action::Retune(w), (_, 0)) => Some(w),
        (Action::Step, (surface, 0)) => sheet.surfaces[surface].retune.map(|(_, own)| own),
        _ => None,
    };
    let held = |k: usize| (0..=k).rev().find_map(left).unwrap_or(sheet.wavelength);
    let mut powers_after = vec![[sheet.s, sheet.p]];
    let mut list = Vec::new();
    for (k, (before, number)) in told.iter().enumerate() {
        if actions[k] == Action::Step && *number == 0 {
            let surface = &sheet.surfaces[*before];
            let [s, p] = powers_after[*before];
            let Powers {
                reflected,
                transmitted,
            } = powers(&light(surface, held(k)));
            let [by_s, by_p] = if surface.reflected {
                reflected
            } else {
                transmitted
            };
            powers_after.push([s * by_s, p * by_p]);
        }
        let [s, p] = powers_after[powers_after.len() - 1];
        let state = State {
            done: powers_after.len() as u64 - 1,
            s,
            p,
            wavelength: held(k),
        };
        list.push((*number, state));
    }
    list
}

/// A whole run: 4, 5, 6, 8 in that order; the count of surfaces, and s, p after each of them in the list.
pub fn run(bytes: &[u8], list: &mut [f64]) -> Result<usize, Refusal> {
    let sheet = gate(bytes)?;
    if list.len() < 2 * sheet.surfaces.len() {
        return Err(refused(8));
    }
    let mut state = start(&sheet);
    for (i, surface) in sheet.surfaces.iter().enumerate() {
        state = pass(surface, state);
        list[2 * i] = state.s;
        list[2 * i + 1] = state.p;
    }
    Ok(sheet.surfaces.len())
}

/// What the program `train` prints for a sheet.
pub fn program(bytes: &[u8]) -> String {
    let sheet = match gate(bytes) {
        Ok(sheet) => sheet,
        Err(refusal) => return format!("refused {} {}\n", refusal.number, refusal.place),
    };
    let mut state = start(&sheet);
    let mut text = String::new();
    for surface in &sheet.surfaces {
        state = pass(surface, state);
        let letter = if surface.reflected { 'R' } else { 'T' };
        let (s, p) = (state.s.to_bits(), state.p.to_bits());
        text += &format!("{} {letter} {s:016X} {p:016X}\n", state.done);
    }
    text + &format!("sum {:016X}\n", (state.s + state.p).to_bits())
}
