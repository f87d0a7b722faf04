// `oracle measure`: random surfaces within section 3's limits, and what their evaluation comes to.

use crate::record::numbers;
use crate::reference::thin_film::{evaluate_tmm_multilayer, Complex, ThinFilmLayer};
use crate::section2::{abs, asin, sin, sqrt, PI, T};
use crate::sheet::{limits, preset_layers, Layer, Sheet, Surface};
use crate::sheets::metal_layers;
use crate::traced::{bare, solve, Count, Of, Seen};
use crate::train::{answers, powers, Answers, Light};
use crate::values::{neighbour, Rng};

/// The least ratio of the indices with which a cosine of 0.25 is admitted: sqrt(1 - 0.25^2) / 0.875.
const STEEP: f64 = 1.1065666703449764;

/// An index from 1 to 4, its ends often.
fn index(rng: &mut Rng) -> f64 {
    match rng.below(8) {
        0 | 1 => 1.0,
        2 | 3 => 4.0,
        4 => rng.pick(&[
            STEEP,
            neighbour(STEEP, 1),
            1.38,
            1.46,
            1.5,
            2.3,
            3.0,
            neighbour(1.0, 1),
            neighbour(4.0, -1),
        ]),
        _ => rng.uniform(1.0, 4.0),
    }
}

fn wavelength(rng: &mut Rng) -> f64 {
    match rng.below(8) {
        0 => 100.0,
        1 => 10_000.0,
        2 => rng.pick(&[550.0, 632.8, neighbour(100.0, 1), neighbour(10_000.0, -1)]),
        _ => rng.uniform(100.0, 10_000.0),
    }
}

fn thickness(rng: &mut Rng) -> f64 {
    match rng.below(8) {
        0 => rng.pick(&[0.0, -0.0, f64::from_bits(1)]),
        1 => 100_000.0,
        2 => rng.uniform(0.0, 100_000.0),
        3 => rng.log(-1022, 15),
        _ => rng.uniform(0.0, 500.0),
    }
}

/// The indices of the layers: random ones, or two that alternate, to the end or to the middle and back.
fn indices(rng: &mut Rng, count: usize) -> Vec<f64> {
    if rng.one_in(4) {
        return (0..count).map(|_| index(rng)).collect();
    }
    let pair = match rng.below(3) {
        0 => [1.0, 4.0],
        1 => [4.0, 1.0],
        _ => [index(rng), index(rng)],
    };
    let back = rng.one_in(2);
    let place = |i: usize| if back { i.min(count - 1 - i) } else { i };
    (0..count).map(|i| pair[place(i) % 2]).collect()
}

/// Quarter- and half-wave stacks and cavities: thickness in quarters of the wavelength within the layer, or a little beside.
fn tune(rng: &mut Rng, surface: &Surface, films: &mut [ThinFilmLayer], wavelength: f64) {
    let side = surface.n_incident * abs(sin(surface.angle));
    let count = films.len();
    let kind = rng.below(4);
    let spacer = if rng.one_in(2) {
        count / 2
    } else {
        rng.below(count.max(1))
    };
    let beside = |rng: &mut Rng| {
        let part = rng.log(-44, -3);
        1.0 + rng.signed(part)
    };
    let all_beside = if rng.one_in(2) { beside(rng) } else { 1.0 };
    let each_beside = rng.one_in(4);
    for (i, layer) in films.iter_mut().enumerate() {
        let quarters = match kind {
            0 => 1.0,
            1 if i == spacer => 2.0,
            1 => 1.0,
            2 => 2.0,
            _ => 1.0 + rng.below(4) as f64,
        };
        let slope = side / layer.n;
        let cosine = sqrt(1.0 - slope * slope);
        let mut exact = all_beside * quarters * wavelength / (4.0 * layer.n * cosine);
        if each_beside {
            exact *= beside(rng);
        }
        layer.thickness_nm = neighbour(exact, rng.below(3) as i64 - 1).min(100_000.0);
    }
}

/// Two equal mirrors, a little beside their quarter waves, around a spacer that is in resonance for s or for p:
/// the matrices grow to the spacer and cancel after it.
fn cavity(rng: &mut Rng, surface: &mut Surface, films: &mut Vec<ThinFilmLayer>, wavelength: f64) {
    let count = films.len() - 1 + films.len() % 2;
    let half = count / 2;
    films.truncate(count);
    surface.n_substrate = surface.n_incident;
    let side = surface.n_incident * abs(sin(surface.angle));
    let beside = 1.0 + rng.log(-20, -3);
    let cosine = |n: f64| sqrt(1.0 - (side / n) * (side / n));
    for i in 0..half {
        let mut layer = films[i].clone();
        layer.thickness_nm = beside * wavelength / (4.0 * layer.n * cosine(layer.n));
        films[i] = layer.clone();
        films[count - 1 - i] = layer;
    }
    let behind: Vec<ThinFilmLayer> = films[half + 1..].to_vec();
    let spacer = &mut films[half];
    let within = asin(side / spacer.n);
    let mirror =
        evaluate_tmm_multilayer(spacer.n, surface.n_substrate, within, wavelength, &behind);
    let Ok(mirror) = mirror else {
        return;
    };
    let phases = [mirror.phase_rs_rad, mirror.phase_rp_rad];
    let mut phase = rng.pick(&phases) + rng.below(3) as f64 * PI;
    if phase < 0.0 {
        phase += PI;
    }
    spacer.thickness_nm = (phase * wavelength / (T * spacer.n * cosine(spacer.n))).min(100_000.0);
}

/// An angle whose light bends at most as far as the limits let it, often just as far; not always admitted.
fn angle(rng: &mut Rng, n_incident: f64, least: f64) -> f64 {
    if rng.one_in(16) {
        let any = rng.log(-1022, 1023);
        return rng.signed(any);
    }
    let steepest = asin((0.875 * least / n_incident).min(sqrt(0.9375)));
    let size = match rng.below(4) {
        0 => 0.0,
        1 => neighbour(steepest, 1 - rng.below(4) as i64),
        _ => steepest * rng.unit(),
    };
    let signed = rng.signed(size);
    if rng.one_in(5) {
        let turns = rng.bits() >> (12 + rng.below(52));
        return signed + turns as f64 * T;
    }
    signed
}

/// A surface that is perhaps within the limits.
fn candidate(rng: &mut Rng, wavelength: f64) -> Surface {
    let coating = if rng.one_in(2) {
        5
    } else {
        rng.below(8) as u32
    };
    let count = match rng.below(4) {
        _ if coating != 5 => 0,
        0 => 16,
        1 => 15,
        _ => rng.below(17),
    };
    let n_incident = index(rng);
    let n_substrate = match rng.below(8) {
        0 | 1 => n_incident,
        2 => n_incident * STEEP,
        _ => index(rng),
    };
    let indices: Vec<f64> = indices(rng, count);
    let presets = preset_layers(coating);
    let all = indices.iter().copied().chain(presets.iter().map(|l| l.n));
    let least = all.fold(n_substrate, f64::min);
    let mut surface = Surface {
        word: 8,
        reflected: rng.one_in(2),
        coating,
        n_incident,
        n_substrate,
        angle: angle(rng, n_incident, least),
        layers: Vec::new(),
        retune: None,
    };
    let mut films = Vec::new();
    for n in indices {
        let k = rng.pick(&[0.0, -0.0]);
        let thickness_nm = thickness(rng);
        films.push(ThinFilmLayer { n, k, thickness_nm });
    }
    match rng.below(6) {
        0 | 1 => (),
        2 if count > 0 => cavity(rng, &mut surface, &mut films, wavelength),
        _ => tune(rng, &surface, &mut films, wavelength),
    }
    let layers = films.into_iter().map(|film| (0, Layer::Fixed(film)));
    surface.layers = layers.collect();
    surface
}

/// A beam's wavelength and one surface, admitted.
pub fn admitted(rng: &mut Rng) -> Sheet {
    let wavelength = wavelength(rng);
    loop {
        let sheet = Sheet {
            wavelength,
            s: 1.0,
            p: 1.0,
            surfaces: vec![candidate(rng, wavelength)],
        };
        if limits(&sheet).is_ok() {
            return sheet;
        }
    }
}

/// A beam's wavelength and one surface with layers of metal, admitted under slip 12's limits.
pub fn metal(rng: &mut Rng) -> Sheet {
    let wavelength = wavelength(rng);
    loop {
        let count = 1 + rng.below(4);
        let mut films: Vec<ThinFilmLayer> = metal_layers(rng, wavelength, count)
            .iter()
            .map(|layer| ThinFilmLayer {
                n: layer[0],
                k: layer[1],
                thickness_nm: layer[2],
            })
            .collect();
        if rng.one_in(3) {
            for film in &mut films {
                let quarters = 1.0 + rng.below(3) as f64;
                film.thickness_nm = quarters * wavelength / (4.0 * film.n);
            }
        }
        let sheet = Sheet {
            wavelength,
            s: 1.0,
            p: 1.0,
            surfaces: vec![Surface {
                word: 8,
                reflected: rng.one_in(2),
                coating: 5,
                n_incident: index(rng),
                n_substrate: index(rng),
                angle: rng.pick(&[0.0, -0.0]),
                layers: films
                    .into_iter()
                    .map(|film| (0, Layer::Fixed(film)))
                    .collect(),
                retune: None,
            }],
        };
        if sheet.surfaces[0].metal(wavelength) {
            return sheet;
        }
    }
}

pub fn all_finite(found: &Answers) -> bool {
    let finite = |z: &Complex| z.re.is_finite() && z.im.is_finite();
    let light = match &found.light {
        Light::Bare(_) => true,
        Light::Coated(r) => numbers(r).iter().all(|x| x.is_finite()),
    };
    let jones = found.jones.iter().flat_map(|j| j.m.as_flattened());
    let mueller = found.mueller.iter().flat_map(|m| m.m.as_flattened());
    light && jones.into_iter().all(finite) && mueller.into_iter().all(|x| x.is_finite())
}

/// One surface: the reference's answers, and the same worked out with every number looked at.
pub fn surface(sheet: &Sheet, seen: &mut Seen) {
    let (surface, wavelength) = (&sheet.surfaces[0], sheet.wavelength);
    let ends = [surface.n_incident, surface.n_substrate, surface.angle];
    let found = answers(surface, wavelength);
    seen.count(Count::Surfaces, true);
    let same = match &found.light {
        Light::Bare(powers) => {
            for z in found.jones.iter().flat_map(|j| j.m.as_flattened()) {
                seen.see(Of::BareJones, sqrt(z.norm_sq()));
            }
            bare(ends, seen).map(f64::to_bits) == powers.reflected.map(f64::to_bits)
        }
        Light::Coated(response) if (2..=5).contains(&surface.coating) => {
            let mut layers = preset_layers(surface.coating);
            layers.extend(surface.films(wavelength));
            if surface.n_incident > surface.n_substrate {
                layers.reverse();
            }
            seen.count(Count::Solved, true);
            let solved = solve(ends, wavelength, &layers, seen);
            seen.see(Of::Phase, abs(solved.phase_rs_rad));
            seen.see(Of::Phase, abs(solved.phase_rp_rad));
            numbers(&solved).map(f64::to_bits) == numbers(response).map(f64::to_bits)
        }
        Light::Coated(_) => true,
    };
    for x in found.mueller.iter().flat_map(|m| m.m.as_flattened()) {
        seen.see(Of::Mueller, abs(*x));
    }
    let finite = all_finite(&found);
    let powers = powers(&found.light);
    let list = [powers.reflected, powers.transmitted];
    let unit = list.as_flattened().iter().all(|x| (0.0..=1.0).contains(x));
    seen.count(Count::NotFinite, !finite);
    seen.count(Count::NoPower, !unit);
    seen.count(Count::Different, !same);
    if !(finite && unit && same) && seen.findings.len() < 100 {
        let text = format!("{sheet:?}");
        seen.findings.push(text);
    }
    seen.settle(|| describe(sheet));
}

/// The surface in a line: enough to see what kind it is.
fn describe(sheet: &Sheet) -> String {
    let surface = &sheet.surfaces[0];
    let mut text = format!(
        "code {}, {:?} to {:?}, angle {:?}, wavelength {:?}",
        surface.coating, surface.n_incident, surface.n_substrate, surface.angle, sheet.wavelength
    );
    for layer in surface.films(sheet.wavelength) {
        text += &format!(" | {:?} {:?} {:?}", layer.n, layer.k, layer.thickness_nm);
    }
    text
}

pub fn measure(seed: u64, count: u64, draw: fn(&mut Rng) -> Sheet) -> Seen {
    let mut rng = Rng::new(seed);
    let mut seen = Seen::default();
    for _ in 0..count {
        surface(&draw(&mut rng), &mut seen);
    }
    seen
}
