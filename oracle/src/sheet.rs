// Document 01, sections 1 and 3, and document 02, slips 3, 5 and 12: the sheet's words and grammar (refusals 4 and 5) and
// the gate (refusal 6).

use crate::reference::thin_film::{Coating, SurfaceCoating, ThinFilmLayer};
use crate::section2::{abs, cos, sin, T};

/// 01's number of a refusal, and its place (0 where there is none).
#[derive(Clone, Copy, Debug, PartialEq)]
pub struct Refusal {
    pub number: u64,
    pub place: u64,
}

fn refuse<X>(number: u64, place: usize) -> Result<X, Refusal> {
    let place = place as u64;
    Err(Refusal { number, place })
}

/// A sheet that follows the grammar.
#[derive(Debug)]
pub struct Sheet {
    pub wavelength: f64,
    pub s: f64,
    pub p: f64,
    pub surfaces: Vec<Surface>,
}

#[derive(Debug)]
pub struct Surface {
    /// The place of its kind word.
    pub word: usize,
    /// The lowest payload bit: follow the reflected light.
    pub reflected: bool,
    /// payload / 2.
    pub coating: u32,
    pub n_incident: f64,
    pub n_substrate: f64,
    pub angle: f64,
    /// The layers with the places of their kind words.
    pub layers: Vec<(usize, Layer)>,
    /// The kind 7 before it: the place of its kind word, and its wavelength.
    pub retune: Option<(usize, f64)>,
}

impl Sheet {
    /// The wavelength that a list of steps alone meets a surface with: that of the nearest kind 7 at or before it.
    pub fn met(&self, surface: usize) -> f64 {
        let kinds = self.surfaces[..=surface].iter().rev();
        kinds
            .filter_map(|y| y.retune)
            .map(|(_, wavelength)| wavelength)
            .next()
            .unwrap_or(self.wavelength)
    }

    /// Slip 5's test of a wavelength where so many surfaces are done: of those left, the ones before the next kind 7.
    pub fn holds(&self, done: u64, wavelength: f64) -> bool {
        let left = self.surfaces.iter().skip(done as usize);
        in_band(wavelength)
            && left
                .take_while(|y| y.retune.is_none())
                .all(|y| y.outside(wavelength).is_none())
    }
}

impl Surface {
    /// Its layers at a wavelength.
    pub fn films(&self, wavelength: f64) -> Vec<ThinFilmLayer> {
        let film = |(_, layer): &(usize, Layer)| layer.film(wavelength);
        self.layers.iter().map(film).collect()
    }

    /// The word of the first layer outside section 3's limits at a wavelength; none where slip 12's hold.
    pub fn outside(&self, wavelength: f64) -> Option<usize> {
        let mut fail = self.layers.iter();
        let first = fail.find(|(_, layer)| !layer_at(self, layer, wavelength));
        first
            .filter(|_| !self.metal(wavelength))
            .map(|(word, _)| *word)
    }

    /// Slip 12's limits: 1 to 4 layers at angle zero. What is left of 16 after each layer's term is not looked at: the
    /// terms are added, each sum rounded.
    pub fn metal(&self, wavelength: f64) -> bool {
        let terms: Vec<f64> = self
            .films(wavelength)
            .iter()
            .map(|film| T * film.thickness_nm / wavelength * film.k)
            .collect();
        let total = terms.iter().copied().reduce(|sum, term| sum + term);
        let each = |(_, layer): &(usize, Layer)| {
            let film = layer.film(wavelength);
            layer.is_finite()
                && within(film.n, 0.0625, 4.0)
                && within(film.k, 0.0, 8.0)
                && within(film.thickness_nm, 0.0, 100_000.0)
        };
        self.coating == 5
            && self.angle == 0.0
            && self.layers.len() <= 4
            && total.is_some_and(|sum| sum <= 16.0)
            && self.layers.iter().all(each)
    }
}

#[derive(Clone, Debug)]
pub enum Layer {
    /// LAYER.
    Fixed(ThinFilmLayer),
    /// Kind 6: A, B, C and the thickness.
    Cauchy([f64; 3], f64),
}

impl Layer {
    /// What it is at a wavelength: slip 3's formula from the inside out.
    pub fn film(&self, wavelength: f64) -> ThinFilmLayer {
        match self {
            Layer::Fixed(film) => film.clone(),
            Layer::Cauchy([a, b, c], thickness) => {
                let micrometres = wavelength / 1000.0;
                let square = micrometres * micrometres;
                ThinFilmLayer {
                    n: [b, a].into_iter().fold(*c, |sum, next| next + sum / square),
                    k: 0.0,
                    thickness_nm: *thickness,
                }
            }
        }
    }

    fn is_finite(&self) -> bool {
        match self {
            Layer::Fixed(_) => true,
            Layer::Cauchy(coefficients, _) => coefficients.iter().all(|x| x.is_finite()),
        }
    }
}

const MOST_SURFACES: usize = 64;
const MOST_LAYERS: usize = 16;

/// The whole gate: 4, then 5 over the sheet, then 6 over the sheet.
pub fn gate(bytes: &[u8]) -> Result<Sheet, Refusal> {
    let sheet = read(bytes)?;
    limits(&sheet)?;
    Ok(sheet)
}

/// Section 1: length and grammar.
pub fn read(bytes: &[u8]) -> Result<Sheet, Refusal> {
    let most = if bytes.starts_with(&[0x10, 0, 0, 2]) {
        39_460
    } else {
        30_500
    };
    if bytes.len() % 4 != 0 || bytes.len() < 36 || bytes.len() > most {
        return refuse(4, 0);
    }
    let word = |chunk: &[u8]| u32::from_be_bytes([chunk[0], chunk[1], chunk[2], chunk[3]]);
    let words: Vec<u32> = bytes.chunks(4).map(word).collect();
    let float = |at: usize| f64::from_bits(u64::from(words[at]) << 32 | u64::from(words[at + 1]));
    let floats = |at: usize| -> [f64; 3] { std::array::from_fn(|i| float(at + 1 + 2 * i)) };
    let edition = match words[0] {
        0x1000_0001 => 1,
        0x1000_0002 => 2,
        _ => return refuse(5, 0),
    };
    if words[1] != 0x2000_0000 {
        return refuse(5, 1);
    }
    let [wavelength, s, p] = floats(1);
    let mut surfaces: Vec<Surface> = Vec::new();
    let mut retune = None;
    let mut at = 8;
    loop {
        if at == words.len() {
            return refuse(5, at);
        }
        let (kind, payload) = (words[at] >> 28, words[at] & 0x0FFF_FFFF);
        let floats_fit = at + 6 < words.len();
        if retune.is_some() && kind != 3 {
            return refuse(5, at);
        }
        match kind {
            3 => {
                if surfaces.len() == MOST_SURFACES || payload > 15 || !floats_fit {
                    return refuse(5, at);
                }
                let [n_incident, n_substrate, angle] = floats(at);
                surfaces.push(Surface {
                    word: at,
                    reflected: payload % 2 == 1,
                    coating: payload / 2,
                    n_incident,
                    n_substrate,
                    angle,
                    layers: Vec::new(),
                    retune: retune.take(),
                });
                at += 7;
            }
            4 | 6 => {
                let Some(surface) = surfaces.last_mut() else {
                    return refuse(5, at);
                };
                let full = surface.layers.len() == MOST_LAYERS;
                if surface.coating != 5 || full || payload != 0 || !floats_fit {
                    return refuse(5, at);
                }
                if kind == 4 {
                    let [n, k, thickness_nm] = floats(at);
                    let film = ThinFilmLayer { n, k, thickness_nm };
                    surface.layers.push((at, Layer::Fixed(film)));
                    at += 7;
                } else {
                    if edition == 1 || at + 8 >= words.len() {
                        return refuse(5, at);
                    }
                    let layer = Layer::Cauchy(floats(at), float(at + 7));
                    surface.layers.push((at, layer));
                    at += 9;
                }
            }
            5 => {
                if payload as usize != surfaces.len() {
                    return refuse(5, at);
                }
                if at + 1 < words.len() {
                    return refuse(5, at + 1);
                }
                break;
            }
            7 => {
                let full = surfaces.len() == MOST_SURFACES;
                if edition == 1 || full || payload != 0 || at + 2 >= words.len() {
                    return refuse(5, at);
                }
                retune = Some((at, float(at + 1)));
                at += 3;
            }
            _ => return refuse(5, at),
        }
    }
    Ok(Sheet {
        wavelength,
        s,
        p,
        surfaces,
    })
}

/// Section 3: the first BEAM, kind 7, SURFACE or layer outside the limits.
pub fn limits(sheet: &Sheet) -> Result<(), Refusal> {
    let beam = in_band(sheet.wavelength) && within(sheet.s, 0.0, 1.0) && within(sheet.p, 0.0, 1.0);
    if !beam {
        return refuse(6, 1);
    }
    for (i, surface) in sheet.surfaces.iter().enumerate() {
        if let Some((word, _)) = surface.retune.filter(|(_, w)| !in_band(*w)) {
            return refuse(6, word);
        }
        if !surface_passes(surface) {
            return refuse(6, surface.word);
        }
        if let Some(word) = surface.outside(sheet.met(i)) {
            return refuse(6, word);
        }
    }
    Ok(())
}

fn in_band(wavelength: f64) -> bool {
    within(wavelength, 100.0, 10_000.0)
}

fn layer_at(surface: &Surface, layer: &Layer, wavelength: f64) -> bool {
    layer.is_finite() && layer_passes(surface, &layer.film(wavelength))
}

/// By value, both ends included; NaN is outside.
fn within(x: f64, low: f64, high: f64) -> bool {
    low <= x && x <= high
}

/// n_incident·abs(sin) at most 0.875·n, each product rounded once.
fn bends(surface: &Surface, n: f64) -> bool {
    surface.n_incident * abs(sin(surface.angle)) <= 0.875 * n
}

fn layer_passes(surface: &Surface, layer: &ThinFilmLayer) -> bool {
    within(layer.n, 1.0, 4.0)
        && layer.k == 0.0
        && within(layer.thickness_nm, 0.0, 100_000.0)
        && bends(surface, layer.n)
}

/// The SURFACE's own numbers and the layers of its preset.
fn surface_passes(surface: &Surface) -> bool {
    within(surface.n_incident, 1.0, 4.0)
        && within(surface.n_substrate, 1.0, 4.0)
        && surface.angle.is_finite()
        && cos(surface.angle) >= 0.25
        && bends(surface, surface.n_substrate)
        && preset_layers(surface.coating)
            .iter()
            .all(|layer| layer_passes(surface, layer))
}

/// The layers of codes 2, 3 and 4, as the Rust lists them; none for the others.
pub fn preset_layers(coating: u32) -> Vec<ThinFilmLayer> {
    let preset = match coating {
        2 => SurfaceCoating::mgf2_default(),
        3 => SurfaceCoating::BroadbandAr,
        4 => SurfaceCoating::HighReflectanceMirror,
        _ => return Vec::new(),
    };
    match preset.to_coating(1.0) {
        Coating::Multilayer { layers } => layers,
        _ => Vec::new(),
    }
}
