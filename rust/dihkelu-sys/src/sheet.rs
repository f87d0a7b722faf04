//! A sheet as data, and the bytes that stand for it (document 01, section 1; 02, slips 3 and 5).
use crate::Refusal;

/// A surface's coating by its code.
#[derive(Clone, Copy, Debug, PartialEq, Eq)]
pub enum Coating {
    Bare = 0,
    IdealAr = 1,
    /// A quarter wave at 550 nm.
    Mgf2 = 2,
    BroadbandAr = 3,
    Mirror = 4,
    /// With 0 to 16 layers.
    Custom = 5,
    IdealBeamsplitter = 6,
    IdealMirror = 7,
}

/// A layer of a custom surface, the one on the side of the lower index first.
#[derive(Clone, Copy, Debug, PartialEq)]
pub enum Layer {
    Film {
        n: f64,
        k: f64,
        thickness_nm: f64,
    },
    /// Its index is a + (b + c/u2)/u2, u2 being the square of the wavelength in micrometres.
    Glass {
        a: f64,
        b: f64,
        c: f64,
        thickness_nm: f64,
    },
}

/// A surface that the light meets, from one index to the other; the rest is as `Surface::default()` has it, as in
/// `Surface { coating: Coating::Mgf2, n_incident: 1.0, n_substrate: 1.52, ..Surface::default() }`.
#[derive(Clone, Debug, PartialEq)]
pub struct Surface {
    pub coating: Coating,
    pub n_incident: f64,
    pub n_substrate: f64,
    pub angle_rad: f64,
    /// Whether the reflected light is followed, and not the transmitted.
    pub reflected: bool,
    pub layers: Vec<Layer>,
    /// Another wavelength from here on.
    pub retune_nm: Option<f64>,
}

impl Default for Surface {
    fn default() -> Surface {
        Surface {
            coating: Coating::Bare,
            n_incident: 1.0,
            n_substrate: 1.0,
            angle_rad: 0.0,
            reflected: false,
            layers: Vec::new(),
            retune_nm: None,
        }
    }
}

/// A beam and the surfaces that it meets.
#[derive(Clone, Debug, Default, PartialEq)]
pub struct Sheet {
    pub wavelength_nm: f64,
    pub s: f64,
    pub p: f64,
    pub surfaces: Vec<Surface>,
}

/// The most surfaces of a sheet, and the most layers of a surface.
const SURFACES: usize = 64;
const LAYERS: usize = 16;

impl Sheet {
    /// The sheet's bytes, of edition 2 where a glass or a retune needs it. Any numbers are taken: the gate judges them. Refused with 5
    /// and the word, as the gate would, are a 65th surface, a 17th layer and a layer of another coating than `Custom`.
    pub fn to_bytes(&self) -> Result<Vec<u8>, Refusal> {
        let mut bytes = Vec::new();
        let edition = if self.needs_edition_2() { 2 } else { 1 };
        block(&mut bytes, 1, edition, &[]);
        block(&mut bytes, 2, 0, &[self.wavelength_nm, self.s, self.p]);
        for (i, surface) in self.surfaces.iter().enumerate() {
            fits(&bytes, i < SURFACES)?;
            surface.write(&mut bytes)?;
        }
        block(&mut bytes, 5, self.surfaces.len() as u32, &[]);
        Ok(bytes)
    }

    fn needs_edition_2(&self) -> bool {
        let glass = |layer: &Layer| matches!(layer, Layer::Glass { .. });
        self.surfaces
            .iter()
            .any(|s| s.retune_nm.is_some() || s.layers.iter().any(glass))
    }
}

impl Surface {
    fn write(&self, bytes: &mut Vec<u8>) -> Result<(), Refusal> {
        if let Some(nm) = self.retune_nm {
            block(bytes, 7, 0, &[nm]);
        }
        let payload = 2 * self.coating as u32 + u32::from(self.reflected);
        let numbers = [self.n_incident, self.n_substrate, self.angle_rad];
        block(bytes, 3, payload, &numbers);
        for (i, layer) in self.layers.iter().enumerate() {
            fits(bytes, self.coating == Coating::Custom && i < LAYERS)?;
            match *layer {
                Layer::Film { n, k, thickness_nm } => block(bytes, 4, 0, &[n, k, thickness_nm]),
                Layer::Glass {
                    a,
                    b,
                    c,
                    thickness_nm,
                } => block(bytes, 6, 0, &[a, b, c, thickness_nm]),
            }
        }
        Ok(())
    }
}

/// A refusal at the next word, where a block does not fit there.
fn fits(bytes: &[u8], yes: bool) -> Result<(), Refusal> {
    let place = (bytes.len() / 4) as u32;
    yes.then_some(()).ok_or(Refusal { number: 5, place })
}

/// A block: its kind word, high byte first, and its numbers.
fn block(bytes: &mut Vec<u8>, kind: u32, payload: u32, numbers: &[f64]) {
    bytes.extend((kind << 28 | payload).to_be_bytes());
    numbers.iter().for_each(|x| bytes.extend(x.to_be_bytes()));
}
