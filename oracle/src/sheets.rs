// Sheets to try the gate and the train with: random ones, valid and damaged.

use crate::section2::T;
use crate::sheet::{gate, Layer};
use crate::values::{any, neighbour, Rng, CORE, LIMITS};

/// A sheet before it is written.
#[derive(Clone)]
pub struct Plan {
    pub edition: u32,
    /// Wavelength, s power, p power.
    pub beam: [f64; 3],
    pub surfaces: Vec<Face>,
}

#[derive(Clone)]
pub struct Face {
    pub payload: u32,
    /// n_incident, n_substrate, angle.
    pub numbers: [f64; 3],
    /// n, k, thickness of a LAYER; A, B, C, thickness of a kind 6.
    pub layers: Vec<Vec<f64>>,
    /// The wavelength of a kind 7 before it.
    pub retune: Option<f64>,
}

/// LAYERs.
pub fn plain(layers: &[[f64; 3]]) -> Vec<Vec<f64>> {
    layers.iter().map(|layer| layer.to_vec()).collect()
}

/// Written words, with the places of the kind words that floats follow.
pub struct Written {
    pub words: Vec<u32>,
    pub kinds: Vec<usize>,
}

impl Written {
    fn block(&mut self, kind_word: u32, floats: &[f64]) {
        self.kinds.push(self.words.len());
        self.words.push(kind_word);
        for x in floats {
            let bits = x.to_bits();
            self.words.extend([(bits >> 32) as u32, bits as u32]);
        }
    }

    /// How many floats follow the kind word at a place.
    pub fn floats(&self, place: usize) -> usize {
        match self.words[place] >> 28 {
            6 => 4,
            7 => 1,
            _ => 3,
        }
    }

    pub fn bytes(&self) -> Vec<u8> {
        self.words
            .iter()
            .flat_map(|word| word.to_be_bytes())
            .collect()
    }
}

impl Plan {
    pub fn write(&self) -> Written {
        let mut out = Written {
            words: vec![0x1000_0000 | self.edition],
            kinds: Vec::new(),
        };
        out.block(0x2000_0000, &self.beam);
        for face in &self.surfaces {
            if let Some(wavelength) = face.retune {
                out.block(0x7000_0000, &[wavelength]);
            }
            out.block(0x3000_0000 | face.payload, &face.numbers);
            for layer in &face.layers {
                let kind = if layer.len() == 3 { 4 } else { 6 };
                out.block(kind << 28, layer);
            }
        }
        out.words.push(0x5000_0000 | self.surfaces.len() as u32);
        out
    }

    pub fn bytes(&self) -> Vec<u8> {
        self.write().bytes()
    }
}

/// 01's example.
pub fn example() -> Plan {
    Plan {
        edition: 1,
        beam: [500.0, 0.5, 0.5],
        surfaces: vec![Face {
            payload: 0,
            numbers: [1.0, 3.0, 0.0],
            layers: Vec::new(),
            retune: None,
        }],
    }
}

/// A sheet with every kind of block: three surfaces, two of them with layers.
pub fn varied() -> Plan {
    let face = |payload, numbers, layers: &[[f64; 3]]| Face {
        payload,
        numbers,
        layers: plain(layers),
        retune: None,
    };
    Plan {
        edition: 1,
        beam: [550.0, 0.75, 0.5],
        surfaces: vec![
            face(10, [1.0, 1.5, 0.5], &[[1.38, 0.0, 100.0], [2.3, 0.0, 60.0]]),
            face(1, [1.5, 1.0, 0.25], &[]),
            face(11, [1.5, 1.5, -0.5], &[[1.46, -0.0, 0.0]]),
        ],
    }
}

/// A sheet of edition 2 with films of metal, LAYERs and kinds 6, at angle zero of either sign.
pub fn gilded() -> Plan {
    let face = |payload, numbers, layers: Vec<Vec<f64>>| Face {
        payload,
        numbers,
        layers,
        retune: None,
    };
    let glass = vec![0.5, 0.01, 0.0, 80.0];
    let films = plain(&[[1.38, 0.0, 99.0], [0.25, 7.0, 20.0], [4.0, 0.0, 10.0]]);
    let mut plan = varied();
    plan.edition = 2;
    plan.surfaces = vec![
        face(11, [1.0, 1.5, 0.0], plain(&[[0.0625, 8.0, 20.0]])),
        face(10, [1.5, 1.0, -0.0], [films, vec![glass]].concat()),
        face(0, [1.0, 1.5, 0.25], Vec::new()),
    ];
    plan
}

/// `varied` in edition 2 with a kind 6 in place of two of its LAYERs.
pub fn mixed() -> Plan {
    let mut plan = varied();
    plan.edition = 2;
    plan.surfaces[0].layers[1] = vec![2.2, 0.03, 0.001, 60.0];
    plan.surfaces[2].layers[0] = vec![1.45, 0.0035, 0.0, 0.0];
    plan
}

/// The largest sheet of edition 1, 30,500 bytes: 64 surfaces with 16 LAYERs each.
pub fn largest() -> Plan {
    even(64, 16)
}

/// The same with a kind 7 before its second and third surface, at which the kinds 6 pass.
pub fn retuned() -> Plan {
    let mut plan = mixed();
    plan.surfaces[1].retune = Some(632.8);
    plan.surfaces[2].retune = Some(1064.0);
    plan
}

/// The largest sheet of edition 2, 39,460 bytes: the same with kinds 6, and a kind 7 before each surface.
pub fn largest_of_two() -> Plan {
    let mut plan = glasses(64, 16);
    let wavelength = plan.beam[0];
    for face in &mut plan.surfaces {
        face.retune = Some(wavelength);
    }
    plan
}

/// So many surfaces with so many kinds 6 each.
pub fn glasses(surfaces: usize, layers: usize) -> Plan {
    let mut plan = even(surfaces, layers);
    let mut rng = Rng::new(39_460);
    plan.edition = 2;
    for layer in plan.surfaces.iter_mut().flat_map(|face| &mut face.layers) {
        // No smaller than it was, so that the light is bent no further.
        let least = layer[0];
        while layer.len() == 3 || !(least..=4.0).contains(&index_at(layer, plan.beam[0])) {
            *layer = dispersed(
                &mut rng,
                &[least, 0.0, layer[layer.len() - 1]],
                plan.beam[0],
            );
        }
    }
    plan
}

/// So many surfaces with so many layers each; without layers they are bare.
pub fn even(surfaces: usize, layers: usize) -> Plan {
    let mut rng = Rng::new(30_500);
    let mut plan = random_plan(&mut rng, 1, 0, 0);
    let payload = if layers == 0 { 0 } else { 10 };
    for _ in 0..surfaces {
        let face = valid_face(&mut rng, plan.edition, plan.beam[0], payload, layers);
        plan.surfaces.push(face);
    }
    plan
}

/// The same, each layer the last but one again, as in H L H L.
pub fn periodic(surfaces: usize, layers: usize) -> Plan {
    let mut plan = even(surfaces, layers);
    for face in &mut plan.surfaces {
        for i in 2..face.layers.len() {
            face.layers[i] = face.layers[i - 2].clone();
        }
    }
    plan
}

fn index(rng: &mut Rng) -> f64 {
    match rng.below(4) {
        0 => rng.pick(&[1.0, 4.0, 1.38, 1.46, 1.5, 2.3, 3.0]),
        _ => rng.uniform(1.0, 4.0),
    }
}

fn layer(rng: &mut Rng) -> Vec<f64> {
    let n = index(rng);
    let k = rng.pick(&[0.0, 0.0, 0.0, -0.0]);
    let thickness = match rng.below(6) {
        0 => rng.pick(&[0.0, -0.0, 100_000.0, 88.0]),
        1 => 550.0 / (4.0 * n),
        2 => rng.uniform(0.0, 100_000.0),
        3 => rng.log(-1074, 10),
        _ => rng.uniform(0.0, 500.0),
    };
    vec![n, k, thickness]
}

/// A kind 6 that has about a LAYER's index at a wavelength, and its thickness.
fn dispersed(rng: &mut Rng, layer: &[f64], wavelength: f64) -> Vec<f64> {
    let square = (wavelength / 1000.0) * (wavelength / 1000.0);
    let part = |rng: &mut Rng| match rng.below(4) {
        0 => rng.pick(&[0.0, -0.0, f64::from_bits(1), 0.5]),
        1 => rng.log(-60, 0),
        _ => rng.uniform(0.0, 0.3),
    };
    let b = part(rng) * square;
    let c = part(rng) * square * square;
    let (b, c) = (rng.signed(b), rng.signed(c));
    let a = layer[0] - (b + c / square) / square;
    vec![a, b, c, layer[2]]
}

/// The index of a layer as it is written, at a wavelength.
fn index_at(layer: &[f64], wavelength: f64) -> f64 {
    match layer {
        [a, b, c, thickness] => Layer::Cauchy([*a, *b, *c], *thickness).film(wavelength).n,
        _ => layer[0],
    }
}

/// Slip 12's sum of n, k, thickness.
pub fn depth(layers: &[Vec<f64>], wavelength: f64) -> f64 {
    let term = |layer: &Vec<f64>| T * layer[2] / wavelength * layer[1];
    layers.iter().fold(0.0, |sum, layer| sum + term(layer))
}

/// Layers of metal for slip 12's limits, each limit often met exactly, and the sum often as near to 16 as it comes.
pub fn metal_layers(rng: &mut Rng, wavelength: f64, count: usize) -> Vec<Vec<f64>> {
    let mut layers = Vec::new();
    for _ in 0..count {
        let n = match rng.below(4) {
            0 => rng.pick(&[0.0625, 4.0, 1.0, neighbour(0.0625, 1), neighbour(4.0, -1)]),
            1 => rng.log(-4, 1),
            _ => rng.uniform(0.0625, 4.0),
        };
        let k = match rng.below(6) {
            0 => rng.pick(&[0.0, -0.0, f64::from_bits(1), neighbour(8.0, -1)]),
            1 => 8.0,
            2 => rng.log(-60, 2),
            _ => rng.uniform(0.0, 8.0),
        };
        let thickness = match rng.below(6) {
            0 => rng.pick(&[0.0, -0.0, f64::from_bits(1)]),
            1 => rng.uniform(0.0, 100_000.0),
            2 => rng.log(-1074, 6),
            _ => rng.uniform(0.0, 16.0) * wavelength / (T * k),
        };
        layers.push(vec![n, k, thickness.min(100_000.0)]);
    }
    let last = rng.below(count);
    if layers[last][1] > 0.0 && rng.one_in(2) {
        // The largest thickness of one layer with which the sum is at most 16, or one beside it.
        let (mut low, mut high) = (0, 100_000_f64.to_bits() + 1);
        while high - low > 1 {
            let middle = low + (high - low) / 2;
            layers[last][2] = f64::from_bits(middle);
            if depth(&layers, wavelength) <= 16.0 {
                low = middle;
            } else {
                high = middle;
            }
        }
        layers[last][2] = neighbour(f64::from_bits(low), -rng.pick(&[0, 0, 1, 7]));
    }
    layers
}

/// A custom surface at angle zero that passes under slip 12's limits at a wavelength.
pub fn metal_face(rng: &mut Rng, edition: u32, wavelength: f64, payload: u32) -> Face {
    loop {
        let count = 1 + rng.below(4);
        let mut face = Face {
            payload,
            numbers: [index(rng), index(rng), rng.pick(&[0.0, -0.0])],
            layers: metal_layers(rng, wavelength, count),
            retune: None,
        };
        for layer in &mut face.layers {
            if edition == 2 && layer[1] == 0.0 && rng.one_in(2) {
                *layer = dispersed(rng, layer, wavelength);
            }
        }
        if passes_alone(edition, wavelength, &face) {
            return face;
        }
    }
}

/// Whether the gate admits a surface at a wavelength.
fn passes_alone(edition: u32, wavelength: f64, face: &Face) -> bool {
    let alone = Plan {
        edition,
        beam: [wavelength, 1.0, 1.0],
        surfaces: vec![face.clone()],
    };
    gate(&alone.bytes()).is_ok()
}

/// A surface that passes the gate at a wavelength.
fn valid_face(rng: &mut Rng, edition: u32, wavelength: f64, payload: u32, layers: usize) -> Face {
    let code = payload / 2;
    loop {
        let mut face = Face {
            payload,
            numbers: [index(rng), index(rng), 0.0],
            layers: Vec::new(),
            retune: None,
        };
        if code == 5 {
            face.layers.extend((0..layers).map(|_| layer(rng)));
        }
        for layer in &mut face.layers {
            if edition == 2 && rng.one_in(2) {
                *layer = dispersed(rng, layer, wavelength);
            }
        }
        let preset = match code {
            2 => 1.38,
            3 | 4 => 1.46,
            _ => 4.0,
        };
        let thinnest = face.layers.iter().map(|layer| index_at(layer, wavelength));
        let least = thinnest.fold(face.numbers[1].min(preset), f64::min);
        let steepest = (0.875 * least / face.numbers[0]).min(0.968).asin();
        let share = rng.pick(&[0.0, 0.5, 0.9, 1.0]);
        let angle = steepest * if rng.one_in(3) { share } else { rng.unit() };
        face.numbers[2] = rng.signed(angle);
        if rng.one_in(5) {
            let turns = rng.bits() >> (34 + rng.below(30));
            face.numbers[2] += turns as f64 * T;
        }
        if passes_alone(edition, wavelength, &face) {
            return face;
        }
    }
}

/// A wavelength that passes by itself.
pub fn line(rng: &mut Rng) -> f64 {
    match rng.below(4) {
        0 => rng.pick(&[100.0, 10_000.0, 550.0, 632.8]),
        _ => rng.uniform(100.0, 10_000.0),
    }
}

/// A sheet of an edition that passes the gate, with so many surfaces and at most so many layers each.
pub fn random_plan(rng: &mut Rng, edition: u32, surfaces: usize, layers: usize) -> Plan {
    let power = |rng: &mut Rng| match rng.below(4) {
        0 => rng.pick(&[0.0, -0.0, 1.0, 0.5, f64::from_bits(1)]),
        _ => rng.unit(),
    };
    let mut wavelength = line(rng);
    let beam = [wavelength, power(rng), power(rng)];
    let mut list = Vec::new();
    let often = if edition == 2 {
        rng.pick(&[0, 0, 2, 5])
    } else {
        0
    };
    for _ in 0..surfaces {
        let tunes = often > 0 && rng.one_in(often);
        if tunes {
            wavelength = line(rng);
        }
        let custom = rng.one_in(3);
        let payload = if custom {
            10 + rng.below(2)
        } else {
            rng.below(16)
        };
        let count = rng.below(layers + 1);
        let mut face = if custom && layers > 0 && rng.one_in(3) {
            metal_face(rng, edition, wavelength, payload as u32)
        } else {
            valid_face(rng, edition, wavelength, payload as u32, count)
        };
        face.retune = tunes.then_some(wavelength);
        list.push(face);
    }
    Plan {
        edition,
        beam,
        surfaces: list,
    }
}

/// A sheet of either edition that passes the gate: most are short, a few as long as they may be.
pub fn valid(rng: &mut Rng) -> Plan {
    let edition = 1 + rng.below(2) as u32;
    let layers = rng.pick(&[0, 2, 3, 3, 5, 8, 16]);
    match rng.below(60) {
        0 => random_plan(rng, edition, 64, 16),
        1 | 2 => {
            let surfaces = rng.below(65);
            random_plan(rng, edition, surfaces, 3)
        }
        3..=12 => {
            let surfaces = rng.below(12);
            random_plan(rng, edition, surfaces, layers)
        }
        _ => {
            let surfaces = rng.below(4);
            random_plan(rng, edition, surfaces, layers)
        }
    }
}

/// Kind words, right and wrong.
fn kind_word(rng: &mut Rng) -> u32 {
    let payload = rng.pick(&[0, 1, 2, 3, 10, 11, 15, 16, 17, 64, 0x0100_000A, 0x0FFF_FFFF]);
    let kind = rng.pick(&[0, 1, 2, 3, 3, 4, 4, 5, 5, 6, 6, 7, 7, 15]);
    kind << 28 | payload
}

/// A sheet, damaged in one place.
pub fn damaged(rng: &mut Rng) -> Vec<u8> {
    let plan = valid(rng);
    let mut out = plan.write();
    let count = out.words.len();
    let at = rng.below(count);
    match rng.below(20) {
        0 => {
            let mut bytes = out.bytes();
            bytes.truncate(rng.below(count * 4));
            return bytes;
        }
        1 => out.words.truncate(at),
        2 => out.words[at] ^= 1 << rng.below(32),
        3 => out.words[at] = kind_word(rng),
        4 => {
            let kind = rng.pick(&out.kinds);
            out.words[kind] = kind_word(rng);
        }
        5 => out.words.insert(at, kind_word(rng)),
        6 => {
            out.words.remove(at);
        }
        7 => out.words.push(kind_word(rng)),
        8 => out.words[count - 1] = kind_word(rng),
        9 => out.words[count - 1] = 0x5000_0000 | rng.below(67) as u32,
        10 => {
            let block = rng.pick(&out.kinds);
            let into = rng.pick(&out.kinds);
            let end = block + 1 + 2 * out.floats(block);
            let copy = out.words[block..end].to_vec();
            out.words.splice(into..into, copy);
        }
        11 => out.words[0] = 0x1000_0000 | rng.below(4) as u32,
        _ => {
            let kind = rng.pick(&out.kinds);
            let field = kind + 1 + 2 * rng.below(out.floats(kind));
            let old = u64::from(out.words[field]) << 32 | u64::from(out.words[field + 1]);
            let x = match rng.below(6) {
                0 => rng.pick(&CORE),
                1 => neighbour(rng.pick(&LIMITS[..8]), rng.below(3) as i64 - 1),
                2 => neighbour(rng.pick(&[0.0625, 8.0, 16.0, 0.0]), rng.below(3) as i64 - 1),
                // Beside what it was, where a sum or a product may be at its limit.
                3 | 4 => neighbour(f64::from_bits(old), rng.below(3) as i64 - 1),
                _ => any(rng),
            };
            out.words[field] = (x.to_bits() >> 32) as u32;
            out.words[field + 1] = x.to_bits() as u32;
        }
    }
    out.bytes()
}

/// A random sheet: two of five are damaged.
pub fn sheet(rng: &mut Rng) -> Vec<u8> {
    if rng.below(5) < 2 {
        damaged(rng)
    } else {
        valid(rng).bytes()
    }
}
