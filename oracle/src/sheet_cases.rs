// The fixed sheets: 01's edges, lengths, truncations, flipped bits, the floats on either side of each limit.

use crate::section2::{abs, cos, sin, T};
use crate::sheet::Layer;
use crate::sheets::{
    depth, example, gilded, largest, largest_of_two, mixed, plain, retuned, varied, Face, Plan,
};
use crate::values::neighbour;

/// All fixed sheets; only the last ones are long.
pub fn cases() -> Vec<Vec<u8>> {
    let mut list = vec![
        example().bytes(),
        varied().bytes(),
        mixed().bytes(),
        retuned().bytes(),
        gilded().bytes(),
        empty().bytes(),
    ];
    list.extend(lengths());
    list.extend(truncations());
    list.extend(flips(&example().bytes()));
    list.extend(flips(&retuned().bytes()));
    list.extend(edges());
    list.extend(
        limits()
            .into_iter()
            .flat_map(|(inside, outside)| [inside, outside]),
    );
    list.extend(
        metals()
            .into_iter()
            .flat_map(|(inside, outside)| [inside, outside]),
    );
    list.extend(fields());
    list.extend(long());
    list
}

/// No surfaces: 36 bytes, the shortest sheet.
fn empty() -> Plan {
    Plan {
        edition: 1,
        beam: [550.0, 1.0, 1.0],
        surfaces: Vec::new(),
    }
}

fn one(payload: u32, numbers: [f64; 3], layers: &[[f64; 3]]) -> Plan {
    Plan {
        edition: 1,
        beam: [550.0, 1.0, 0.5],
        surfaces: vec![Face {
            payload,
            numbers,
            layers: plain(layers),
            retune: None,
        }],
    }
}

/// Every length from 0 to 64, of zeros and of the example.
fn lengths() -> Vec<Vec<u8>> {
    let whole = example().bytes();
    let both = |length: usize| [vec![0; length], whole[..length].to_vec()];
    (0..=64).flat_map(both).collect()
}

/// A sheet of either edition with every kind of block, cut off at every byte.
fn truncations() -> Vec<Vec<u8>> {
    let cut = |whole: Vec<u8>| (0..whole.len()).map(move |length| whole[..length].to_vec());
    [varied(), mixed()]
        .into_iter()
        .flat_map(|plan| cut(plan.bytes()))
        .collect()
}

/// A sheet with each of its bits flipped.
fn flips(whole: &[u8]) -> Vec<Vec<u8>> {
    let flip = |bit: usize| {
        let mut bytes = whole.to_vec();
        bytes[bit / 8] ^= 1 << (bit % 8);
        bytes
    };
    (0..whole.len() * 8).map(flip).collect()
}

pub fn from_words(words: &[u32]) -> Vec<u8> {
    words.iter().flat_map(|word| word.to_be_bytes()).collect()
}

/// 01's edges and the places of the readings' notes 2 to 10.
fn edges() -> Vec<Vec<u8>> {
    let mut list = Vec::new();
    for wavelength in [99.0, 100.0] {
        let mut plan = example();
        plan.beam[0] = wavelength;
        list.push(plan.bytes());
        // 5 comes before 6.
        let mut words = plan.write().words;
        words[15] = 0x5000_0002;
        list.push(from_words(&words));
    }
    for layers in [0, 1, 15, 16, 17, 18] {
        let mut plan = one(10, [1.0, 1.5, 0.0], &vec![[1.38, 0.0, 99.0]; layers]);
        list.push(plan.bytes());
        // Kinds 6 count to the 16 layers, alone and mixed with LAYERs; edition 1 has none.
        for every in [1, 2, 3] {
            for layer in plan.surfaces[0].layers.iter_mut().step_by(every) {
                *layer = vec![1.38, 0.01, 0.0, 99.0];
            }
            for edition in 0..4 {
                plan.edition = edition;
                list.push(plan.bytes());
            }
        }
    }
    for surfaces in [0, 1, 63, 64, 65, 66] {
        let mut plan = example();
        plan.surfaces = vec![plan.surfaces[0].clone(); surfaces];
        list.push(plan.bytes());
        // 64 in END's count beside a 65th surface.
        let mut words = plan.write().words;
        let end = words.len() - 1;
        words[end] = 0x5000_0040;
        list.push(from_words(&words));
    }
    for payload in (0..=17).chain([0x10A, 0x0100_000A, 0x0FFF_FFFF]) {
        list.push(one(payload, [1.0, 1.5, 0.5], &[]).bytes());
        list.push(one(payload, [1.0, 1.5, 0.5], &[[1.38, 0.0, 99.0]]).bytes());
    }
    // Each word of a sheet replaced by each kind word.
    for whole in [varied().write(), mixed().write(), retuned().write()] {
        let ends = [0, whole.words.len() - 1];
        for place in whole.kinds.iter().chain(&ends) {
            for kind in 0..16 {
                for payload in [0, 2, 3] {
                    let mut words = whole.words.clone();
                    words[*place] = kind << 28 | payload;
                    list.push(from_words(&words));
                }
            }
        }
    }
    // A kind 7 in edition 1, before END, before another, with a payload, after 63 and 64 surfaces.
    for edition in [1, 2] {
        for surfaces in [0, 1, 63, 64, 65] {
            let mut plan = example();
            plan.edition = edition;
            plan.surfaces = vec![plan.surfaces[0].clone(); surfaces];
            if let Some(last) = plan.surfaces.last_mut() {
                last.retune = Some(632.8);
            }
            list.push(plan.bytes());
            for (twice, word) in [(1, 0x7000_0000), (2, 0x7000_0000), (1, 0x7000_0001)] {
                let mut words = plan.write().words;
                let end = words.len() - 1;
                let kind = [word, 0x4080_0000, 0];
                words.splice(end..end, kind.repeat(twice));
                list.push(from_words(&words));
            }
        }
    }
    // Words after END, and blocks behind it.
    for word in [0, 0x5000_0001, 0x3000_0000, 0x4000_0000] {
        let mut words = example().write().words;
        words.push(word);
        list.push(from_words(&words));
        words.push(word);
        list.push(from_words(&words));
    }
    list
}

/// Adjacent floats: the last where `holds` is true, walking from `inside`, and the first where it is not.
fn boundary(inside: f64, outside: f64, holds: impl Fn(f64) -> bool) -> (f64, f64) {
    let (mut yes, mut no) = (inside, outside);
    assert!(holds(yes) && !holds(no));
    loop {
        let middle = yes + (no - yes) / 2.0;
        if middle == yes || middle == no {
            break;
        }
        if holds(middle) {
            yes = middle;
        } else {
            no = middle;
        }
    }
    (yes, no)
}

/// A sheet with one of its numbers inside a limit, and outside it.
fn pair(
    plan: &Plan,
    place: impl Fn(&mut Plan) -> &mut f64,
    inside: f64,
    outside: f64,
) -> (Vec<u8>, Vec<u8>) {
    let with = |x: f64| {
        let mut plan = plan.clone();
        *place(&mut plan) = x;
        plan.bytes()
    };
    (with(inside), with(outside))
}

/// For each limit of the gate, the sheet with the last float inside and the one with the first outside.
pub fn limits() -> Vec<(Vec<u8>, Vec<u8>)> {
    let mut list = Vec::new();
    let up = |x: f64| (x, neighbour(x, 1));
    let down = |x: f64| (x, neighbour(x, -1));

    // BEAM.
    let plan = example();
    for (inside, outside) in [down(100.0), up(10_000.0)] {
        list.push(pair(&plan, |plan| &mut plan.beam[0], inside, outside));
    }
    for (inside, outside) in [down(0.0), (-0.0, neighbour(0.0, -1)), up(1.0)] {
        list.push(pair(&plan, |plan| &mut plan.beam[1], inside, outside));
        list.push(pair(&plan, |plan| &mut plan.beam[2], inside, outside));
    }
    // Kind 7: its own range, and the index of a kind 6 at it.
    let plan = retuned();
    for (inside, outside) in [down(100.0), up(10_000.0)] {
        for place in [1, 2] {
            let mut plan = plan.clone();
            plan.surfaces[2].layers.clear();
            list.push(pair(
                &plan,
                |plan| plan.surfaces[place].retune.as_mut().expect("a kind 7"),
                inside,
                outside,
            ));
        }
    }
    let glass = [1.8, 0.1, 0.0, 99.0];
    let index = |x: f64| {
        Layer::Cauchy([glass[0], glass[1], glass[2]], glass[3])
            .film(x)
            .n
    };
    let (inside, outside) = boundary(1064.0, 100.0, |x| index(x) <= 4.0);
    let mut glassy = plan.clone();
    glassy.surfaces[2].layers[0] = glass.to_vec();
    list.push(pair(
        &glassy,
        |plan| plan.surfaces[2].retune.as_mut().expect("a kind 7"),
        inside,
        outside,
    ));
    // SURFACE, its indices: for every coating.
    for code in 0..8 {
        let plan = one(2 * code, [2.0, 2.0, 0.0], &[]);
        for (inside, outside) in [down(1.0), up(4.0)] {
            list.push(pair(
                &plan,
                |plan| &mut plan.surfaces[0].numbers[0],
                inside,
                outside,
            ));
            list.push(pair(
                &plan,
                |plan| &mut plan.surfaces[0].numbers[1],
                inside,
                outside,
            ));
        }
    }
    // The angle's cosine, on each side of several turns.
    for turns in [0.0, 1.0, -1.0, 2.0, 1000.0, 1e6] {
        for sign in [1.0, -1.0] {
            let plan = one(0, [1.0, 4.0, 0.0], &[]);
            let passes = |x: f64| cos(x) >= 0.25;
            let (inside, outside) =
                boundary(turns * T + sign * 1.2, turns * T + sign * 1.4, passes);
            list.push(pair(
                &plan,
                |plan| &mut plan.surfaces[0].numbers[2],
                inside,
                outside,
            ));
        }
    }
    // The bend into the substrate, a layer and the presets.
    let bends = |numbers: [f64; 3], n: f64| numbers[0] * abs(sin(numbers[2])) <= 0.875 * n;
    for (code, film) in [(0, 0.0), (1, 0.0), (5, 0.0), (6, 0.0), (7, 0.0), (5, 1.7)] {
        // Without a layer the substrate is the limit, else the layer.
        let n = if film == 0.0 { 1.7 } else { film };
        let substrate = if film == 0.0 { 1.7 } else { 4.0 };
        let films = [[film, 0.0, 50.0]];
        let layers = if film == 0.0 { &[] } else { &films[..] };
        for angle in [0.7, -0.9] {
            let numbers = [2.0, substrate, angle];
            let plan = one(2 * code, numbers, layers);
            let (inside, outside) = boundary(1.0, 4.0, |x| bends([x, substrate, angle], n));
            list.push(pair(
                &plan,
                |plan| &mut plan.surfaces[0].numbers[0],
                inside,
                outside,
            ));
            let (inside, outside) = boundary(4.0, 1.0, |x| bends(numbers, x));
            if film == 0.0 {
                list.push(pair(
                    &plan,
                    |plan| &mut plan.surfaces[0].numbers[1],
                    inside,
                    outside,
                ));
            } else {
                list.push(pair(
                    &plan,
                    |plan| &mut plan.surfaces[0].layers[0][0],
                    inside,
                    outside,
                ));
            }
            let (inside, outside) =
                boundary(0.0, angle.signum() * 1.2, |x| bends([2.0, substrate, x], n));
            list.push(pair(
                &plan,
                |plan| &mut plan.surfaces[0].numbers[2],
                inside,
                outside,
            ));
        }
    }
    for (code, n) in [(2, 1.38), (3, 1.46), (4, 1.46)] {
        let plan = one(2 * code, [2.0, 4.0, 0.7], &[]);
        let (inside, outside) = boundary(1.0, 4.0, |x| bends([x, 4.0, 0.7], n));
        list.push(pair(
            &plan,
            |plan| &mut plan.surfaces[0].numbers[0],
            inside,
            outside,
        ));
        let (inside, outside) = boundary(0.0, 1.2, |x| bends([2.0, 4.0, x], n));
        list.push(pair(
            &plan,
            |plan| &mut plan.surfaces[0].numbers[2],
            inside,
            outside,
        ));
    }
    // Kind 6: its index at 1 and at 4 by each coefficient, and its thickness.
    let mut plan = one(10, [1.0, 1.5, 0.0], &[[1.38, 0.0, 99.0]; 16]);
    plan.edition = 2;
    for place in [0, 1, 15] {
        for (field, ends) in [(0, [0.5, 4.5]), (1, [-0.3, 1.5]), (2, [-0.1, 0.5])] {
            let glass = [1.8, 0.01, 0.001, 99.0];
            let index = |x: f64| {
                let mut coefficients = [glass[0], glass[1], glass[2]];
                coefficients[field] = x;
                Layer::Cauchy(coefficients, glass[3]).film(plan.beam[0]).n
            };
            for end in ends {
                let (inside, outside) =
                    boundary(glass[field], end, |x| (1.0..=4.0).contains(&index(x)));
                let mut plan = plan.clone();
                plan.surfaces[0].layers[place] = glass.to_vec();
                list.push(pair(
                    &plan,
                    |plan| &mut plan.surfaces[0].layers[place][field],
                    inside,
                    outside,
                ));
            }
        }
        for (inside, outside) in [down(0.0), (-0.0, neighbour(0.0, -1)), up(100_000.0)] {
            let mut plan = plan.clone();
            plan.surfaces[0].layers[place] = vec![1.5, 0.01, 0.001, 99.0];
            list.push(pair(
                &plan,
                |plan| &mut plan.surfaces[0].layers[place][3],
                inside,
                outside,
            ));
        }
    }
    // LAYER: first, second and last.
    for place in [0, 1, 15] {
        let plan = one(10, [1.0, 1.5, 0.0], &[[1.38, 0.0, 99.0]; 16]);
        for (field, (inside, outside)) in [
            (0, down(1.0)),
            (0, up(4.0)),
            (1, up(0.0)),
            (1, (-0.0, neighbour(0.0, -1))),
            (2, down(0.0)),
            (2, (-0.0, neighbour(0.0, -1))),
            (2, up(100_000.0)),
        ] {
            list.push(pair(
                &plan,
                |plan| &mut plan.surfaces[0].layers[place][field],
                inside,
                outside,
            ));
        }
    }
    list
}

/// Layers whose sum is 16 at 1,000 nm, and more than 16 from the last on: n, k, thickness.
pub const IN_ORDER: [[f64; 3]; 4] = [
    [1.0, 0.125, 155.625],
    [1.0, 7.25, 178.25],
    [1.0, 3.75, 68.25],
    [1.0, 1.75, 559.3005511259004],
];

/// The same for slip 12's limits: n, k, thickness and the sum at each of four places, the angle, the count, the order.
pub fn metals() -> Vec<(Vec<u8>, Vec<u8>)> {
    let up = |x: f64| (x, neighbour(x, 1));
    let down = |x: f64| (x, neighbour(x, -1));
    let film = [0.25, 2.0, 64.0];
    let mut list = Vec::new();
    let plan = one(10, [1.0, 1.5, 0.0], &[film; 4]);
    for place in 0..4 {
        let sum = |x: f64| {
            let mut layers = plan.surfaces[0].layers.clone();
            layers[place][2] = x;
            depth(&layers, plan.beam[0]) <= 16.0
        };
        for (field, (inside, outside)) in [
            (0, down(0.0625)),
            (0, up(4.0)),
            (1, down(0.0)),
            (1, (-0.0, neighbour(0.0, -1))),
            (1, up(8.0)),
            (2, down(0.0)),
            (2, (-0.0, neighbour(0.0, -1))),
            (2, boundary(64.0, 1000.0, sum)),
        ] {
            list.push(pair(
                &plan,
                |plan| &mut plan.surfaces[0].layers[place][field],
                inside,
                outside,
            ));
        }
        let mut thick = plan.clone();
        thick.surfaces[0].layers[place][1] = 1e-300;
        list.push(pair(
            &thick,
            |plan| &mut plan.surfaces[0].layers[place][2],
            100_000.0,
            neighbour(100_000.0, 1),
        ));
        // A kind 6 among them.
        let mut glass = plan.clone();
        glass.edition = 2;
        glass.surfaces[0].layers[place] = vec![0.25, 0.0, 0.0, 64.0];
        for (inside, outside) in [down(0.0625), up(4.0)] {
            list.push(pair(
                &glass,
                |plan| &mut plan.surfaces[0].layers[place][0],
                inside,
                outside,
            ));
        }
    }
    for (inside, outside) in [up(0.0), (-0.0, neighbour(0.0, -1))] {
        list.push(pair(
            &plan,
            |plan| &mut plan.surfaces[0].numbers[2],
            inside,
            outside,
        ));
    }
    // The wavelength below which the sum is over 16.
    let layers = &plan.surfaces[0].layers;
    let (inside, outside) = boundary(550.0, 100.0, |x| depth(layers, x) <= 16.0);
    list.push(pair(&plan, |plan| &mut plan.beam[0], inside, outside));
    for count in 1..=4 {
        let five = one(10, [1.0, 1.5, 0.0], &[film; 5]);
        list.push((
            one(10, [1.0, 1.5, 0.0], &vec![film; count]).bytes(),
            five.bytes(),
        ));
    }
    let mut order = one(10, [1.0, 1.5, 0.0], &IN_ORDER);
    order.beam[0] = 1000.0;
    let inside = order.bytes();
    order.surfaces[0].layers.reverse();
    list.push((inside, order.bytes()));
    list
}

const SPECIAL: [f64; 10] = [
    f64::NAN,
    f64::INFINITY,
    f64::NEG_INFINITY,
    0.0,
    -0.0,
    f64::from_bits(1),
    -f64::from_bits(1),
    f64::MAX,
    1.0,
    -1.0,
];

/// Every field of a sheet of either edition with each special value.
fn fields() -> Vec<Vec<u8>> {
    let mut list = Vec::new();
    for whole in [varied(), mixed(), retuned(), gilded()].map(|plan| plan.write()) {
        for kind in &whole.kinds {
            for field in 0..whole.floats(*kind) {
                for x in SPECIAL {
                    let mut words = whole.words.clone();
                    words[kind + 1 + 2 * field] = (x.to_bits() >> 32) as u32;
                    words[kind + 2 + 2 * field] = x.to_bits() as u32;
                    list.push(from_words(&words));
                }
            }
        }
    }
    list
}

/// The longest sheet of either edition, and a word less and more; the longest of edition 2 under other first words.
fn long() -> Vec<Vec<u8>> {
    let mut list = Vec::new();
    for (whole, length) in [
        (largest().bytes(), 30_500),
        (largest_of_two().bytes(), 39_460),
    ] {
        assert!(whole.len() == length);
        list.push(whole[..length - 4].to_vec());
        list.push([&whole[..], &[0; 4]].concat());
        list.push(whole);
    }
    let mut other = largest_of_two().bytes();
    for first in [[0x10, 0, 0, 1], [0x10, 0, 0, 3], [0x20, 0, 0, 2]] {
        other[..4].copy_from_slice(&first);
        list.push(other.clone());
    }
    list
}
