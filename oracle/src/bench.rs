// Command bench: nanoseconds for a call, best of several runs, of each side; and their ratios.

use crate::section2::{self, PI};
use crate::sheets::{even, glasses, periodic};
use crate::values::Rng;
use std::hint::black_box;
use std::time::Instant;

/// A scalar function of one side, called through a pointer so that none is inlined into the loop.
pub type Scalar = fn(f64, f64) -> f64;

/// Where a surface stands.
pub struct Place {
    pub n_incident: f64,
    pub n_substrate: f64,
    pub angle: f64,
    pub wavelength: f64,
}

/// A workload of one side: runs once over all places and gives a number that depends on every answer.
pub type Work = Box<dyn Fn() -> f64>;

/// The workloads over one of the two modules.
macro_rules! side {
    ($side:ident, $cos:path) => {
        mod $side {
            use super::{Place, Work};
            use crate::sheet::{gate, Surface};
            use crate::$side::fresnel::fresnel_dielectric;
            use crate::$side::thin_film::{Coating, SurfaceCoating, ThinFilmLayer};

            fn bare(place: &Place) -> [f64; 4] {
                let cos = $cos(place.angle);
                let (rs, rp) = fresnel_dielectric(cos, place.n_incident, place.n_substrate);
                [rs, rp, 1.0 - rs, 1.0 - rp]
            }

            fn coated(coating: &SurfaceCoating, place: &Place) -> [f64; 4] {
                let (n_incident, n_substrate) = (place.n_incident, place.n_substrate);
                coating
                    .evaluate(n_incident, n_substrate, place.angle, place.wavelength)
                    .map(|r| {
                        let (rs, rp) = (r.reflectance_s, r.reflectance_p);
                        [rs, rp, r.transmittance_s, r.transmittance_p]
                    })
                    .unwrap_or([0.0; 4])
            }

            fn custom<'a>(layers: impl Iterator<Item = &'a [f64; 3]>) -> SurfaceCoating {
                let layer = |[n, k, thickness_nm]: &[f64; 3]| ThinFilmLayer {
                    n: *n,
                    k: *k,
                    thickness_nm: *thickness_nm,
                };
                SurfaceCoating::Custom(Coating::Multilayer {
                    layers: layers.map(layer).collect(),
                })
            }

            fn over(coating: SurfaceCoating, places: Vec<Place>) -> Work {
                Box::new(move || places.iter().map(|p| coated(&coating, p)[2]).sum())
            }

            /// Gate (the same for both modules) and whole run of a sheet of bare and custom surfaces.
            fn run(bytes: &[u8]) -> f64 {
                let Ok(sheet) = gate(bytes) else { return 0.0 };
                let (mut s, mut p) = (sheet.s, sheet.p);
                for surface in &sheet.surfaces {
                    let [rs, rp, ts, tp] = answer(surface, sheet.wavelength);
                    s *= if surface.reflected { rs } else { ts };
                    p *= if surface.reflected { rp } else { tp };
                }
                s + p
            }

            /// Gate once, and the weighed mean over runs at each line.
            fn band(bytes: &[u8], wavelengths: &[f64], weights: &[u32]) -> f64 {
                let Ok(sheet) = gate(bytes) else { return 0.0 };
                let (mut all_s, mut all_p, mut whole) = (0.0, 0.0, 0);
                for (wavelength, weight) in wavelengths.iter().zip(weights) {
                    let (mut s, mut p) = (sheet.s, sheet.p);
                    for surface in &sheet.surfaces {
                        let [rs, rp, ts, tp] = answer(surface, *wavelength);
                        s *= if surface.reflected { rs } else { ts };
                        p *= if surface.reflected { rp } else { tp };
                    }
                    all_s += f64::from(*weight) * s;
                    all_p += f64::from(*weight) * p;
                    whole += weight;
                }
                (all_s + all_p) / f64::from(whole)
            }

            /// A step onto the last surface: the gate anew, then that surface.
            fn last_step(bytes: &[u8]) -> f64 {
                let Ok(sheet) = gate(bytes) else { return 0.0 };
                let last = sheet.surfaces.len() - 1;
                let [_, _, ts, tp] = answer(&sheet.surfaces[last], sheet.wavelength);
                ts + tp
            }

            fn answer(surface: &Surface, wavelength: f64) -> [f64; 4] {
                let place = Place {
                    n_incident: surface.n_incident,
                    n_substrate: surface.n_substrate,
                    angle: surface.angle,
                    wavelength,
                };
                let layers: Vec<[f64; 3]> = surface
                    .films(wavelength)
                    .iter()
                    .map(|film| [film.n, film.k, film.thickness_nm])
                    .collect();
                if surface.coating == 0 {
                    return bare(&place);
                }
                coated(&custom(layers.iter()), &place)
            }

            pub fn run_of(sheet: Vec<u8>) -> Work {
                Box::new(move || run(&sheet))
            }

            pub fn band_of((sheet, wavelengths, weights): (Vec<u8>, Vec<f64>, Vec<u32>)) -> Work {
                Box::new(move || band(&sheet, &wavelengths, &weights))
            }

            pub fn works() -> Vec<Option<Work>> {
                let layers = super::layers();
                let places = super::places();
                let mut works: Vec<Work> = vec![
                    Box::new(move || places.iter().map(|p| bare(p)[2]).sum()),
                    over(SurfaceCoating::mgf2_default(), super::places()),
                    over(SurfaceCoating::HighReflectanceMirror, super::places()),
                    over(custom(layers.iter().take(16)), super::places()),
                    over(custom(layers.iter()), super::places()),
                ];
                works.extend(super::run_sheets().into_iter().map(run_of));
                for sheet in super::gate_sheets() {
                    works.push(Box::new(move || gate(&sheet).map_or(0.0, |x| x.s)));
                }
                for sheet in super::step_sheets() {
                    works.push(Box::new(move || last_step(&sheet)));
                }
                for text in super::stack_texts() {
                    works.push(Box::new(move || super::read_stack(text)));
                }
                works.push(band_of(super::longest_band()));
                works.into_iter().map(Some).collect()
            }
        }
    };
}

side!(authors, f64::cos);
side!(reference, crate::section2::cos);

/// The workloads, with the number of calls in each.
pub const WORKS: [(&str, usize); 22] = [
    ("bare surface, the two powers alone", 64),
    ("MgF2", 64),
    ("15-layer mirror", 64),
    ("16 custom layers", 64),
    ("64 custom layers", 64),
    ("whole run, 1 surface of 16 layers", 1),
    ("whole run, 8 surfaces of 16 layers", 1),
    ("whole run, 64 surfaces of 16 layers", 1),
    ("whole run, 64 surfaces of 16 layers that take turns", 1),
    ("whole run, 64 surfaces of 4 layers", 1),
    ("whole run, 64 surfaces of 1 layer", 1),
    ("whole run, 1 bare surface", 1),
    ("whole run, 64 bare surfaces", 1),
    ("whole run, 64 surfaces of 16 kind 6", 1),
    ("gate, 1 surface of 16 layers", 1),
    ("gate, the longest sheet: 64 surfaces of 16 layers", 1),
    ("step, 1 surface of 16 layers", 1),
    ("step, the last surface of the longest sheet", 1),
    ("step, 1 bare surface", 1),
    ("stack shorthand, (HL)^7 H", 1),
    ("stack shorthand, 255 bytes of 64 layers", 1),
    ("band, a line of 64, of 64 surfaces of 16 layers", 64),
];

/// Sheets of so many surfaces with so many layers each; without layers they are bare. The last is of edition 2.
pub fn run_sheets() -> Vec<Vec<u8>> {
    [
        even(1, 16),
        even(8, 16),
        even(64, 16),
        periodic(64, 16),
        even(64, 4),
        even(64, 1),
        even(1, 0),
        even(64, 0),
        glasses(64, 16),
    ]
    .map(|plan| plan.bytes())
    .to_vec()
}

pub fn gate_sheets() -> Vec<Vec<u8>> {
    [(1, 16), (64, 16)]
        .map(|(surfaces, layers)| even(surfaces, layers).bytes())
        .to_vec()
}

pub fn step_sheets() -> Vec<Vec<u8>> {
    [(1, 16), (64, 16), (1, 0)]
        .map(|(surfaces, layers)| even(surfaces, layers).bytes())
        .to_vec()
}

/// So many lines and the longest sheet of LAYERs.
fn band_sheet(lines: u32) -> (Vec<u8>, Vec<f64>, Vec<u32>) {
    let wavelengths = (0..lines).map(|i| 400.0 + 5.0 * f64::from(i)).collect();
    (even(64, 16).bytes(), wavelengths, (1..=lines).collect())
}

pub fn longest_band() -> (Vec<u8>, Vec<f64>, Vec<u32>) {
    band_sheet(64)
}

/// The indices of H, L and M.
pub const STACK_INDICES: [f64; 3] = [2.3, 1.46, 1.8];

/// A usual stack, and the longest text of the most layers.
pub fn stack_texts() -> [&'static str; 2] {
    ["(HL)^7 H", LONGEST]
}

const LONGEST: &str = concat!(
    "99H 98L 97M 96H 95L 94M 93H 92L 91M 90H 89L 88M 87H 86L 85M 84H ",
    "83L 82M 81H 80L 79M 78H 77L 76M 75H 74L 73M 72H 71L 70M 69H 68L ",
    "67M 66H 65L 64M 63H 62L 61M 60H 59L 58M 57H 56L 55M 54H 53L 52M ",
    "51H 50L 49M 48H 47L 46M 45H 44L 43M 42H 41L 40M 39H 38L 37M 36H",
);

/// A plain reader in Rust: tokens, a tree, the tree written out. It calls no function of section 2, so that it is the
/// same for both sides.
fn read_stack(text: &str) -> f64 {
    let layers = crate::functions::shorthand::stack(text.as_bytes(), STACK_INDICES, 550.0);
    layers.map_or(0.0, |layers| layers[layers.len() - 1].thickness_nm)
}

pub fn places() -> Vec<Place> {
    let mut rng = Rng::new(3);
    let place = |_| Place {
        n_incident: rng.uniform(1.0, 1.5),
        n_substrate: rng.uniform(1.5, 3.0),
        angle: rng.uniform(0.0, 0.9),
        wavelength: rng.uniform(400.0, 700.0),
    };
    (0..64).map(place).collect()
}

pub fn layers() -> Vec<[f64; 3]> {
    let mut rng = Rng::new(4);
    let layer = |_| [rng.uniform(1.3, 2.4), 0.0, rng.uniform(20.0, 300.0)];
    (0..64).map(layer).collect()
}

pub fn reference_scalars() -> crate::proved::Scalars {
    [
        |x, _| section2::sqrt(x),
        |x, _| section2::sin(x),
        |x, _| section2::cos(x),
        |x, _| section2::exp(x),
        |x, _| section2::atan(x),
        |x, _| section2::asin(x),
        section2::atan2,
    ]
}

fn authors_scalars() -> crate::proved::Scalars {
    [
        |x, _| x.sqrt(),
        |x, _| x.sin(),
        |x, _| x.cos(),
        |x, _| x.exp(),
        |x, _| x.atan(),
        |x, _| x.asin(),
        f64::atan2,
    ]
}

/// The scalar rows: name, which of `proved::NAMES`, range of the arguments.
const SCALARS: [(&str, usize, f64, f64); 11] = [
    ("sqrt", 0, 0.0, 100.0),
    ("sin, one turn", 1, -PI, PI),
    ("sin, phases to 25000", 1, 0.0, 25_000.0),
    ("sin, angles from 2^20 to 10^9", 1, 1_048_577.0, 1e9),
    ("sin, angles from 10^299 to 10^300", 1, 1e299, 1e300),
    ("cos, one turn", 2, -PI, PI),
    ("cos, phases to 25000", 2, 0.0, 25_000.0),
    ("exp", 3, -20.0, 20.0),
    ("atan", 4, -4.0, 4.0),
    ("asin", 5, -1.0, 1.0),
    ("atan2", 6, -2.0, 2.0),
];

/// Nanoseconds for one call: the best of `runs` runs of `calls` calls each.
fn best(runs: usize, calls: usize, mut work: impl FnMut() -> f64) -> f64 {
    let mut least = f64::INFINITY;
    for _ in 0..runs {
        let start = Instant::now();
        black_box(work());
        least = least.min(start.elapsed().as_nanos() as f64 / calls as f64);
    }
    least
}

/// The same for several sides, which take turns, so that what else the machine does falls on all of them.
fn turns(runs: usize, calls: usize, sides: &[&Work]) -> Vec<f64> {
    let mut least = vec![f64::INFINITY; sides.len()];
    for _ in 0..runs {
        for (time, side) in least.iter_mut().zip(sides) {
            *time = time.min(best(1, calls, *side));
        }
    }
    least
}

const CALLS: usize = 1 << 14;

/// Calls that do not wait for each other.
fn throughput(runs: usize, f: Scalar, arguments: &[(f64, f64)]) -> f64 {
    let f = black_box(f);
    best(runs, arguments.len(), || {
        for (x, y) in arguments {
            black_box(f(*x, *y));
        }
        0.0
    })
}

/// Calls that each wait for the last: its result, masked to nothing, goes into the next argument.
fn latency(runs: usize, f: Scalar, arguments: &[(f64, f64)]) -> f64 {
    let f = black_box(f);
    let mask = black_box(0_u64);
    best(runs, arguments.len(), || {
        let mut last = 0.0_f64;
        for (x, y) in arguments {
            let x = f64::from_bits(x.to_bits() ^ (last.to_bits() & mask));
            last = f(x, *y);
        }
        last
    })
}

/// A row: the sides' times, then the ratios of the last one to each of those before it.
fn row(name: &str, times: &[f64]) {
    let mut line = format!("{name:<52}");
    for time in times {
        line += &format!(" {time:>11.1}");
    }
    let (last, others) = times.split_last().expect("a side");
    for other in others {
        line += &format!(" {:>18.2}", last / other);
    }
    println!("{line}");
}

/// Command scaling: microseconds of whole runs over surfaces and over layers, and of bands over lines, a line
/// `what,count,authors,reference,proved` for each.
pub fn scaling(runs: usize) {
    println!("what,count,authors,reference,proved");
    let print = |what: &str, count: usize, works: &[Work]| {
        let sides: Vec<&Work> = works.iter().collect();
        let times = turns(runs, 1, &sides);
        let texts: Vec<String> = times.iter().map(|t| format!("{:.2}", t / 1e3)).collect();
        println!("{what},{count},{}", texts.join(","));
    };
    let run = |what: &str, count: usize, sheet: Vec<u8>| {
        let mut works = vec![
            authors::run_of(sheet.clone()),
            reference::run_of(sheet.clone()),
        ];
        works.extend(crate::proved::run_of(sheet));
        print(what, count, &works);
    };
    for count in (0..=64).step_by(4).map(|n| n.max(1)) {
        run("surfaces", count, even(count, 16).bytes());
    }
    for count in 0..=16 {
        run("layers", count, even(64, count).bytes());
    }
    for count in (0..=64).step_by(8).map(|n| n.max(1)) {
        let band = || band_sheet(count);
        let mut works = vec![authors::band_of(band()), reference::band_of(band())];
        works.extend(crate::proved::band_of(band()));
        print("lines", count as usize, &works);
    }
}

pub fn bench(runs: usize) {
    let mut sides = vec![authors_scalars(), reference_scalars()];
    sides.extend(crate::proved::scalars());
    let mut heading = format!("{:<52}", "nanoseconds for a call");
    for name in ["authors", "reference", "proved"].iter().take(sides.len()) {
        heading += &format!(" {name:>11}");
    }
    let ratios: &[&str] = match sides.len() {
        3 => &["proved/authors", "proved/reference"],
        _ => &["reference/authors"],
    };
    for name in ratios {
        heading += &format!(" {name:>18}");
    }
    println!("{heading}");
    for (name, which, lo, hi) in SCALARS {
        let mut rng = Rng::new(5);
        let pair = |_| (rng.uniform(lo, hi), rng.uniform(lo, hi));
        let arguments: Vec<(f64, f64)> = (0..CALLS).map(pair).collect();
        let time = |how: fn(usize, Scalar, &[(f64, f64)]) -> f64| -> Vec<f64> {
            sides
                .iter()
                .map(|side| how(runs, side[which], &arguments))
                .collect()
        };
        row(name, &time(throughput));
        row(
            &format!("{name}, each waiting for the last"),
            &time(latency),
        );
    }
    let mut works = vec![authors::works(), reference::works()];
    works.extend(crate::proved::works());
    let mut times = Vec::new();
    for (i, (name, calls)) in WORKS.iter().enumerate() {
        let sides: Vec<&Work> = works.iter().filter_map(|side| side[i].as_ref()).collect();
        times.push(turns(runs, *calls, &sides));
        row(name, &times[i]);
    }
    beside_runs(&times);
}

/// A line of our band beside a whole run of each other side, with its gate: the share of 64 runs that 64 lines take.
fn beside_runs(times: &[Vec<f64>]) {
    let of = |part: &str| WORKS.iter().position(|(name, _)| name.starts_with(part));
    let (Some(run), Some(band)) = (of("whole run, 64 surfaces of 16 layers"), of("band,")) else {
        return;
    };
    if let ([authors, reference, ..], [_, _, ours]) = (&times[run][..], &times[band][..]) {
        let name = "band, a line of 64, beside their whole runs";
        row(name, &[*authors, *reference, *ours]);
    }
}
