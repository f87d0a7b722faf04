// Document 02, slip 14, read another way than the code: each line's wavelength is written over the BEAM's in the sheet's
// bytes, and that sheet is gated and run; every refusal there is is found, and the first in the slip's order is taken.

use crate::functions::names::push;
use crate::functions::train::tune;
use crate::sheet::{gate, Refusal};
use crate::sheets::{largest, largest_of_two, mixed, random_plan, retuned, sheet, varied};
use crate::train::run;
use crate::values::{neighbour, Rng};

/// A sheet's bytes, wavelengths and weights.
pub type Band = (Vec<u8>, Vec<f64>, Vec<u32>);

/// The sheet with another wavelength in its BEAM, which stands after OPEN and its own kind word.
pub fn at_wavelength(bytes: &[u8], wavelength: f64) -> Vec<u8> {
    let mut bytes = bytes.to_vec();
    bytes[8..16].copy_from_slice(&wavelength.to_bits().to_be_bytes());
    bytes
}

/// s and p after the last surface of an admitted sheet; the BEAM's where it has none.
fn last_powers(bytes: &[u8]) -> [f64; 2] {
    let sheet = gate(bytes).expect("admitted");
    let mut list = vec![0.0; 2 * sheet.surfaces.len()];
    run(bytes, &mut list).expect("admitted");
    match list[..] {
        [.., s, p] => [s, p],
        _ => [sheet.s, sheet.p],
    }
}

/// The terms added up from the first on, onto +0.
fn total(terms: &[f64]) -> f64 {
    match terms.split_last() {
        None => 0.0,
        Some((last, before)) => total(before) + last,
    }
}

/// The means of s and of p, or a refusal.
pub fn band(bytes: &[u8], wavelengths: &[f64], weights: &[u32]) -> Result<[f64; 2], Refusal> {
    let sheet = gate(bytes)?;
    let refused = |number, place: usize| Refusal {
        number,
        place: place as u64,
    };
    let mut faults = Vec::new();
    let tuned = sheet.surfaces.iter().filter_map(|y| y.retune);
    faults.extend(tuned.map(|(word, _)| refused(12, word)));
    let lengths = [wavelengths.len(), weights.len()];
    if lengths[0] != lengths[1] || lengths.contains(&0) || lengths.iter().any(|n| *n > 64) {
        faults.push(refused(15, 64));
    }
    let weighed = |i: &usize| weights[*i] == 0 || weights[*i] > 1000;
    faults.extend((0..lengths[1]).filter(weighed).map(|i| refused(15, i)));
    let turned_back = |i: &usize| gate(&at_wavelength(bytes, wavelengths[*i])).is_err();
    let few = faults.is_empty();
    faults.extend(
        (0..lengths[0])
            .filter(|i| few && turned_back(i))
            .map(|i| refused(16, i)),
    );
    if let Some(first) = faults.first() {
        return Err(*first);
    }
    let lines: Vec<[f64; 2]> = wavelengths
        .iter()
        .map(|w| last_powers(&at_wavelength(bytes, *w)))
        .collect();
    let whole: u64 = weights.iter().map(|n| u64::from(*n)).sum();
    Ok([0, 1].map(|power| {
        let weighed = |(n, line): (&u32, &[f64; 2])| f64::from(*n) * line[power];
        let terms: Vec<f64> = weights.iter().zip(&lines).map(weighed).collect();
        total(&terms) / whole as f64
    }))
}

fn weight(rng: &mut Rng) -> u32 {
    match rng.below(8) {
        0 => rng.pick(&[1, 1000]),
        _ => 1 + rng.below(1000) as u32,
    }
}

/// A band: most are answered; the others have each fault, some two at once.
pub fn random(rng: &mut Rng) -> Band {
    let bytes = if rng.one_in(4) {
        sheet(rng)
    } else {
        let edition = 1 + rng.below(2) as u32;
        let (surfaces, layers) = (rng.below(5), rng.pick(&[0, 2, 3, 8]));
        let mut plan = random_plan(rng, edition, surfaces, layers);
        if !rng.one_in(8) {
            plan.surfaces.iter_mut().for_each(|y| y.retune = None);
        }
        plan.bytes()
    };
    let near = gate(&bytes).map_or(550.0, |sheet| sheet.wavelength);
    let count = match rng.below(16) {
        0 => rng.pick(&[0, 65, 66]),
        1 => 64,
        _ => 1 + rng.below(6),
    };
    let wild = rng.one_in(6);
    let line = |rng: &mut Rng| match wild {
        true => tune(rng, near),
        false => (near * rng.uniform(0.98, 1.02)).clamp(100.0, 10_000.0),
    };
    let mut wavelengths: Vec<f64> = (0..count).map(|_| line(rng)).collect();
    let mut weights: Vec<u32> = (0..count).map(|_| weight(rng)).collect();
    if count > 0 && rng.one_in(12) {
        let bad = rng.pick(&[0, 1001, u32::MAX]);
        weights[rng.below(count)] = bad;
    }
    match rng.below(24) {
        0 => wavelengths.truncate(count / 2),
        1 => weights.truncate(count / 2),
        _ => {}
    }
    (bytes, wavelengths, weights)
}

/// Behind the counts of both lists, their numbers; then the sheet.
fn words((bytes, wavelengths, weights): &Band, words: &mut Vec<u64>) {
    words.push(wavelengths.len() as u64);
    words.push(weights.len() as u64);
    words.extend(wavelengths.iter().map(|w| w.to_bits()));
    words.extend(weights.iter().map(|n| u64::from(*n)));
    push(bytes, words);
}

pub fn push_band(rng: &mut Rng, out: &mut Vec<u64>) {
    words(&random(rng), out);
}

/// Each limit from both sides, each refusal before the next, and the longest sheets.
pub fn cases() -> Vec<Vec<u64>> {
    let plain = varied().bytes();
    let lines = |count: usize| vec![550.0; count];
    let ones = |count: usize| vec![1; count];
    let mut bands: Vec<Band> = vec![
        (plain.clone(), vec![400.0, 550.0, 700.0], vec![1, 1000, 3]),
        (mixed().bytes(), vec![540.0, 560.0], vec![7, 9]),
        (mixed().bytes(), vec![550.0, 100.0], vec![7, 9]),
        (retuned().bytes(), lines(1), ones(1)),
        (retuned().bytes(), vec![f64::NAN], vec![0]),
        (largest().bytes(), vec![1000.0], ones(1)),
        (largest_of_two().bytes(), lines(1), ones(1)),
        (Vec::new(), Vec::new(), Vec::new()),
        (plain.clone(), vec![550.0, f64::NAN], vec![1, 0]),
        (plain.clone(), vec![f64::NAN, 550.0], vec![1, 1001]),
    ];
    for (a, b) in [
        (0, 0),
        (1, 0),
        (0, 1),
        (2, 1),
        (64, 64),
        (65, 65),
        (64, 63),
        (66, 1),
    ] {
        bands.push((plain.clone(), lines(a), ones(b)));
    }
    for n in [0, 1, 1000, 1001, u32::MAX] {
        bands.push((plain.clone(), lines(3), vec![5, n, 5]));
    }
    for end in [100.0, 10_000.0] {
        for steps in -1..=1 {
            bands.push((plain.clone(), vec![550.0, neighbour(end, steps)], ones(2)));
        }
    }
    let case = |band: &Band| {
        let mut out = Vec::new();
        words(band, &mut out);
        out
    };
    bands.iter().map(case).collect()
}
