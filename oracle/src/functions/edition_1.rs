// Group edition_1: 02 slip 6. The sheet is read to numbers, each layer is worked out at the BEAM's wavelength, and the
// numbers are written as a sheet anew: no word is copied.

use crate::arguments::Arg::Old;
use crate::functions::names::push;
use crate::functions::Function;
use crate::sheet::{gate, Refusal, Surface};
use crate::sheet_cases::cases as sheets;
use crate::sheets::{glasses, largest, largest_of_two, mixed, sheet, Face, Plan};
use crate::values::Rng;

/// Every byte of a recorded output before the call.
const BEFORE: u8 = 0xA5;

/// The edition 1 sheet of a sheet; 12 with the word of the first kind 7.
pub fn edition_1(bytes: &[u8]) -> Result<Vec<u8>, Refusal> {
    let sheet = gate(bytes)?;
    if let Some((word, _)) = sheet.surfaces.iter().find_map(|y| y.retune) {
        return Err(Refusal {
            number: 12,
            place: word as u64,
        });
    }
    let face = |y: &Surface| Face {
        payload: 2 * y.coating + u32::from(y.reflected),
        numbers: [y.n_incident, y.n_substrate, y.angle],
        layers: y
            .films(sheet.wavelength)
            .iter()
            .map(|film| vec![film.n, film.k, film.thickness_nm])
            .collect(),
        retune: None,
    };
    let new = Plan {
        edition: 1,
        beam: [sheet.wavelength, sheet.s, sheet.p],
        surfaces: sheet.surfaces.iter().map(face).collect(),
    };
    Ok(new.bytes())
}

/// What the call returns, and what it leaves of an output; 8 where the new sheet does not fit.
pub fn written(bytes: &[u8], output: &[u8]) -> (u64, Vec<u8>) {
    match edition_1(bytes) {
        Err(refusal) => (refusal.number << 32 | refusal.place, output.to_vec()),
        Ok(new) if new.len() > output.len() => (8 << 32, output.to_vec()),
        Ok(new) => (new.len() as u64, [&new, &output[new.len()..]].concat()),
    }
}

/// All bytes as one word: from 0 on, it is turned left by one bit and added without carry to each.
fn folded(bytes: &[u8]) -> u64 {
    let turned = |sum: u64, byte: &u8| sum.rotate_left(1) ^ u64::from(*byte);
    bytes.iter().fold(0, turned)
}

pub fn table() -> Vec<Function> {
    vec![Function {
        number: 198,
        group: "edition_1",
        name: "dihkelu_edition_1",
        args: &[Old],
        weight: 1,
        call: |a, r| {
            let room = a.int() as usize;
            let (returned, output) = written(&a.bytes(), &vec![BEFORE; room]);
            r.int(returned);
            r.int(folded(&output));
        },
    }]
}

/// How many bytes the new sheet needs; those of the old one where there is none.
pub fn need(bytes: &[u8]) -> usize {
    edition_1(bytes).map_or(bytes.len(), |new| new.len())
}

fn case(room: usize, bytes: &[u8]) -> Vec<u64> {
    let mut words = vec![room as u64];
    push(bytes, &mut words);
    words
}

/// An output's length, most about the need, then a sheet.
pub fn push_old(rng: &mut Rng, words: &mut Vec<u64>) {
    let bytes = sheet(rng);
    let need = need(&bytes);
    let room = match rng.below(8) {
        0 => rng.below(need + 1),
        1 => bytes.len(),
        2 | 3 => need.saturating_sub(1 + rng.below(9)),
        4 | 5 => need + 1 + rng.below(9),
        _ => need,
    };
    words.extend(case(room, &bytes));
}

/// One fixed short sheet of eight with an output that fits, the longest sheets, and one with kinds 6 with outputs about the need.
pub fn old_cases() -> Vec<Vec<u64>> {
    let few = sheets().into_iter().step_by(8);
    let mut list: Vec<Vec<u8>> = few.filter(|bytes| bytes.len() < 2000).collect();
    list.extend([largest(), largest_of_two(), glasses(64, 16)].map(|plan| plan.bytes()));
    let mut cases: Vec<Vec<u64>> = list.iter().map(|bytes| case(need(bytes), bytes)).collect();
    let bytes = mixed().bytes();
    let about = need(&bytes) - 12..=need(&bytes) + 12;
    cases.extend([0, bytes.len()].map(|room| case(room, &bytes)));
    cases.extend(about.map(|room| case(room, &bytes)));
    cases
}
