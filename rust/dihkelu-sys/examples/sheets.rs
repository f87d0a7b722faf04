//! Sheets from commands, as tests/sheets.c of the repository has them: for its tests.
use dihkelu_sys::{Coating, Layer, Refusal, Sheet, Surface};
use std::io::BufRead;

const COATINGS: [Coating; 8] = [
    Coating::Bare,
    Coating::IdealAr,
    Coating::Mgf2,
    Coating::BroadbandAr,
    Coating::Mirror,
    Coating::Custom,
    Coating::IdealBeamsplitter,
    Coating::IdealMirror,
];

fn said(result: Result<Vec<u8>, Refusal>) {
    match result {
        Ok(bytes) => {
            let hex: String = bytes.iter().map(|b| format!("{b:02X}")).collect();
            println!("{:016X} answered {} {hex}", bytes.len(), bytes.len());
        }
        Err(r) => println!("{:08X}{:08X} {r}", r.number, r.place),
    }
}

fn main() {
    let (mut sheet, mut retune) = (Sheet::default(), None);
    for line in std::io::stdin().lock().lines().map(|l| l.unwrap()) {
        let words: Vec<&str> = line.split(' ').collect();
        let payload: u32 = words[1].parse().unwrap();
        let bits = |i: usize| u64::from_str_radix(words[2 + i], 16).unwrap();
        let x = [0, 1, 2, 3].map(|i| f64::from_bits(bits(i)));
        match words[0] {
            "1" => sheet = Sheet::default(),
            "2" => [sheet.wavelength_nm, sheet.s, sheet.p] = [x[0], x[1], x[2]],
            "3" => sheet.surfaces.push(Surface {
                coating: COATINGS[payload as usize / 2],
                n_incident: x[0],
                n_substrate: x[1],
                angle_rad: x[2],
                reflected: payload % 2 == 1,
                layers: Vec::new(),
                retune_nm: retune.take(),
            }),
            "7" => retune = Some(x[0]),
            "5" => said(sheet.to_bytes()),
            "8" => said(match payload {
                0 => Ok(Vec::new()),
                number => Err(Refusal {
                    number,
                    place: bits(0) as u32,
                }),
            }),
            kind => sheet.surfaces.last_mut().unwrap().layers.push(match kind {
                "4" => Layer::Film {
                    n: x[0],
                    k: x[1],
                    thickness_nm: x[2],
                },
                _ => Layer::Glass {
                    a: x[0],
                    b: x[1],
                    c: x[2],
                    thickness_nm: x[3],
                },
            }),
        }
    }
}
