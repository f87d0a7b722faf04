// Group names: the trimmed part, `from_format_name`, `to_format_name`; and names to try them with.

use crate::arguments::Arg::{Bytes, Code, Name, Wavelength};
use crate::functions::thin_film::{push_named, surface_coating};
use crate::functions::Function;
use crate::record::packed;
use crate::reference::thin_film::SurfaceCoating;
use crate::values::Rng;

/// The longest name.
const MOST_BYTES: usize = 32;

/// Place and length of the part that is left when 0x09 to 0x0D and 0x20 go from both ends; an empty part is at 0.
pub fn trim(bytes: &[u8]) -> (usize, usize) {
    let stays = |byte: &u8| !matches!(byte, 0x09..=0x0D | 0x20);
    match (bytes.iter().position(stays), bytes.iter().rposition(stays)) {
        (Some(first), Some(last)) => (first, last + 1 - first),
        _ => (0, 0),
    }
}

/// The coating of a name, or refusal 2's place.
pub fn from_format_name(bytes: &[u8]) -> Result<Option<SurfaceCoating>, usize> {
    if bytes.len() > MOST_BYTES {
        return Err(MOST_BYTES);
    }
    if let Some(place) = bytes.iter().position(|byte| *byte > 127) {
        return Err(place);
    }
    let name = std::str::from_utf8(bytes).expect("ASCII");
    Ok(SurfaceCoating::from_format_name(name))
}

pub fn table() -> Vec<Function> {
    vec![
        Function {
            number: 140,
            group: "names",
            name: "trim",
            args: &[Bytes],
            weight: 4,
            call: |a, r| {
                let (place, length) = trim(&a.bytes());
                r.int(place as u64);
                r.int(length as u64);
            },
        },
        Function {
            number: 141,
            group: "names",
            name: "SurfaceCoating::from_format_name",
            args: &[Name],
            weight: 6,
            call: |a, r| match from_format_name(&a.bytes()) {
                Err(place) => r.refusal(2, place as u64),
                Ok(None) => {
                    r.int(0);
                    r.int(0);
                    r.float(0.0);
                }
                Ok(Some(coating)) => {
                    r.int(0);
                    push_named(r, &coating);
                }
            },
        },
        Function {
            number: 142,
            group: "names",
            name: "SurfaceCoating::to_format_name",
            args: &[Code, Wavelength],
            weight: 1,
            call: |a, r| {
                let coating = surface_coating(a.int(), a.float(), Vec::new());
                r.bytes(coating.to_format_name().as_bytes());
            },
        },
    ]
}

/// The length, then the bytes, as argument words.
pub fn push(bytes: &[u8], words: &mut Vec<u64>) {
    words.push(bytes.len() as u64);
    words.extend(packed(bytes));
}

pub fn cases(list: &[Vec<u8>]) -> Vec<Vec<u64>> {
    let words = |bytes: &Vec<u8>| {
        let mut words = Vec::new();
        push(bytes, &mut words);
        words
    };
    list.iter().map(words).collect()
}

const KNOWN: [&str; 14] = [
    "MGF2", "BBAR", "HE-NE", "MIRROR", "REFL", "HR", "AR", "AR_", "NONE", "UNCOATED", "CUSTOM",
    "MGF", "BBA", "EFL",
];
const TRIMMED: [u8; 6] = [0x09, 0x0A, 0x0B, 0x0C, 0x0D, 0x20];
const KEPT: [u8; 8] = [0x00, 0x08, 0x0E, 0x1C, 0x1F, 0x21, 0x5F, 0x7F];

/// A name made of known parts, of either case, among bytes that are trimmed or nearly so.
pub fn name(rng: &mut Rng) -> Vec<u8> {
    let mut bytes = Vec::new();
    spaces(rng, &mut bytes);
    for _ in 0..rng.pick(&[1, 1, 1, 1, 0, 2, 3]) {
        let mut part = rng.pick(&KNOWN).as_bytes().to_vec();
        if rng.one_in(6) {
            let place = rng.below(part.len());
            part[place] = (rng.bits() & 127) as u8;
        }
        if rng.one_in(2) {
            for byte in &mut part {
                if rng.one_in(2) {
                    *byte = byte.to_ascii_lowercase();
                }
            }
        }
        if rng.one_in(8) {
            bytes.push(rng.pick(&KEPT));
        }
        bytes.extend(part);
        if rng.one_in(8) {
            bytes.push((rng.bits() & 127) as u8);
        }
    }
    spaces(rng, &mut bytes);
    if rng.one_in(10) {
        bytes.resize(rng.pick(&[30, 31, 32, 33, 40]), b'R');
    }
    if rng.one_in(10) && !bytes.is_empty() {
        let place = rng.below(bytes.len());
        bytes[place] |= 128;
    }
    bytes
}

fn spaces(rng: &mut Rng, bytes: &mut Vec<u8>) {
    for _ in 0..rng.pick(&[0, 0, 0, 1, 2, 3, 12]) {
        bytes.push(rng.pick(&TRIMMED));
    }
}

/// A name, or any bytes of any length up to some hundreds.
pub fn bytes(rng: &mut Rng) -> Vec<u8> {
    match rng.below(4) {
        0 | 1 => name(rng),
        2 => (0..rng.below(40)).map(|_| rng.pick(&TRIMMED)).collect(),
        _ => {
            let mut bytes = Vec::new();
            spaces(rng, &mut bytes);
            let length = rng.pick(&[1, 2, 8, 31, 32, 33, 64, 300]);
            bytes.extend((0..rng.below(length + 1)).map(|_| (rng.bits() >> 56) as u8));
            spaces(rng, &mut bytes);
            bytes
        }
    }
}

/// The fixed names.
pub fn names() -> Vec<Vec<u8>> {
    let texts = [
        "",
        " mgf2 ",
        "CUSTOM",
        "none",
        " None\t",
        "uncoated",
        "NONE1",
        "mgf2",
        "xmgf2y",
        "BBARMGF2",
        "MGF2BBAR",
        "bbar",
        "xBbArx",
        "HE-NE",
        "he-ne",
        "HE-NE2",
        "MIRROR",
        "mirror",
        "MIRROR2",
        "HR",
        "hr",
        "HRX",
        "REFL",
        "xreflx",
        "REFLBBAR",
        "AR",
        "ar",
        "AR_1",
        "BAR",
        "B BAR",
        "MG F2",
        "R",
        "A",
        "\u{8}AR",
        "\u{e}none",
        "\u{1f}none",
        "none\u{0}",
        "\u{b}\u{c}none\r\n",
        "\u{1c}none",
        "none none",
        "MGFMGF2",
        "BBBAR",
        "REREFL",
    ];
    let mut list: Vec<Vec<u8>> = texts.iter().map(|text| text.as_bytes().to_vec()).collect();
    list.extend((0..=255).map(|byte| vec![byte]));
    for length in [1, 2, 7, 8, 9, 31, 32, 33, 34, 64] {
        list.push(vec![b' '; length]);
        list.push(vec![b'A'; length]);
    }
    for place in [0, 1, 30, 31] {
        for length in [32, 33] {
            let mut name = vec![b'M'; length];
            name[place] = 0x80;
            list.push(name);
        }
    }
    let mut padded = vec![b' '; 28];
    padded.extend(b"MGF2");
    list.push(padded);
    list
}

/// The fixed byte strings of `trim`: the names, and bytes that only wider texts would trim.
pub fn byte_strings() -> Vec<Vec<u8>> {
    let mut list = names();
    list.push(b"\xC2\x85AR\xC2\xA0".to_vec());
    list.push(b" \xE2\x80\x83AR\xE3\x80\x80 ".to_vec());
    list.push(b"\x85 AR \xA0".to_vec());
    list.push([vec![b' '; 500], vec![0xFF], vec![b'\n'; 500]].concat());
    list
}
