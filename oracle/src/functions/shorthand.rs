// Group shorthand: 02 slip 1, read a second way. Digits that touch are one token; the tokens are read as a tree, and the tree is
// written out. A place of 9 is found by trying continuations, with no state between the bytes.

use crate::arguments::Arg::{Index, Stack, Wavelength};
use crate::functions::Function;
use crate::reference::thin_film::ThinFilmLayer;
use crate::values::Rng;

const MOST_BYTES: usize = 255;
const MOST_LAYERS: u64 = 64;
const DEEPEST: usize = 4;

#[derive(Clone, Debug, PartialEq)]
enum Token {
    Number(String),
    Letter(u8),
    Open,
    Close,
    Power,
}

enum Item {
    Letter(Option<u64>, u8),
    Bracket(Vec<(Item, u64)>),
}

type Items = Vec<(Item, u64)>;

/// The tokens; none where a byte is none of the grammar's.
fn tokens(text: &[u8]) -> Option<Vec<Token>> {
    let mut list = Vec::new();
    let mut touching = false;
    for byte in text {
        let digit = byte.is_ascii_digit();
        match (byte, list.last_mut()) {
            (b'0'..=b'9', Some(Token::Number(digits))) if touching => digits.push(*byte as char),
            (b'0'..=b'9', _) => list.push(Token::Number((*byte as char).to_string())),
            (b'H' | b'L' | b'M', _) => list.push(Token::Letter(*byte)),
            (b'(', _) => list.push(Token::Open),
            (b')', _) => list.push(Token::Close),
            (b'^', _) => list.push(Token::Power),
            (b' ', _) => {}
            _ => return None,
        }
        touching = digit;
    }
    Some(list)
}

/// A whole number from 1 to `most` with no leading zero.
fn number(digits: &str, most: u64) -> Option<u64> {
    if digits.starts_with('0') || digits.len() > 2 {
        return None;
    }
    digits.parse().ok().filter(|n| *n <= most)
}

/// The power at the front of the tokens, 1 where none is written, and the tokens behind it.
fn power(rest: &[Token]) -> Option<(u64, &[Token])> {
    match rest {
        [Token::Power, Token::Number(digits), rest @ ..] => Some((number(digits, 31)?, rest)),
        [Token::Power, ..] => None,
        _ => Some((1, rest)),
    }
}

/// Items up to a closing bracket or the end, at least one.
fn items(mut rest: &[Token], deeper: usize) -> Option<(Items, &[Token])> {
    let mut list = Vec::new();
    loop {
        let (item, behind) = match rest {
            [] | [Token::Close, ..] => break,
            [Token::Number(digits), Token::Letter(letter), behind @ ..] => {
                (Item::Letter(Some(number(digits, 99)?), *letter), behind)
            }
            [Token::Letter(letter), behind @ ..] => (Item::Letter(None, *letter), behind),
            [Token::Open, inside @ ..] if deeper > 0 => match items(inside, deeper - 1)? {
                (inner, [Token::Close, behind @ ..]) => (Item::Bracket(inner), behind),
                _ => return None,
            },
            _ => return None,
        };
        let (times, behind) = power(behind)?;
        list.push((item, times));
        rest = behind;
    }
    (!list.is_empty()).then_some((list, rest))
}

/// The tree of a text of the grammar, of any length.
fn tree(text: &[u8]) -> Option<Items> {
    match items(&tokens(text)?, DEEPEST)? {
        (list, []) => Some(list),
        _ => None,
    }
}

/// Whether some text of the grammar begins so. Where one does, H or 1 where it is due and brackets end it.
fn begins(front: &[u8]) -> bool {
    ["", "H", "1"].iter().any(|due| {
        (0..=DEEPEST)
            .any(|open| tree(&[front, due.as_bytes(), &b"))))"[..open]].concat()).is_some())
    })
}

/// How many layers a tree has.
fn count(list: &Items) -> u64 {
    let one = |item: &Item| match item {
        Item::Letter(..) => 1,
        Item::Bracket(inner) => count(inner),
    };
    list.iter().map(|(item, times)| one(item) * times).sum()
}

fn write_out(list: &Items, n: [f64; 3], design: f64, layers: &mut Vec<ThinFilmLayer>) {
    for (item, times) in list {
        for _ in 0..*times {
            match item {
                Item::Bracket(inner) => write_out(inner, n, design, layers),
                Item::Letter(multiplier, letter) => {
                    let n = n[b"HLM".iter().position(|l| l == letter).expect("a letter")];
                    let quarter = design / (4.0 * n);
                    let thickness_nm = multiplier.map_or(quarter, |m| m as f64 * quarter);
                    layers.push(ThinFilmLayer {
                        n,
                        k: 0.0,
                        thickness_nm,
                    });
                }
            }
        }
    }
}

/// The layers of a text, or a refusal's number and place.
pub fn stack(text: &[u8], n: [f64; 3], design: f64) -> Result<Vec<ThinFilmLayer>, (u64, u64)> {
    let fine = |x: &f64| x.is_finite() && *x > 0.0;
    if !n.iter().chain([&design]).all(fine) {
        return Err((1, 0));
    }
    if text.len() > MOST_BYTES {
        return Err((9, 255));
    }
    let Some(list) = tree(text) else {
        let wrong = (0..text.len()).find(|i| !begins(&text[..=*i]));
        return Err((9, wrong.unwrap_or(text.len()) as u64));
    };
    if count(&list) > MOST_LAYERS {
        return Err((10, 0));
    }
    let mut layers = Vec::new();
    write_out(&list, n, design, &mut layers);
    Ok(layers)
}

pub fn table() -> Vec<Function> {
    vec![Function {
        number: 145,
        group: "shorthand",
        name: "stack",
        args: &[Index, Index, Index, Wavelength, Stack],
        weight: 2,
        call: |a, r| {
            let [h, l, m, design] = a.floats();
            match stack(&a.bytes(), [h, l, m], design) {
                Err((number, place)) => r.refusal(number, place),
                Ok(layers) => {
                    r.int(0);
                    r.layers(&layers);
                }
            }
        },
    }]
}

// ---- texts

const BYTES: &[u8] = b"HLM019()^ h";

/// All texts of up to `most` bytes over the grammar's kinds of bytes and a letter that is none.
pub fn short_texts(most: usize) -> Vec<Vec<u8>> {
    let mut all = vec![Vec::new()];
    let mut from = 0;
    for _ in 0..most {
        let to = all.len();
        for at in from..to {
            for byte in BYTES {
                let mut text: Vec<u8> = all[at].clone();
                text.push(*byte);
                all.push(text);
            }
        }
        from = to;
    }
    all
}

/// Texts with fixed answers: those of the slip, its limits, and lengths about 255.
pub fn texts() -> Vec<Vec<u8>> {
    let fixed = [
        "(HL)^7 H",
        "2H^3",
        "H^32H",
        "H^3 2H",
        "H^31",
        "H^32",
        "H^42",
        "99M",
        "100H",
        "1 2H",
        "0H",
        "01H",
        "2(H)",
        "2 (H)",
        "()",
        "( )",
        "H^2^2",
        "H^3 ^2",
        "((((H))))",
        "(((((H",
        "(H^31)^2 HH",
        "(H^31)^2 HHH",
        "((((H^31)^31)^31)^31)^31",
        "(H^31)^3)",
        "H^",
        "2",
        "(H",
        "H)",
        "h",
        "H\tL",
        " ",
        "",
        "2 H ^ 3",
        "H^0",
        "H^03",
        "MLH",
        "H 1",
        "^2",
        "(HL)2M",
    ];
    let mut all: Vec<Vec<u8>> = fixed.iter().map(|text| text.as_bytes().to_vec()).collect();
    for length in 250..=260 {
        all.push(vec![b'H'; length]);
        all.push(vec![b' '; length]);
        let mut text = vec![b' '; length];
        text[0] = b'H';
        all.push(text.clone());
        text[length - 1] = b'(';
        all.push(text);
        let mut text = b"((((".to_vec();
        while text.len() + 20 < length {
            text.extend(b"H^31");
        }
        text.extend(b"HHH)^31)^31)^31)^31");
        text.resize(length, b' ');
        all.push(text);
    }
    all.extend(short_texts(1));
    all
}

/// A text near the grammar: a good one, seldom damaged, or bytes of its kinds.
pub fn text(rng: &mut Rng) -> Vec<u8> {
    let mut bytes = Vec::new();
    if rng.one_in(6) {
        for _ in 0..rng.below(12) {
            bytes.push(rng.pick(BYTES));
        }
        return bytes;
    }
    good(rng, DEEPEST, &mut bytes);
    if rng.one_in(40) {
        let length = 250 + rng.below(11);
        bytes.resize(length.max(bytes.len()), b' ');
    }
    if rng.one_in(3) && !bytes.is_empty() {
        let place = rng.below(bytes.len());
        match rng.below(3) {
            0 => bytes[place] = rng.pick(BYTES),
            1 => bytes.insert(place, rng.pick(BYTES)),
            _ => drop(bytes.remove(place)),
        }
    }
    bytes
}

fn blanks(rng: &mut Rng, bytes: &mut Vec<u8>) {
    for _ in 0..rng.pick(&[0, 0, 0, 0, 0, 1, 1, 2]) {
        bytes.push(b' ');
    }
}

fn good(rng: &mut Rng, deeper: usize, bytes: &mut Vec<u8>) {
    for _ in 0..1 + rng.below(4) {
        blanks(rng, bytes);
        if deeper > 0 && rng.one_in(4) {
            bytes.push(b'(');
            good(rng, deeper - 1, bytes);
            blanks(rng, bytes);
            bytes.push(b')');
        } else {
            if rng.one_in(4) {
                if bytes.last().is_some_and(u8::is_ascii_digit) {
                    bytes.push(b' ');
                }
                bytes.extend((1 + rng.below(99)).to_string().bytes());
                blanks(rng, bytes);
            }
            bytes.push(rng.pick(b"HLM"));
        }
        if rng.one_in(3) {
            blanks(rng, bytes);
            bytes.push(b'^');
            blanks(rng, bytes);
            let power = if rng.one_in(3) { 31 } else { 4 };
            bytes.extend((1 + rng.below(power)).to_string().bytes());
        }
    }
    blanks(rng, bytes);
}
