//! Document 01's sheet from Rust: gate, start, a retune, steps, the answers of its surface, a whole run; a stack in shorthand;
//! Mueller matrices of empty space; quarter waves; an edition 1 sheet of a glass.

#[path = "../../include/dihkelu.rs"]
mod dihkelu;

use dihkelu::{
    answers, band, edition_1, environment_ok, evaluate, gate, mueller_born_wolf, quarter_waves, retune, run, stack, start, step, to_mueller,
    version, Refusal, Train, COATED, EDITION_1, MUELLER, RESPONSE, STACK, VERSION,
};

fn main() -> Result<(), Refusal> {
    let words: [u32; 16] = [
        0x10000001, 0x20000000, 0x407F4000, 0x00000000, 0x3FE00000, 0x00000000, 0x3FE00000, 0x00000000,
        0x30000000, 0x3FF00000, 0x00000000, 0x40080000, 0x00000000, 0x00000000, 0x00000000, 0x50000001,
    ];
    // edition 2: a glass of 64 nm whose index is 2 at the beam's 500 nm
    let glass_words = [
        0x1000_0002, 0x2000_0000, 0x407F_4000, 0, 0x3FE0_0000, 0, 0x3FE0_0000, 0, 0x3000_000A, 0x3FF0_0000, 0, 0x3FF8_0000, 0, 0, 0,
        0x6000_0000, 0x3FF8_0000, 0, 0x3FB0_0000, 0, 0x3F90_0000, 0, 0x4050_0000, 0, 0x5000_0001,
    ];
    assert_eq!(version(), VERSION, "the library is of another version than its declarations");
    assert!(environment_ok(), "subnormals are flushed, or rounding is not to nearest");
    let mut sheet: Vec<u8> = words.iter().flat_map(|w| w.to_be_bytes()).collect();

    let surfaces = gate(&sheet)?;
    println!("surfaces {surfaces}");
    let mut train = Train::default();
    start(&sheet, &mut train)?;
    println!("start {:016X} {:016X} at {} nm", train.s.to_bits(), train.p.to_bits(), train.wavelength_nm);
    retune(&sheet, &mut train, 632.8)?;
    println!("retuned to {} nm", train.wavelength_nm);
    if let Err(refusal) = retune(&sheet, &mut train, 99.0) {
        println!("retune: refused {} {}", refusal.number, refusal.place);
    }

    while train.surfaces_done < surfaces {
        let done = train.surfaces_done;
        let mut list = [0.0; COATED];
        let count = answers(&sheet, done, &mut list)? as usize;
        let kind = if list[0] == 1.0 { "coated" } else { "bare" };
        println!("surface {done}, {kind}, {count} numbers: {:?}", &list[1..count]);
        let done = step(&sheet, &mut train)?;
        println!("step {done} {:016X} {:016X} at {} nm", train.s.to_bits(), train.p.to_bits(), train.wavelength_nm);
    }
    println!("sum {:016X}", (train.s + train.p).to_bits());

    let mut powers = [0.0; 2 * 64];
    run(&sheet, &mut powers)?;
    println!("run {:016X} {:016X}", powers[0].to_bits(), powers[1].to_bits());

    let mut means = [0.0; 2];
    let lines = [500.0, 550.0, 600.0];
    let count = band(&sheet, &lines, &[1, 2, 1], &mut means)?;
    println!("band of {count} lines {:016X} {:016X}", means[0].to_bits(), means[1].to_bits());
    if let Err(refusal) = band(&sheet, &lines, &[1, 2], &mut means) {
        println!("band: refused {} {}", refusal.number, refusal.place);
    }

    let mut response = [0.0; RESPONSE];
    evaluate(2, 550.0, [1.0, 1.5, 0.0, 550.0], &[], &mut response)?;
    println!("MgF2 R_s {} T_s {}", response[8], response[10]);

    let mut layers = [0.0; STACK];
    let numbers = stack(b"(HL)^7 H", [2.3, 1.46, 1.8], 1064.0, &mut layers)? as usize;
    println!("(HL)^7 H: {} layers, the first {} nm of {}", numbers / 3, layers[2], layers[0]);
    evaluate(5, 0.0, [1.0, 1.52, 0.0, 1064.0], &layers[..numbers], &mut response)?;
    println!("as a mirror R_s {}", response[8]);
    if let Err(refusal) = stack(b"H^32H", [2.3, 1.46, 1.8], 1064.0, &mut layers) {
        println!("stack: refused {} {}", refusal.number, refusal.place);
    }

    let empty = [1.0, 0.0, 0.0, 0.0, 0.0, 0.0, 1.0, 0.0];
    let (mut rust, mut born_wolf) = ([0.0; MUELLER], [0.0; MUELLER]);
    to_mueller(&empty, &mut rust)?;
    mueller_born_wolf(&empty, &mut born_wolf)?;
    println!("empty space: [3][3] {} by the Rust's signs, {} by Born and Wolf's", rust[15], born_wolf[15]);

    let mut over = 0.0;
    let waves = quarter_waves(2.3, 250.0, 1064.0, &mut over)?;
    println!("250 nm of 2.3 at 1064 nm: {waves} quarter waves, {over} nm over");

    let glass: Vec<u8> = glass_words.iter().flat_map(|w: &u32| w.to_be_bytes()).collect();
    let mut old = [0; EDITION_1];
    let length = edition_1(&glass, &mut old)? as usize;
    run(&glass, &mut powers)?;
    println!("a glass in {} bytes of edition 2: run {:016X} {:016X}", glass.len(), powers[0].to_bits(), powers[1].to_bits());
    run(&old[..length], &mut powers)?;
    println!("and in {length} bytes of edition 1: run {:016X} {:016X}", powers[0].to_bits(), powers[1].to_bits());
    if let Err(refusal) = edition_1(&glass, &mut old[..length - 1]) {
        println!("edition_1: refused {} {}", refusal.number, refusal.place);
    }

    sheet[0] = 0;
    if let Err(refusal) = gate(&sheet) {
        println!("gate: refused {} {}", refusal.number, refusal.place);
    }
    Ok(())
}
