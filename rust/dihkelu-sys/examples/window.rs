//! A window of two coated surfaces, and a mirror in shorthand: the powers after each surface, and a refusal.
use dihkelu_sys::{
    evaluate, run, stack, version, Coating, Incidence, Letters, Refusal, Sheet, Surface, RESPONSE,
    STACK, VERSION,
};

fn main() -> Result<(), Refusal> {
    assert!(version() == VERSION);
    let front = Surface {
        coating: Coating::Mgf2,
        n_incident: 1.0,
        n_substrate: 1.52,
        angle_rad: 0.5,
        ..Surface::default()
    };
    let back = Surface {
        n_incident: 1.52,
        n_substrate: 1.0,
        angle_rad: 0.25,
        ..Surface::default()
    };
    let sheet = Sheet {
        wavelength_nm: 550.0,
        s: 0.5,
        p: 0.5,
        surfaces: vec![front, back],
    };
    let mut list = [0.0; 128];
    let surfaces = run(&sheet.to_bytes()?, &mut list)? as usize;
    for (i, after) in list[..2 * surfaces].chunks(2).enumerate() {
        println!(
            "{} {:016X} {:016X}",
            i + 1,
            after[0].to_bits(),
            after[1].to_bits()
        );
    }
    let (mut layers, mut response) = ([0.0; STACK], [0.0; RESPONSE]);
    let letters = Letters {
        h: 2.3,
        l: 1.46,
        m: 1.8,
    };
    let numbers = stack(b"(HL)^7 H", letters, 1064.0, &mut layers)? as usize;
    let light = Incidence {
        n_incident: 1.0,
        n_substrate: 1.52,
        angle_rad: 0.0,
        wavelength_nm: 1064.0,
    };
    evaluate(5, 0.0, light, &layers[..numbers], &mut response)?;
    println!("(HL)^7 H: {} layers, R_s {:.6}", numbers / 3, response[8]);
    if let Err(refused) = stack(b"H^32H", letters, 1064.0, &mut layers) {
        println!("H^32H: {refused}");
    }
    Ok(())
}
