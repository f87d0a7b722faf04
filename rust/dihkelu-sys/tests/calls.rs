//! Document 01's example and its refusals, through the crate's own types.
use dihkelu_sys::{
    evaluate, gate, invalid_argument, run, version, Coating, Incidence, Layer, Refusal, Sheet,
    Surface, RESPONSE, VERSION,
};
use std::error::Error;

fn example() -> Sheet {
    let surface = Surface {
        n_incident: 1.0,
        n_substrate: 3.0,
        ..Surface::default()
    };
    Sheet {
        wavelength_nm: 500.0,
        s: 0.5,
        p: 0.5,
        surfaces: vec![surface],
    }
}

#[test]
fn the_example_of_document_01() -> Result<(), Box<dyn Error>> {
    let words: [u32; 16] = [
        0x10000001, 0x20000000, 0x407F4000, 0, 0x3FE00000, 0, 0x3FE00000, 0, 0x30000000,
        0x3FF00000, 0, 0x40080000, 0, 0, 0, 0x50000001,
    ];
    let bytes: Vec<u8> = words.iter().flat_map(|w| w.to_be_bytes()).collect();
    assert_eq!(example().to_bytes()?, bytes);
    let mut list = [0.0; 2];
    assert_eq!(run(&bytes, &mut list)?, 1);
    assert_eq!(list, [0.375, 0.375]);
    Ok(())
}

#[test]
fn a_refusal_is_an_error_in_words() {
    let mut sheet = example();
    sheet.surfaces[0].n_substrate = 5.0;
    let refused = gate(&sheet.to_bytes().unwrap()).unwrap_err();
    assert_eq!(
        refused,
        Refusal {
            number: 6,
            place: 8
        }
    );
    let error: Box<dyn Error> = refused.into();
    assert_eq!(
        error.to_string(),
        "refused 6 8: the block at word 8 of the sheet is outside the limits"
    );
}

#[test]
fn what_does_not_fit_is_refused() {
    let mut sheet = example();
    sheet.surfaces[0].layers = vec![Layer::Film {
        n: 1.5,
        k: 0.0,
        thickness_nm: 10.0,
    }];
    assert_eq!(
        sheet.to_bytes(),
        Err(Refusal {
            number: 5,
            place: 15
        })
    );
    sheet.surfaces[0].coating = Coating::Custom;
    assert!(gate(&sheet.to_bytes().unwrap()).is_ok());
    sheet.surfaces = vec![Surface::default(); 65];
    assert_eq!(
        sheet.to_bytes(),
        Err(Refusal {
            number: 5,
            place: 8 + 64 * 7
        })
    );
}

#[test]
fn arguments_by_name() {
    let light = Incidence {
        n_incident: 1.0,
        n_substrate: 3.0,
        angle_rad: 0.0,
        wavelength_nm: 500.0,
    };
    let (mut by_name, mut by_order) = ([0.0; RESPONSE], [0.0; RESPONSE]);
    evaluate(5, 0.0, light, &[], &mut by_name).unwrap();
    evaluate(5, 0.0, [1.0, 3.0, 0.0, 500.0], &[], &mut by_order).unwrap();
    assert_eq!(by_name, by_order);
    assert_eq!(by_name[8..12], [0.25, 0.25, 0.75, 0.75]);
    assert_eq!(
        invalid_argument(Incidence {
            wavelength_nm: f64::NAN,
            ..light
        }),
        4
    );
    assert_eq!(version(), VERSION);
}
