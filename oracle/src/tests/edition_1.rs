// 02 slip 6: what becomes of a glass, word for word; the order of refusals; what the second reading and the library leave.

use crate::functions::edition_1::{edition_1, written};
use crate::sheets::{example, glasses, mixed, retuned, varied, Face, Plan};
use crate::train::program;

/// A kind 6 whose index is exactly 2 at 500 nm, and a LAYER of k -0.
fn glass() -> Plan {
    Plan {
        edition: 2,
        beam: [500.0, 0.5, -0.0],
        surfaces: vec![Face {
            payload: 11,
            numbers: [1.0, 1.5, -0.0],
            layers: vec![vec![1.5, 0.0625, 0.015625, 64.0], vec![1.5, -0.0, -0.0]],
            retune: None,
        }],
    }
}

#[test]
fn a_glass_becomes_a_layer() {
    let mut old = glass();
    old.edition = 1;
    old.surfaces[0].layers[0] = vec![2.0, 0.0, 64.0];
    assert_eq!(edition_1(&glass().bytes()), Ok(old.bytes()));
    assert_eq!(glass().bytes().len(), old.bytes().len() + 8);
}

#[test]
fn both_sheets_run_alike() {
    for plan in [example(), varied(), mixed(), glass(), glasses(64, 16)] {
        let bytes = plan.bytes();
        let new = edition_1(&bytes).expect("no kind 7");
        assert_eq!(new[..4], [0x10, 0, 0, 1]);
        assert_eq!(program(&new), program(&bytes));
        assert_eq!(edition_1(&new), Ok(new.clone()));
        assert!(plan.edition == 2 || new == bytes);
    }
}

#[test]
fn refusals_in_their_order() {
    let bytes = retuned().bytes();
    let word = retuned().write().kinds[4] as u64;
    assert_eq!(bytes[4 * word as usize] >> 4, 7);
    for room in [0, 1, bytes.len()] {
        let output = vec![7; room];
        assert_eq!(written(&bytes, &output), (12 << 32 | word, output.clone()));
        assert_eq!(written(&bytes[1..], &output).0, 4 << 32);
    }
    let bytes = mixed().bytes();
    let need = edition_1(&bytes).expect("no kind 7").len();
    assert_eq!(
        written(&bytes, &vec![7; need - 1]),
        (8 << 32, vec![7; need - 1])
    );
    assert_eq!(written(&bytes, &vec![7; need + 2]).1[need..], [7, 7]);
}

#[cfg(feature = "proved")]
#[test]
fn the_library_leaves_the_same() {
    for plan in [example(), varied(), mixed(), glass(), retuned()] {
        let bytes = plan.bytes();
        for room in 0..bytes.len() + 20 {
            let mut output: Vec<u8> = (0..room).map(|i| (i * 31 + 5) as u8).collect();
            let expected = written(&bytes, &output);
            let returned = crate::exports::linked_edition_1(&bytes, &mut output);
            assert_eq!((returned, output), expected);
        }
    }
}
