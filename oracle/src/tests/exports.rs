// dihkelu_evaluate: refusals in their order, which leave the list as it was, and an answer that leaves its rest.

use crate::exports::linked_evaluate;

/// A list of NaNs of odd payloads, quiet and signalling, none like another.
fn lent(count: usize) -> Vec<f64> {
    let nan = |i: usize| f64::from_bits(0x7FF0_0000_0000_0001 + i as u64 * 0x0008_0000_0001_0003);
    (0..count).map(nan).collect()
}

fn bytes(list: &[f64]) -> Vec<u8> {
    list.iter().flat_map(|x| x.to_ne_bytes()).collect()
}

const PLACE: [f64; 4] = [1.0, 1.5, 0.3, 550.0];

/// What a call returns; a refusal must leave every byte, an answer every byte past its 16 numbers.
fn returned(code: u32, at: [f64; 4], flat: &[f64], count: usize) -> u64 {
    let mut list = lent(count);
    let before = bytes(&list);
    let returned = linked_evaluate(code, 550.0, at, flat, &mut list);
    let after = bytes(&list);
    if returned >> 32 == 0 {
        assert_eq!(returned, 16);
        assert_ne!(after[..16 * 8], before[..16 * 8]);
        assert_eq!(after[16 * 8..], before[16 * 8..]);
    } else {
        assert_eq!(returned & 0xFFFF_FFFF, 0);
        assert_eq!(after, before);
    }
    returned >> 32
}

#[test]
fn lists_of_every_length() {
    for code in 1..=8 {
        for count in 0..40 {
            let expected = if count < 16 { 8 } else { 0 };
            assert_eq!(returned(code, PLACE, &[1.38, 0.0, 99.6], count), expected);
        }
    }
}

#[test]
fn refusals_in_their_order() {
    let wrong = [f64::NAN, 1.5, 0.3, 550.0];
    for count in [0, 15, 16, 20] {
        for code in [0, 9, 16, 261, u32::MAX] {
            assert_eq!(returned(code, PLACE, &[], count), 1);
        }
        for code in 1..=8 {
            assert_eq!(returned(code, wrong, &[], count), 1);
            for length in [1, 2, 4, 5, 191, 193, 194, 196] {
                assert_eq!(returned(code, PLACE, &vec![1.5; length], count), 1);
            }
        }
        for length in [195, 198, 3_000] {
            assert_eq!(returned(5, PLACE, &vec![1.5; length], count), 3);
            assert_eq!(returned(5, wrong, &vec![1.5; length], count), 1);
            let ignored = if count < 16 { 8 } else { 0 };
            assert_eq!(returned(4, PLACE, &vec![1.5; length], count), ignored);
        }
        let most = if count < 16 { 8 } else { 0 };
        assert_eq!(returned(5, PLACE, &[1.5; 192], count), most);
    }
}
