// Records: the format, the table, the sample, README's list of functions.

use crate::feed::{check, send, Order};
use crate::functions::{
    of_groups, sample, table, GROUPS, SAMPLE_BYTES, SAMPLE_RECORDS, WHOLE_SAMPLE_BYTES,
};
use crate::record::{Arguments, Record, Words};

const README: &str = include_str!("../../README.md");

fn records(mut bytes: &[u8]) -> Vec<Record> {
    let mut list = Vec::new();
    while let Some(record) = Record::read(&mut bytes).expect("whole records") {
        list.push(record);
    }
    list
}

#[test]
fn the_first_record_has_its_bytes() {
    let abs = &table()[0];
    let mut out = Vec::new();
    abs.record(vec![0xFFF0_0000_0000_0001]).write(&mut out);
    let expected = [
        [0, 1, 0, 1, 0, 1, 0, 0],
        [0xFF, 0xF0, 0, 0, 0, 0, 0, 1],
        [0x7F, 0xF8, 0, 0, 0, 0, 0, 0],
    ];
    assert_eq!(out, expected.concat());
}

#[test]
fn bytes_are_padded_to_whole_words() {
    let mut words = Words::default();
    words.bytes(b"coatings!");
    assert_eq!(words.0, [9, 0x636F_6174_696E_6773, 0x2100_0000_0000_0000]);
    let mut read = Arguments::new(&words.0);
    assert_eq!(read.bytes(), b"coatings!");
    assert!(read.is_done());
}

#[test]
fn numbers_rise_and_groups_are_known() {
    let all = table();
    assert!(all.windows(2).all(|two| two[0].number < two[1].number));
    assert!(all.iter().all(|f| GROUPS.contains(&f.group)));
    let groups: Vec<&str> = all.iter().map(|f| f.group).collect();
    assert!(GROUPS.iter().all(|group| groups.contains(group)));
}

#[test]
fn readme_lists_every_function() {
    for f in table() {
        let row = format!("| {} | `{}` |", f.number, f.name);
        assert!(README.contains(&row), "README.md has no row {row}");
    }
}

#[test]
fn the_sample_is_large_and_small_enough() {
    let bytes = sample(&[], 1);
    assert!(bytes.len() < WHOLE_SAMPLE_BYTES);
    let list = records(&bytes);
    assert!(list.len() >= SAMPLE_RECORDS);
    for f in table() {
        let count = list
            .iter()
            .filter(|record| record.function == f.number)
            .count();
        assert!(
            count >= if f.args.is_empty() { 1 } else { 30 },
            "{}",
            f.name
        );
    }
    for record in &list {
        assert!(record.arguments.len() <= 5376 && record.results.len() <= 256);
    }
    for group in &GROUPS[..7] {
        let bytes = sample(&[group.to_string()], 1);
        assert!(bytes.len() <= SAMPLE_BYTES, "{group}");
        assert!(records(&bytes).len() >= SAMPLE_RECORDS, "{group}");
    }
}

#[test]
fn the_same_seed_gives_the_same_records() {
    let made = |seed| {
        let mut out = Vec::new();
        let order = Order {
            groups: &[],
            seed,
            count: 500,
            spoiled: None,
        };
        let sent = send(&mut out, &order).expect("written");
        assert_eq!(sent.values().sum::<u64>(), 500);
        out
    };
    assert_eq!(made(3), made(3));
    assert_ne!(made(3), made(4));
    assert_eq!(check(&mut made(3).as_slice()).expect("whole"), (500, 0));
}

#[test]
fn a_wrong_result_is_found() {
    let f = &of_groups(&["elementary".to_string()])[0];
    let mut record = f.record(vec![1.0_f64.to_bits()]);
    record.results[0] ^= 1;
    let mut out = Vec::new();
    record.write(&mut out);
    assert_eq!(check(&mut out.as_slice()).expect("whole"), (1, 1));
}
