// `feed` believes what the program prints, not its status: each way to print something else is a failure.

use crate::feed::{feed, send, Order};

const RECORDS: u64 = 60;

fn order(groups: &[String], count: u64) -> Order<'_> {
    Order {
        groups,
        seed: 1,
        count,
        spoiled: None,
    }
}

/// Feeds records of the group ieee to a shell that reads them all and then does as it is told.
fn fed(count: u64, script: &str) -> bool {
    let words = ["sh", "-c", &format!("cat > /dev/null; {script}")];
    let groups = ["ieee".to_string()];
    feed(&words.map(str::to_string), &order(&groups, count)).expect("a shell")
}

/// The lines of a program that finds no difference.
fn lines() -> Vec<String> {
    let groups = ["ieee".to_string()];
    let sent = send(&mut Vec::new(), &order(&groups, RECORDS)).expect("written");
    let line = |(number, count)| format!("function {number}: {count} of {count} agree");
    sent.into_iter().map(line).collect()
}

fn echo(lines: &[String]) -> String {
    lines
        .iter()
        .map(|line| format!("echo '{line}'; "))
        .collect()
}

#[test]
fn a_whole_tally_is_believed() {
    assert!(fed(RECORDS, &echo(&lines())));
}

#[test]
fn a_difference_fails() {
    let mut lines = lines();
    let (name, counts) = lines[3].split_once(": ").expect("a tally");
    let count: u64 = counts
        .split(' ')
        .next()
        .expect("a count")
        .parse()
        .expect("a number");
    lines[3] = format!("{name}: {} of {count} agree", count - 1);
    assert!(!fed(RECORDS, &echo(&lines)));
}

#[test]
fn a_missing_line_fails() {
    let mut lines = lines();
    lines.remove(2);
    assert!(!fed(RECORDS, &echo(&lines)));
    assert!(!fed(RECORDS, "true"));
}

#[test]
fn another_count_fails() {
    let mut lines = lines();
    lines[0] = "function 1: 0 of 0 agree".to_string();
    assert!(!fed(RECORDS, &echo(&lines)));
    lines[0] = "function 1: 1 of 1 agree".to_string();
    assert!(!fed(RECORDS, &echo(&lines)));
}

#[test]
fn other_lines_fail() {
    for more in [
        "a record is cut off or too long",
        "function 20: 1 of 1 agree",
        "",
    ] {
        let mut lines = lines();
        lines.push(more.to_string());
        assert!(!fed(RECORDS, &echo(&lines)), "{more}");
    }
    let mut lines = lines();
    lines.push(lines[0].clone());
    assert!(!fed(RECORDS, &echo(&lines)));
}

#[test]
fn no_record_fails() {
    assert!(!fed(0, "true"));
}

#[test]
fn a_bad_end_fails() {
    assert!(!fed(RECORDS, &(echo(&lines()) + "exit 3")));
}
