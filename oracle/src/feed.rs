// Commands record, feed and check: records to a file, into a program, and held against the reference.

use crate::functions::{of_groups, table, Stream};
use crate::progress::Progress;
use crate::record::Record;
use std::collections::BTreeMap;
use std::io::{self, BufRead, BufReader, ErrorKind, Read, Write};
use std::process::{Command, Stdio};
use std::thread;

/// Bytes gathered before they are written.
const CHUNK: usize = 1 << 16;

/// How many records of each function were sent, by its number.
pub type Sent = BTreeMap<u16, u64>;

/// What to send: random records of these groups, `count` of them. The last bit of the first result word is wrong in
/// record number `spoiled`, counted from 0, so that a comparison can be tried itself.
pub struct Order<'a> {
    pub groups: &'a [String],
    pub seed: u64,
    pub count: u64,
    pub spoiled: Option<u64>,
}

/// Writes the records, in chunks, and returns what was made before the reader went away.
pub fn send(out: &mut impl Write, order: &Order) -> io::Result<Sent> {
    let mut stream = Stream::new(of_groups(order.groups), order.seed);
    let mut progress = Progress::new("records", order.count);
    let mut sent = Sent::new();
    let mut chunk = Vec::with_capacity(2 * CHUNK);
    for made in 0..order.count {
        let mut record = stream.next_record();
        if order.spoiled == Some(made) {
            record.results[0] ^= 1;
        }
        record.write(&mut chunk);
        *sent.entry(record.function).or_default() += 1;
        progress.step();
        if chunk.len() >= CHUNK || made + 1 == order.count {
            match out.write_all(&chunk) {
                Err(e) if e.kind() == ErrorKind::BrokenPipe => return Ok(sent),
                other => other?,
            }
            chunk.clear();
        }
    }
    out.flush()?;
    Ok(sent)
}

/// The name of a function, or its number where it has none.
pub fn name(number: u16) -> String {
    let known = table().into_iter().find(|f| f.number == number);
    known.map_or(format!("function {number}"), |f| f.name.to_string())
}

/// A line `function N: A of B agree` of a replaying program.
fn tally(line: &str) -> Option<(u16, u64, u64)> {
    let (number, counts) = line.strip_prefix("function ")?.split_once(": ")?;
    let (agree, all) = counts.strip_suffix(" agree")?.split_once(" of ")?;
    let whole = |text: &str| text.parse().ok();
    Some((number.parse().ok()?, whole(agree)?, whole(all)?))
}

/// A line as people read it: a function by its name.
fn readable(line: &str) -> String {
    let named = |rest: &str| -> Option<String> {
        let digits = rest.find(|c: char| !c.is_ascii_digit())?;
        let number = rest[..digits].parse().ok()?;
        Some(format!("{}{}", name(number), &rest[digits..]))
    };
    let rest = line.strip_prefix("function ");
    rest.and_then(named).unwrap_or(line.to_string())
}

/// Reads what a replaying program prints, shows it with the functions' names, and returns what is wrong with it: any
/// line that is no tally, a function that has no line or another count than was sent, or answers that differ.
struct Judge {
    tallies: BTreeMap<u16, (u64, u64)>,
    faults: Vec<String>,
}

impl Judge {
    fn read(output: impl Read) -> io::Result<Self> {
        let mut judge = Self {
            tallies: BTreeMap::new(),
            faults: Vec::new(),
        };
        for line in BufReader::new(output).split(b'\n') {
            let line = String::from_utf8_lossy(&line?).into_owned();
            println!("{}", readable(&line));
            match tally(&line) {
                Some((number, agree, all)) => {
                    if judge.tallies.insert(number, (agree, all)).is_some() {
                        let said = format!("{} has two lines", name(number));
                        judge.faults.push(said);
                    }
                }
                None => judge.faults.push(format!("it said: {}", readable(&line))),
            }
        }
        Ok(judge)
    }

    fn against(mut self, sent: &Sent) -> Vec<String> {
        for (number, count) in sent {
            let said = match self.tallies.remove(number) {
                None => format!("{count} records were sent and no line came back"),
                Some((_, all)) if all != *count => format!("{count} sent, {all} counted"),
                Some((agree, all)) if agree != all => format!("{} of {all} differ", all - agree),
                Some(_) => continue,
            };
            self.faults.push(format!("{}: {said}", name(*number)));
        }
        for number in self.tallies.keys() {
            let said = format!("{}: none was sent", name(*number));
            self.faults.push(said);
        }
        self.faults
    }
}

/// Pipes random records into a program and reads its tally. Returns whether every answer was counted and agrees.
pub fn feed(program: &[String], order: &Order) -> io::Result<bool> {
    let mut child = Command::new(&program[0])
        .args(&program[1..])
        .stdin(Stdio::piped())
        .stdout(Stdio::piped())
        .spawn()?;
    let (mut input, output) = (
        child.stdin.take().expect("piped"),
        child.stdout.take().expect("piped"),
    );
    // The program may print while it reads, so another thread listens.
    let listener = thread::spawn(move || Judge::read(output));
    let sent = send(&mut input, order)?;
    drop(input);
    let judge = listener.join().expect("the listener ends")?;
    let status = child.wait()?;
    let mut faults = judge.against(&sent);
    let made: u64 = sent.values().sum();
    if made < order.count {
        faults.push(format!(
            "the program stopped reading after about {made} of {} records",
            order.count
        ));
    }
    if made == 0 {
        faults.push("no record was sent".to_string());
    }
    if !status.success() {
        faults.push(format!("the program ended with {status}"));
    }
    for fault in &faults {
        eprintln!("FAILED {}: {fault}", program.join(" "));
    }
    Ok(faults.is_empty())
}

/// Works out every record of the input anew. Returns the counts of records and of those that differ.
pub fn check(input: &mut impl Read) -> io::Result<(u64, u64)> {
    let functions = table();
    let (mut count, mut different) = (0, 0);
    while let Some(record) = Record::read(input)? {
        count += 1;
        let known = functions.iter().find(|f| f.number == record.function);
        let same = known.is_some_and(|f| f.record(record.arguments.clone()) == record);
        if !same {
            different += 1;
            if different == 1 {
                println!("record {count}, {}: {record:X?}", name(record.function));
            }
        }
    }
    Ok((count, different))
}
