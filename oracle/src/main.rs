// The commands of the oracle: see README.md.

use oracle::{
    bench, examples, feed, findings, functions, head_on, laws, measure, phase, proved, sheets,
    train, values,
};
use std::fs;
use std::io::{self, BufReader, Read, Write};
use std::path::Path;
use std::process::ExitCode;

const USAGE: &str = "\
oracle record [--only GROUP].. [--count N] [--seed S] > FILE
oracle feed --seed S --count N [--only GROUP].. [--spoil I] -- PROGRAM ARGS..
oracle short > FILE
oracle check < FILE
oracle table
oracle train < SHEET
oracle sheets DIRECTORY [--seed S] [--count N]
oracle examples DIRECTORY
oracle findings
oracle bench [--runs N]
oracle scaling [--runs N]
oracle compare [--seed S] [--count N] [--spoil I]
oracle measure [--seed S] [--count N]
oracle metal [--seed S] [--count N]
oracle laws [--seed S] [--count N] [--spoil I]
oracle head_on [--seed S] [--count N]
oracle phase [--seed S] [--count N] [--spoil I]
groups: ieee elementary complex thin_film fresnel polarization names sheet train exports shorthand born_wolf quarter_waves edition_1";

/// The options of all commands.
#[derive(Default)]
struct Options {
    groups: Vec<String>,
    count: Option<u64>,
    seed: Option<u64>,
    runs: Option<u64>,
    spoiled: Option<u64>,
    rest: Vec<String>,
}

fn options(arguments: &[String]) -> Result<Options, String> {
    let mut found = Options::default();
    let mut list = arguments.iter();
    while let Some(argument) = list.next() {
        if argument == "--" {
            found.rest.extend(list.cloned());
            break;
        }
        if !argument.starts_with("--") {
            found.rest.push(argument.clone());
            continue;
        }
        let value = list.next().ok_or(format!("{argument} needs a value"))?;
        let number = || {
            value
                .parse()
                .map_err(|_| format!("{argument}: {value} is no number"))
        };
        match argument.as_str() {
            "--only" => {
                for group in value.split(',') {
                    if !functions::GROUPS.contains(&group) {
                        return Err(format!("there is no group {group}"));
                    }
                    found.groups.push(group.to_string());
                }
            }
            "--count" => found.count = Some(number()?),
            "--seed" => found.seed = Some(number()?),
            "--runs" => found.runs = Some(number()?),
            "--spoil" => found.spoiled = Some(number()?),
            _ => return Err(format!("there is no option {argument}")),
        }
    }
    Ok(found)
}

fn main() -> ExitCode {
    let arguments: Vec<String> = std::env::args().skip(1).collect();
    let Some((command, rest)) = arguments.split_first() else {
        eprintln!("{USAGE}");
        return ExitCode::from(2);
    };
    let outcome = options(rest).and_then(|options| execute(command, &options));
    match outcome {
        Ok(true) => ExitCode::SUCCESS,
        Ok(false) => ExitCode::from(1),
        Err(message) => {
            eprintln!("{message}\n{USAGE}");
            ExitCode::from(2)
        }
    }
}

fn execute(command: &str, options: &Options) -> Result<bool, String> {
    let seed = options.seed.unwrap_or(1);
    let said = |e: io::Error| e.to_string();
    match command {
        "record" => record(options, seed).map_err(said),
        "feed" => {
            let count = options.count.ok_or("feed needs --count")?;
            if options.rest.is_empty() {
                return Err("feed needs a program".to_string());
            }
            feed::feed(&options.rest, &order(options, seed, count)).map_err(said)
        }
        "short" => {
            let function = &functions::shorthand::table()[0];
            let numbers = [2.3f64, 1.46, 1.8, 550.0].map(f64::to_bits);
            let mut out = Vec::new();
            for text in functions::shorthand::short_texts(5) {
                let mut words = numbers.to_vec();
                functions::names::push(&text, &mut words);
                function.record(words).write(&mut out);
            }
            io::stdout().write_all(&out).map_err(said)?;
            Ok(true)
        }
        "check" => {
            let mut input = BufReader::new(io::stdin().lock());
            let (count, different) = feed::check(&mut input).map_err(said)?;
            println!("{} of {count} agree", count - different);
            Ok(count > 0 && different == 0)
        }
        "table" => {
            for f in functions::table() {
                println!("{} {} {} {:?}", f.number, f.group, f.name, f.args);
            }
            Ok(true)
        }
        "train" => {
            let mut bytes = Vec::new();
            io::stdin().read_to_end(&mut bytes).map_err(said)?;
            print!("{}", train::program(&bytes));
            Ok(true)
        }
        "sheets" => {
            let [directory] = options.rest.as_slice() else {
                return Err("sheets needs a directory".to_string());
            };
            sheets_to(Path::new(directory), seed, options.count.unwrap_or(100)).map_err(said)
        }
        "examples" => {
            let [directory] = options.rest.as_slice() else {
                return Err("examples needs a directory".to_string());
            };
            let directory = Path::new(directory);
            fs::create_dir_all(directory).map_err(said)?;
            for (name, bytes) in examples::examples() {
                sheet_to(directory, &name, &bytes).map_err(said)?;
            }
            Ok(true)
        }
        "findings" => Ok(findings::print()),
        "bench" => {
            bench::bench(options.runs.unwrap_or(9) as usize);
            Ok(true)
        }
        "scaling" => {
            bench::scaling(options.runs.unwrap_or(9) as usize);
            Ok(true)
        }
        "measure" | "metal" => {
            let draw = if command == "metal" {
                measure::metal
            } else {
                measure::admitted
            };
            let found = measure::measure(seed, options.count.unwrap_or(1_000_000), draw);
            print!("{}", found.table());
            Ok(found.sound())
        }
        "laws" => {
            let seen = laws::laws(seed, options.count.unwrap_or(1_000_000), options.spoiled);
            print!("{}", seen.table());
            Ok(seen.hold())
        }
        "head_on" => Ok(head_on::measure(seed, options.count.unwrap_or(1_000_000))),
        "phase" => Ok(phase::measure(
            seed,
            options.count.unwrap_or(1_000_000),
            options.spoiled,
        )),
        "compare" => proved::compare(seed, options.count.unwrap_or(1_000_000), options.spoiled)
            .ok_or("compare needs a build with the feature `proved`".to_string()),
        _ => Err(format!("there is no command {command}")),
    }
}

fn order(options: &Options, seed: u64, count: u64) -> feed::Order<'_> {
    feed::Order {
        groups: &options.groups,
        seed,
        count,
        spoiled: options.spoiled,
    }
}

fn record(options: &Options, seed: u64) -> io::Result<bool> {
    let mut out = io::stdout().lock();
    match options.count {
        None => out.write_all(&functions::sample(&options.groups, seed))?,
        Some(count) => {
            feed::send(&mut out, &order(options, seed, count))?;
        }
    }
    out.flush()?;
    Ok(true)
}

/// A sheet, and beside it what the program `train` prints for it.
fn sheet_to(directory: &Path, name: &str, bytes: &[u8]) -> io::Result<()> {
    fs::write(directory.join(format!("{name}.sheet")), bytes)?;
    fs::write(directory.join(format!("{name}.out")), train::program(bytes))
}

/// Random sheets.
fn sheets_to(directory: &Path, seed: u64, count: u64) -> io::Result<bool> {
    fs::create_dir_all(directory)?;
    let mut rng = values::Rng::new(seed);
    for number in 0..count {
        let bytes = sheets::sheet(&mut rng);
        sheet_to(directory, &format!("{number:05}"), &bytes)?;
    }
    Ok(true)
}
