// Makes the modules `reference` and `authors` from the original files by textual substitution.

use std::path::{Path, PathBuf};
use std::{env, fs};

/// The originals, unchanged, seen from this package.
const ORIGINALS: &str = "../docs/src/crates/optics-core/src";

const FILES: [&str; 4] = ["error", "thin_film", "fresnel", "polarization"];

/// In `file`, `from` stands exactly `times` times; `to` takes its place.
struct Rule {
    file: &'static str,
    from: &'static str,
    to: &'static str,
    times: usize,
}

const fn rule(file: &'static str, from: &'static str, to: &'static str, times: usize) -> Rule {
    Rule {
        file,
        from,
        to,
        times,
    }
}

/// Both modules: no serde, no thiserror, paths within the module, two private functions made public.
const STRIP: [Rule; 10] = [
    rule("error", "use thiserror::Error;\n", "", 1),
    rule("error", "(Debug, Error, Clone", "(Debug, Clone", 1),
    rule("thin_film", "use serde::{Deserialize, Serialize};\n", "", 1),
    rule("thin_film", ", Serialize, Deserialize)]", ")]", 5),
    rule("thin_film", "use crate::", "use super::", 1),
    rule(
        "thin_film",
        "\nfn evaluate_tmm_multilayer(",
        "\npub fn evaluate_tmm_multilayer(",
        1,
    ),
    rule("thin_film", "\nfn mat_mul_2x2(", "\npub fn mat_mul_2x2(", 1),
    rule(
        "polarization",
        "use serde::{Deserialize, Serialize};\n",
        "",
        1,
    ),
    rule("polarization", ", Serialize, Deserialize)]", ")]", 4),
    rule("polarization", "use crate::", "use super::", 2),
];

/// Attributes of thiserror: whole lines that begin so, and how many there are in error.rs.
const ERROR_ATTRIBUTE: (&str, usize) = ("#[error(", 12);

/// A call that section 2 gives a meaning to: how it stands, the method that takes its place, and how often it
/// stands in thin_film, fresnel and polarization.
type Meaning = (&'static str, &'static str, [usize; 3]);

/// `reference` alone: section 2's meanings.
const MEANINGS: [Meaning; 12] = [
    (".sin()", ".s2_sin()", [2, 0, 7]),
    (".cos()", ".s2_cos()", [2, 0, 7]),
    (".exp()", ".s2_exp()", [3, 0, 0]),
    (".atan()", ".s2_atan()", [0, 0, 2]),
    (".asin()", ".s2_asin()", [0, 0, 1]),
    (".atan2(", ".s2_atan2(", [1, 0, 1]),
    (".sqrt()", ".s2_sqrt()", [10, 2, 6]),
    (".max(", ".s2_max(", [5, 4, 2]),
    (".clamp(", ".s2_clamp(", [4, 7, 4]),
    (".powi(2)", ".s2_powi2()", [0, 3, 3]),
    (".powi(5)", ".s2_powi5()", [0, 1, 0]),
    (".abs()", ".s2_abs()", [1, 2, 2]),
];

/// All other methods that the originals call; any further one stops the build, since it may need a meaning.
const OTHER_METHODS: [&str; 22] = [
    "apply",
    "arg",
    "clone",
    "contains",
    "enumerate",
    "evaluate",
    "intensity",
    "is_empty",
    "is_finite",
    "iter",
    "iter_mut",
    "norm",
    "norm_sq",
    "push",
    "reverse",
    "scale",
    "to_coating",
    "to_stokes",
    "to_string",
    "to_uppercase",
    "trim",
    "mul",
];

/// Nothing of this may be left in either module.
const LEFTOVERS: [&str; 6] = [
    "serde",
    "Serialize",
    "thiserror",
    "#[error",
    "crate::",
    "mul_add",
];

fn main() {
    println!("cargo:rerun-if-changed=build.rs");
    let package = PathBuf::from(env::var("CARGO_MANIFEST_DIR").expect("CARGO_MANIFEST_DIR"));
    let out = PathBuf::from(env::var("OUT_DIR").expect("OUT_DIR"));

    let mut reference = String::new();
    let mut authors = String::new();
    for file in FILES {
        let stripped = strip(file, &original(&package, file));
        authors.push_str(&module(file, &stripped, ""));
        let meant = give_meanings(file, stripped);
        reference.push_str(&module(
            file,
            &meant,
            "#[allow(unused_imports)]\nuse crate::section2::{Exp, Real, Sqrt};\n",
        ));
    }
    fs::write(out.join("reference.rs"), reference).expect("write reference.rs");
    fs::write(out.join("authors.rs"), authors).expect("write authors.rs");
    link_proved();
}

fn original(package: &Path, file: &str) -> String {
    let path = package.join(ORIGINALS).join(format!("{file}.rs"));
    println!("cargo:rerun-if-changed={}", path.display());
    match fs::read_to_string(&path) {
        Ok(text) => text,
        Err(e) => panic!("cannot read the original {file}.rs: {e}"),
    }
}

fn strip(file: &str, text: &str) -> String {
    let mut text = text.to_string();
    for rule in STRIP.iter().filter(|rule| rule.file == file) {
        text = replace(file, &text, rule.from, rule.to, rule.times);
    }
    let (start, times) = ERROR_ATTRIBUTE;
    let is_attribute = |line: &&str| line.trim_start().starts_with(start);
    let attributes = text.lines().filter(is_attribute).count();
    let expected = if file == "error" { times } else { 0 };
    assert!(
        attributes == expected,
        "{file}.rs: {attributes} lines {start}, {expected} expected"
    );
    let kept: Vec<&str> = text.lines().filter(|line| !is_attribute(line)).collect();
    let text = kept.join("\n") + "\n";
    for word in LEFTOVERS {
        assert!(
            !text.contains(word),
            "{file}.rs: `{word}` is left after stripping"
        );
    }
    text
}

fn give_meanings(file: &str, mut text: String) -> String {
    let column = match file {
        "thin_film" => 0,
        "fresnel" => 1,
        "polarization" => 2,
        _ => {
            check_methods(file, &text);
            return text;
        }
    };
    for (from, to, times) in MEANINGS {
        text = replace(file, &text, from, to, times[column]);
    }
    check_methods(file, &text);
    text
}

fn replace(file: &str, text: &str, from: &str, to: &str, times: usize) -> String {
    let found = text.matches(from).count();
    assert!(
        found == times,
        "{file}.rs: `{}` stands {found} times, {times} expected",
        from.escape_debug()
    );
    text.replace(from, to)
}

/// Every method call is one that was given a meaning or one that is known to need none.
fn check_methods(file: &str, text: &str) {
    for line in text
        .lines()
        .filter(|line| !line.trim_start().starts_with("//"))
    {
        let code = line.split("//").next().unwrap_or("");
        for (place, _) in code.match_indices('.') {
            let name: String = code[place + 1..]
                .chars()
                .take_while(|c| c.is_ascii_alphanumeric() || *c == '_')
                .collect();
            let called = code[place + 1 + name.len()..].starts_with('(');
            if called && !name.starts_with("s2_") && !OTHER_METHODS.contains(&name.as_str()) {
                panic!("{file}.rs calls `.{name}(`, which has no meaning here: {line}");
            }
        }
    }
    // Functions called by path (`f64::sin(x)`) would escape the method substitution.
    assert!(
        !text.contains("f64::s") && !text.contains(" % "),
        "{file}.rs: a call by path or a remainder"
    );
}

fn module(file: &str, text: &str, uses: &str) -> String {
    format!("pub mod {file} {{\n{text}\n{uses}}}\n")
}

/// With the feature `proved`: the static libraries lib<NAME>.a in the directory DIHKELU_LIB, for each NAME of the list DIHKELU_NAME.
fn link_proved() {
    println!("cargo:rerun-if-env-changed=DIHKELU_LIB");
    println!("cargo:rerun-if-env-changed=DIHKELU_NAME");
    if env::var_os("CARGO_FEATURE_PROVED").is_none() {
        return;
    }
    let Ok(directory) = env::var("DIHKELU_LIB") else {
        panic!("the feature `proved` needs DIHKELU_LIB, the directory of the static library");
    };
    let names = env::var("DIHKELU_NAME").unwrap_or_else(|_| "c_scalars,dihkelu".to_string());
    println!("cargo:rustc-link-search=native={directory}");
    for name in names.split(',') {
        let library = Path::new(&directory).join(format!("lib{name}.a"));
        assert!(library.exists(), "there is no lib{name}.a in DIHKELU_LIB");
        println!("cargo:rerun-if-changed={}", library.display());
        println!("cargo:rustc-link-lib=static={name}");
    }
}
