//! Builds the library from its C source with the compiler that CC names, or links the one in the directory that DIHKELU_LIB names.
use std::env;
use std::path::PathBuf;
use std::process::Command;

fn run(command: &mut Command) {
    let status = command
        .status()
        .unwrap_or_else(|e| panic!("{command:?}: {e}"));
    assert!(status.success(), "{command:?} failed");
}

fn main() {
    println!("cargo:rerun-if-env-changed=DIHKELU_LIB");
    println!("cargo:rerun-if-env-changed=CC");
    println!("cargo:rerun-if-changed=c");
    let directory = match env::var_os("DIHKELU_LIB") {
        Some(directory) => PathBuf::from(directory),
        None => {
            let out = PathBuf::from(env::var_os("OUT_DIR").expect("OUT_DIR"));
            let (object, library) = (out.join("dihkelu.o"), out.join("libdihkelu.a"));
            let compiler = env::var("CC").unwrap_or_else(|_| "cc".to_string());
            let mut words = compiler.split_whitespace();
            let mut compile = Command::new(words.next().unwrap_or("cc"));
            compile
                .args(words)
                .args(["-std=c11", "-O3", "-fPIC", "-ffp-contract=off", "-c"]);
            run(compile.arg("c/dihkelu.c").arg("-o").arg(&object));
            let _ = std::fs::remove_file(&library);
            run(Command::new("ar").arg("rc").arg(&library).arg(&object));
            out
        }
    };
    println!("cargo:rustc-link-search=native={}", directory.display());
    println!("cargo:rustc-link-lib=static=dihkelu");
}
