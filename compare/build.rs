//! Compiles the two engines in C that bench/ measures: they are held to the reference too.

use std::path::PathBuf;
use std::process::Command;

const NAMES: [&str; 3] = ["history", "plain", "fast"];

fn main() {
    let root = PathBuf::from(env!("CARGO_MANIFEST_DIR")).join("..");
    let out = PathBuf::from(std::env::var_os("OUT_DIR").expect("cargo sets OUT_DIR"));
    let archive = out.join("libengines.a");
    let mut collect = Command::new("ar");
    collect.arg("rcs").arg(&archive);
    for name in NAMES {
        let (source, object) =
            (root.join(format!("bench/{name}.c")), out.join(format!("{name}.o")));
        run(Command::new("cc")
            .args(["-std=c11", "-O2", "-fPIC", "-c"])
            .arg(&source)
            .arg("-o")
            .arg(&object));
        collect.arg(&object);
        println!("cargo:rerun-if-changed={}", source.display());
    }
    run(&mut collect);
    for header in ["bench/history.h", "bench/engines.h", "include/quelohuite.h"] {
        println!("cargo:rerun-if-changed={}", root.join(header).display());
    }
    println!("cargo:rustc-link-search=native={}", out.display());
    println!("cargo:rustc-link-lib=static=engines");
}

fn run(command: &mut Command) {
    let status = command.status().unwrap_or_else(|error| panic!("{command:?}: {error}"));
    assert!(status.success(), "{command:?}");
}
