//! On x86-64 the archive of the proved checker is linked. On another processor a small server over
//! it is built by the kit's own compiler and linker, which that machine must then run by an emulator,
//! as it runs the server.

use std::path::{Path, PathBuf};
use std::process::Command;

fn main() {
    let here = PathBuf::from(variable("CARGO_MANIFEST_DIR"));
    let archives = here.join("../target/staticlib");
    let archive = archives.join("libquelohuite.a");
    println!("cargo:rerun-if-changed={}", archive.display());
    println!("cargo:rerun-if-changed=build.rs");
    println!("cargo:rerun-if-changed=server.c");
    println!("cargo:rustc-check-cfg=cfg(linked)");
    if !archive.exists() {
        panic!("target/staticlib/libquelohuite.a is not there: make it by `tools/build`");
    }
    if variable("CARGO_CFG_TARGET_ARCH") == "x86_64" {
        println!("cargo:rustc-link-search=native={}", archives.display());
        println!("cargo:rustc-link-lib=static=quelohuite");
        println!("cargo:rustc-cfg=linked");
    } else {
        build_server(&here, &archive);
    }
}

fn variable(name: &str) -> String {
    std::env::var(name).unwrap_or_else(|_| panic!("cargo sets {name}"))
}

/// The kit's folder: `rt doc` names a page in it.
fn kit() -> PathBuf {
    let said = Command::new("rt").arg("doc").output().expect("rt is not on the path").stdout;
    let page = PathBuf::from(String::from_utf8(said).expect("a path").trim());
    page.parent().expect("a page in the kit").to_path_buf()
}

fn build_server(here: &Path, archive: &Path) {
    let kit = kit();
    let toolchain = kit.join("toolchain");
    let out = PathBuf::from(variable("OUT_DIR"));
    let (object, server) = (out.join("server.o"), out.join("server"));
    run(Command::new(toolchain.join("bin/clang"))
        .args(["--target=x86_64-unknown-linux-gnu", "-O2", "-fPIC", "-ffreestanding", "-c"])
        .arg(here.join("server.c"))
        .arg("-o")
        .arg(&object));
    run(Command::new(kit.join("bin/rattle-link"))
        .args(["--target", "x86_64-unknown-linux-gnu", "--toolchain"])
        .arg(&toolchain)
        .arg("-o")
        .arg(&server)
        .arg(&object)
        .arg(archive));
    println!("cargo:rustc-env=QUELOHUITE_SERVER={}", server.display());
    println!("cargo:rustc-env=QUELOHUITE_TOOLCHAIN={}", toolchain.display());
}

fn run(command: &mut Command) {
    let status = command.status().unwrap_or_else(|error| panic!("{command:?}: {error}"));
    assert!(status.success(), "{command:?}");
}
