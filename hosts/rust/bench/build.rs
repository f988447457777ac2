//! Compiles the C++ map that the caches are timed against, with the machine's own compiler.

use std::env;
use std::path::{Path, PathBuf};
use std::process::Command;

fn run(command: &mut Command) {
    let status = command.status().unwrap_or_else(|error| panic!("{command:?}: {error}"));
    assert!(status.success(), "{command:?} failed");
}

fn main() {
    let here = Path::new(env!("CARGO_MANIFEST_DIR"));
    let (source, include) = (here.join("src/map.cpp"), here.join("../../../include"));
    println!("cargo:rerun-if-env-changed=CXX");
    println!("cargo:rerun-if-changed={}", source.display());
    println!("cargo:rerun-if-changed={}", include.join("tikomuci.h").display());

    let out = PathBuf::from(env::var_os("OUT_DIR").expect("cargo sets OUT_DIR"));
    let (object, archive) = (out.join("map.o"), out.join("libmap.a"));
    let compiler = env::var_os("CXX").unwrap_or_else(|| "g++".into());
    let flags = ["-std=c++17", "-O2", "-Wall", "-Wextra", "-pedantic", "-c"];
    run(Command::new(compiler).args(flags).arg("-I").arg(include).arg(source).arg("-o").arg(&object));
    run(Command::new("ar").arg("rcs").args([&archive, &object]));

    println!("cargo:rustc-link-search=native={}", out.display());
    println!("cargo:rustc-link-lib=static=map");
    println!("cargo:rustc-link-lib=stdc++");
}
