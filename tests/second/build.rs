//! Links the library's static archive. LAMPREYCOIL_ARCHIVE_DIR names the folder that holds
//! liblampreycoil.a, from this package if it is relative; by default it is target/staticlib in the
//! repository's root.
//!
//! With the feature `others` it also makes what the bench needs to call jansson, simdjson and czmq, and
//! links these.

use std::env;
use std::path::{Path, PathBuf};
use std::process::{exit, Command};

fn main() {
    println!("cargo:rerun-if-env-changed=LAMPREYCOIL_ARCHIVE_DIR");
    let package = PathBuf::from(env::var_os("CARGO_MANIFEST_DIR").unwrap());
    let named = env::var_os("LAMPREYCOIL_ARCHIVE_DIR");
    let folder = package.join(named.unwrap_or("../../target/staticlib".into()));
    let archive = folder.join("liblampreycoil.a");
    println!("cargo:rerun-if-changed={}", archive.display());
    if !archive.is_file() {
        eprintln!("no archive at {}", archive.display());
        eprintln!("make it with `make archive` in the repository's root,");
        eprintln!("or name its folder in LAMPREYCOIL_ARCHIVE_DIR");
        exit(1);
    }
    println!("cargo:rustc-link-search=native={}", folder.display());
    println!("cargo:rustc-link-lib=static=lampreycoil");
    if env::var_os("CARGO_FEATURE_OTHERS").is_some() {
        link_others(&package.join("others"));
    }
}

fn link_others(sources: &Path) {
    let out = PathBuf::from(env::var_os("OUT_DIR").unwrap());
    println!("cargo:rerun-if-changed={}", sources.display());
    let all = [
        ("cc", "jansson.c"),
        ("c++", "simdjson.cpp"),
        ("cc", "czmq.c"),
    ];
    for (compiler, source) in all {
        let object = out.join(source).with_extension("o");
        let source = sources.join(source);
        let mut command = Command::new(compiler);
        run(command.args(["-O2", "-c", "-o"]).args([&object, &source]));
    }
    let mut command = Command::new("ar");
    command.arg("crs").arg(out.join("libothers.a"));
    run(command.args(all.map(|(_, source)| out.join(source).with_extension("o"))));
    println!("cargo:rustc-link-search=native={}", out.display());
    println!("cargo:rustc-link-lib=static=others");
    for library in ["jansson", "simdjson", "stdc++", "czmq"] {
        println!("cargo:rustc-link-lib={library}");
    }
}

fn run(command: &mut Command) {
    let done = command.status().is_ok_and(|status| status.success());
    if !done {
        eprintln!("could not run {command:?}");
        exit(1);
    }
}
