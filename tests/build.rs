//! Links crates/retro_c/out/libretro_c.a, which `rt lib` writes in crates/retro_c, and the peers of
//! the benchmark, which are compiled here.

use std::env;
use std::fs;
use std::io::ErrorKind;
use std::path::{Path, PathBuf};
use std::process::Command;

fn main() {
    let tests = Path::new(env!("CARGO_MANIFEST_DIR"));
    println!("cargo:rerun-if-changed=build.rs");
    link_library(tests);
    link_peers(tests);
}

/// Links the exported calls.
fn link_library(tests: &Path) {
    let folder = tests.join("../crates/retro_c/out");
    let archive = folder.join("libretro_c.a");
    println!("cargo:rerun-if-changed={}", archive.display());
    assert!(
        archive.is_file(),
        "{} is missing: run `rt lib` in crates/retro_c first",
        archive.display()
    );
    println!("cargo:rustc-link-search=native={}", folder.display());
    println!("cargo:rustc-link-lib=static=retro_c");
}

/// The forms of the peers: the end of their objects' names, and what gcc is told. By itself `-O3`
/// makes vectors of a loop where it can; `WITH_VECTORS` names that form in peers.h.
const FORMS: [(&str, &str); 2] = [
    ("", "-fno-tree-vectorize"),
    ("_with_vectors", "-DWITH_VECTORS"),
];

/// Compiles the sources in peers/ for this machine in both forms, and links them.
fn link_peers(tests: &Path) {
    let include = tests.join("../include");
    for header in [tests.join("peers/peers.h"), include.join("retro.h")] {
        println!("cargo:rerun-if-changed={}", header.display());
    }
    let out = PathBuf::from(env::var_os("OUT_DIR").expect("Cargo sets OUT_DIR"));
    let archive = out.join("libpeers.a");
    // ar would keep what an earlier archive has
    if archive.exists() {
        fs::remove_file(&archive).expect("an earlier archive can be removed");
    }
    let mut ar = Command::new("ar");
    ar.arg("crs").arg(&archive);
    for name in ["rater", "reader", "writer"] {
        let source = tests.join("peers").join(name).with_extension("c");
        println!("cargo:rerun-if-changed={}", source.display());
        for (end, form) in FORMS {
            let object = out.join(format!("{name}{end}.o"));
            let mut gcc = Command::new("gcc");
            gcc.args(["-std=c11", "-O3", "-march=native", form])
                .args(["-Wall", "-Wextra", "-Werror"])
                .arg("-I")
                .arg(&include)
                .arg("-c")
                .arg(&source)
                .arg("-o")
                .arg(&object);
            run(&mut gcc);
            ar.arg(object);
        }
    }
    run(&mut ar);
    println!("cargo:rustc-link-search=native={}", out.display());
    println!("cargo:rustc-link-lib=static=peers");
}

/// Runs gcc or ar, which must succeed.
fn run(command: &mut Command) {
    let program = command.get_program().to_string_lossy().into_owned();
    match command.status() {
        Ok(status) => assert!(
            status.success(),
            "{program} failed with {status}: {command:?}"
        ),
        Err(error) if error.kind() == ErrorKind::NotFound => {
            panic!("{program} is not installed; tests/peers is compiled with gcc and ar")
        }
        Err(error) => panic!("{program} cannot be run: {error}"),
    }
}
