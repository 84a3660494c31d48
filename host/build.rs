//! Finds the proved library, `libsisalcove.a`, where `./build-library` leaves it or where the
//! environment variable says. It is compiled for x86-64 alone; for any other machine this package
//! is built without it, and has the independent reading and the comparisons only.

use std::env;
use std::path::PathBuf;
use std::process::exit;

/// The environment variable that names the archive.
const VARIABLE: &str = "SISALCOVE_LIBRARY";

fn main() {
    println!("cargo:rerun-if-env-changed={VARIABLE}");
    if env::var("CARGO_CFG_TARGET_ARCH").as_deref() != Ok("x86_64") {
        return;
    }
    let package = PathBuf::from(env::var_os("CARGO_MANIFEST_DIR").unwrap_or_default());
    let archive = match env::var_os(VARIABLE) {
        Some(path) => PathBuf::from(path),
        None => package.join("../target/libsisalcove.a"),
    };
    println!("cargo:rerun-if-changed={}", archive.display());
    let is_named = archive
        .file_name()
        .is_some_and(|name| name == "libsisalcove.a");
    let (true, Ok(archive)) = (is_named, archive.canonicalize()) else {
        let path = archive.display();
        eprintln!("{path} is no libsisalcove.a: run ./build-library, or set {VARIABLE}");
        exit(1);
    };
    if let Some(folder) = archive.parent() {
        println!("cargo:rustc-link-search=native={}", folder.display());
        println!("cargo:rustc-link-lib=static=sisalcove");
    }
}
