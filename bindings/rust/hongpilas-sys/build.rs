//! Finds the library for C, and has it linked.
use std::env;
use std::path::{Path, PathBuf};
use std::process::{exit, Command};

/// Where `make` builds the library, where the tarball has it, and where systems install it.
const PLACES: [&str; 5] = ["../../../out", "../../../lib", "/usr/local/lib", "/usr/lib/x86_64-linux-gnu", "/usr/lib"];

/// Ends the build, and says why.
fn fail(why: &str) -> ! {
    eprintln!("{why}");
    exit(1)
}

/// Whether cargo builds with a feature, by the name of its variable.
fn has_feature(name: &str) -> bool {
    env::var_os(format!("CARGO_FEATURE_{name}")).is_some()
}

/// The folder that HONGPILAS_LIB_DIR names. Cargo does not tell from which folder it was called, so the name begins with a slash.
fn named() -> Option<PathBuf> {
    let named = PathBuf::from(env::var_os("HONGPILAS_LIB_DIR")?);
    if named.is_relative() {
        fail(&format!("HONGPILAS_LIB_DIR={} is relative: name the folder from / on", named.display()));
    }
    Some(named)
}

/// The folder that pkg-config says.
fn by_pkg_config() -> PathBuf {
    let major = env::var("CARGO_PKG_VERSION_MAJOR").unwrap_or_default();
    let asked = Command::new(env::var_os("PKG_CONFIG").unwrap_or("pkg-config".into()))
        .args(["--variable=libdir", &format!("hongpilas >= {major}")])
        .output();
    match asked {
        Ok(told) if told.status.success() => PathBuf::from(String::from_utf8_lossy(&told.stdout).trim()),
        Ok(told) => fail(&String::from_utf8_lossy(&told.stderr)),
        Err(fault) => fail(&format!("pkg-config does not run: {fault}")),
    }
}

fn places() -> Vec<PathBuf> {
    if let Some(named) = named() {
        return vec![named];
    }
    if has_feature("PKG_CONFIG") {
        return vec![by_pkg_config()];
    }
    let here = PathBuf::from(env::var_os("CARGO_MANIFEST_DIR").unwrap_or_default());
    PLACES.iter().map(|place| here.join(place)).collect()
}

/// Whether `make` may still build the library in a place. Cargo runs this each time if a file that it waits for is not there, so it waits for no other one.
fn is_in_checkout(place: &Path) -> bool {
    place.parent().is_some_and(|top| top.join("Makefile").is_file())
}

/// Prints where the headers are, for the build scripts of crates that use this one: DEP_HONGPILAS_INCLUDE.
fn tell_include(place: &Path) {
    let include = place.join("../include");
    if include.join("hongpilas.h").is_file() {
        println!("cargo:include={}", include.display());
    }
}

fn main() {
    for name in ["HONGPILAS_LIB_DIR", "PKG_CONFIG", "PKG_CONFIG_PATH"] {
        println!("cargo:rerun-if-env-changed={name}");
    }
    let (kind, file) = if has_feature("DYNAMIC") { ("dylib", "libhongpilas.so") } else { ("static", "libhongpilas.a") };
    println!("cargo:rustc-link-lib={kind}=hongpilas");
    let places = places();
    let found = places.iter().position(|place| place.join(file).is_file());
    // This runs again once there is another library to take: a new one where it was found, or one that `make` has built in a place that goes before; or
    // any, if there was none.
    for (index, place) in places.iter().enumerate() {
        let is_awaited = match found {
            Some(at) => index == at || (index < at && is_in_checkout(place)),
            None => true,
        };
        if is_awaited {
            println!("cargo:rerun-if-changed={}", place.join(file).display());
        }
    }
    if let Some(place) = found.map(|index| &places[index]) {
        println!("cargo:rustc-link-search=native={}", place.display());
        tell_include(place);
        return;
    }
    // What only checks, such as `cargo check` and `cargo doc`, needs no library; what links says that it is not there.
    let list: Vec<String> = places.iter().map(|place| place.display().to_string()).collect();
    println!(
        "cargo:warning={file} is not in {}: build the library with `make`, or name the folder that has it in HONGPILAS_LIB_DIR",
        list.join(", ")
    );
}
