//! Finds libvoldazpe.a: in the prefix that VOLDAZPE_PREFIX names, else in /usr/local or /usr.

use std::env;
use std::path::{Path, PathBuf};
use std::process::exit;

fn main() {
    println!("cargo:rerun-if-env-changed=VOLDAZPE_PREFIX");
    let prefixes: Vec<PathBuf> = match env::var_os("VOLDAZPE_PREFIX") {
        Some(prefix) => named(Path::new(&prefix)),
        None => vec![PathBuf::from("/usr/local"), PathBuf::from("/usr")],
    };
    let archive = |prefix: &Path| prefix.join("lib").join("libvoldazpe.a");
    let Some(prefix) = prefixes.iter().find(|prefix| archive(prefix).is_file()) else {
        eprintln!("libvoldazpe.a is not in the folder lib of {prefixes:?}");
        eprintln!("install the package, or make it by `tools/c-install PREFIX` in a checkout of Voldazpe");
        eprintln!("where it is below another folder than /usr and /usr/local, set VOLDAZPE_PREFIX to that one");
        exit(1);
    };
    println!("cargo:rerun-if-changed={}", archive(prefix).display());
    println!("cargo:rustc-link-search=native={}", prefix.join("lib").display());
    println!("cargo:rustc-env=VOLDAZPE_HEADER={}", prefix.join("include").join("voldazpe.h").display()); // a test reads it
    find_house(&prefix.join("lib").join("libvoldazpe_house.a"));
    println!("cargo:rustc-link-lib=static=voldazpe");
}

/// The folders that a prefix may stand for. A relative one begins where cargo was called, as the shell says, or in the
/// package's folder, where cargo runs this. The linker runs elsewhere, so that each is made absolute.
fn named(prefix: &Path) -> Vec<PathBuf> {
    if prefix.is_absolute() {
        return vec![prefix.to_path_buf()];
    }
    println!("cargo:rerun-if-env-changed=PWD");
    let called = env::var_os("PWD").map(PathBuf::from);
    called.into_iter().chain(env::current_dir()).map(|folder| folder.join(prefix)).collect()
}

/// The archive of `voldazpe::House`, which a prefix of an older install doesn't have: the package does without it there.
fn find_house(archive: &Path) {
    println!("cargo:rustc-check-cfg=cfg(voldazpe_house)");
    println!("cargo:rerun-if-changed={}", archive.display());
    if env::var_os("CARGO_FEATURE_HOUSE").is_none() {
        return;
    }
    if archive.is_file() {
        println!("cargo:rustc-link-lib=static=voldazpe_house");
        println!("cargo:rustc-cfg=voldazpe_house");
    } else {
        println!("cargo:warning=no {}: voldazpe::House is left out", archive.display());
    }
}
