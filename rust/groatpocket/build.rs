//! Finds the archive: the file that GROATPOCKET_LIB names, from where the person stands or, if there is none, from the
//! project's root; with no name, target/staticlib/libgroatpocket.a of the project, which `./archive` writes.
//!
//! With no name and no archive there, nothing is linked: `cargo doc` and `cargo check` still pass, and a warning says
//! what a program would lack. On docs.rs no archive is looked for. An archive for another processor is not linked either: a
//! build that calls nothing still passes. A crate above is told both as DEP_GROATPOCKET_ARCHIVE and DEP_GROATPOCKET_LINKED.
use std::path::{Path, PathBuf};
use std::{env, fs};

/// The ELF number of the processor that the archive's first object is for.
fn processor_of(archive: &Path) -> Option<u16> {
    let bytes = fs::read(archive).ok()?;
    let elf = bytes.windows(4).position(|w| w == b"\x7fELF")?;
    Some(u16::from_le_bytes([*bytes.get(elf + 18)?, *bytes.get(elf + 19)?]))
}

fn here() -> Option<u16> {
    match env::var("CARGO_CFG_TARGET_ARCH").ok()?.as_str() {
        "x86_64" => Some(62),
        "aarch64" => Some(183),
        _ => None,
    }
}

/// The archive, if it is there; without one that was named the build fails.
fn archive() -> Option<PathBuf> {
    let root = PathBuf::from(env!("CARGO_MANIFEST_DIR")).join("../..");
    let Some(name) = env::var_os("GROATPOCKET_LIB").filter(|n| !n.is_empty()).map(PathBuf::from) else {
        return root.join("target/staticlib/libgroatpocket.a").canonicalize().ok();
    };
    // cargo runs this in the crate's folder; PWD is still the folder of the shell
    let stands = env::var_os("PWD").map(PathBuf::from).filter(|_| name.is_relative());
    if name.is_relative() {
        println!("cargo:rerun-if-env-changed=PWD");
    }
    let places: Vec<PathBuf> = stands.into_iter().chain([root]).map(|p| p.join(&name)).collect();
    let Some(found) = places.iter().find_map(|p| p.canonicalize().ok()) else {
        let tried: Vec<String> = places.iter().map(|p| p.display().to_string()).collect();
        eprintln!("GROATPOCKET_LIB names {}, and no archive is at {}", name.display(), tried.join(" or "));
        std::process::exit(1);
    };
    Some(found)
}

fn main() {
    println!("cargo:rerun-if-env-changed=GROATPOCKET_LIB");
    println!("cargo:rerun-if-env-changed=DOCS_RS");
    println!("cargo:rerun-if-changed=build.rs");
    if env::var_os("DOCS_RS").is_some() {
        return;
    }
    let Some(archive) = archive() else {
        println!(
            "cargo:warning=no archive, so nothing is linked, and a program that calls anything won't link: run `./archive` in the project, or name an archive by GROATPOCKET_LIB"
        );
        // this file is never there: the next build looks again
        println!("cargo:rerun-if-changed=no-archive");
        return;
    };
    println!("cargo:rerun-if-changed={}", archive.display());
    println!("cargo:archive={}", archive.display());
    let linked = processor_of(&archive).is_some_and(|p| Some(p) == here());
    println!("cargo:linked={linked}");
    if !linked {
        println!("cargo:warning={} is for another processor and is not linked", archive.display());
        return;
    }
    let folder = archive.parent().expect("an archive stands in a folder");
    let name = archive.file_name().expect("an archive has a name");
    println!("cargo:rustc-link-search=native={}", folder.display());
    println!("cargo:rustc-link-lib=static:+verbatim={}", name.to_string_lossy());
}
