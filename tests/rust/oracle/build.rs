//! Finds the Rust that is ported and writes the lines that compile it unchanged.
//!
//! The folder is the one that GROATPOCKET_RUST names (it holds src/cpu/...), else `../shared/docs/src`,
//! else `docs/src`, from the project's root. An attribute can't hold `concat!(env!(..))`, so the lines
//! with the absolute paths go to OUT_DIR. Where no source is found the crate builds without it, and
//! `oracle::AT_HAND` is false.
//!
//! The five files must be those of SHA256SUMS, byte for byte; any other isn't built. The self-test (tests/rust/can_fail)
//! builds an altered copy: GROATPOCKET_RUST_ALTERED=yes lets it pass, and `oracle::ALTERED` is true.

#[path = "sha256.rs"]
mod sha256;

use std::path::{Path, PathBuf};
use std::{env, fs};

const FILES: [&str; 5] = ["util", "path_count", "path_tiling", "backdrop", "fine"];

fn holds_source(folder: &Path) -> bool {
    FILES.iter().all(|f| folder.join("src/cpu").join(format!("{f}.rs")).is_file())
}

fn find() -> Option<PathBuf> {
    let root = PathBuf::from(env::var("CARGO_MANIFEST_DIR").unwrap()).join("../../..");
    let named = env::var("GROATPOCKET_RUST").ok().map(|n| {
        let n = PathBuf::from(n);
        if n.is_absolute() {
            n
        } else {
            root.join(n)
        }
    });
    let folders = match named {
        Some(folder) => vec![folder],
        None => vec![root.join("../shared/docs/src"), root.join("docs/src")],
    };
    let found = folders.iter().position(|f| holds_source(f));
    // looked for again where it was found, and where it might come to stand
    for folder in &folders[..found.map_or(folders.len(), |k| k + 1)] {
        println!("cargo:rerun-if-changed={}", folder.join("src/cpu/util.rs").display());
    }
    folders[found?].canonicalize().ok()
}

/// Ends the build where a file isn't the one that was ported.
fn hold_against_sums(folder: &Path) {
    let sums = fs::read_to_string("SHA256SUMS").expect("SHA256SUMS stands beside build.rs");
    for file in FILES.map(|name| format!("src/cpu/{name}.rs")) {
        let found = sha256::sha256(&fs::read(folder.join(&file)).expect("a file that was found"));
        if !sums.lines().any(|line| line == format!("{found}  {file}")) {
            eprintln!("{} isn't the ported file: its SHA-256 is {found}, not SHA256SUMS's", folder.join(&file).display());
            std::process::exit(1);
        }
    }
}

fn lines_for(folder: &Path) -> String {
    let file = |name: &str| folder.join("src/cpu").join(format!("{name}.rs")).display().to_string();
    let mut out = format!("#[path = {:?}]\npub mod util;\n", file("util"));
    for name in &FILES[1..] {
        let path = file(name);
        println!("cargo:rerun-if-changed={path}");
        out += &format!(
            "pub mod {name} {{\n    include!({path:?});\n    include!(concat!(env!(\"CARGO_MANIFEST_DIR\"), \"/src/entry_{name}.rs\"));\n}}\n"
        );
    }
    out
}

fn main() {
    println!("cargo:rerun-if-env-changed=GROATPOCKET_RUST");
    println!("cargo:rerun-if-env-changed=GROATPOCKET_RUST_ALTERED");
    println!("cargo:rerun-if-changed=build.rs");
    println!("cargo:rerun-if-changed=sha256.rs");
    println!("cargo:rerun-if-changed=SHA256SUMS");
    println!("cargo:rustc-check-cfg=cfg(at_hand, altered)");
    let out = PathBuf::from(env::var("OUT_DIR").unwrap()).join("ported.rs");
    let found = find();
    println!("cargo:rustc-env=ORACLE_FOLDER={}", found.as_deref().unwrap_or(Path::new("")).display());
    match found {
        Some(folder) => {
            if env::var("GROATPOCKET_RUST_ALTERED").is_ok_and(|v| v == "yes") {
                println!("cargo:rustc-cfg=altered");
            } else {
                hold_against_sums(&folder);
            }
            println!("cargo:rustc-cfg=at_hand");
            fs::write(out, lines_for(&folder)).unwrap();
        }
        None => {
            println!("cargo:warning=the ported Rust isn't at hand (GROATPOCKET_RUST): built without it");
            fs::write(out, "").unwrap();
        }
    }
}
