//! The crate groatpocket links the archive. Where that is for another processor, `server.c` is linked with it instead,
//! to be run under an emulator, qemu-x86_64 (cfg `bridge`). With no stage's feature on there is nothing to link.

use std::env;
use std::path::{Path, PathBuf};
use std::process::Command;

const STAGES: [&str; 14] =
    ["FLOATS", "BACKDROP", "HAND_OUT", "COUNT", "TILE", "FILL", "FINE", "FRAME", "LISTS", "PICTURE", "PIXEL", "RECOUNT", "CHECK", "SVG"];

fn linked(stage: &str) -> bool {
    env::var(format!("CARGO_FEATURE_{stage}")).is_ok()
}

/// The toolchain of the kit that `rt` belongs to: clang and ld.lld.
fn kit() -> PathBuf {
    let path = env::var_os("PATH").unwrap_or_default();
    let rt = env::split_paths(&path).map(|p| p.join("rt")).find(|p| p.is_file());
    let rt = rt.and_then(|p| p.canonicalize().ok()).expect("rt is on the path");
    rt.parent().unwrap().join("../toolchain/bin")
}

fn make_server(archive: &Path) {
    let (kit, out) = (kit(), PathBuf::from(env::var("OUT_DIR").unwrap()));
    let (object, server) = (out.join("server.o"), out.join("server"));
    let has = STAGES.iter().filter(|s| linked(s)).map(|s| format!("-DHAS_{s}"));
    let compiled = Command::new(kit.join("clang"))
        .args([
            "--target=x86_64-unknown-linux-gnu",
            "-O2",
            "-Wall",
            "-Werror",
            "-Wno-unused",
            "-ffreestanding",
            "-fno-builtin",
            "-fno-stack-protector",
            "-c",
        ])
        .args(has)
        .arg("server.c")
        .arg("-o")
        .arg(&object)
        .status();
    assert!(compiled.is_ok_and(|s| s.success()), "server.c isn't compiled");
    let made = Command::new(kit.join("ld.lld")).args(["-static", "-o"]).args([&server, &object]).arg(archive).status();
    assert!(made.is_ok_and(|s| s.success()), "the server isn't linked");
    println!("cargo:rustc-cfg=bridge");
    println!("cargo:rustc-env=OURS_SERVER={}", server.display());
    println!("cargo:rustc-env=OURS_EMULATOR=qemu-x86_64");
}

fn main() {
    println!("cargo:rerun-if-changed=build.rs");
    println!("cargo:rerun-if-changed=server.c");
    println!("cargo:rerun-if-changed=server_calls.h");
    println!("cargo:rustc-check-cfg=cfg(bridge, linked)");
    if env::var("DEP_GROATPOCKET_ARCHIVE").is_ok() {
        println!("cargo:rustc-cfg=linked");
    }
    if env::var("DEP_GROATPOCKET_LINKED").is_ok_and(|linked| linked == "false") {
        make_server(Path::new(&env::var_os("DEP_GROATPOCKET_ARCHIVE").expect("the archive's path")));
    }
}
