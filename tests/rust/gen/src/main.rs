//! Writes the fixed lists of the Rust's answers that the gate replays.
//!
//!     cargo run --profile checked -p gen -- [floats|count|backdrop|hand_out|tiling|fill|fine|all|check|where]
//!
//! `check` writes nothing and ends with status 1 where a list is missing or isn't what would be written.
//! `where` prints the folder of the Rust's source.
//! Each list goes to `crates/replay_NAME/stdin` of the project. Everything is seeded: two runs write the same
//! bytes. The format of `floats` is a line for each entry; the others share the format of a case (`list.rs`).
//! Accepted answers are the unchanged Rust's; refused ones come from the restated rules and are marked so.

mod floats;
mod list;
mod lists;

use std::path::PathBuf;
use std::{env, fs};

/// The seed of every list.
pub const SEED: u64 = 0x6772_6f61_7470_6f63;

fn folder_of(name: &str) -> PathBuf {
    let root = PathBuf::from(env!("CARGO_MANIFEST_DIR")).join("../../..");
    root.join("crates").join(format!("replay_{name}"))
}

fn is_written(name: &str, text: &str) -> bool {
    let same = fs::read_to_string(folder_of(name).join("stdin")).is_ok_and(|stands| stands == text);
    println!("{name}: the list {} what the generator writes", if same { "is" } else { "ISN'T" });
    same
}

fn write(name: &str, text: String) {
    let folder = folder_of(name);
    fs::create_dir_all(&folder).expect("crates/ can be written");
    let file = folder.join("stdin");
    fs::write(&file, &text).expect("the list can be written");
    println!("{name}: {} bytes, {} lines", text.len(), text.lines().count());
}

fn main() {
    let asked = env::args().nth(1).unwrap_or_else(|| "all".into());
    if !oracle::AT_HAND {
        eprintln!("the ported Rust isn't at hand: no list can be written or checked");
        std::process::exit(oracle::NOT_AT_HAND);
    }
    let lists: [(&str, fn() -> String); 7] = [
        ("floats", floats::list),
        ("count", lists::count),
        ("backdrop", lists::backdrop),
        ("hand_out", lists::hand_out),
        ("tiling", lists::tiling),
        ("fill", lists::fill_list),
        ("fine", lists::fine),
    ];
    if asked == "where" {
        return println!("{}", oracle::FOLDER);
    }
    if asked == "check" {
        let well = lists.iter().filter(|(name, list)| !is_written(name, &list())).count() == 0;
        std::process::exit(!well as i32);
    }
    let mut wrote = false;
    for (name, list) in lists {
        if asked == "all" || asked == name {
            write(name, list());
            wrote = true;
        }
    }
    if !wrote {
        eprintln!("no list is named {asked}");
        std::process::exit(2);
    }
}
