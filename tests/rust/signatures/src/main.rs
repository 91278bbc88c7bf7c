//! A call's parameters are typed by a person three times: in the export (crates/groatpocket_c/src), in the header
//! (include/groatpocket.h), and in the safe crate (rust/groatpocket). All else that lists them is made here.
//!
//!     cargo run -p signatures -- write       makes the files
//!     cargo run -p signatures -- check       writes nothing; fails where a file isn't what would be made
//!
//! Both fail where the export and the header part, in a type or in the order, or where a call of the header has no safe
//! function. Names are the header's. What a call reads before it writes is known from the export's promise. The restated
//! rules (tests/rust/rules) are a person's too: the dispatch that is made here calls them with the header's parameters,
//! so the compiler holds them against it.

mod c;
mod dispatch;
mod parse;
mod rust;
mod safe;

use parse::{Call, Helper};
use std::path::PathBuf;
use std::{env, fs, process};

/// The calls in the order of their numbers: the lists of the gate have the first six. Others come after, as the header has them.
const NUMBERED: [&str; 8] = ["count", "backdrop", "hand_out", "tile", "fill", "fine", "frame", "write_lists"];

/// The function that tells of the archive and is lent nothing: no call and no helper. The safe crate declares it, and its tests ask it.
const ITSELF: &str = "version";

/// A file that is made, from the project's root.
pub struct Made {
    pub file: &'static str,
    pub text: String,
}

/// What all of them begin with, after `before` on each line.
pub fn head(before: &str, what: &str) -> String {
    let lines = [what, "Made from include/groatpocket.h by tests/rust/signatures (`-- write`), which `./test` holds it against: edit there."];
    lines.iter().map(|l| format!("{before}{l}\n")).collect()
}

fn root() -> PathBuf {
    PathBuf::from(env!("CARGO_MANIFEST_DIR")).join("../../..")
}

fn text(file: &str) -> String {
    fs::read_to_string(root().join(file)).unwrap_or_else(|e| fail(&format!("{file}: {e}")))
}

pub fn fail(said: &str) -> ! {
    eprintln!("signatures: {said}");
    process::exit(1)
}

/// Every text of a folder's files with this ending, in the order of their names.
fn texts(folder: &str, ending: &str) -> String {
    let entries = fs::read_dir(root().join(folder)).unwrap_or_else(|e| fail(&format!("{folder}: {e}")));
    let mut names: Vec<String> = entries.map(|e| e.unwrap().file_name().into_string().unwrap()).filter(|n| n.ends_with(ending)).collect();
    names.sort();
    names.iter().map(|n| text(&format!("{folder}/{n}"))).collect()
}

/// The header's calls in the order of their numbers, and its float helpers, all held against the exports.
fn read(safe: &safe::Safe) -> (Vec<Call>, Vec<Helper>) {
    let (exports, lists) = (parse::exports(&texts("crates/groatpocket_c/src", ".rt")), text("tests/rust/README.md"));
    let declared = parse::header(&text("include/groatpocket.h"));
    if let Some(export) = exports.iter().find(|e| declared.iter().all(|d| d.call.name != e.name)) {
        fail(&format!("gp_{} is exported, but isn't in the header", export.name));
    }
    let (mut calls, mut helpers) = (vec![], vec![]);
    for one in declared {
        let name = &one.call.name;
        if name == ITSELF {
            let export = exports.iter().find(|e| e.name == *name).unwrap_or_else(|| fail("gp_version isn't exported"));
            parse::agree(&one, export);
            continue;
        }
        let Some(export) = exports.iter().find(|e| e.name == *name) else { fail(&format!("gp_{name} isn't exported")) };
        parse::agree(&one, export);
        if let Some(helper) = parse::helper(export, &lists) {
            helpers.push(helper);
            continue;
        }
        if !export.answers_a_number() {
            fail(&format!("gp_{name} answers no refusal number, and isn't among the helpers of tests/rust/README.md"));
        }
        let mut call = one.call;
        parse::goes_on(&mut call, export);
        call.feature = safe.feature(&call.name);
        calls.push(call);
    }
    let place = |call: &Call| NUMBERED.iter().position(|n| *n == call.name).unwrap_or(NUMBERED.len());
    calls.sort_by_key(place);
    (calls, helpers)
}

fn main() {
    let safe = safe::read(&texts("rust/groatpocket/src", ".rs"));
    let (calls, helpers) = read(&safe);
    let made = [
        rust::raw(&calls),
        safe::ours(&calls, &safe),
        rust::bridge(&calls),
        rust::floats(&helpers),
        c::server(&calls, &helpers),
        c::wrong(&calls, &helpers),
        dispatch::dispatch(&calls),
    ];
    let write = match env::args().nth(1).as_deref() {
        Some("write") => true,
        Some("check") => false,
        _ => fail("write | check"),
    };
    let mut parted = 0;
    for Made { file, text } in &made {
        let stands = fs::read_to_string(root().join(file)).is_ok_and(|found| found == *text);
        if !stands && write {
            fs::write(root().join(file), text).unwrap_or_else(|e| fail(&format!("{file}: {e}")));
            println!("signatures: {file} is written");
        } else if !stands {
            println!("signatures: {file} ISN'T what is made from the header: cargo run -p signatures -- write");
            parted += 1;
        }
    }
    if parted > 0 {
        process::exit(1);
    }
    println!(
        "signatures: {} calls and {} helpers; export and header agree; {} files are what is made of them",
        calls.len(),
        helpers.len(),
        made.len()
    );
}
