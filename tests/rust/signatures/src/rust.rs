//! What is made for Rust: the raw declarations, the helpers' declarations, the archive's symbols over a bridge.

use crate::parse::{Call, Helper, How, Of, Param};
use crate::{head, Made};

fn raw_type(p: &Param) -> String {
    match p.how {
        How::Read => format!("{}: *const {}, {}_len: usize", p.name, p.of.rust(), p.name),
        How::Changed => format!("{}: *mut {}, {}_len: usize", p.name, p.of.rust(), p.name),
        How::Told | How::GoesOn => format!("{}: &mut {}", p.name, p.of.rust()),
        How::Value => format!("{}: {}", p.name, p.of.rust()),
    }
}

/// A line for each slice, and one for each run of numbers between them.
fn raw_lines(call: &Call, indent: &str) -> String {
    let mut lines: Vec<(bool, String)> = vec![];
    for p in &call.params {
        match lines.last_mut() {
            Some((false, line)) if !p.is_slice() => *line += &format!(" {},", raw_type(p)),
            _ => lines.push((p.is_slice(), format!("{},", raw_type(p)))),
        }
    }
    lines.iter().map(|(_, l)| format!("{indent}{l}\n")).collect()
}

/// rust/groatpocket/src/raw.rs.
pub fn raw(calls: &[Call]) -> Made {
    let mut text = head("//! ", "The exported functions, as include/groatpocket.h declares them: pointers and lengths.");
    text += "//!\n//! Each pointer must be valid for its length, and what a call writes must overlap nothing else\n";
    text += "//! that it is lent. The safe calls of this crate see to both.\n#![allow(missing_docs)]\n\n#[rustfmt::skip]\nextern \"C\" {\n";
    let each = calls.iter().map(|c| format!("    pub fn gp_{}(\n{}    ) -> u32;\n", c.name, raw_lines(c, "        ")));
    text += &each.collect::<Vec<_>>().join("\n");
    text += "}\n";
    Made { file: "rust/groatpocket/src/raw.rs", text }
}

/// A number's word, and back.
fn to_word(p: &Param) -> String {
    let behind = if p.is_told() { "*" } else { "" };
    match p.of {
        Of::F32 => format!("{}.to_bits()", p.name),
        Of::U32 => format!("{behind}{}", p.name),
        _ => format!("{behind}{} as u32", p.name),
    }
}

/// The archive's symbols, where it is for another processor: each call goes through `call`, by its number.
pub fn bridge(calls: &[Call]) -> Made {
    let mut text = head("//! ", "The exported functions through the bridge, each by its number in `server_calls.h`.");
    text += "\nuse super::bridge::{call, changed, read_only};\n";
    for (k, c) in calls.iter().enumerate() {
        let numbers: Vec<&Param> = c.params.iter().filter(|p| !p.is_slice()).collect();
        let words: Vec<String> = numbers.iter().map(|p| to_word(p)).collect();
        let slice = |p: &Param| {
            let by = if p.how == How::Read { "read_only" } else { "changed" };
            format!("            {by}({}, {}_len),\n", p.name, p.name)
        };
        text += &format!(
            "\n#[cfg(feature = \"{}\")]\n#[no_mangle]\nunsafe extern \"C\" fn gp_{}(\n{}) -> u32 {{\n",
            c.feature,
            c.name,
            raw_lines(c, "    ")
        );
        text += &format!("    let mut n = [{}];\n    let answer = call(\n        {},\n        &mut n,\n        vec![\n", words.join(", "), k + 1);
        text += &c.slices().map(slice).collect::<String>();
        text += "        ],\n    );\n";
        for (at, p) in numbers.iter().enumerate().filter(|(_, p)| p.is_told()) {
            let back = match p.of {
                Of::U32 => format!("n[{at}]"),
                Of::F32 => format!("f32::from_bits(n[{at}])"),
                of => format!("n[{at}] as {}", of.rust()),
            };
            text += &format!("    *{} = {back};\n", p.name);
        }
        text += "    answer\n}\n";
    }
    Made { file: "tests/rust/ours/src/bridge_calls.rs", text }
}

/// A helper called over the words x, y and z.
fn over_words(h: &Helper) -> String {
    let given = ["x", "y", "z"].iter().zip(&h.params).map(|(v, p)| match p.of {
        Of::F32 => format!("f32::from_bits({v})"),
        Of::U32 => v.to_string(),
        of => format!("{v} as {}", of.rust()),
    });
    let called = format!("gp_{}({})", h.name, given.collect::<Vec<_>>().join(", "));
    match h.answer {
        Of::F32 => format!("{called}.to_bits()"),
        Of::U32 => called,
        Of::Bool => format!("({called} != 0) as u32"),
        _ => format!("{called} as u32"),
    }
}

/// The float helpers of the archive, by their numbers.
pub fn floats(helpers: &[Helper]) -> Made {
    let mut text = head("//! ", "The float helpers, which the crate groatpocket does not give out: its archive exports them for these runs.");
    text += "\nuse groatpocket as _;\n\nextern \"C\" {\n";
    for h in helpers {
        let params: Vec<String> = h.params.iter().map(raw_type).collect();
        let answer = if h.answer == Of::Bool { "u8" } else { h.answer.rust() };
        text += &format!("    fn gp_{}({}) -> {answer};\n", h.name, params.join(", "));
    }
    text += "}\n\n/// One helper over words, by its number in the list of floats.\npub fn one(helper: u32, [x, y, z]: [u32; 3]) -> u32 {\n";
    text += "    // SAFETY of every call: numbers by value alone.\n    unsafe {\n        match helper {\n";
    for h in helpers {
        text += &format!("            0x{:02x} => {},\n", h.number, over_words(h));
    }
    text += "            _ => panic!(\"no helper {helper:02x}\"),\n        }\n    }\n}\n";
    Made { file: "tests/rust/ours/src/floats.rs", text }
}
