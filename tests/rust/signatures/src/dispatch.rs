//! The dispatch of the comparison: a call of any kind as plain words, to the rules and to ours.

use crate::parse::{Call, How, Of, Param};
use crate::{head, Made};

fn table(calls: &[Call], what: impl Fn(&Call) -> String) -> String {
    calls.iter().map(|c| format!("    {},\n", what(c))).collect()
}

fn places(call: &Call, wanted: impl Fn(&Param) -> bool) -> String {
    let at: Vec<String> = call.slices().enumerate().filter(|(_, p)| wanted(p)).map(|(k, _)| k.to_string()).collect();
    format!("&[{}]", at.join(", "))
}

fn lent(p: &Param) -> String {
    let changed = if p.how == How::Changed { "_mut" } else { "" };
    match p.of {
        Of::U8 => format!("{}_bytes.u8s{changed}()", p.name),
        of => format!("{}.{}s{changed}()", p.name, of.rust()),
    }
}

fn number(p: &Param, at: usize) -> String {
    match p.of {
        Of::F32 => format!("f32::from_bits(n[{at}])"),
        Of::U32 => format!("n[{at}]"),
        of => format!("n[{at}] as {}", of.rust()),
    }
}

/// The arm of a call: its numbers, its slices, and its answer: the number, the item or 0, all else that is told.
fn arm(k: usize, call: &Call) -> String {
    let given: Vec<&Param> = call.given().collect();
    let place = |p: &Param| given.iter().position(|g| g.name == p.name).unwrap();
    let slices: Vec<&str> = call.slices().map(|p| p.name.as_str()).collect();
    let mut text = format!("                ({k}, [{}]) => {{\n", slices.join(", "));
    for p in call.told() {
        let before = match (p.how, p.of) {
            (How::GoesOn, _) => number(p, place(p)),
            (_, Of::U32) => "UNTOLD".into(),
            (_, of) => format!("UNTOLD as {}", of.rust()),
        };
        text += &format!("                    let mut {} = {before};\n", p.name);
    }
    let bytes: Vec<&Param> = call.slices().filter(|p| p.of == Of::U8).collect();
    for p in &bytes {
        let changed = if p.how == How::Changed { "mut " } else { "" };
        text += &format!("                    let {changed}{0}_bytes = LentBytes::of({0}.u32s());\n", p.name);
    }
    text += &format!("                    let no = $side::{}(\n", call.name);
    for p in &call.params {
        let argument = match p.how {
            How::Read | How::Changed => lent(p),
            How::Told | How::GoesOn => format!("&mut {}", p.name),
            How::Value => number(p, place(p)),
        };
        text += &format!("                        {argument},\n");
    }
    text += "                    );\n";
    for p in &bytes {
        text += &format!("                    {0}_bytes.give_back({0}.u32s_mut());\n", p.name);
    }
    let item = if call.told().any(|p| p.name == "item") { "item" } else { "0" };
    let word = |p: &Param| match p.of {
        Of::U32 => p.name.clone(),
        // any NaN for a NaN, where it was made; as it was, where refused
        Of::F32 => format!("if no == 0 {{ cases::memory::one_nan({0}.to_bits()) }} else {{ {0}.to_bits() }}", p.name),
        _ => format!("{} as u32", p.name),
    };
    let rest = call.told().filter(|p| p.name != "item").map(|p| format!(", {}", word(p))).collect::<String>();
    text + &format!("                    vec![no, {item}{rest}]\n                }}\n")
}

pub fn dispatch(calls: &[Call]) -> Made {
    let mut text = head("//! ", "A call of any kind as plain words (calls.rs), by the rules and by ours.");
    text += "\nuse crate::calls::{Call, Outcome};\nuse cases::memory::{Lent, LentBytes};\n\n";
    text += "/// What stands in a number that is only written, before the call.\nconst UNTOLD: u32 = 0xabcd;\n\n";
    text += "/// The calls' names, by kind; none has the kind 0.\npub const NAMES: &[&str] = &[\n    \"\",\n";
    text += &table(calls, |c| format!("\"{}\"", c.name));
    text += "];\n\n/// The slices that a call of a kind may change.\npub const CHANGED: &[&[usize]] = &[\n    &[],\n";
    text += &table(calls, |c| places(c, |p| p.how == How::Changed));
    text += "];\n\n/// The slices that are bytes, a word for each.\npub const BYTES: &[&[usize]] = &[\n    &[],\n";
    text += &table(calls, |c| places(c, |p| p.of == Of::U8));
    text += "];\n\n/// How many slices and numbers a call of a kind takes.\npub const SHAPES: &[(usize, usize)] = &[\n    (0, 0),\n";
    text += &table(calls, |c| format!("({}, {})", c.slices().count(), c.given().count()));
    text += "];\n\n/// Whether a call of a kind is linked.\npub const LINKED: &[bool] = &[\n    false,\n";
    text += &table(calls, |c| format!("ours::has::{}", c.feature.to_uppercase()));
    text += "];\n\nmacro_rules! answered_by {\n    ($name:ident, $side:ident) => {\n        pub fn $name(call: &Call) -> Outcome {\n";
    text += "            let mut slices: Vec<Lent> = call.slices.iter().map(|w| Lent::new(w)).collect();\n            let n = &call.numbers;\n";
    text += "            let answer = match (call.kind, slices.as_mut_slice()) {\n";
    text += &calls.iter().enumerate().map(|(k, c)| arm(k + 1, c)).collect::<String>();
    text += "                _ => panic!(\"no call of kind {}\", call.kind),\n            };\n            Outcome { answer, slices }\n        }\n    };\n}\n\n";
    text += "answered_by!(by_rules, rules);\nanswered_by!(by_ours, ours);\n";
    Made { file: "tests/rust/compare/src/dispatch.rs", text }
}
