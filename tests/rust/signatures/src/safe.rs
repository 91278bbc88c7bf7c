//! The safe crate's functions, read; and `ours`: the header's parameters, carried over to them.

use crate::parse::{Call, How, Of, Param};
use crate::{fail, head, Made};
use std::collections::BTreeMap;

pub struct Safe {
    /// The types of each function's parameters, by name, in order.
    functions: BTreeMap<String, Vec<(String, String)>>,
    /// The fields of each struct, with their types.
    structs: BTreeMap<String, Vec<(String, String)>>,
    /// The features under which functions are given out.
    features: BTreeMap<String, String>,
}

impl Safe {
    pub fn feature(&self, call: &str) -> String {
        self.features.get(call).cloned().unwrap_or_else(|| call.to_string())
    }
}

/// A field of the safe crate that has a name of its own there.
const ALIASES: [(&str, &str); 1] = [("references", "made")];

/// A type's name without its lifetimes.
fn bare(name: &str) -> &str {
    name.split('<').next().unwrap_or(name)
}

fn named(list: &str, before: &str) -> Vec<(String, String)> {
    let lines = list.split(',').flat_map(|p| p.lines().map(str::trim).filter(|l| !l.is_empty() && !l.starts_with("//") && !l.starts_with('#')));
    lines.filter_map(|p| p.strip_prefix(before)?.split_once(": ")).map(|(n, t)| (n.to_string(), t.to_string())).collect()
}

pub fn read(text: &str) -> Safe {
    let functions = text.split("\npub fn ").skip(1).filter_map(|f| {
        let (name, rest) = f.split_once('(')?;
        Some((name.to_string(), named(rest.split_once(") -> ")?.0, "")))
    });
    let structs = text.split("\npub struct ").skip(1).filter_map(|s| {
        let (name, rest) = s.split_once(" {")?;
        Some((bare(name).to_string(), named(rest.split_once("\n}")?.0, "pub ")))
    });
    let features = text.split("#[cfg(feature = \"").skip(1).filter_map(|f| {
        let (feature, rest) = f.split_once("\")]\npub use ")?;
        Some((feature, rest.split_once("::")?.1.split_once(';')?.0))
    });
    let named = features.flat_map(|(feature, names)| names.trim_matches(['{', '}']).split(", ").map(move |n| (n.to_string(), feature.to_string())));
    Safe { functions: functions.collect(), structs: structs.collect(), features: named.collect() }
}

/// A number of the header's call, as a value.
fn value(call: &Call, name: &str, of: &str) -> String {
    let name = ALIASES.iter().find(|(safe, _)| *safe == name).map_or(name, |(_, ours)| ours);
    let Some(param) = call.params.iter().find(|p| p.name == name) else {
        fail(&format!("the safe {} has `{name}`, the header's call doesn't", call.name))
    };
    match (param.how, of) {
        (How::GoesOn, _) => format!("*{name}"),
        (How::Value, "bool") => format!("{name} != 0"),
        _ => name.to_string(),
    }
}

/// The header's parameters as a Rust function has them.
pub fn typed(p: &Param) -> String {
    let how = match p.how {
        How::Read => format!("&[{}]", p.of.rust()),
        How::Changed => format!("&mut [{}]", p.of.rust()),
        How::Told | How::GoesOn => format!("&mut {}", p.of.rust()),
        How::Value => p.of.rust().to_string(),
    };
    format!("    {}: {how},\n", p.name)
}

fn raw_argument(p: &Param) -> String {
    match p.how {
        How::Read => format!("{0}.as_ptr(), {0}.len()", p.name),
        How::Changed => format!("{0}.as_mut_ptr(), {0}.len()", p.name),
        _ => p.name.clone(),
    }
}

/// The same with NULL for a slice of no elements.
fn null_argument(p: &Param) -> String {
    match p.how {
        How::Read => format!("crate::null::at({0}), {0}.len()", p.name),
        How::Changed => format!("crate::null::at_mut({0}), {0}.len()", p.name),
        _ => p.name.clone(),
    }
}

/// A call that is lent a slice of none goes to the archive with NULL for it, now and then: the safe crate has another pointer there.
fn by_null(call: &Call) -> String {
    let lengths = call.slices().map(|p| format!("{}.len()", p.name)).collect::<Vec<_>>().join(", ");
    let arguments = call.params.iter().map(null_argument).collect::<Vec<_>>().join(", ");
    format!(
        "    #[cfg(all(feature = \"{}\", not(bridge)))]\n    if crate::null::is_lent(&[{lengths}]) {{\n        \
         // SAFETY: every pointer and length is a slice's, lent for the call alone, or NULL and 0.\n        \
         return unsafe {{ groatpocket::raw::gp_{}({arguments}) }};\n    }}\n",
        call.feature, call.name
    )
}

/// The call of the safe function, and the words that it has as a bool.
fn safe_call(call: &Call, safe: &Safe) -> (String, Vec<String>) {
    let Some(params) = safe.functions.get(&call.name) else { fail(&format!("the safe crate has no {}", call.name)) };
    let mut bools = vec![];
    let argument = |(name, of): &(String, String)| {
        let Some(fields) = safe.structs.get(bare(of)) else { return value(call, name, of) };
        let each = fields.iter().map(|(field, of)| {
            if of == "bool" {
                bools.push(field.clone());
            }
            let value = value(call, field, of);
            if value == *field {
                value
            } else {
                format!("{field}: {value}")
            }
        });
        format!("groatpocket::{} {{ {} }}", bare(of), each.collect::<Vec<_>>().join(", "))
    };
    let arguments: Vec<String> = params.iter().map(argument).collect();
    (format!("groatpocket::{}({})", call.name, arguments.join(", ")), bools)
}

fn one(call: &Call, safe: &Safe) -> String {
    let (called, bools) = safe_call(call, safe);
    let told: Vec<&str> = call.told().map(|p| p.name.as_str()).collect();
    let by = if told.is_empty() { "nothing".to_string() } else { told.join("_") };
    let raw = call.params.iter().map(raw_argument).collect::<Vec<_>>().join(", ");
    let (name, feature) = (&call.name, &call.feature);
    let raw_call = format!(
        "        // SAFETY: every pointer and length is a slice's, lent for the call alone.\n        \
         return unsafe {{ groatpocket::raw::gp_{name}({raw}) }};\n"
    );
    let mut body = by_null(call);
    if !bools.is_empty() {
        let wide = bools.iter().map(|b| format!("{b} > 1")).collect::<Vec<_>>().join(" || ");
        body += &format!("    #[cfg(feature = \"{feature}\")]\n    if {wide} {{\n        // the safe call has a bool there\n{raw_call}    }}\n");
    }
    body += &format!("    #[cfg(feature = \"{feature}\")]\n    let answer = {called};\n");
    if call.params.iter().any(|p| p.how == How::GoesOn && !called.contains(&format!("*{}", p.name))) {
        body += &format!(
            "    #[cfg(feature = \"{feature}\")]\n    if answer.is_err() {{\n        // what is told then is the call's own\n{raw_call}    }}\n"
        );
    }
    let told = told.iter().map(|t| format!(", {t}")).collect::<String>();
    let params: String = call.params.iter().map(typed).collect();
    let names: Vec<&str> = call.params.iter().map(|p| p.name.as_str()).collect();
    format!(
        "\npub fn {name}(\n{params}) -> u32 {{\n{body}    #[cfg(feature = \"{feature}\")]\n    return crate::answers::{by}(answer{told});\n    \
         #[cfg(not(feature = \"{feature}\"))]\n    not_linked((\"{name}\", {}))\n}}\n",
        names.join(", ")
    )
}

/// The calls of the safe crate with the header's parameters, and their numbers for answers.
pub fn ours(calls: &[Call], safe: &Safe) -> Made {
    let mut text = head("//! ", "The calls of the crate `groatpocket` with the header's parameters, and their numbers for answers.");
    text += "\n/// A call whose feature is off.\n#[allow(dead_code)]\n";
    text += "fn not_linked<T>(_: T) -> u32 {\n    panic!(\"a call that isn't linked\")\n}\n";
    text += &calls.iter().map(|c| one(c, safe)).collect::<String>();
    debug_assert!(calls.iter().all(|c| c.params.iter().all(|p| p.of != Of::Bool)));
    Made { file: "tests/rust/ours/src/calls.rs", text }
}
