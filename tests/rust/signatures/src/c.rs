//! What is made for C: the server's calls under an emulator, and the wrong library of the self-test.

use crate::parse::{Call, Helper, How, Of, Param};
use crate::{head, Made};

fn declared(p: &Param) -> String {
    match p.how {
        How::Read => format!("const {0} *{1}, size_t {1}_len", p.of.c(), p.name),
        How::Changed => format!("{0} *{1}, size_t {1}_len", p.of.c(), p.name),
        How::Told | How::GoesOn => format!("{} *{}", p.of.c(), p.name),
        How::Value => format!("{} {}", p.of.c(), p.name),
    }
}

fn list(params: &[Param]) -> String {
    params.iter().map(declared).collect::<Vec<_>>().join(", ")
}

fn head_c(what: &str) -> String {
    format!("{} */\n", head(" * ", what).trim_end().replacen(" *", "/*", 1))
}

/// One call of the server: slices and numbers as they came, numbers that are told put back.
fn served(call: &Call) -> String {
    let (mut slice, mut number) = (0, 0);
    let (mut before, mut after, mut arguments) = (String::new(), String::new(), vec![]);
    for p in &call.params {
        if p.is_slice() {
            arguments.push(format!("SLICE({slice}, {})", p.of.c()));
            slice += 1;
            continue;
        }
        arguments.push(match (p.how, p.of) {
            (How::Value, Of::F32) => format!("as_float(n[{number}])"),
            (How::Value, of) => format!("({})n[{number}]", of.c()),
            (_, Of::U32) => format!("&n[{number}]"),
            (_, Of::F32) => {
                before += &format!("        float {} = as_float(n[{number}]);\n", p.name);
                after += &format!("        n[{number}] = as_bits({});\n", p.name);
                format!("&{}", p.name)
            }
            (_, of) => {
                before += &format!("        {} {} = n[{number}];\n", of.c(), p.name);
                after += &format!("        n[{number}] = (uint32_t){};\n", p.name);
                format!("&{}", p.name)
            }
        });
        number += 1;
    }
    format!("{before}        uint32_t answer = gp_{}({});\n{after}        return answer;\n", call.name, arguments.join(", "))
}

fn one_float(h: &Helper) -> String {
    let given = ["x", "y", "z"].iter().zip(&h.params).map(|(v, p)| match p.of {
        Of::F32 => format!("as_float({v})"),
        of => format!("({}){v}", of.c()),
    });
    let called = format!("gp_{}({})", h.name, given.collect::<Vec<_>>().join(", "));
    let answer = match h.answer {
        Of::F32 => format!("as_bits({called})"),
        Of::Bool => format!("{called} != 0"),
        _ => format!("(uint32_t){called}"),
    };
    format!("    case 0x{:02x}: return {answer};\n", h.number)
}

/// tests/rust/ours/server_calls.h: every call that the server runs, by its number.
pub fn server(calls: &[Call], helpers: &[Helper]) -> Made {
    let mut text = head_c("The archive's functions declared, and `run`: a call by its number. For server.c.");
    text += "#ifdef HAS_FLOATS\n";
    text += &helpers.iter().map(|h| format!("extern {} gp_{}({});\n", h.answer.c(), h.name, list(&h.params))).collect::<String>();
    text += "\nstatic uint32_t one_float(uint32_t helper, uint32_t x, uint32_t y, uint32_t z) {\n    switch (helper) {\n";
    text += &helpers.iter().map(one_float).collect::<String>();
    text += "    }\n    leave();\n    return 0;\n}\n#endif\n\n";
    let has = |c: &Call| format!("#ifdef HAS_{}\n", c.feature.to_uppercase());
    text += &calls.iter().map(|c| format!("{}extern uint32_t gp_{}({});\n#endif\n", has(c), c.name, list(&c.params))).collect::<String>();
    text += "\nstatic uint32_t run(uint32_t which) {\n    uint32_t *n = numbers;\n    switch (which) {\n#ifdef HAS_FLOATS\n    case 0: return floats();\n#endif\n";
    for (k, c) in calls.iter().enumerate() {
        text += &format!("{}    case {}: {{ /* {} */\n{}    }}\n#endif\n", has(c), k + 1, c.name, served(c));
    }
    text += "    }\n    leave();\n    return 0;\n}\n";
    Made { file: "tests/rust/ours/server_calls.h", text }
}

/// The places where an answer can be told wrongly: the number, each number told, each slice changed.
fn wronged(call: &Call) -> String {
    let (name, mut text) = (&call.name, String::new());
    for p in call.params.iter().filter(|p| p.how == How::Changed) {
        for (part, given) in [("", "=="), (" refused", "!=")] {
            text += &format!("    if (strikes(\"{name} {0}{part}\", answer {given} 0 && {0}_len > 0)) flip({0} + {0}_len / 2);\n", p.name);
        }
    }
    for p in call.told() {
        // a part that speaks of what is refused is told wrongly there; the running numbers always
        let given = if matches!(p.name.as_str(), "item" | "stage") { "answer != 0" } else { "1" };
        text += &format!("    if (strikes(\"{name} {0}\", {given})) *{0} += 1;\n", p.name);
    }
    text + &format!("    if (strikes(\"{name} answer\", 1)) answer ^= 1;\n")
}

/// tests/rust/wrong/wrong.c: the archive's functions, one of them wrong now and then.
pub fn wrong(calls: &[Call], helpers: &[Helper]) -> Made {
    let mut text = head_c("The archive's functions, told wrongly where tests/rust/can_fail asks for it (`--wrap` of the linker).");
    text += "#include \"wrong.h\"\n";
    for c in calls {
        let arguments = c.params.iter().map(|p| if p.is_slice() { format!("{0}, {0}_len", p.name) } else { p.name.clone() });
        text += &format!("\nuint32_t __real_gp_{}({});\nuint32_t __wrap_gp_{0}({1}) {{\n", c.name, list(&c.params));
        text += &format!(
            "    uint32_t answer = __real_gp_{}({});\n{}    return answer;\n}}\n",
            c.name,
            arguments.collect::<Vec<_>>().join(", "),
            wronged(c)
        );
    }
    text += "\n#ifndef BRIDGED /* over the bridge the helpers are no functions of their own */\n";
    for h in helpers {
        let arguments: Vec<&str> = h.params.iter().map(|p| p.name.as_str()).collect();
        text += &format!("\n{} __real_gp_{}({});\n", h.answer.c(), h.name, list(&h.params));
        text +=
            &format!("{} __wrap_gp_{}({}) {{\n    {0} answer = __real_gp_{1}({});\n", h.answer.c(), h.name, list(&h.params), arguments.join(", "));
        text += &format!("    if (strikes(\"{} answer\", 1)) flip(&answer);\n    return answer;\n}}\n", h.name);
    }
    text += "\n#endif\n";
    Made { file: "tests/rust/wrong/wrong.c", text }
}
