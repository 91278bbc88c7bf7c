//! The header, the exports and the helpers' numbers, read.

use crate::fail;

/// An element of a slice, or a number.
#[derive(Clone, Copy, Debug, PartialEq, Eq)]
pub enum Of {
    U8,
    U32,
    I32,
    F32,
    Usize,
    Bool,
}

impl Of {
    fn of_c(word: &str) -> Option<Of> {
        Some(match word {
            "uint8_t" => Of::U8,
            "uint32_t" => Of::U32,
            "int32_t" => Of::I32,
            "float" => Of::F32,
            "size_t" => Of::Usize,
            "bool" => Of::Bool,
            _ => return None,
        })
    }

    fn of_rust(word: &str) -> Option<Of> {
        [Of::U8, Of::U32, Of::I32, Of::F32, Of::Usize, Of::Bool].into_iter().find(|of| of.rust() == word)
    }

    pub fn rust(self) -> &'static str {
        match self {
            Of::U8 => "u8",
            Of::U32 => "u32",
            Of::I32 => "i32",
            Of::F32 => "f32",
            Of::Usize => "usize",
            Of::Bool => "bool",
        }
    }

    pub fn c(self) -> &'static str {
        match self {
            Of::U8 | Of::Bool => "uint8_t",
            Of::U32 => "uint32_t",
            Of::I32 => "int32_t",
            Of::F32 => "float",
            Of::Usize => "size_t",
        }
    }
}

/// How a parameter is lent.
#[derive(Clone, Copy, Debug, PartialEq, Eq)]
pub enum How {
    /// A slice to be read.
    Read,
    /// A slice to be changed.
    Changed,
    /// A number that is written.
    Told,
    /// A number that is read and written.
    GoesOn,
    /// A number by value.
    Value,
}

#[derive(Clone, Debug)]
pub struct Param {
    pub name: String,
    pub how: How,
    pub of: Of,
}

impl Param {
    pub fn is_slice(&self) -> bool {
        matches!(self.how, How::Read | How::Changed)
    }

    pub fn is_told(&self) -> bool {
        matches!(self.how, How::Told | How::GoesOn)
    }
}

#[derive(Clone, Debug)]
pub struct Call {
    /// Without the `gp_`.
    pub name: String,
    pub params: Vec<Param>,
    /// The feature of tests/rust/ours that links it: the safe crate's, or the call's own name.
    pub feature: String,
}

impl Call {
    pub fn slices(&self) -> impl Iterator<Item = &Param> {
        self.params.iter().filter(|p| p.is_slice())
    }

    /// The numbers that a caller gives: those by value, and those that go on.
    pub fn given(&self) -> impl Iterator<Item = &Param> {
        self.params.iter().filter(|p| matches!(p.how, How::Value | How::GoesOn))
    }

    pub fn told(&self) -> impl Iterator<Item = &Param> {
        self.params.iter().filter(|p| p.is_told())
    }
}

/// A function of the export.
pub struct Export {
    pub name: String,
    params: Vec<Param>,
    answer: Of,
    /// What it promises, as it is written.
    ensures: String,
}

impl Export {
    /// Whether it answers as every call does: with a refusal number.
    pub fn answers_a_number(&self) -> bool {
        self.answer == Of::U32
    }
}

/// A float helper: its number in the list of floats.
pub struct Helper {
    pub name: String,
    pub number: u32,
    pub params: Vec<Param>,
    pub answer: Of,
}

fn without_comments(text: &str) -> String {
    let mut out = String::new();
    for (k, part) in text.split("/*").enumerate() {
        out += if k == 0 { part } else { part.split_once("*/").unwrap_or_else(|| fail("a comment of the header has no end")).1 };
    }
    out.lines().filter(|l| !l.starts_with('#')).map(|l| format!("{l}\n")).collect()
}

/// A declaration of the header: a call's, or a float helper's.
pub struct Declared {
    pub call: Call,
    answer: Of,
}

/// The parameters of a declaration.
fn params(name: &str, list: &str) -> Vec<Param> {
    let words: Vec<Vec<String>> = list.split(',').map(|p| p.replace('*', " * ").split_whitespace().map(str::to_string).collect()).collect();
    let mut params: Vec<Param> = vec![];
    for word in words.iter().filter(|w| w[..] != ["void"]) {
        let bad = || -> ! { fail(&format!("gp_{name}: `{}` isn't read", word.join(" "))) };
        let word: Vec<&str> = word.iter().map(String::as_str).collect();
        let (how, of, name) = match word[..] {
            ["size_t", length] if params.last().is_some_and(|p| length == format!("{}_len", p.name)) => {
                let slice = params.last_mut().unwrap();
                slice.how = if slice.how == How::Read { How::Read } else { How::Changed };
                continue;
            }
            ["const", of, "*", name] => (How::Read, of, name),
            [of, "*", name] => (How::Told, of, name),
            [of, name] => (How::Value, of, name),
            _ => bad(),
        };
        let Some(of) = Of::of_c(of) else { bad() };
        params.push(Param { name: name.into(), how, of });
    }
    params
}

/// What the header declares, in its order: each declaration starts a line.
pub fn header(text: &str) -> Vec<Declared> {
    let text = format!("\n{}", without_comments(text));
    let declared = text.match_indices('\n').filter_map(|(at, _)| {
        let (of, rest) = text[at + 1..].split_once(" gp_")?;
        let answer = Of::of_c(of)?;
        let (name, rest) = rest.split_once('(').unwrap_or_else(|| fail("a declaration without parameters"));
        let (list, _) = rest.split_once(");").unwrap_or_else(|| fail(&format!("gp_{name} has no end")));
        let call = Call { name: name.into(), params: params(name, list), feature: name.into() };
        Some(Declared { call, answer })
    });
    let declared: Vec<Declared> = declared.collect();
    if declared.is_empty() {
        fail("the header declares no call");
    }
    declared
}

/// The functions that the crate groatpocket_c exports.
pub fn exports(text: &str) -> Vec<Export> {
    let found = text.split("pub extern \"C\" fn gp_").skip(1).map(|e| {
        let (name, rest) = e.split_once('(').unwrap();
        let bad = |what: &str| -> ! { fail(&format!("the export gp_{name}: {what} isn't read")) };
        let Some((list, rest)) = rest.split_once(") -> ") else { bad("its parameters") };
        let (answer, rest) = rest.split_once(char::is_whitespace).unwrap_or_else(|| bad("its answer"));
        let ensures = rest.split_once("\n{").unwrap_or_else(|| bad("its promise")).0;
        let params = list.split(',').map(str::trim).filter(|p| !p.is_empty()).map(|p| {
            let Some((name, of)) = p.split_once(": ") else { bad(p) };
            let (how, of) = match (of.strip_prefix("&mut "), of.strip_prefix('&')) {
                (Some(of), _) if of.starts_with('[') => (How::Changed, of),
                (Some(of), _) => (How::Told, of),
                (_, Some(of)) => (How::Read, of),
                _ => (How::Value, of),
            };
            let Some(of) = Of::of_rust(of.trim_matches(['[', ']'])) else { bad(p) };
            Param { name: name.into(), how, of }
        });
        let Some(answer) = Of::of_rust(answer) else { bad("its answer") };
        Export { name: name.into(), params: params.collect(), answer, ensures: ensures.into() }
    });
    found.collect()
}

/// The header's parameters are the export's: as many, in one order, of the same types.
pub fn agree(declared: &Declared, export: &Export) {
    let types = |params: &[Param], answer: Of| {
        let each: Vec<String> = params.iter().map(|p| format!("{:?} {}", p.how, p.of.rust())).collect();
        format!("{} -> {}", each.join(", "), answer.rust())
    };
    let (said, stands) = (types(&declared.call.params, declared.answer), types(&export.params, export.answer));
    if said != stands {
        fail(&format!("gp_{}: the header has\n  {said}\nand the export\n  {stands}", export.name));
    }
}

/// A number behind a pointer goes on from what it held where the promise speaks of it at the call's entry.
pub fn goes_on(call: &mut Call, export: &Export) {
    let words: Vec<&str> = export.ensures.split(|c: char| c.is_whitespace() || "(){}".contains(c)).collect();
    let stands = |word: String| words.contains(&word.as_str());
    for (param, exported) in call.params.iter_mut().zip(&export.params) {
        let name = &exported.name;
        if param.how == How::Told && (stands(format!("{name}.old")) || stands(format!("«{name}».old"))) {
            param.how = How::GoesOn;
        }
    }
}

/// A float helper is an export with a number in tests/rust/README.md, "The lists".
pub fn helper(export: &Export, format: &str) -> Option<Helper> {
    let after =
        format.split("**`floats`**").nth(1).and_then(|t| t.split("\n\n").next()).unwrap_or_else(|| fail("the list of floats isn't described"));
    let words: Vec<&str> = after.split(|c: char| !c.is_ascii_alphanumeric() && c != '_').filter(|w| !w.is_empty()).collect();
    let number = words.windows(2).find(|w| w[1] == export.name && w[0].len() == 2).and_then(|w| u32::from_str_radix(w[0], 16).ok())?;
    if export.params.iter().any(|p| p.how != How::Value) {
        fail(&format!("gp_{} is lent memory, but stands among the helpers", export.name));
    }
    Some(Helper { name: export.name.clone(), number, params: export.params.clone(), answer: export.answer })
}
