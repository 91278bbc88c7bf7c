//! The numbers of include/groatpocket.h, of this crate and of the proved code are the same.
use groatpocket::*;
use std::collections::BTreeMap;

fn text(file: &str) -> String {
    let path = format!("{}/../../{file}", env!("CARGO_MANIFEST_DIR"));
    std::fs::read_to_string(&path).unwrap_or_else(|e| panic!("{path}: {e}"))
}

/// The names and numbers of lines such as `#define GP_DONE 0u` or `pub const DONE: u32 = 0;`.
fn numbers(text: &str, before: &str, between: &str) -> BTreeMap<String, u32> {
    let line = |l: &str| {
        let (name, rest) = l.strip_prefix(before)?.split_once(between)?;
        let digits: String = rest.chars().take_while(|c| c.is_ascii_digit()).collect();
        Some((name.to_string(), digits.parse().ok()?))
    };
    text.lines().filter_map(line).collect()
}

fn header() -> BTreeMap<String, u32> {
    numbers(&text("include/groatpocket.h"), "#define GP_", " ")
}

/// BadBox as BAD_BOX.
fn shouted(name: &str) -> String {
    let mut out = String::new();
    for c in name.chars() {
        if c.is_uppercase() && !out.is_empty() {
            out.push('_');
        }
        out.push(c.to_ascii_uppercase());
    }
    out
}

#[test]
fn refusals() {
    let (header, code) = (header(), text("crates/panel/src/refusals.rt"));
    let done = numbers(&code, "pub const ", ": u32 = ");
    assert_eq!((done.len(), header["DONE"], done["DONE"]), (1, 0, 0));
    // each variant of the proved enum is a line such as `    BadBox = 3,`
    let variants: BTreeMap<String, u32> =
        numbers(&code, "    ", " = ").into_iter().filter(|(name, _)| name.starts_with(|c: char| c.is_uppercase())).collect();
    assert_eq!(variants.len(), Refusal::ALL.len());
    for refusal in Refusal::ALL {
        let name = format!("{refusal:?}");
        assert_eq!((header[&shouted(&name)], variants[&name]), (refusal.number(), refusal.number()), "{name}");
    }
}

/// `gp_refusal_text` of the header says what `Refusal::text` says, of each refusal and of no other.
#[test]
fn texts() {
    let header = text("include/groatpocket.h");
    let said = header.lines().filter_map(|l| l.trim().strip_prefix("case GP_")?.split_once(": return \""));
    let said: Vec<(&str, &str)> = said.map(|(name, words)| (name, words.trim_end_matches("\";"))).collect();
    let ours = Refusal::ALL.iter().map(|r| (shouted(&format!("{r:?}")), r.text()));
    let ours: Vec<(String, &str)> = [("DONE".to_string(), "done")].into_iter().chain(ours).collect();
    assert_eq!(said.len(), ours.len());
    for (said, ours) in said.iter().zip(&ours) {
        assert_eq!(*said, (ours.0.as_str(), ours.1));
    }
}

/// Each limit of the proved code is a GP_MAX_ of the header, and the header has no other.
#[test]
fn limits() {
    let depth = text("crates/svg_outline/src/steps.rt");
    let depth: String = depth.lines().filter(|l| l.starts_with("pub const DEPTH_MOST")).collect();
    let code = text("crates/panel/src/limits.rt") + &depth;
    let named = |name: &str| format!("MAX_{}", name.replace("MOST_", "").replace("_MOST", ""));
    let header = header();
    let (whole, float) = (numbers(&code, "pub const ", ": u32 = "), numbers(&code, "pub const ", ": f32 = "));
    for (name, number) in whole.iter().chain(&float) {
        assert_eq!(header.get(&named(name)), Some(number), "{name}");
    }
    let most = header.keys().filter(|n| n.starts_with("MAX_")).count();
    assert_eq!(most, whole.len() + float.len());
    assert_eq!(most, code.matches("pub const ").count(), "a limit of another type");
}

#[test]
fn the_tile() {
    let code = numbers(&text("crates/sides/src/lib.rt"), "pub const ", ": usize = ");
    let side = TILE_SIDE as u32;
    assert_eq!((header()["TILE"], code["TILE_WIDTH"], code["TILE_HEIGHT"]), (side, side, side));
    assert!(text("crates/sides/src/lib.rt").contains("pub const TILE_SIZE: usize = TILE_WIDTH * TILE_HEIGHT;"));
    assert_eq!((code["TILE_WIDTH"] * code["TILE_HEIGHT"]) as usize, TILE_PIXELS);
}

/// One version: the header's text and number, the archive's own, this crate's, and the newest of CHANGELOG.md.
#[test]
fn version() {
    let own = env!("CARGO_PKG_VERSION");
    let header_text = text("include/groatpocket.h");
    assert!(header_text.contains(&format!("#define GP_VERSION \"{own}\"\n")), "{own}");
    let parts: Vec<u32> = own.split('.').map(|p| p.parse().unwrap()).collect();
    let number = 10_000 * parts[0] + 100 * parts[1] + parts[2];
    let code = numbers(&text("crates/groatpocket/src/call_version.rt"), "pub const ", ": u32 = ");
    assert_eq!(
        (header()["VERSION_NUMBER"], code["VERSION_NUMBER"], groatpocket::version()),
        (number, number, number)
    );
    let changes = text("CHANGELOG.md");
    let newest = changes.lines().find_map(|l| l.strip_prefix("## ")).unwrap();
    assert!(newest == own || newest.starts_with(&format!("{own},")), "CHANGELOG.md has {newest}");
}

#[test]
fn widths_and_commands() {
    let header = header();
    let commands = text("crates/commands/src/numbers.rt");
    let code = text("crates/panel/src/widths.rt") + &commands;
    let code = numbers(&code, "pub const ", ": usize = ");
    let own = [
        ("PATH_WORDS", PATH_WORDS),
        ("LINE_FLOATS", LINE_FLOATS),
        ("REF_WORDS", REF_WORDS),
        ("SEGMENT_FLOATS", SEGMENT_FLOATS),
        ("PAINT_WORDS", PAINT_WORDS),
        ("TILE_WORDS", TILE_WORDS),
    ];
    for (name, width) in own {
        assert_eq!(header[name] as usize, width, "{name}");
        assert!(code.get(name).is_none_or(|&w| w as usize == width), "{name}");
    }
    let range = numbers(&text("crates/panel/src/widths.rt"), "pub const ", ": u32 = ");
    assert_eq!((header["STEP_RANGE"], range["STEP_RANGE"]), (STEP_RANGE, STEP_RANGE));
    let commands = numbers(&commands, "pub const ", ": u32 = ");
    assert_eq!(commands.len(), 5);
    for (name, number) in commands {
        assert_eq!(header[&format!("CMD_{name}")], number, "{name}");
    }
}

/// The working room of a call for each path.
#[cfg(feature = "outlines")]
#[test]
fn room_for_outlines() {
    let room = numbers(&text("crates/outlines/src/lib.rt"), "const ", ": usize = ");
    let each = OUTLINE_WORDS as u32;
    assert_eq!((header()["OUTLINE_WORDS"], room["ROOM_WORDS"]), (each, each));
}

/// The working room that boxes ask for.
#[cfg(feature = "boxes")]
#[test]
fn room_for_boxes() {
    let room = numbers(&text("crates/path_reach/src/lib.rt"), "pub const ", ": usize = ");
    let each = BOX_WORDS as u32;
    assert_eq!((header()["BOX_WORDS"], room["BOX_WORDS"]), (each, each));
}

/// Where a record's words stand: the header's places are those of this crate's records, and of the proved code wherever it names them.
#[test]
fn places() {
    let (header, code) = (header(), numbers(&text("crates/panel/src/widths.rt"), "pub const ", ": usize = "));
    let path = Path { x0: 10, y0: 11, x1: 12, y1: 13, first: 14, beam: 15 }.words().to_vec();
    let reference = Reference { line: 20, slice: 0, step: 21 }.words().to_vec();
    let paint = Paint { colour: 30, even_odd: true }.words().to_vec();
    let places = [
        ("PATH_X0", &path, 10),
        ("PATH_Y0", &path, 11),
        ("PATH_X1", &path, 12),
        ("PATH_Y1", &path, 13),
        ("PATH_FIRST", &path, 14),
        ("PATH_BEAM", &path, 15),
        ("REF_LINE", &reference, 20),
        ("REF_PACKED", &reference, 21),
        ("PAINT_COLOUR", &paint, 30),
        ("PAINT_RULE", &paint, 1),
    ];
    for (name, words, word) in places {
        assert_eq!(words[header[name] as usize], word, "{name}");
        assert!(code.get(name).is_none_or(|&place| place == header[name]), "{name}");
    }
    let named = |prefix: &str, names: &BTreeMap<String, u32>| {
        names.keys().filter(|n| n.starts_with(prefix) && !n.ends_with("_WORDS")).count()
    };
    assert_eq!((named("PATH_", &header), named("PATH_", &code)), (path.len(), path.len()));
    assert_eq!((named("REF_", &header), named("PAINT_", &header)), (reference.len(), paint.len()));
    let segment = Segment { point0: [1.0, 2.0], point1: [3.0, 4.0], y_edge: 5.0 }.floats();
    assert_eq!(
        (segment[header["SEGMENT_Y_EDGE"] as usize], segment.map(|v| v as u32)),
        (5.0, [1, 2, 3, 4, 5])
    );
}

/// What a check found has the header's numbers, which are those of the proved export.
#[cfg(feature = "check")]
#[test]
fn found() {
    let header = header();
    let each = [Found::Yes, Found::Reference(7), Found::Count(7), Found::Backdrop(7), Found::Slots(7)];
    let code = text("crates/groatpocket/src/call_check.rt");
    for found in each {
        let name = format!("{found:?}").replace("(7)", "");
        assert_eq!(header[&format!("FOUND_{}", shouted(&name))], found.numbers().0, "{name}");
        let fault = |of: &str| format!("Ok(Some(Fault::{name}({of}))) => (DONE, {}, {of}),", found.numbers().0);
        let arms = [format!("Ok(None) => (DONE, {}, 0),", found.numbers().0), fault("j"), fault("t")];
        let own = if found == Found::Yes { &arms[..1] } else { &arms[1..] };
        assert!(own.iter().any(|arm| code.contains(arm)), "{name}");
    }
    assert_eq!(header["FOUND_NOTHING"], 0);
}

#[cfg(feature = "frame")]
#[test]
fn stages() {
    let header = header();
    for stage in
        [Stage::Lent, Stage::Count, Stage::Sums, Stage::HandOut, Stage::Tile, Stage::Lists, Stage::Fine]
    {
        let name = format!("STAGE_{}", shouted(&format!("{stage:?}")));
        assert_eq!(header[&name], stage as u32, "{name}");
    }
}
