//! The calls of the crate `groatpocket` with the header's parameters, and their numbers for answers.
//! Made from include/groatpocket.h by tests/rust/signatures (`-- write`), which `./test` holds it against: edit there.

/// A call whose feature is off.
#[allow(dead_code)]
fn not_linked<T>(_: T) -> u32 {
    panic!("a call that isn't linked")
}

pub fn count(
    path_nos: &[u32],
    coords: &[f32],
    paths: &[u32],
    backdrops: &mut [i32],
    counts: &mut [u32],
    refs: &mut [u32],
    end: u32,
    lines: &mut u32,
    made: &mut u32,
    item: &mut u32,
) -> u32 {
    #[cfg(all(feature = "count", not(bridge)))]
    if crate::null::is_lent(&[path_nos.len(), coords.len(), paths.len(), backdrops.len(), counts.len(), refs.len()]) {
        // SAFETY: every pointer and length is a slice's, lent for the call alone, or NULL and 0.
        return unsafe { groatpocket::raw::gp_count(crate::null::at(path_nos), path_nos.len(), crate::null::at(coords), coords.len(), crate::null::at(paths), paths.len(), crate::null::at_mut(backdrops), backdrops.len(), crate::null::at_mut(counts), counts.len(), crate::null::at_mut(refs), refs.len(), end, lines, made, item) };
    }
    #[cfg(feature = "count")]
    let answer = groatpocket::count(groatpocket::Running { lines: *lines, references: *made }, groatpocket::Count { path_nos, coords, paths, backdrops, counts, refs, end });
    #[cfg(feature = "count")]
    return crate::answers::lines_made_item(answer, lines, made, item);
    #[cfg(not(feature = "count"))]
    not_linked(("count", path_nos, coords, paths, backdrops, counts, refs, end, lines, made, item))
}

pub fn backdrop(
    paths: &[u32],
    backdrops: &mut [i32],
    item: &mut u32,
) -> u32 {
    #[cfg(all(feature = "backdrop", not(bridge)))]
    if crate::null::is_lent(&[paths.len(), backdrops.len()]) {
        // SAFETY: every pointer and length is a slice's, lent for the call alone, or NULL and 0.
        return unsafe { groatpocket::raw::gp_backdrop(crate::null::at(paths), paths.len(), crate::null::at_mut(backdrops), backdrops.len(), item) };
    }
    #[cfg(feature = "backdrop")]
    let answer = groatpocket::backdrop(paths, backdrops);
    #[cfg(feature = "backdrop")]
    return crate::answers::item(answer, item);
    #[cfg(not(feature = "backdrop"))]
    not_linked(("backdrop", paths, backdrops, item))
}

pub fn hand_out(
    counts: &mut [u32],
    tally: &mut [u32],
    room: u32,
) -> u32 {
    #[cfg(all(feature = "hand_out", not(bridge)))]
    if crate::null::is_lent(&[counts.len(), tally.len()]) {
        // SAFETY: every pointer and length is a slice's, lent for the call alone, or NULL and 0.
        return unsafe { groatpocket::raw::gp_hand_out(crate::null::at_mut(counts), counts.len(), crate::null::at_mut(tally), tally.len(), room) };
    }
    #[cfg(feature = "hand_out")]
    let answer = groatpocket::hand_out(groatpocket::HandOut { counts, tally, room });
    #[cfg(feature = "hand_out")]
    return crate::answers::nothing(answer);
    #[cfg(not(feature = "hand_out"))]
    not_linked(("hand_out", counts, tally, room))
}

pub fn tile(
    path_nos: &[u32],
    coords: &[f32],
    paths: &[u32],
    stored: &[u32],
    refs: &[u32],
    from: u32,
    to: u32,
    segments: &mut [f32],
    tags: &mut [u32],
    item: &mut u32,
) -> u32 {
    #[cfg(all(feature = "tile", not(bridge)))]
    if crate::null::is_lent(&[path_nos.len(), coords.len(), paths.len(), stored.len(), refs.len(), segments.len(), tags.len()]) {
        // SAFETY: every pointer and length is a slice's, lent for the call alone, or NULL and 0.
        return unsafe { groatpocket::raw::gp_tile(crate::null::at(path_nos), path_nos.len(), crate::null::at(coords), coords.len(), crate::null::at(paths), paths.len(), crate::null::at(stored), stored.len(), crate::null::at(refs), refs.len(), from, to, crate::null::at_mut(segments), segments.len(), crate::null::at_mut(tags), tags.len(), item) };
    }
    #[cfg(feature = "tile")]
    let answer = groatpocket::tile(groatpocket::Tile { path_nos, coords, paths, stored, refs, from, to, segments, tags });
    #[cfg(feature = "tile")]
    return crate::answers::item(answer, item);
    #[cfg(not(feature = "tile"))]
    not_linked(("tile", path_nos, coords, paths, stored, refs, from, to, segments, tags, item))
}

pub fn fill(
    segments: &[f32],
    first: u32,
    number: u32,
    even_odd: u32,
    backdrop: i32,
    x_tile: f32,
    y_tile: f32,
    area: &mut [f32],
) -> u32 {
    #[cfg(all(feature = "fill", not(bridge)))]
    if crate::null::is_lent(&[segments.len(), area.len()]) {
        // SAFETY: every pointer and length is a slice's, lent for the call alone, or NULL and 0.
        return unsafe { groatpocket::raw::gp_fill(crate::null::at(segments), segments.len(), first, number, even_odd, backdrop, x_tile, y_tile, crate::null::at_mut(area), area.len()) };
    }
    #[cfg(feature = "fill")]
    if even_odd > 1 {
        // the safe call has a bool there
        // SAFETY: every pointer and length is a slice's, lent for the call alone.
        return unsafe { groatpocket::raw::gp_fill(segments.as_ptr(), segments.len(), first, number, even_odd, backdrop, x_tile, y_tile, area.as_mut_ptr(), area.len()) };
    }
    #[cfg(feature = "fill")]
    let answer = groatpocket::fill(segments, groatpocket::Fill { first, number, even_odd: even_odd != 0, backdrop, x_tile, y_tile }, area);
    #[cfg(feature = "fill")]
    return crate::answers::nothing(answer);
    #[cfg(not(feature = "fill"))]
    not_linked(("fill", segments, first, number, even_odd, backdrop, x_tile, y_tile, area))
}

pub fn fine(
    words: &[u32],
    segments: &[f32],
    width: u32,
    cols: u32,
    rows: u32,
    from: u32,
    to: u32,
    pixels: &mut [u32],
    item: &mut u32,
) -> u32 {
    #[cfg(all(feature = "fine", not(bridge)))]
    if crate::null::is_lent(&[words.len(), segments.len(), pixels.len()]) {
        // SAFETY: every pointer and length is a slice's, lent for the call alone, or NULL and 0.
        return unsafe { groatpocket::raw::gp_fine(crate::null::at(words), words.len(), crate::null::at(segments), segments.len(), width, cols, rows, from, to, crate::null::at_mut(pixels), pixels.len(), item) };
    }
    #[cfg(feature = "fine")]
    let answer = groatpocket::fine(words, segments, groatpocket::Screen { width, cols, rows }, from, to, pixels);
    #[cfg(feature = "fine")]
    return crate::answers::item(answer, item);
    #[cfg(not(feature = "fine"))]
    not_linked(("fine", words, segments, width, cols, rows, from, to, pixels, item))
}

pub fn frame(
    path_nos: &[u32],
    coords: &[f32],
    paths: &[u32],
    backdrops: &mut [i32],
    stored: &mut [u32],
    tally: &mut [u32],
    refs: &mut [u32],
    segments: &mut [f32],
    tags: &mut [u32],
    stage: &mut u32,
    item: &mut u32,
    lines: &mut u32,
    made: &mut u32,
) -> u32 {
    #[cfg(all(feature = "frame", not(bridge)))]
    if crate::null::is_lent(&[path_nos.len(), coords.len(), paths.len(), backdrops.len(), stored.len(), tally.len(), refs.len(), segments.len(), tags.len()]) {
        // SAFETY: every pointer and length is a slice's, lent for the call alone, or NULL and 0.
        return unsafe { groatpocket::raw::gp_frame(crate::null::at(path_nos), path_nos.len(), crate::null::at(coords), coords.len(), crate::null::at(paths), paths.len(), crate::null::at_mut(backdrops), backdrops.len(), crate::null::at_mut(stored), stored.len(), crate::null::at_mut(tally), tally.len(), crate::null::at_mut(refs), refs.len(), crate::null::at_mut(segments), segments.len(), crate::null::at_mut(tags), tags.len(), stage, item, lines, made) };
    }
    #[cfg(feature = "frame")]
    let answer = groatpocket::frame(groatpocket::Frame { path_nos, coords, paths, backdrops, stored, tally, refs, segments, tags });
    #[cfg(feature = "frame")]
    return crate::answers::stage_item_lines_made(answer, stage, item, lines, made);
    #[cfg(not(feature = "frame"))]
    not_linked(("frame", path_nos, coords, paths, backdrops, stored, tally, refs, segments, tags, stage, item, lines, made))
}

pub fn write_lists(
    paths: &[u32],
    paints: &[u32],
    backdrops: &[i32],
    stored: &[u32],
    tally: &[u32],
    cols: u32,
    rows: u32,
    room: u32,
    words: &mut [u32],
    item: &mut u32,
) -> u32 {
    #[cfg(all(feature = "lists", not(bridge)))]
    if crate::null::is_lent(&[paths.len(), paints.len(), backdrops.len(), stored.len(), tally.len(), words.len()]) {
        // SAFETY: every pointer and length is a slice's, lent for the call alone, or NULL and 0.
        return unsafe { groatpocket::raw::gp_write_lists(crate::null::at(paths), paths.len(), crate::null::at(paints), paints.len(), crate::null::at(backdrops), backdrops.len(), crate::null::at(stored), stored.len(), crate::null::at(tally), tally.len(), cols, rows, room, crate::null::at_mut(words), words.len(), item) };
    }
    #[cfg(feature = "lists")]
    let answer = groatpocket::write_lists(groatpocket::WriteLists { paths, paints, backdrops, stored, tally, cols, rows, room, words });
    #[cfg(feature = "lists")]
    return crate::answers::item(answer, item);
    #[cfg(not(feature = "lists"))]
    not_linked(("write_lists", paths, paints, backdrops, stored, tally, cols, rows, room, words, item))
}

pub fn ppm_write(
    pixels: &[u32],
    width: u32,
    height: u32,
    out: &mut [u8],
    size: &mut usize,
) -> u32 {
    #[cfg(all(feature = "picture", not(bridge)))]
    if crate::null::is_lent(&[pixels.len(), out.len()]) {
        // SAFETY: every pointer and length is a slice's, lent for the call alone, or NULL and 0.
        return unsafe { groatpocket::raw::gp_ppm_write(crate::null::at(pixels), pixels.len(), width, height, crate::null::at_mut(out), out.len(), size) };
    }
    #[cfg(feature = "picture")]
    let answer = groatpocket::ppm_write(pixels, width, height, out);
    #[cfg(feature = "picture")]
    return crate::answers::size(answer, size);
    #[cfg(not(feature = "picture"))]
    not_linked(("ppm_write", pixels, width, height, out, size))
}

pub fn ppm_read(
    file: &[u8],
    out: &mut [u8],
    width: &mut u32,
    height: &mut u32,
) -> u32 {
    #[cfg(all(feature = "picture", not(bridge)))]
    if crate::null::is_lent(&[file.len(), out.len()]) {
        // SAFETY: every pointer and length is a slice's, lent for the call alone, or NULL and 0.
        return unsafe { groatpocket::raw::gp_ppm_read(crate::null::at(file), file.len(), crate::null::at_mut(out), out.len(), width, height) };
    }
    #[cfg(feature = "picture")]
    let answer = groatpocket::ppm_read(file, out);
    #[cfg(feature = "picture")]
    return crate::answers::width_height(answer, width, height);
    #[cfg(not(feature = "picture"))]
    not_linked(("ppm_read", file, out, width, height))
}

pub fn pixel_area(
    segments: &[f32],
    first: u32,
    number: u32,
    even_odd: u32,
    backdrop: i32,
    x_tile: f32,
    y_tile: f32,
    column: u32,
    row: u32,
    area: &mut f32,
) -> u32 {
    #[cfg(all(feature = "pixel", not(bridge)))]
    if crate::null::is_lent(&[segments.len()]) {
        // SAFETY: every pointer and length is a slice's, lent for the call alone, or NULL and 0.
        return unsafe { groatpocket::raw::gp_pixel_area(crate::null::at(segments), segments.len(), first, number, even_odd, backdrop, x_tile, y_tile, column, row, area) };
    }
    #[cfg(feature = "pixel")]
    if even_odd > 1 {
        // the safe call has a bool there
        // SAFETY: every pointer and length is a slice's, lent for the call alone.
        return unsafe { groatpocket::raw::gp_pixel_area(segments.as_ptr(), segments.len(), first, number, even_odd, backdrop, x_tile, y_tile, column, row, area) };
    }
    #[cfg(feature = "pixel")]
    let answer = groatpocket::pixel_area(segments, groatpocket::Fill { first, number, even_odd: even_odd != 0, backdrop, x_tile, y_tile }, column, row);
    #[cfg(feature = "pixel")]
    if answer.is_err() {
        // what is told then is the call's own
        // SAFETY: every pointer and length is a slice's, lent for the call alone.
        return unsafe { groatpocket::raw::gp_pixel_area(segments.as_ptr(), segments.len(), first, number, even_odd, backdrop, x_tile, y_tile, column, row, area) };
    }
    #[cfg(feature = "pixel")]
    return crate::answers::area(answer, area);
    #[cfg(not(feature = "pixel"))]
    not_linked(("pixel_area", segments, first, number, even_odd, backdrop, x_tile, y_tile, column, row, area))
}

pub fn pixel(
    words: &[u32],
    segments: &[f32],
    tile: u32,
    column: u32,
    row: u32,
    pixel: &mut u32,
) -> u32 {
    #[cfg(all(feature = "pixel", not(bridge)))]
    if crate::null::is_lent(&[words.len(), segments.len()]) {
        // SAFETY: every pointer and length is a slice's, lent for the call alone, or NULL and 0.
        return unsafe { groatpocket::raw::gp_pixel(crate::null::at(words), words.len(), crate::null::at(segments), segments.len(), tile, column, row, pixel) };
    }
    #[cfg(feature = "pixel")]
    let answer = groatpocket::pixel(words, segments, tile, column, row);
    #[cfg(feature = "pixel")]
    if answer.is_err() {
        // what is told then is the call's own
        // SAFETY: every pointer and length is a slice's, lent for the call alone.
        return unsafe { groatpocket::raw::gp_pixel(words.as_ptr(), words.len(), segments.as_ptr(), segments.len(), tile, column, row, pixel) };
    }
    #[cfg(feature = "pixel")]
    return crate::answers::pixel(answer, pixel);
    #[cfg(not(feature = "pixel"))]
    not_linked(("pixel", words, segments, tile, column, row, pixel))
}

pub fn recount(
    path: u32,
    line_nos: &[u32],
    path_nos: &[u32],
    coords: &[f32],
    paths: &[u32],
    backdrops: &mut [i32],
    counts: &mut [u32],
    refs: &mut [u32],
    kept_backdrops: &mut [i32],
    kept_counts: &mut [u32],
    made: &mut u32,
    item: &mut u32,
) -> u32 {
    #[cfg(all(feature = "recount", not(bridge)))]
    if crate::null::is_lent(&[line_nos.len(), path_nos.len(), coords.len(), paths.len(), backdrops.len(), counts.len(), refs.len(), kept_backdrops.len(), kept_counts.len()]) {
        // SAFETY: every pointer and length is a slice's, lent for the call alone, or NULL and 0.
        return unsafe { groatpocket::raw::gp_recount(path, crate::null::at(line_nos), line_nos.len(), crate::null::at(path_nos), path_nos.len(), crate::null::at(coords), coords.len(), crate::null::at(paths), paths.len(), crate::null::at_mut(backdrops), backdrops.len(), crate::null::at_mut(counts), counts.len(), crate::null::at_mut(refs), refs.len(), crate::null::at_mut(kept_backdrops), kept_backdrops.len(), crate::null::at_mut(kept_counts), kept_counts.len(), made, item) };
    }
    #[cfg(feature = "recount")]
    let answer = groatpocket::recount(groatpocket::Recount { path, line_nos, path_nos, coords, paths, backdrops, counts, refs, kept_backdrops, kept_counts });
    #[cfg(feature = "recount")]
    return crate::answers::made_item(answer, made, item);
    #[cfg(not(feature = "recount"))]
    not_linked(("recount", path, line_nos, path_nos, coords, paths, backdrops, counts, refs, kept_backdrops, kept_counts, made, item))
}

pub fn boxes(
    path_nos: &[u32],
    coords: &[f32],
    beams: &[u32],
    margin: u32,
    paths: &mut [u32],
    work: &mut [u32],
    tiles: &mut u32,
    item: &mut u32,
) -> u32 {
    #[cfg(all(feature = "boxes", not(bridge)))]
    if crate::null::is_lent(&[path_nos.len(), coords.len(), beams.len(), paths.len(), work.len()]) {
        // SAFETY: every pointer and length is a slice's, lent for the call alone, or NULL and 0.
        return unsafe { groatpocket::raw::gp_boxes(crate::null::at(path_nos), path_nos.len(), crate::null::at(coords), coords.len(), crate::null::at(beams), beams.len(), margin, crate::null::at_mut(paths), paths.len(), crate::null::at_mut(work), work.len(), tiles, item) };
    }
    #[cfg(feature = "boxes")]
    let answer = groatpocket::boxes(groatpocket::Boxes { path_nos, coords, beams, margin, paths, work });
    #[cfg(feature = "boxes")]
    return crate::answers::tiles_item(answer, tiles, item);
    #[cfg(not(feature = "boxes"))]
    not_linked(("boxes", path_nos, coords, beams, margin, paths, work, tiles, item))
}

pub fn check(
    path_nos: &[u32],
    coords: &[f32],
    paths: &[u32],
    refs: &[u32],
    counts: &[u32],
    backdrops: &[i32],
    stored: &[u32],
    room: u32,
    work: &mut [u32],
    found: &mut u32,
    item: &mut u32,
) -> u32 {
    #[cfg(all(feature = "check", not(bridge)))]
    if crate::null::is_lent(&[path_nos.len(), coords.len(), paths.len(), refs.len(), counts.len(), backdrops.len(), stored.len(), work.len()]) {
        // SAFETY: every pointer and length is a slice's, lent for the call alone, or NULL and 0.
        return unsafe { groatpocket::raw::gp_check(crate::null::at(path_nos), path_nos.len(), crate::null::at(coords), coords.len(), crate::null::at(paths), paths.len(), crate::null::at(refs), refs.len(), crate::null::at(counts), counts.len(), crate::null::at(backdrops), backdrops.len(), crate::null::at(stored), stored.len(), room, crate::null::at_mut(work), work.len(), found, item) };
    }
    #[cfg(feature = "check")]
    let answer = groatpocket::check(groatpocket::Check { path_nos, coords, paths, refs, counts, backdrops, stored, room, work });
    #[cfg(feature = "check")]
    return crate::answers::found_item(answer, found, item);
    #[cfg(not(feature = "check"))]
    not_linked(("check", path_nos, coords, paths, refs, counts, backdrops, stored, room, work, found, item))
}

pub fn outlines(
    path_nos: &[u32],
    coords: &[f32],
    path_count: u32,
    work: &mut [u32],
    item: &mut u32,
) -> u32 {
    #[cfg(all(feature = "outlines", not(bridge)))]
    if crate::null::is_lent(&[path_nos.len(), coords.len(), work.len()]) {
        // SAFETY: every pointer and length is a slice's, lent for the call alone, or NULL and 0.
        return unsafe { groatpocket::raw::gp_outlines(crate::null::at(path_nos), path_nos.len(), crate::null::at(coords), coords.len(), path_count, crate::null::at_mut(work), work.len(), item) };
    }
    #[cfg(feature = "outlines")]
    let answer = groatpocket::outlines(groatpocket::Outlines { path_nos, coords, path_count, work });
    #[cfg(feature = "outlines")]
    return crate::answers::item(answer, item);
    #[cfg(not(feature = "outlines"))]
    not_linked(("outlines", path_nos, coords, path_count, work, item))
}

pub fn sizes(
    path_nos: &[u32],
    coords: &[f32],
    paths: &[u32],
    cols: u32,
    rows: u32,
    tiles: &mut u32,
    made: &mut u32,
    words: &mut u32,
    item: &mut u32,
) -> u32 {
    #[cfg(all(feature = "sizes", not(bridge)))]
    if crate::null::is_lent(&[path_nos.len(), coords.len(), paths.len()]) {
        // SAFETY: every pointer and length is a slice's, lent for the call alone, or NULL and 0.
        return unsafe { groatpocket::raw::gp_sizes(crate::null::at(path_nos), path_nos.len(), crate::null::at(coords), coords.len(), crate::null::at(paths), paths.len(), cols, rows, tiles, made, words, item) };
    }
    #[cfg(feature = "sizes")]
    let answer = groatpocket::sizes(path_nos, coords, paths, cols, rows);
    #[cfg(feature = "sizes")]
    return crate::answers::tiles_made_words_item(answer, tiles, made, words, item);
    #[cfg(not(feature = "sizes"))]
    not_linked(("sizes", path_nos, coords, paths, cols, rows, tiles, made, words, item))
}

pub fn svg_lines(
    text: &[u8],
    depth: u32,
    path: u32,
    path_nos: &mut [u32],
    coords: &mut [f32],
    lines: &mut usize,
    place: &mut usize,
) -> u32 {
    #[cfg(all(feature = "svg", not(bridge)))]
    if crate::null::is_lent(&[text.len(), path_nos.len(), coords.len()]) {
        // SAFETY: every pointer and length is a slice's, lent for the call alone, or NULL and 0.
        return unsafe { groatpocket::raw::gp_svg_lines(crate::null::at(text), text.len(), depth, path, crate::null::at_mut(path_nos), path_nos.len(), crate::null::at_mut(coords), coords.len(), lines, place) };
    }
    #[cfg(feature = "svg")]
    let answer = groatpocket::svg_lines(text, depth, path, path_nos, coords);
    #[cfg(feature = "svg")]
    return crate::answers::lines_place(answer, lines, place);
    #[cfg(not(feature = "svg"))]
    not_linked(("svg_lines", text, depth, path, path_nos, coords, lines, place))
}

pub fn fine_rows(
    words: &[u32],
    segments: &[f32],
    width: u32,
    cols: u32,
    rows: u32,
    first: u32,
    end: u32,
    pixels: &mut [u32],
    item: &mut u32,
) -> u32 {
    #[cfg(all(feature = "bands", not(bridge)))]
    if crate::null::is_lent(&[words.len(), segments.len(), pixels.len()]) {
        // SAFETY: every pointer and length is a slice's, lent for the call alone, or NULL and 0.
        return unsafe { groatpocket::raw::gp_fine_rows(crate::null::at(words), words.len(), crate::null::at(segments), segments.len(), width, cols, rows, first, end, crate::null::at_mut(pixels), pixels.len(), item) };
    }
    #[cfg(feature = "bands")]
    let answer = groatpocket::fine_rows(words, segments, groatpocket::Screen { width, cols, rows }, first, end, pixels);
    #[cfg(feature = "bands")]
    return crate::answers::item(answer, item);
    #[cfg(not(feature = "bands"))]
    not_linked(("fine_rows", words, segments, width, cols, rows, first, end, pixels, item))
}

pub fn draw(
    path_nos: &[u32],
    coords: &[f32],
    paths: &[u32],
    paints: &[u32],
    backdrops: &mut [i32],
    stored: &mut [u32],
    tally: &mut [u32],
    refs: &mut [u32],
    segments: &mut [f32],
    tags: &mut [u32],
    width: u32,
    cols: u32,
    rows: u32,
    words: &mut [u32],
    pixels: &mut [u32],
    stage: &mut u32,
    item: &mut u32,
    lines: &mut u32,
    made: &mut u32,
) -> u32 {
    #[cfg(all(feature = "draw", not(bridge)))]
    if crate::null::is_lent(&[path_nos.len(), coords.len(), paths.len(), paints.len(), backdrops.len(), stored.len(), tally.len(), refs.len(), segments.len(), tags.len(), words.len(), pixels.len()]) {
        // SAFETY: every pointer and length is a slice's, lent for the call alone, or NULL and 0.
        return unsafe { groatpocket::raw::gp_draw(crate::null::at(path_nos), path_nos.len(), crate::null::at(coords), coords.len(), crate::null::at(paths), paths.len(), crate::null::at(paints), paints.len(), crate::null::at_mut(backdrops), backdrops.len(), crate::null::at_mut(stored), stored.len(), crate::null::at_mut(tally), tally.len(), crate::null::at_mut(refs), refs.len(), crate::null::at_mut(segments), segments.len(), crate::null::at_mut(tags), tags.len(), width, cols, rows, crate::null::at_mut(words), words.len(), crate::null::at_mut(pixels), pixels.len(), stage, item, lines, made) };
    }
    #[cfg(feature = "draw")]
    let answer = groatpocket::draw(groatpocket::Draw { path_nos, coords, paths, paints, backdrops, stored, tally, refs, segments, tags, width, cols, rows, words, pixels });
    #[cfg(feature = "draw")]
    return crate::answers::stage_item_lines_made(answer, stage, item, lines, made);
    #[cfg(not(feature = "draw"))]
    not_linked(("draw", path_nos, coords, paths, paints, backdrops, stored, tally, refs, segments, tags, width, cols, rows, words, pixels, stage, item, lines, made))
}

pub fn present(
    pixels: &[u32],
    screen: u32,
    width: u32,
    height: u32,
    stride: u32,
    bgra: u32,
    out: &mut [u8],
) -> u32 {
    #[cfg(all(feature = "present", not(bridge)))]
    if crate::null::is_lent(&[pixels.len(), out.len()]) {
        // SAFETY: every pointer and length is a slice's, lent for the call alone, or NULL and 0.
        return unsafe { groatpocket::raw::gp_present(crate::null::at(pixels), pixels.len(), screen, width, height, stride, bgra, crate::null::at_mut(out), out.len()) };
    }
    #[cfg(feature = "present")]
    if bgra > 1 {
        // the safe call has a bool there
        // SAFETY: every pointer and length is a slice's, lent for the call alone.
        return unsafe { groatpocket::raw::gp_present(pixels.as_ptr(), pixels.len(), screen, width, height, stride, bgra, out.as_mut_ptr(), out.len()) };
    }
    #[cfg(feature = "present")]
    let answer = groatpocket::present(pixels, groatpocket::Present { screen, width, height, stride, bgra: bgra != 0 }, out);
    #[cfg(feature = "present")]
    return crate::answers::nothing(answer);
    #[cfg(not(feature = "present"))]
    not_linked(("present", pixels, screen, width, height, stride, bgra, out))
}
