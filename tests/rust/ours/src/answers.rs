//! What the crate `groatpocket` answers, as the number and what stands behind the pointers: a function for each way of
//! telling, named by what is told.

use groatpocket::{Refused, Running, Stopped};

/// The refusal's number; 0 where the call is done.
pub fn nothing(answer: Result<(), Refused>) -> u32 {
    answer.err().map_or(0, |r| r.refusal.number())
}

/// Its item besides; 0 where the call is done.
pub fn item(answer: Result<(), Refused>, item: &mut u32) -> u32 {
    *item = answer.err().map_or(0, |r| r.item);
    nothing(answer)
}

pub fn lines_made_item(answer: Result<Running, Stopped>, lines: &mut u32, made: &mut u32, item: &mut u32) -> u32 {
    let (number, of, running) = match answer {
        Ok(running) => (0, 0, running),
        Err(stopped) => (stopped.refused.refusal.number(), stopped.refused.item, stopped.running),
    };
    (*lines, *made, *item) = (running.lines, running.references, of);
    number
}

#[cfg(feature = "frame")]
pub fn stage_item_lines_made(
    answer: Result<Running, groatpocket::FrameStopped>,
    stage: &mut u32,
    item: &mut u32,
    lines: &mut u32,
    made: &mut u32,
) -> u32 {
    let (at, running) = match &answer {
        Ok(running) => (0, *running),
        Err(stopped) => (stopped.stage as u32, stopped.running),
    };
    (*stage, *lines, *made) = (at, running.lines, running.references);
    self::item(answer.map(|_| ()).map_err(|stopped| stopped.refused), item)
}

#[cfg(feature = "recount")]
pub fn made_item(answer: Result<u32, groatpocket::RecountStopped>, made: &mut u32, item: &mut u32) -> u32 {
    *made = answer.map_or_else(|stopped| stopped.references, |made| made);
    self::item(answer.map(|_| ()).map_err(|stopped| stopped.refused), item)
}

#[cfg(feature = "boxes")]
pub fn tiles_item(answer: Result<u32, Refused>, tiles: &mut u32, item: &mut u32) -> u32 {
    *tiles = answer.unwrap_or(0);
    self::item(answer.map(|_| ()), item)
}

/// The crate asserts that a refusal leaves 0 in what is told, in builds with debug assertions.
#[cfg(feature = "picture")]
pub fn size(answer: Result<usize, Refused>, size: &mut usize) -> u32 {
    *size = answer.unwrap_or(0);
    nothing(answer.map(|_| ()))
}

/// A refusal leaves what stands behind the pointer as it was.
#[cfg(feature = "pixel")]
pub fn area(answer: Result<f32, Refused>, area: &mut f32) -> u32 {
    *area = answer.unwrap_or(*area);
    nothing(answer.map(|_| ()))
}

#[cfg(feature = "pixel")]
pub fn pixel(answer: Result<u32, Refused>, pixel: &mut u32) -> u32 {
    *pixel = answer.unwrap_or(*pixel);
    nothing(answer.map(|_| ()))
}

/// Lines where it is done, the text's place where it is refused.
#[cfg(feature = "svg")]
pub fn lines_place(answer: Result<usize, groatpocket::TextRefused>, lines: &mut usize, place: &mut usize) -> u32 {
    (*lines, *place) = answer.map_or_else(|r| (0, r.place), |n| (n, 0));
    answer.err().map_or(0, |r| r.refusal.number())
}

#[cfg(feature = "picture")]
pub fn width_height(answer: Result<(u32, u32), Refused>, width: &mut u32, height: &mut u32) -> u32 {
    (*width, *height) = answer.unwrap_or((0, 0));
    nothing(answer.map(|_| ()))
}

/// What was found, and its entry; a refusal finds nothing and names its item.
#[cfg(feature = "check")]
pub fn found_item(answer: Result<groatpocket::Found, Refused>, found: &mut u32, item: &mut u32) -> u32 {
    (*found, *item) = answer.map_or_else(|r| (0, r.item), groatpocket::Found::numbers);
    nothing(answer.map(|_| ()))
}

/// The crate asserts, as for `size`, that a refusal leaves 0 in the three sizes.
#[cfg(feature = "sizes")]
pub fn tiles_made_words_item(answer: Result<groatpocket::Sizes, Refused>, tiles: &mut u32, made: &mut u32, words: &mut u32, item: &mut u32) -> u32 {
    (*tiles, *made, *words) = answer.map_or((0, 0, 0), |s| (s.tiles, s.references, s.words));
    self::item(answer.map(|_| ()), item)
}
