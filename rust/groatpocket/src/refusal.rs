//! Why a call refuses, and of what.
use core::fmt;

/// Why a call refused.
#[derive(Clone, Copy, Debug, PartialEq, Eq, Hash)]
#[repr(u32)]
pub enum Refusal {
    /// 1: no whole records, paired slices that differ, or a bad range.
    NotWhole = 1,
    /// 2: too many paths, tiles or screen tiles.
    TooMany = 2,
    /// 3: a box edge over 4,096, or edges the wrong way round.
    BadBox = 3,
    /// 4: a path's first tile before the end of the path before it, or tiles past the end.
    BadRange = 4,
    /// 5: counting: line number 65,536 or more.
    LineNumber = 5,
    /// 6: a coordinate not finite, or over 65,536 in size.
    Coordinate = 6,
    /// 7: no such path; in a reference, no such line or one that the walk skips.
    NoSuch = 7,
    /// 8: a step number or a tile's count over its limit.
    CountOver = 8,
    /// 9: no room for references, slots, regions of commands, a file or lines.
    NoRoom = 9,
    /// 10: a step outside its path's box.
    Outside = 10,
    /// 11: a backdrop or a running sum leaves 32 bits.
    SumOver = 11,
    /// 12: a segment end outside its tile.
    Crooked = 12,
    /// 13: command words or segments past the end of those lent.
    PastEnd = 13,
    /// 14: an unknown command.
    Unknown = 14,
    /// 15: over 4,096 commands on one tile.
    TooLong = 15,
    /// 16: a screen too narrow, or too few pixels.
    BadScreen = 16,
    /// 17: a picture's width or height outside 1 to 16,384.
    BadSize = 17,
    /// 18: no P6 file: another header, or bytes missing or left over.
    BadFile = 18,
    /// 19: a pixel's column or row over 15.
    OffTile = 19,
    /// 20: a fill's segment with an end outside 0 to 16, or a y_edge not finite.
    BadSegment = 20,
    /// 21: a text that is no path data of SVG.
    BadText = 21,
    /// 22: a curve halved more than 6 times.
    TooDeep = 22,
    /// 23: an outline that doesn't end where it began.
    LeftOpen = 23,
}

impl Refusal {
    /// All of them, by their numbers.
    #[rustfmt::skip]
    pub const ALL: [Refusal; 23] = {
        use Refusal::*;
        [
            NotWhole, TooMany, BadBox, BadRange, LineNumber, Coordinate, NoSuch, CountOver, NoRoom,
            Outside, SumOver, Crooked, PastEnd, Unknown, TooLong, BadScreen, BadSize, BadFile,
            OffTile, BadSegment, BadText, TooDeep, LeftOpen,
        ]
    };

    /// The rules' number.
    pub fn number(self) -> u32 {
        self as u32
    }

    /// What it is for, in words: the same as the header's `gp_refusal_text`.
    #[rustfmt::skip]
    pub fn text(self) -> &'static str {
        use Refusal::*;
        match self {
            NotWhole => "no whole records, paired slices that differ, or a bad range",
            TooMany => "too many paths, tiles or screen tiles",
            BadBox => "a box edge over 4,096, or edges the wrong way round",
            BadRange => "a path's first tile before the end of the path before it, or tiles past the end",
            LineNumber => "counting: line number 65,536 or more",
            Coordinate => "a coordinate not finite, or over 65,536 in size",
            NoSuch => "no such path; in a reference, no such line or a skipped one",
            CountOver => "a step number or a tile's count over its limit",
            NoRoom => "no room for references, slots, regions of commands or a file",
            Outside => "a step outside its path's box",
            SumOver => "a backdrop or a running sum leaves 32 bits",
            Crooked => "a segment end outside its tile",
            PastEnd => "command words or segments past the end of those lent",
            Unknown => "an unknown command",
            TooLong => "over 4,096 commands on one tile",
            BadScreen => "a screen too narrow, or too few pixels",
            BadSize => "a picture's width or height outside 1 to 16,384",
            BadFile => "no P6 file: another header, or bytes missing or left over",
            OffTile => "a pixel's column or row over 15",
            BadSegment => "a fill's segment with an end outside 0..16, or a y_edge not finite",
            BadText => "a text that is no path data of SVG",
            TooDeep => "a curve halved more than 6 times",
            LeftOpen => "an outline that doesn't end where it began",
        }
    }

    /// The refusal of that number; none for 0, which is done.
    pub(crate) fn of(number: u32) -> Option<Refusal> {
        let known = Refusal::ALL.into_iter().find(|r| r.number() == number);
        assert!(known.is_some() || number == 0, "no refusal has number {number}");
        known
    }
}

impl fmt::Display for Refusal {
    fn fmt(&self, f: &mut fmt::Formatter<'_>) -> fmt::Result {
        write!(f, "refusal {}: {}", self.number(), self.text())
    }
}

/// A refusal with its item: the number of the line, path, reference or screen tile refused.
#[derive(Clone, Copy, Debug, PartialEq, Eq, Hash)]
pub struct Refused {
    /// Why.
    pub refusal: Refusal,
    /// Of what: for 3 and 4 the path's number; 0 where no item is at fault (docs/RULES.md).
    pub item: u32,
}

impl fmt::Display for Refused {
    fn fmt(&self, f: &mut fmt::Formatter<'_>) -> fmt::Result {
        write!(f, "{}; item {}", self.refusal, self.item)
    }
}

impl core::error::Error for Refused {}

/// What an item holds before a call: each call writes it, 0 where it is done.
pub(crate) const UNTOLD: u32 = u32::MAX;

/// A call's number and item as a result.
pub(crate) fn answered(number: u32, item: u32) -> Result<(), Refused> {
    let Some(refusal) = Refusal::of(number) else {
        debug_assert_eq!(item, 0, "an item where nothing is refused");
        return Ok(());
    };
    Err(Refused { refusal, item })
}
