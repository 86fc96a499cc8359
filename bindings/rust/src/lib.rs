//! Safe calls of `libthawtrundle.a` and `libthawtrundle_codes.a`, a proved core of Arabic, Syriac and Mongolian shaping.
//!
//! [`Line`] is a line that is joined, held and altered letter by letter; the functions are the other calls of the archives, over
//! slices. A call that is refused says why by a [`Refusal`] and has altered nothing. What each call does, what it refuses and what
//! it never writes is in include/thawtrundle.h; the statements that are proved are in crates/thawtrundle/src/lib.rt.
//!
//! A line is best made of characters and their general categories ([`Line::from_text`], [`Line::from_chars`]): how each of them joins
//! is then taken from Unicode 18.0.0 ([`JoiningType::of`], [`UNICODE_VERSION`]), and no type can be given wrong. Categories are the
//! caller's: the standard library has none.
//!
//! Columns of types, categories and actions hold numbers, as the calls take them: [`JoiningType::number`] and its like give them. In a
//! column of yes-or-no 0 is no.
#![deny(missing_docs)]
#![deny(unsafe_code)]

mod calls;
mod letters;
mod line;
mod lookups;
mod refusal;
mod stretching;
#[allow(missing_docs)] // the header says what these are
pub mod sys;

pub use letters::{Action, Category, JoiningType, UNICODE_VERSION};
pub use line::{Change, Letter, Line, Setting};
pub use lookups::{
    do_fallback, fallback_plan, read_lookup, serialize_ligature_lookup, serialize_single_lookup, Entry, FontMap, Kind, Lookup,
    Needs, Plan, Rows, LONGEST_PLAN,
};
pub use refusal::Refusal;
pub use stretching::{record_stch, stretch, stretch_into, Columns, STRETCHED_LIMIT};

use std::ops::Range;

/// Brings the modifier combining marks of a part of a line to its front: those of class 220, which get the class `low`, then those of
/// class 230, which get `high`. Answers which ranges have to be merged into one cluster each, at most two.
///
/// Refused are columns of different lengths ([`Refusal::Uneven`]), over 4,096 records ([`Refusal::TooLong`]) and a part that is
/// not in the line or ends before it starts ([`Refusal::Place`]).
pub fn reorder_modifier_combining_marks(
    codes: &mut [u32],
    classes: &mut [u8],
    part: Range<usize>,
    low: u8,
    high: u8,
) -> Result<Vec<Range<usize>>, Refusal> {
    let (count, ranges) = calls::reorder_modifier_combining_marks(codes, classes, part.start, part.end, low, high)?;
    Ok(ranges.chunks(2).take(count).map(|range| range[0]..range[1]).collect())
}
