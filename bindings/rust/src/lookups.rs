//! Lookups written and read back, and the fallback plan that is made of them.
use crate::calls;
use crate::refusal::Refusal;

/// Bytes of a plan, at most: an area of this length is never too short, whatever the font, the masks and the rows.
pub const LONGEST_PLAN: usize = 61566;

/// Writes a single lookup at the start of the area, and answers how many bytes it has: 18 and 4 for each rule.
///
/// Refused are columns of different lengths ([`Refusal::Uneven`]), over 32,764 rules ([`Refusal::Offset`]) and an area that is too
/// short ([`Refusal::NoRoom`]).
pub fn serialize_single_lookup(glyphs: &[u16], substitutes: &[u16], flags: u16, area: &mut [u8]) -> Result<usize, Refusal> {
    calls::serialize_single_lookup(glyphs, substitutes, flags, area)
}

/// Writes a lookup of ligatures of `n` components at the start of the area, and answers how many bytes it has. The components of
/// one rule stand behind those of the other.
///
/// Refused are components that are not `n` for each ligature ([`Refusal::Uneven`]), `n` other than 2 and 3
/// ([`Refusal::OutOfRange`]), an offset or a count above 65,535 ([`Refusal::Offset`]) and an area that is too short
/// ([`Refusal::NoRoom`]).
pub fn serialize_ligature_lookup(
    n: u8,
    components: &[u16],
    ligatures: &[u16],
    flags: u16,
    area: &mut [u8],
) -> Result<usize, Refusal> {
    calls::serialize_ligature_lookup(n, components, ligatures, flags, area)
}

/// The kind of a lookup.
#[derive(Clone, Copy, Debug, PartialEq, Eq)]
pub enum Kind {
    /// A glyph for a glyph.
    Single,
    /// A glyph for so many, 2 or 3.
    Ligature(u8),
}

/// A lookup as it was read.
#[derive(Clone, Copy, Debug, PartialEq, Eq)]
pub struct Lookup {
    /// Its kind.
    pub kind: Kind,
    /// Its flags.
    pub flags: u16,
    /// How many rules it has.
    pub length: usize,
}

/// Reads a lookup back: its glyphs, or its components, those of one rule behind those of the other, and its substitutes, or its
/// ligatures, to the start of two columns. What stands behind them stays.
///
/// Refused are bytes that no writer gives for a list whose first glyphs do not fall ([`Refusal::NoLookup`]) and columns that are too
/// short ([`Refusal::NoRoom`]).
pub fn read_lookup(bytes: &[u8], glyphs: &mut [u16], substitutes: &mut [u16]) -> Result<Lookup, Refusal> {
    let (kind, components, flags, length) = calls::read_lookup(bytes, glyphs, substitutes)?;
    let kind = if kind == 1 { Kind::Single } else { Kind::Ligature(components) };
    Ok(Lookup { kind, flags, length })
}

/// A font's map: code points that rise strictly, and the glyph of each.
#[derive(Clone, Copy, Debug, Default)]
pub struct FontMap<'a> {
    /// Code points.
    pub codes: &'a [u32],
    /// Glyph numbers.
    pub glyphs: &'a [u32],
}

/// The rule rows that a plan is made from, at most 1,024 in each list.
#[derive(Clone, Copy, Debug, Default)]
pub struct Rows<'a> {
    /// The code of each shaping row.
    pub shaping: &'a [u16],
    /// Its four forms, init, medi, fina, isol, one row behind the other; 0 means none.
    pub forms: &'a [u16],
    /// Ligatures of three: their components, one row behind the other.
    pub three_components: &'a [u16],
    /// Ligatures of three.
    pub three_ligatures: &'a [u16],
    /// Ligatures of two: their components.
    pub two_components: &'a [u16],
    /// Ligatures of two.
    pub two_ligatures: &'a [u16],
    /// Ligatures of two marks: their components.
    pub mark_components: &'a [u16],
    /// Ligatures of two marks.
    pub mark_ligatures: &'a [u16],
}

/// A lookup of a plan.
#[derive(Clone, Copy, Debug, PartialEq, Eq)]
pub struct Entry {
    /// The mask of its feature.
    pub mask: u32,
    /// How many bytes it has.
    pub length: usize,
}

/// A plan: at most seven lookups, whose bytes stand one behind the other from the start of the area.
#[derive(Clone, Debug, PartialEq, Eq)]
pub struct Plan {
    /// Its lookups, in their order.
    pub entries: Vec<Entry>,
}

impl Plan {
    /// The mask and the bytes of each lookup, from the area that the plan was made in.
    pub fn lookups<'a>(&'a self, area: &'a [u8]) -> impl Iterator<Item = (u32, &'a [u8])> + 'a {
        self.entries.iter().scan(0, move |at, entry| {
            let from = *at;
            *at += entry.length;
            Some((entry.mask, &area[from..*at]))
        })
    }
}

/// Makes the fallback plan of a font. The masks are those of init, medi, fina, isol and rlig; a lookup with mask 0 is left out.
///
/// Refused are columns that do not go with each other ([`Refusal::Uneven`]), a list of over 1,024 rows ([`Refusal::TooLong`]),
/// codes that do not rise strictly ([`Refusal::OutOfRange`]) and an area that is too short ([`Refusal::NoRoom`]). An area of
/// [`LONGEST_PLAN`] bytes never is: that is proved.
///
/// A plan is made on the stack of the thread that asks for it, in some 82,000 bytes, and nothing tests that they are there. No
/// other call of this crate needs 1,000.
pub fn fallback_plan(masks: &[u32; 5], font: FontMap<'_>, rows: Rows<'_>, area: &mut [u8]) -> Result<Plan, Refusal> {
    let (count, entry_masks, entry_lengths) = calls::fallback_plan(masks, &font, &rows, area)?;
    let entries = entry_masks.iter().zip(&entry_lengths).take(count);
    Ok(Plan { entries: entries.map(|(&mask, &length)| Entry { mask, length: length as usize }).collect() })
}

/// Which features of the Arabic script a font leaves to the fallback.
#[derive(Clone, Copy, Debug, Default, PartialEq, Eq)]
pub struct Needs {
    /// Isolated forms.
    pub isol: bool,
    /// Final forms.
    pub fina: bool,
    /// Medial forms.
    pub medi: bool,
    /// Initial forms.
    pub init: bool,
}

/// Whether the fallback is used: for the Arabic script, if all four features need it.
pub fn do_fallback(arabic: bool, needs: Needs) -> bool {
    calls::do_fallback(arabic, needs.isol, needs.fina, needs.medi, needs.init)
}
