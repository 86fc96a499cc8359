//! Recording what the feature stch has multiplied, and stretching it over its words.
use crate::calls;
use crate::refusal::Refusal;

/// Records of a stretched line, at most.
pub const STRETCHED_LIMIT: usize = 16384;

/// A line of glyphs as stretching takes and gives it, in columns.
#[derive(Clone, Debug, Default, PartialEq, Eq)]
pub struct Columns {
    /// Glyph numbers.
    pub glyphs: Vec<u32>,
    /// The width of each glyph in the font.
    pub widths: Vec<i32>,
    /// General categories, by their numbers.
    pub categories: Vec<u8>,
    /// Whether each is default-ignorable; 0 is no.
    pub ignorables: Vec<u8>,
    /// Actions, by their numbers: runs of fixed and repeating ones are stretched.
    pub actions: Vec<u8>,
    /// How far each moves on.
    pub advances: Vec<i32>,
    /// How far each is moved.
    pub offsets: Vec<i32>,
}

impl Columns {
    /// Columns of so many zeros.
    pub fn zeros(length: usize) -> Columns {
        Columns {
            glyphs: vec![0; length],
            widths: vec![0; length],
            categories: vec![0; length],
            ignorables: vec![0; length],
            actions: vec![0; length],
            advances: vec![0; length],
            offsets: vec![0; length],
        }
    }

    /// Cuts every column that is longer off at this length.
    pub fn truncate(&mut self, length: usize) {
        self.glyphs.truncate(length);
        self.widths.truncate(length);
        self.categories.truncate(length);
        self.ignorables.truncate(length);
        self.actions.truncate(length);
        self.advances.truncate(length);
        self.offsets.truncate(length);
    }
}

/// Gives each multiplied record the action repeating if its component number is odd, and fixed if it is even; answers whether there
/// was any. With mask 0 nothing is recorded. In `multiplied` 0 is no.
///
/// Refused are columns of different lengths ([`Refusal::Uneven`]) and over 4,096 records ([`Refusal::TooLong`]).
pub fn record_stch(mask: u32, multiplied: &[u8], components: &[u8], actions: &mut [u8]) -> Result<bool, Refusal> {
    calls::record_stch(mask, multiplied, components, actions)
}

/// Lays a line with its recorded runs stretched into the columns of `to`, and answers how many records it has then. What stands behind
/// them stays. `recorded` is what [`record_stch`] answered; if it is no, the line is laid as it is.
///
/// Refused are columns of the line of different lengths ([`Refusal::Uneven`]), over 4,096 records ([`Refusal::TooLong`]), a
/// category above 29 or an action above 9 ([`Refusal::OutOfRange`]), a stretched line of over 16,384 records
/// ([`Refusal::Stretched`]) and a column of `to` that is shorter than it ([`Refusal::NoRoom`]).
pub fn stretch_into(recorded: bool, rtl: bool, line: &Columns, to: &mut Columns) -> Result<usize, Refusal> {
    calls::stretch(recorded, rtl, line, to)
}

/// The line with its recorded runs stretched: [`stretch_into`] columns that are made for it.
pub fn stretch(recorded: bool, rtl: bool, line: &Columns) -> Result<Columns, Refusal> {
    let mut to = Columns::zeros(STRETCHED_LIMIT);
    let length = stretch_into(recorded, rtl, line, &mut to)?;
    to.truncate(length);
    Ok(to)
}
