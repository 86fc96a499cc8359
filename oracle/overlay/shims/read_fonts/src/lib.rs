//! Stands for the package read-fonts: only the types that the Rust's files name.
pub mod types {
    #[derive(Clone, Copy, PartialEq, Eq, PartialOrd, Ord, Debug, Default, Hash)]
    pub struct GlyphId(u32);
    impl GlyphId { pub const fn new(v: u32) -> Self { Self(v) } pub const fn to_u32(self) -> u32 { self.0 } }
    impl From<GlyphId> for u32 { fn from(g: GlyphId) -> u32 { g.0 } }
    impl From<u32> for GlyphId { fn from(g: u32) -> Self { Self(g) } }
    #[derive(Clone, Copy, PartialEq, Eq, PartialOrd, Ord, Debug, Default)]
    pub struct GlyphId16(u16);
    impl From<u16> for GlyphId16 { fn from(g: u16) -> Self { Self(g) } }
    impl From<GlyphId16> for u32 { fn from(g: GlyphId16) -> u32 { g.0.into() } }
    #[derive(Clone, Copy, PartialEq, Eq, PartialOrd, Ord, Debug, Default)]
    pub struct F2Dot14(pub i16);
    #[derive(Clone, Copy, PartialEq, Eq, PartialOrd, Ord, Debug, Default, Hash)]
    pub struct Tag([u8; 4]);
    impl Tag { pub const fn new(b: &[u8; 4]) -> Self { Self(*b) } pub const fn to_be_bytes(self) -> [u8; 4] { self.0 } }
}
pub mod tables { pub mod layout {
    use crate::types::*;
    pub struct Be<T>(T);
    impl<T: Copy> Be<T> { pub fn get(&self) -> T { self.0 } pub fn new(t: T) -> Self { Self(t) } }
    pub struct Glyphs<T>(Vec<Be<T>>); impl<T> Glyphs<T> { pub fn glyph_array(&self) -> &[Be<T>] { &self.0 } }
    pub struct Range<T>(T, T); impl<T: Copy> Range<T> { pub fn start_glyph_id(&self) -> T { self.0 } pub fn end_glyph_id(&self) -> T { self.1 } }
    pub struct Ranges<T>(Vec<Range<T>>); impl<T> Ranges<T> { pub fn range_records(&self) -> &[Range<T>] { &self.0 } }
    pub enum CoverageTable { Format1(Glyphs<GlyphId16>), Format2(Ranges<GlyphId16>), Format3(Glyphs<GlyphId>), Format4(Ranges<GlyphId>) }
    pub struct LookupVariations;
    impl LookupVariations { pub fn apply(&self, _: u16, _: &[F2Dot14], _: (), _: &mut Vec<u16>) {} }
    pub fn store_deltas(_: (), _: &[F2Dot14]) {}
} }
