//! The crate's root: what the Rust's files ask of `crate::`, in as few lines as they need.
#![allow(dead_code, unused_imports, unused_macros, unused_variables, non_camel_case_types, unexpected_cfgs)]
extern crate alloc;

pub mod algs;
#[macro_use]
pub mod buffer;
pub mod hint;
pub mod normalize;
pub mod once;
pub mod ot;
pub mod plan;
pub mod set_digest;
pub mod unicode;

pub use buffer::{Buffer, GlyphFlags, GlyphInfo, GlyphPosition};
pub use plan::ShapePlan;
pub use read_fonts::types::Tag;
use read_fonts::types::{F2Dot14, GlyphId};

/// categories lent by a driver, asked before the table that unicode_data.py wrote
pub mod lent { thread_local! { pub static LENT_GC: std::cell::RefCell<std::collections::HashMap<u32, u8>> = Default::default(); } }

pub type Mask = u32;

// ---- what common.rs has
#[derive(Clone, Copy, PartialEq, Eq, Debug, Default)]
pub enum Direction { #[default] Invalid, LeftToRight, RightToLeft, TopToBottom, BottomToTop }
impl Direction { pub fn from_script(_: Script) -> Option<Self> { None } }

#[derive(Clone, Copy, PartialEq, Eq, Debug)]
pub struct Script(pub [u8; 4]);
pub struct Tags(Vec<Tag>);
impl Tags { pub fn as_slice(&self) -> &[Tag] { &self.0 } }
impl Script {
    pub const ARABIC: Self = Self(*b"Arab");
    pub const MONGOLIAN: Self = Self(*b"Mong");
    pub const SYRIAC: Self = Self(*b"Syrc");
    pub const UNKNOWN: Self = Self(*b"Zzzz");
    pub const COMMON: Self = Self(*b"Zyyy");
    pub const INHERITED: Self = Self(*b"Zinh");
    pub fn tags_for_language(_: Option<Script>, _: Option<&Language>) -> (Tags, Tags) { (Tags(vec![Tag::new(b"arab")]), Tags(vec![])) }
}
#[derive(Clone, PartialEq, Eq, Debug)]
pub struct Language(pub String);
#[derive(Clone, Copy, PartialEq, Eq, Debug)]
pub enum ClusterLevel { MonotoneGraphemes, MonotoneCharacters, Characters, Graphemes }
impl ClusterLevel {
    pub fn new(l: u32) -> Self { match l { 0 => Self::MonotoneGraphemes, 1 => Self::MonotoneCharacters, 2 => Self::Characters, _ => Self::Graphemes } }
    pub fn is_monotone(self) -> bool { matches!(self, Self::MonotoneGraphemes | Self::MonotoneCharacters) }
    pub fn is_graphemes(self) -> bool { matches!(self, Self::MonotoneGraphemes | Self::Graphemes) }
}
bitflags::bitflags! {
    #[derive(Default, Debug, Clone, Copy)]
    pub struct BufferFlags: u32 {
        const PRODUCE_UNSAFE_TO_CONCAT = 0x40;
        const PRODUCE_SAFE_TO_INSERT_TATWEEL = 0x80;
    }
}
bitflags::bitflags! {
    #[derive(Default, Debug, Clone, Copy)]
    pub struct SerializeFlags: u8 {
        const NO_CLUSTERS = 1; const NO_POSITIONS = 2; const NO_GLYPH_NAMES = 4;
        const GLYPH_EXTENTS = 8; const GLYPH_FLAGS = 16; const NO_ADVANCES = 32;
    }
}
#[derive(Clone, Copy, Debug)]
pub struct Feature { pub tag: Tag, pub value: u32, pub start: u32, pub end: u32 }
impl Feature { pub const GLOBAL_START: u32 = 0; pub const GLOBAL_END: u32 = u32::MAX; }
#[derive(Default)]
pub struct U32Set;
impl U32Set { pub fn clear(&mut self) {} pub fn extend_unsorted(&mut self, _: impl Iterator<Item = u32>) {} }
pub mod tag { pub trait TagExt { fn is_null(&self) -> bool; } impl TagExt for super::Tag { fn is_null(&self) -> bool { *self == super::Tag::default() } } }
pub mod aat { pub mod map { #[derive(Default)] pub struct AatMap; } }

// ---- font: widths and the code map are lent by a driver
pub mod font {
    use super::*;
    pub struct Variations { pub gsub: Option<u32>, pub gpos: Option<u32>, pub has_lookup_variations: bool }
    #[derive(Default)]
    pub struct Font {
        pub widths: std::collections::HashMap<u32, i32>,
        pub cmap: Vec<(u32, u32)>,
        /// tags present in the font's GSUB for the script
        pub gsub: Vec<Tag>,
    }
    impl Font {
        pub fn feature_variations(&self) -> Variations { Variations { gsub: None, gpos: None, has_lookup_variations: false } }
        pub fn normalized_coords(&self) -> &[F2Dot14] { &[] }
    }
}
pub type Scale = ();
pub struct ShaperFont<'a, 'b> { pub font: &'a font::Font, pub scale: Scale, pub p: core::marker::PhantomData<&'b ()> }
pub struct Extents { pub x_bearing: i32, pub y_bearing: i32, pub width: i32, pub height: i32 }
pub struct NominalGlyphs<'a>(&'a mut [GlyphInfo]);
impl<'a> NominalGlyphs<'a> { pub(crate) fn new(i: &'a mut [GlyphInfo]) -> Self { Self(i) } }
impl<'a, 'b> ShaperFont<'a, 'b> {
    pub fn new(font: &'a font::Font) -> Self { Self { font, scale: (), p: core::marker::PhantomData } }
    pub fn layout(&self) -> LayoutData<'a> { LayoutData { ot: ot::OtShim { gsub: &self.font.gsub, feature_variations: [None; 2], has_lookup_variations: false, coords: &[] } } }
    pub fn glyph_h_advance(&self, g: GlyphId) -> i32 { self.font.widths.get(&g.to_u32()).copied().unwrap_or(0) }
    /// first entry of the lent list whose code is `c`
    pub fn nominal_glyph(&self, c: u32) -> Option<GlyphId> { self.font.cmap.iter().find(|e| e.0 == c).map(|e| GlyphId::new(e.1)) }
    pub fn nominal_glyphs(&self, _: NominalGlyphs) -> usize { 0 }
    pub fn variation_glyph(&self, _: u32, _: u32) -> Option<GlyphId> { None }
    pub fn glyph_name(&self, _: GlyphId) -> Option<String> { None }
    pub fn glyph_extents(&self, _: GlyphId) -> Option<Extents> { None }
}
#[derive(Clone)]
pub struct LayoutData<'a> { pub ot: ot::OtShim<'a> }

// ---- shape planner: only the Arabic shaper's features
pub struct ShapePlanner<'a> { pub script: Option<Script>, pub direction: Direction, pub language: Option<Language>, pub ot_map: ot::map::OtMapBuilder<'a> }
impl<'a> ShapePlanner<'a> {
    pub fn new(layout: LayoutData<'a>, direction: Direction, script: Option<Script>, language: Option<&Language>) -> Self {
        Self { script, direction, language: language.cloned(), ot_map: ot::map::OtMapBuilder::new(layout, script, language) }
    }
    pub fn collect_features(&mut self, user: &[Feature]) {
        (ot::shaper::arabic::ARABIC_SHAPER.collect_features.unwrap())(self);
        for f in user { self.ot_map.add_feature(f.tag, ot::map::F_GLOBAL, f.value); }
    }
    pub fn compile(&mut self, user: &[Feature]) -> ShapePlan {
        let mut p = ShapePlan {
            direction: self.direction, script: self.script, language: self.language.clone(),
            shaper: &ot::shaper::arabic::ARABIC_SHAPER, ot_map: self.ot_map.compile(), aat_map: Default::default(), data: None,
            frac_mask: 0, numr_mask: 0, dnom_mask: 0, rtlm_mask: 0, kern_mask: 0,
            requested_kerning: false, has_frac: false, has_vert: false, has_gpos_mark: false, zero_marks: false,
            fallback_glyph_classes: false, fallback_mark_positioning: false, adjust_mark_positioning_when_zeroing: false,
            apply_gpos: false, apply_fallback_kern: false, apply_kern: false, apply_kerx: false, apply_morx: false, apply_trak: false,
            user_features: smallvec::SmallVec(user.to_vec()),
        };
        p.data = Some((p.shaper.create_data.unwrap())(&p));
        p
    }
}
