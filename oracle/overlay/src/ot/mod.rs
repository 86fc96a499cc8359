//! Stands for ot/mod.rs, ot/layout.rs, ot/apply.rs and ot/lookup/mod.rs; map.rs is the Rust's own bytes, with a probe behind it.
pub mod map { include!("map.rs"); include!("map_probe.rs"); }
pub mod shaper;
pub use crate::{buffer, Language, Mask, Script, Tag};
use read_fonts::types::F2Dot14;

pub mod lookup_flags { pub const IGNORE_MARKS: u16 = 0x0008; } // OpenType LookupFlag value

// what map.rs asks of the layout tables; only GSUB feature presence is modelled
#[derive(Clone)]
pub struct OtShim<'a> { pub gsub: &'a [Tag], pub feature_variations: [Option<u32>; 2], pub has_lookup_variations: bool, pub coords: &'a [F2Dot14] }
pub struct Table<'a>(&'a [Tag]);
pub struct FeatureShim;
impl FeatureShim { pub fn lookup_list_indices(&self) -> &'static [read_fonts::tables::layout::Be<u16>] { &[] } }
impl<'a> OtShim<'a> {
    pub fn layout_tables(&self) -> impl Iterator<Item = (layout::LayoutTableKind, Table<'a>)> { core::iter::once((layout::LayoutTableKind::Gsub, Table(self.gsub))) }
    pub fn layout_table(&self, k: layout::LayoutTableKind) -> Option<Table<'a>> { (k == layout::LayoutTableKind::Gsub).then(|| Table(self.gsub)) }
    pub fn var_store(&self) {}
}
impl Table<'_> {
    pub fn select_script(&self, t: &[Tag]) -> Option<(bool, u16, Tag)> { Some((true, 0, t[0])) }
    pub fn select_script_language(&self, _: u16, _: &[Tag]) -> Option<u16> { None }
    pub fn find_language_feature(&self, _: u16, _: Option<u16>, t: Tag) -> Option<u16> { self.feature_index(t) }
    pub fn get_required_language_feature(&self, _: u16, _: Option<u16>) -> Option<(u16, Tag)> { None }
    pub fn feature_index(&self, t: Tag) -> Option<u16> { self.0.iter().position(|x| *x == t).map(|i| i as u16) }
    pub fn lookup_count(&self) -> u16 { 0 }
    pub fn feature_substitution(&self, _: u32, _: u16) -> Option<FeatureShim> { None }
    pub fn feature(&self, _: u16) -> Option<FeatureShim> { Some(FeatureShim) }
    pub fn lookup_variations(&self) -> Option<read_fonts::tables::layout::LookupVariations> { None }
}

pub mod layout {
    //! Bit layout of the glyph-info variables as in HarfBuzz hb-ot-layout.hh (the Rust file is not given).
    use crate::buffer::*;
    use crate::unicode::GeneralCategory;
    pub const MAX_SYLLABLE_LENGTH: usize = 64;
    #[derive(Clone, Copy, PartialEq, Eq, Debug)]
    pub enum LayoutTableKind { Gsub = 0, Gpos = 1 }
    impl LayoutTableKind { pub fn iter() -> impl Iterator<Item = Self> { [Self::Gsub, Self::Gpos].into_iter() } }
    impl<T> core::ops::Index<LayoutTableKind> for [T] { type Output = T; fn index(&self, k: LayoutTableKind) -> &T { &self[k as usize] } }
    impl<T> core::ops::IndexMut<LayoutTableKind> for [T] { fn index_mut(&mut self, k: LayoutTableKind) -> &mut T { &mut self[k as usize] } }
    impl GlyphInfo {
        declare_buffer_var!(u16, 1, 0, GLYPH_PROPS_VAR, glyph_props, set_glyph_props);
        declare_buffer_var!(u8, 1, 2, LIG_PROPS_VAR, lig_props, set_lig_props);
        declare_buffer_var!(u8, 1, 3, SYLLABLE_VAR, syllable, set_syllable);
        declare_buffer_var!(u16, 2, 0, UNICODE_PROPS_VAR, unicode_props, set_unicode_props);
        declare_buffer_var!(u8, 2, 2, OT_SHAPER_VAR_U8_CATEGORY_VAR, ot_shaper_var_u8_category, set_ot_shaper_var_u8_category);
        declare_buffer_var!(u8, 2, 3, OT_SHAPER_VAR_U8_AUXILIARY_VAR, ot_shaper_var_u8_auxiliary, set_ot_shaper_var_u8_auxiliary);
        pub(crate) fn general_category(&self) -> GeneralCategory { GeneralCategory((self.unicode_props() & UnicodeProps::GENERAL_CATEGORY.bits()) as u8) }
        pub(crate) fn is_default_ignorable(&self) -> bool { self.unicode_props() & UnicodeProps::IGNORABLE.bits() != 0 && self.glyph_props() & GlyphPropsFlags::SUBSTITUTED.bits() == 0 }
        pub(crate) fn is_unicode_mark(&self) -> bool { self.general_category().is_mark() }
        pub(crate) fn modified_combining_class(&self) -> u8 { if self.is_unicode_mark() { (self.unicode_props() >> 8) as u8 } else { 0 } }
        pub(crate) fn set_modified_combining_class(&mut self, c: u8) { if self.is_unicode_mark() { let n = (u16::from(c) << 8) | (self.unicode_props() & 0xFF); self.set_unicode_props(n); } }
        pub(crate) fn multiplied(&self) -> bool { self.glyph_props() & GlyphPropsFlags::MULTIPLIED.bits() != 0 }
        pub(crate) fn lig_comp(&self) -> u8 { if self.lig_props() & 0x10 != 0 { 0 } else { self.lig_props() & 0x0F } }
        pub(crate) fn is_unicode_space(&self) -> bool { self.general_category() == GeneralCategory::SPACE_SEPARATOR }
        pub(crate) fn set_unicode_space_fallback_type(&mut self, _: u8) {}
        pub(crate) fn set_variation_selector(&mut self, _: bool) {}
        pub(crate) fn clear_default_ignorable(&mut self) {}
    }
    impl Buffer { pub(crate) fn assert_unicode_vars(&self) {} }
    pub fn grapheme_group(_: &GlyphInfo, _: &GlyphInfo) -> bool { false }
    pub fn apply_synthesized_subst_lookup(_: &mut super::apply::ApplyContext, _: &super::lookup::CachedLookup) { unimplemented!("applying lookups is not in scope") }
}
pub mod apply {
    pub struct ApplyContext;
    impl ApplyContext {
        pub fn new(_: super::layout::LayoutTableKind, _: crate::LayoutData, _: crate::Scale, _: &mut crate::Buffer) -> Self { Self }
        pub fn set_lookup_mask(&mut self, _: u32) {}
    }
}
pub mod lookup {
    pub struct CachedLookup(pub Vec<u8>);
    pub struct CachedLookupRef(CachedLookup);
    impl CachedLookupRef { pub fn get(&self) -> &CachedLookup { &self.0 } }
    /// The real one parses the bytes under a budget and may answer None; here: always Some.
    pub fn cache_synthesized_subst(data: Vec<u8>) -> Option<CachedLookupRef> { Some(CachedLookupRef(CachedLookup(data))) }
}
