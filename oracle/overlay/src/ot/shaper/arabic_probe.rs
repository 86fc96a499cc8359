// Included behind the text of arabic.rs: a child module sees what is private to its parent, so drivers reach it here.
/// The functions of arabic.rs, private ones too, and the records of a buffer.
pub mod probe {
    use super::*;
    pub const ARABIC: Option<Script> = Some(Script::ARABIC);
    pub fn state_table() -> &'static [[(u8, u8, u16); 6]] { STATE_TABLE }
    pub fn jtype(u: u32, gc: u8) -> u8 { get_joining_type(u, GeneralCategory(gc)) as u8 }
    pub fn table_type(u: u32) -> u8 { arabic_table::joining_type(u) as u8 }
    pub fn is_word(gc: u8) -> bool { is_word_category(GeneralCategory(gc)) }
    pub fn gc_of(u: u32) -> u8 { u.general_category().0 }
    pub fn marks_list() -> &'static [u32] { MODIFIER_COMBINING_MARKS }
    pub fn ccc22_26() -> (u8, u8) { (modified_combining_class::CCC22, modified_combining_class::CCC26) }
    pub fn default_ignorable(u: u32) -> bool { u.is_default_ignorable() }
    pub fn plan_data(masks: [u32; 8], has_stch: bool) -> ArabicShapePlan {
        ArabicShapePlan { mask_array: masks, do_fallback: false, has_stch, fallback_plan: Once::new() }
    }
    pub fn plan_of(p: &ShapePlan) -> ([u32; 8], bool, bool) {
        let d = p.data::<ArabicShapePlan>();
        (d.mask_array, d.do_fallback, d.has_stch)
    }
    /// whether the fallback is on, by the script and the map of a plan
    pub fn fallback_of(p: &ShapePlan) -> bool { data_create_arabic(p).do_fallback }
    pub fn set_plan_data(p: &mut ShapePlan, d: ArabicShapePlan) { p.data = Some(Box::new(d)); }
    /// joining alone; false = an index failed
    pub fn joining(b: &mut Buffer) -> bool { arabic_joining(b).is_some() }
    pub fn mongolian(b: &mut Buffer) { mongolian_variation_selectors(b) }
    pub fn masks(d: &ArabicShapePlan, mongolian: bool, b: &mut Buffer) {
        setup_masks_inner(d, if mongolian { Some(Script::MONGOLIAN) } else { Some(Script::ARABIC) }, b)
    }
    pub fn record(p: &ShapePlan, f: &ShaperFont<'_, '_>, b: &mut Buffer) -> bool {
        record_stch(p, f, b);
        b.scratch_flags & HB_BUFFER_SCRATCH_FLAG_ARABIC_HAS_STCH != 0
    }
    pub fn set_has_stch(b: &mut Buffer, yes: bool) { if yes { b.scratch_flags |= HB_BUFFER_SCRATCH_FLAG_ARABIC_HAS_STCH; } else { b.scratch_flags &= !HB_BUFFER_SCRATCH_FLAG_ARABIC_HAS_STCH; } }
    pub fn stretch(f: &ShaperFont<'_, '_>, b: &mut Buffer) { apply_stch(f, b) }
    pub fn reorder(b: &mut Buffer, start: usize, end: usize) -> bool { reorder_modifier_combining_marks(b, start, end).is_some() }

    // ---- line in, line out: the buffer is filled field by field ----
    pub fn fresh(codes: &[u32], cats: &[u8], pre: &[u32], post: &[u32]) -> Buffer {
        let mut b = Buffer::new();
        for (&c, &g) in codes.iter().zip(cats) {
            b.push(c, 0);
            let n = b.len - 1;
            b.info[n].set_unicode_props(u16::from(g));
        }
        b.set_pre_context_codepoints(pre);
        b.set_post_context_codepoints(post);
        b
    }
    pub fn actions(b: &Buffer) -> Vec<u8> { b.glyph_infos().iter().map(|i| i.arabic_shaping_action()).collect() }
    pub fn masks_of(b: &Buffer) -> Vec<u32> { b.glyph_infos().iter().map(|i| i.mask).collect() }
    pub fn actions_ref(b: &Buffer) -> &[GlyphInfo] { b.glyph_infos() }
    pub fn act(s: &[GlyphInfo], i: usize) -> u8 { s[i].arabic_shaping_action() }
    pub fn enter(b: &mut Buffer) { b.enter() }
    pub fn set_action(b: &mut Buffer, i: usize, a: u8) { b.info[i].set_arabic_shaping_action(a) }
    pub fn set_mask(b: &mut Buffer, i: usize, m: u32) { b.info[i].mask = m }
    pub fn set_code(b: &mut Buffer, i: usize, c: u32) { b.info[i].glyph_id = c }
    pub fn set_props(b: &mut Buffer, i: usize, gc: u8, ign: bool) { b.info[i].set_unicode_props(u16::from(gc) | if ign { 0x20 } else { 0 }) }
    pub fn categories(b: &Buffer) -> Vec<u8> { b.glyph_infos().iter().map(|i| i.general_category().0).collect() }
    pub fn ignorables(b: &Buffer) -> Vec<bool> { b.glyph_infos().iter().map(|i| i.is_default_ignorable()).collect() }
    pub fn components(b: &Buffer) -> Vec<u8> { b.glyph_infos().iter().map(|i| i.lig_comp()).collect() }
    pub fn set_class(b: &mut Buffer, i: usize, cc: u8) { b.info[i].set_unicode_props(12 | (u16::from(cc) << 8)) }
    pub fn classes(b: &Buffer) -> Vec<u8> { b.glyph_infos().iter().map(|i| i.modified_combining_class()).collect() }
    pub fn codes(b: &Buffer) -> Vec<u32> { b.glyph_infos().iter().map(|i| i.glyph_id).collect() }
    pub fn clusters(b: &Buffer) -> Vec<u32> { b.glyph_infos().iter().map(|i| i.cluster).collect() }
    pub fn set_cluster(b: &mut Buffer, i: usize, c: u32) { b.info[i].cluster = c }
    pub fn set_multiplied(b: &mut Buffer, i: usize, yes: bool, comp: u8) { b.info[i].set_glyph_props(if yes { 0x40 } else { 0 }); b.info[i].set_lig_props(comp) }
    pub fn set_len(b: &mut Buffer, n: usize) { b.len = n }
    pub fn set_idx(b: &mut Buffer, i: usize) { b.idx = i }
    pub fn set_ctx(b: &mut Buffer, side: usize, c: Option<u32>) { b.context_len[side] = 0; if let Some(c) = c { b.context[side][0] = c; b.context_len[side] = 1; } }
    pub fn ok(b: &Buffer) -> bool { b.successful }
    pub fn max_ops(b: &Buffer) -> i32 { b.max_ops }
}
