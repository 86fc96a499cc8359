// Included behind the text of arabic_fallback.rs, as arabic_probe.rs behind arabic.rs.
/// The writers, the plan and the rule rows of arabic_fallback.rs.
pub mod probe {
    use super::*;
    pub fn single(m: &[(u16, u16)], flags: u16) -> Option<Vec<u8>> { serialize_single_lookup(m, flags) }
    pub fn ligature<const N: usize>(l: &[([u16; N], u16)], flags: u16) -> Option<Vec<u8>> { serialize_ligature_lookup(l, flags) }
    pub fn plan(p: &ShapePlan, f: &ShaperFont<'_, '_>) -> Option<Vec<(u32, Vec<u8>)>> {
        FallbackPlan::new(p, f).map(|p| p.lookups.iter().map(|l| (l.mask, l.lookup.get().0.clone())).collect())
    }
    /// the plan, with the rule rows that this copy of the file is compiled over
    pub const FALLBACK: crate::ot::shaper::Fallback =
        crate::ot::shaper::Fallback { shaping: SHAPING_TABLE, three: LIGATURE_3_TABLE, two: LIGATURE_TABLE, marks: LIGATURE_MARK_TABLE, plan };
}
