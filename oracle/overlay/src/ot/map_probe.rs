// Included behind the text of map.rs, as shaper/arabic_probe.rs behind arabic.rs.
/// What a driver lends to the map of a plan.
pub mod probe {
    use super::*;
    /// A feature as the map has it: its mask for value 1, and whether it needs its fallback.
    pub type Lent = (&'static [u8; 4], Mask, bool);
    /// Has the plan's map know these features, and no others. One that the map does not know has the mask 0 and needs no fallback.
    pub fn lend(plan: &mut ShapePlan, features: &[Lent]) {
        let feature = |&(tag, one_mask, needs_fallback): &Lent| FeatureMap {
            tag: Tag::new(tag), index: [None; 2], stage: [0; 2], shift: 0, mask: one_mask, one_mask, needs_fallback,
            auto_zwnj: false, auto_zwj: false, random: false, per_syllable: false,
        };
        let map = &mut plan.ot_map.features;
        *map = features.iter().map(feature).collect();
        map.sort(); // it is searched by halving
    }
}
