//! Stands for ot/shaper/mod.rs; the three Arabic files are the Rust's own bytes, with a probe behind two of them.
use crate::buffer::*;
use crate::normalize::{NormalizationMode, NormalizeContext};
use crate::plan::ShapePlan;
use crate::{Mask, Script, ShapePlanner, ShaperFont, Tag};
use core::any::Any;

pub const MAX_COMBINING_MARKS: usize = 32;
pub type DecomposeFn = fn(&NormalizeContext, u32) -> Option<(u32, u32)>;
pub type ComposeFn = fn(&NormalizeContext, u32, u32) -> Option<u32>;
pub fn clamp_i64_to_i32(v: i64) -> i32 { v.clamp(i64::from(i32::MIN), i64::from(i32::MAX)) as i32 }
#[derive(Clone, Copy, PartialEq, Eq)]
pub enum ZeroWidthMarks { None, ByGdefEarly, ByGdefLate }
pub struct OtShaper {
    pub collect_features: Option<fn(&mut ShapePlanner)>,
    pub override_features: Option<fn(&mut ShapePlanner)>,
    pub create_data: Option<fn(&ShapePlan) -> Box<dyn Any + Send + Sync>>,
    pub preprocess_text: Option<fn(&ShapePlan, &ShaperFont<'_, '_>, &mut Buffer)>,
    pub postprocess_glyphs: Option<fn(&ShapePlan, &ShaperFont<'_, '_>, &mut Buffer)>,
    pub normalization_preference: NormalizationMode,
    pub decompose: Option<DecomposeFn>,
    pub compose: Option<ComposeFn>,
    pub setup_masks: Option<fn(&ShapePlan, &ShaperFont<'_, '_>, &mut Buffer)>,
    pub gpos_tag: Option<Tag>,
    pub reorder_marks: Option<fn(&ShapePlan, &mut Buffer, usize, usize)>,
    pub zero_width_marks: ZeroWidthMarks,
    pub fallback_position: bool,
}

#[cfg(not(feature = "lent"))]
pub mod arabic_table;
#[cfg(feature = "lent")]
#[path = "lent_table.rs"]
pub mod arabic_table;
pub mod arabic { include!("arabic.rs"); include!("arabic_probe.rs"); }
pub mod arabic_fallback { include!("arabic_fallback.rs"); include!("fallback_probe.rs"); }
pub mod alt;

/// A copy of the fallback file: the rule rows that it is compiled over, and its plan, as masks with bytes.
pub struct Fallback {
    pub shaping: &'static [(u16, [u16; 4])],
    pub three: &'static [([u16; 3], u16)],
    pub two: &'static [([u16; 2], u16)],
    pub marks: &'static [([u16; 2], u16)],
    pub plan: fn(&ShapePlan, &ShaperFont<'_, '_>) -> Option<Vec<(u32, Vec<u8>)>>,
}
