//! The thirteen calls over slices: the one module with unsafe code.
//!
//! A Rust slice meets all that a call asks of a column: its pointer is aligned, what lies behind it is there for its whole length, and
//! what is borrowed to be written overlaps nothing else. A call writes only what is lent as mutable (that is proved), keeps no
//! pointer, and is defined for any bytes and any lengths. So each block has the same reason, `slices as they are`, and says what else
//! there is.
#![allow(unsafe_code)]

use crate::refusal::Refusal;
use crate::sys;

/// The letters around a line and what it is joined with, as columns.
pub(crate) struct Around<'a> {
    pub pre_types: &'a [u8],
    pub pre_categories: &'a [u8],
    pub post_types: &'a [u8],
    pub post_categories: &'a [u8],
    pub features: &'a [u32; 7],
    pub mongolian: bool,
}

/// The columns of a line where its letters are only read.
pub(crate) fn join_line(
    codes: &[u32],
    types: &[u8],
    categories: &[u8],
    around: &Around<'_>,
    base: &[u32],
    actions: &mut [u8],
    masks: &mut [u32],
) -> Result<(), Refusal> {
    // SAFETY: slices as they are; the feature masks are seven by their type.
    let number = unsafe {
        sys::tt_join_line(
            codes.as_ptr(),
            codes.len(),
            types.as_ptr(),
            types.len(),
            categories.as_ptr(),
            categories.len(),
            around.pre_types.as_ptr(),
            around.pre_types.len(),
            around.pre_categories.as_ptr(),
            around.pre_categories.len(),
            around.post_types.as_ptr(),
            around.post_types.len(),
            around.post_categories.as_ptr(),
            around.post_categories.len(),
            base.as_ptr(),
            base.len(),
            around.features,
            around.mongolian.into(),
            actions.as_mut_ptr(),
            actions.len(),
            masks.as_mut_ptr(),
            masks.len(),
        )
    };
    Refusal::told(number)
}

/// A new letter and its place, by numbers.
pub(crate) struct Request {
    pub place: usize,
    pub code: u32,
    pub joining_type: u8,
    pub category: u8,
}

#[allow(clippy::too_many_arguments)] // the columns of a line
pub(crate) fn replace_letter(
    codes: &mut [u32],
    types: &mut [u8],
    categories: &mut [u8],
    around: &Around<'_>,
    base: &[u32],
    actions: &mut [u8],
    masks: &mut [u32],
    request: &Request,
) -> Result<(), Refusal> {
    // SAFETY: slices as they are; the feature masks are seven by their type.
    let number = unsafe {
        sys::tt_replace_letter(
            codes.as_mut_ptr(),
            codes.len(),
            types.as_mut_ptr(),
            types.len(),
            categories.as_mut_ptr(),
            categories.len(),
            around.pre_types.as_ptr(),
            around.pre_types.len(),
            around.pre_categories.as_ptr(),
            around.pre_categories.len(),
            around.post_types.as_ptr(),
            around.post_types.len(),
            around.post_categories.as_ptr(),
            around.post_categories.len(),
            base.as_ptr(),
            base.len(),
            around.features,
            around.mongolian.into(),
            actions.as_mut_ptr(),
            actions.len(),
            masks.as_mut_ptr(),
            masks.len(),
            request.place,
            request.code,
            request.joining_type,
            request.category,
        )
    };
    Refusal::told(number)
}

/// The number of a code's joining type.
pub(crate) fn joining_type(code: u32) -> u8 {
    // SAFETY: nothing is lent.
    unsafe { sys::tt_joining_type(code) }
}

/// The letters around a line by their codes, and what it is joined with, as columns.
pub(crate) struct AroundCodes<'a> {
    pub pre_codes: &'a [u32],
    pub pre_categories: &'a [u8],
    pub post_codes: &'a [u32],
    pub post_categories: &'a [u8],
    pub features: &'a [u32; 7],
    pub mongolian: bool,
}

pub(crate) fn join_codes(
    codes: &[u32],
    categories: &[u8],
    around: &AroundCodes<'_>,
    base: &[u32],
    actions: &mut [u8],
    masks: &mut [u32],
) -> Result<(), Refusal> {
    // SAFETY: slices as they are; the feature masks are seven by their type.
    let number = unsafe {
        sys::tt_join_codes(
            codes.as_ptr(),
            codes.len(),
            categories.as_ptr(),
            categories.len(),
            around.pre_codes.as_ptr(),
            around.pre_codes.len(),
            around.pre_categories.as_ptr(),
            around.pre_categories.len(),
            around.post_codes.as_ptr(),
            around.post_codes.len(),
            around.post_categories.as_ptr(),
            around.post_categories.len(),
            base.as_ptr(),
            base.len(),
            around.features,
            around.mongolian.into(),
            actions.as_mut_ptr(),
            actions.len(),
            masks.as_mut_ptr(),
            masks.len(),
        )
    };
    Refusal::told(number)
}

/// A new letter and its place, by its code.
pub(crate) struct CodeRequest {
    pub place: usize,
    pub code: u32,
    pub category: u8,
}

pub(crate) fn replace_code(
    codes: &mut [u32],
    categories: &mut [u8],
    around: &AroundCodes<'_>,
    base: &[u32],
    actions: &mut [u8],
    masks: &mut [u32],
    request: &CodeRequest,
) -> Result<(), Refusal> {
    // SAFETY: slices as they are; the feature masks are seven by their type.
    let number = unsafe {
        sys::tt_replace_code(
            codes.as_mut_ptr(),
            codes.len(),
            categories.as_mut_ptr(),
            categories.len(),
            around.pre_codes.as_ptr(),
            around.pre_codes.len(),
            around.pre_categories.as_ptr(),
            around.pre_categories.len(),
            around.post_codes.as_ptr(),
            around.post_codes.len(),
            around.post_categories.as_ptr(),
            around.post_categories.len(),
            base.as_ptr(),
            base.len(),
            around.features,
            around.mongolian.into(),
            actions.as_mut_ptr(),
            actions.len(),
            masks.as_mut_ptr(),
            masks.len(),
            request.place,
            request.code,
            request.category,
        )
    };
    Refusal::told(number)
}

/// How many ranges there are, and start and end of each.
pub(crate) fn reorder_modifier_combining_marks(
    codes: &mut [u32],
    classes: &mut [u8],
    start: usize,
    end: usize,
    low: u8,
    high: u8,
) -> Result<(usize, [usize; 4]), Refusal> {
    let (mut count, mut ranges) = (0, [0; 4]);
    // SAFETY: slices as they are; the answers are locals of their own.
    let number = unsafe {
        sys::tt_reorder_modifier_combining_marks(
            codes.as_mut_ptr(),
            codes.len(),
            classes.as_mut_ptr(),
            classes.len(),
            start,
            end,
            low,
            high,
            &mut count,
            &mut ranges,
        )
    };
    Refusal::told(number).map(|()| (count, ranges))
}

pub(crate) fn record_stch(mask: u32, multiplied: &[u8], components: &[u8], actions: &mut [u8]) -> Result<bool, Refusal> {
    let mut recorded = false;
    // SAFETY: slices as they are; the answer is a local of its own, and gets 0 or 1.
    let number = unsafe {
        sys::tt_record_stch(
            mask,
            multiplied.as_ptr(),
            multiplied.len(),
            components.as_ptr(),
            components.len(),
            actions.as_mut_ptr(),
            actions.len(),
            &mut recorded,
        )
    };
    Refusal::told(number).map(|()| recorded)
}

pub(crate) fn stretch(recorded: bool, rtl: bool, line: &crate::Columns, to: &mut crate::Columns) -> Result<usize, Refusal> {
    let mut length = 0;
    // SAFETY: slices as they are; the answer is a local of its own.
    let number = unsafe {
        sys::tt_stretch(
            recorded.into(),
            rtl.into(),
            line.glyphs.as_ptr(),
            line.glyphs.len(),
            line.widths.as_ptr(),
            line.widths.len(),
            line.categories.as_ptr(),
            line.categories.len(),
            line.ignorables.as_ptr(),
            line.ignorables.len(),
            line.actions.as_ptr(),
            line.actions.len(),
            line.advances.as_ptr(),
            line.advances.len(),
            line.offsets.as_ptr(),
            line.offsets.len(),
            to.glyphs.as_mut_ptr(),
            to.glyphs.len(),
            to.widths.as_mut_ptr(),
            to.widths.len(),
            to.categories.as_mut_ptr(),
            to.categories.len(),
            to.ignorables.as_mut_ptr(),
            to.ignorables.len(),
            to.actions.as_mut_ptr(),
            to.actions.len(),
            to.advances.as_mut_ptr(),
            to.advances.len(),
            to.offsets.as_mut_ptr(),
            to.offsets.len(),
            &mut length,
        )
    };
    Refusal::told(number).map(|()| length)
}

pub(crate) fn serialize_single_lookup(
    glyphs: &[u16],
    substitutes: &[u16],
    flags: u16,
    area: &mut [u8],
) -> Result<usize, Refusal> {
    let mut length = 0;
    // SAFETY: slices as they are; the answer is a local of its own.
    let number = unsafe {
        sys::tt_serialize_single_lookup(
            glyphs.as_ptr(),
            glyphs.len(),
            substitutes.as_ptr(),
            substitutes.len(),
            flags,
            area.as_mut_ptr(),
            area.len(),
            &mut length,
        )
    };
    Refusal::told(number).map(|()| length)
}

pub(crate) fn serialize_ligature_lookup(
    n: u8,
    components: &[u16],
    ligatures: &[u16],
    flags: u16,
    area: &mut [u8],
) -> Result<usize, Refusal> {
    let mut length = 0;
    // SAFETY: slices as they are; the answer is a local of its own.
    let number = unsafe {
        sys::tt_serialize_ligature_lookup(
            n,
            components.as_ptr(),
            components.len(),
            ligatures.as_ptr(),
            ligatures.len(),
            flags,
            area.as_mut_ptr(),
            area.len(),
            &mut length,
        )
    };
    Refusal::told(number).map(|()| length)
}

/// Kind, number of components, flags and number of rules of a lookup as read.
pub(crate) fn read_lookup(bytes: &[u8], glyphs: &mut [u16], substitutes: &mut [u16]) -> Result<(u8, u8, u16, usize), Refusal> {
    let (mut kind, mut components, mut flags, mut count) = (0, 0, 0, 0);
    // SAFETY: slices as they are; the answers are locals of their own.
    let number = unsafe {
        sys::tt_read_lookup(
            bytes.as_ptr(),
            bytes.len(),
            glyphs.as_mut_ptr(),
            glyphs.len(),
            substitutes.as_mut_ptr(),
            substitutes.len(),
            &mut kind,
            &mut components,
            &mut flags,
            &mut count,
        )
    };
    Refusal::told(number).map(|()| (kind, components, flags, count))
}

/// How many entries a plan has, their masks and their lengths.
pub(crate) fn fallback_plan(
    masks: &[u32; 5],
    font: &crate::FontMap<'_>,
    rows: &crate::Rows<'_>,
    area: &mut [u8],
) -> Result<(usize, [u32; 7], [u32; 7]), Refusal> {
    let (mut count, mut entry_masks, mut entry_lengths) = (0, [0; 7], [0; 7]);
    // SAFETY: slices as they are; masks are five and entries seven by their types, and the answers are locals of their own.
    let number = unsafe {
        sys::tt_fallback_plan(
            masks,
            font.codes.as_ptr(),
            font.codes.len(),
            font.glyphs.as_ptr(),
            font.glyphs.len(),
            rows.shaping.as_ptr(),
            rows.shaping.len(),
            rows.forms.as_ptr(),
            rows.forms.len(),
            rows.three_components.as_ptr(),
            rows.three_components.len(),
            rows.three_ligatures.as_ptr(),
            rows.three_ligatures.len(),
            rows.two_components.as_ptr(),
            rows.two_components.len(),
            rows.two_ligatures.as_ptr(),
            rows.two_ligatures.len(),
            rows.mark_components.as_ptr(),
            rows.mark_components.len(),
            rows.mark_ligatures.as_ptr(),
            rows.mark_ligatures.len(),
            area.as_mut_ptr(),
            area.len(),
            &mut count,
            &mut entry_masks,
            &mut entry_lengths,
        )
    };
    Refusal::told(number).map(|()| (count, entry_masks, entry_lengths))
}

pub(crate) fn do_fallback(arabic: bool, isol: bool, fina: bool, medi: bool, init: bool) -> bool {
    // SAFETY: nothing is lent.
    unsafe { sys::tt_do_fallback(arabic.into(), isol.into(), fina.into(), medi.into(), init.into()) }
}
