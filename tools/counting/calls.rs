//! The port's calls as its archives export them: a slice is a pointer and a length, what is lent to be written to is a pointer, a yes-or-no is a byte.

/// Declares a call, and a function of the same name without `tt_` that takes slices.
macro_rules! calls {
    ($(fn $name:ident = $tt:ident($($arg:ident : $kind:tt $type:ty),* $(,)?) -> $out:ty;)*) => { $(
        calls!(@declare $tt [] ($($arg : $kind $type),*) $out);
        #[allow(clippy::too_many_arguments)]
        #[inline(always)]
        pub fn $name($($arg: calls!(@type $kind $type)),*) -> $out { calls!(@call $tt [] ($($arg : $kind $type),*)) }
    )* };
    (@type s $t:ty) => { &[$t] };
    (@type m $t:ty) => { &mut [$t] };
    (@type o $t:ty) => { &mut $t };
    (@type r $t:ty) => { &$t };
    (@type v $t:ty) => { $t };
    (@declare $tt:ident [$($done:tt)*] () $out:ty) => { extern "C" { fn $tt($($done)*) -> $out; } };
    (@declare $tt:ident [$($done:tt)*] ($arg:ident : s $t:ty $(, $($rest:tt)*)?) $out:ty) => { calls!(@declare $tt [$($done)* $arg: *const $t, _: usize,] ($($($rest)*)?) $out); };
    (@declare $tt:ident [$($done:tt)*] ($arg:ident : m $t:ty $(, $($rest:tt)*)?) $out:ty) => { calls!(@declare $tt [$($done)* $arg: *mut $t, _: usize,] ($($($rest)*)?) $out); };
    (@declare $tt:ident [$($done:tt)*] ($arg:ident : o $t:ty $(, $($rest:tt)*)?) $out:ty) => { calls!(@declare $tt [$($done)* $arg: *mut $t,] ($($($rest)*)?) $out); };
    (@declare $tt:ident [$($done:tt)*] ($arg:ident : r $t:ty $(, $($rest:tt)*)?) $out:ty) => { calls!(@declare $tt [$($done)* $arg: *const $t,] ($($($rest)*)?) $out); };
    (@declare $tt:ident [$($done:tt)*] ($arg:ident : v $t:ty $(, $($rest:tt)*)?) $out:ty) => { calls!(@declare $tt [$($done)* $arg: $t,] ($($($rest)*)?) $out); };
    (@call $tt:ident [$($done:tt)*] ()) => { unsafe { $tt($($done)*) } };
    (@call $tt:ident [$($done:tt)*] ($arg:ident : s $t:ty $(, $($rest:tt)*)?)) => { calls!(@call $tt [$($done)* $arg.as_ptr(), $arg.len(),] ($($($rest)*)?)) };
    (@call $tt:ident [$($done:tt)*] ($arg:ident : m $t:ty $(, $($rest:tt)*)?)) => { calls!(@call $tt [$($done)* $arg.as_mut_ptr(), $arg.len(),] ($($($rest)*)?)) };
    (@call $tt:ident [$($done:tt)*] ($arg:ident : $kind:tt $t:ty $(, $($rest:tt)*)?)) => { calls!(@call $tt [$($done)* $arg,] ($($($rest)*)?)) };
}

// s: a slice lent to be read; m: one lent to be written to, too; o: a place for an answer; r: an array lent to be read; v: a value
calls! {
    fn join_line = tt_join_line(
        codes: s u32, types: s u8, categories: s u8, pre_types: s u8, pre_categories: s u8, post_types: s u8, post_categories: s u8,
        base: s u32, features: r [u32; 7], mongolian: v u8, actions: m u8, masks: m u32,
    ) -> u8;
    fn replace_letter = tt_replace_letter(
        codes: m u32, types: m u8, categories: m u8, pre_types: s u8, pre_categories: s u8, post_types: s u8, post_categories: s u8,
        base: s u32, features: r [u32; 7], mongolian: v u8, actions: m u8, masks: m u32, place: v usize, code: v u32, joining_type: v u8, category: v u8,
    ) -> u8;
    fn joining_type = tt_joining_type(code: v u32) -> u8;
    fn join_codes = tt_join_codes(
        codes: s u32, categories: s u8, pre_codes: s u32, pre_categories: s u8, post_codes: s u32, post_categories: s u8,
        base: s u32, features: r [u32; 7], mongolian: v u8, actions: m u8, masks: m u32,
    ) -> u8;
    fn replace_code = tt_replace_code(
        codes: m u32, categories: m u8, pre_codes: s u32, pre_categories: s u8, post_codes: s u32, post_categories: s u8,
        base: s u32, features: r [u32; 7], mongolian: v u8, actions: m u8, masks: m u32, place: v usize, code: v u32, category: v u8,
    ) -> u8;
    fn reorder_marks = tt_reorder_modifier_combining_marks(
        codes: m u32, classes: m u8, start: v usize, end: v usize, low: v u8, high: v u8, count: o usize, ranges: o [usize; 4],
    ) -> u8;
    fn record_stch = tt_record_stch(mask: v u32, multiplied: s u8, components: s u8, actions: m u8, recorded: o bool) -> u8;
    fn stretch = tt_stretch(
        recorded: v u8, rtl: v u8, glyphs: s u32, widths: s i32, categories: s u8, ignorables: s u8, actions: s u8, advances: s i32, offsets: s i32,
        to_glyphs: m u32, to_widths: m i32, to_categories: m u8, to_ignorables: m u8, to_actions: m u8, to_advances: m i32, to_offsets: m i32, length: o usize,
    ) -> u8;
    fn write_single = tt_serialize_single_lookup(glyphs: s u16, substitutes: s u16, flags: v u16, area: m u8, length: o usize) -> u8;
    fn write_ligature = tt_serialize_ligature_lookup(n: v u8, components: s u16, ligatures: s u16, flags: v u16, area: m u8, length: o usize) -> u8;
    fn read_lookup = tt_read_lookup(
        bytes: s u8, glyphs: m u16, substitutes: m u16, kind: o u8, components: o u8, flags: o u16, count: o usize,
    ) -> u8;
    fn fallback_plan = tt_fallback_plan(
        masks: r [u32; 5], codes: s u32, glyphs: s u32, shaping: s u16, forms: s u16, three_components: s u16, three_ligatures: s u16,
        two_components: s u16, two_ligatures: s u16, mark_components: s u16, mark_ligatures: s u16, area: m u8,
        count: o usize, entry_masks: o [u32; 7], entry_lengths: o [u32; 7],
    ) -> u8;
}
