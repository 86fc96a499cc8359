//! Stands for unicode/emoji_table.rs, which is not given: no code is a pictograph, and nothing that is compared asks.
pub fn is_Extended_Pictographic(_: u32) -> bool { false }
