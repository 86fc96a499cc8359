//! Stands before arabic_table.rs with the feature `lent`: some codes have a type that a driver lends, all others the table's.
use super::arabic;
#[path = "arabic_table.rs"]
mod real;
pub(crate) use real::{LIGATURE_3_TABLE, LIGATURE_MARK_TABLE, LIGATURE_TABLE, SHAPING_TABLE};
use super::arabic::ArabicJoiningType;
/// codes 0x200000 + 16 * k + type have that type; 0x180B..=0x180F as lent here
pub static LENT: [std::sync::atomic::AtomicU8; 5] = [const { std::sync::atomic::AtomicU8::new(255) }; 5];
pub(crate) fn of(n: u8) -> ArabicJoiningType {
    use ArabicJoiningType::*;
    [U, L, R, D, GroupAlaph, GroupDalathRish, T, X][n as usize]
}
pub(crate) fn joining_type(u: u32) -> ArabicJoiningType {
    if u >= 0x200000 { return of((u & 7) as u8); }
    if (0x180B..=0x180F).contains(&u) {
        let t = LENT[(u - 0x180B) as usize].load(std::sync::atomic::Ordering::Relaxed);
        if t != 255 { return of(t); }
    }
    real::joining_type(u)
}
