//! Stands for unicode/ucd_table.rs, which is not given: categories and classes are those that unicode_data.py wrote, and a
//! driver can lend the category of any code.
pub mod ucd {
    use crate::Script;
    static GC: &[u8; 0x110000] = include_bytes!("../../data/gc.bin");
    static CCC: &[u8; 0x110000] = include_bytes!("../../data/ccc.bin");
    use crate::lent::LENT_GC;
    pub fn ucd_gc(u: usize) -> u8 {
        LENT_GC.with(|m| { let m = m.borrow(); if m.is_empty() { None } else { m.get(&(u as u32)).copied() } })
            .unwrap_or_else(|| GC.get(u).copied().unwrap_or(2))
    }
    pub fn ucd_ccc(u: usize) -> u8 { CCC.get(u).copied().unwrap_or(0) }
    pub fn ucd_sc(_: usize) -> u8 { 0 }
    pub fn ucd_bmg(_: usize) -> i32 { 0 }
    pub fn ucd_dm(_: usize) -> u16 { 0 }
    pub static ucd_sc_map: [Script; 1] = [Script::UNKNOWN];
    pub static ucd_dm1_p0_map: [u16; 0] = [];
    pub static ucd_dm1_p2_map: [u16; 0] = [];
    pub static ucd_dm2_u32_map: [u32; 0] = [];
    pub static ucd_dm2_u64_map: [u64; 0] = [];
}
