//! The Rust's fallback file once more, over other rule rows than its own: its rows are constants, so each set of rows has a copy of the file.

/// A copy of the file over these rows.
macro_rules! fallback_over {
    ($name:ident, $shaping:expr, $three:expr, $two:expr, $marks:expr) => {
        pub mod $name {
            pub mod arabic_table {
                use super::super::*;
                pub(crate) const SHAPING_TABLE: &[(u16, [u16; 4])] = &$shaping;
                pub(crate) const LIGATURE_3_TABLE: &[([u16; 3], u16)] = &$three;
                pub(crate) const LIGATURE_TABLE: &[([u16; 2], u16)] = &$two;
                pub(crate) const LIGATURE_MARK_TABLE: &[([u16; 2], u16)] = &$marks;
            }
            pub mod arabic_fallback { include!("arabic_fallback.rs"); include!("fallback_probe.rs"); }
        }
    };
}

// ---- rows that are drawn, when the oracle is compiled

/// A code below `codes`, which is drawn by SplitMix64.
const fn code(seed: u64, at: usize, codes: u64) -> u16 {
    let a = seed.wrapping_mul(1 << 32).wrapping_add(at as u64 + 1).wrapping_mul(0x9E37_79B9_7F4A_7C15);
    let b = (a ^ (a >> 30)).wrapping_mul(0xBF58_476D_1CE4_E5B9);
    let c = (b ^ (b >> 27)).wrapping_mul(0x94D0_49BB_1331_11EB);
    ((c ^ (c >> 31)) % codes) as u16
}
const fn shaping<const ROWS: usize>(seed: u64, codes: u64) -> [(u16, [u16; 4]); ROWS] {
    let (mut rows, mut at) = ([(0, [0; 4]); ROWS], 0);
    while at < ROWS {
        let first = 5 * at;
        let forms = [code(seed, first + 1, codes), code(seed, first + 2, codes), code(seed, first + 3, codes), code(seed, first + 4, codes)];
        rows[at] = (code(seed, first, codes), forms);
        at += 1;
    }
    rows
}
const fn ligatures<const N: usize, const ROWS: usize>(seed: u64, codes: u64) -> [([u16; N], u16); ROWS] {
    let (mut rows, mut at) = ([([0; N], 0); ROWS], 0);
    while at < ROWS {
        let mut component = 0;
        while component < N {
            rows[at].0[component] = code(seed, (N + 1) * at + component, codes);
            component += 1;
        }
        rows[at].1 = code(seed, (N + 1) * at + N, codes);
        at += 1;
    }
    rows
}

// ---- the rows

// codes equal; form equal to own code; form 0 = none; unsorted; all four; code, component and ligature 0; a ligature that is its own component; an empty list
fallback_over!(
    telling,
    [(0x0030, [0x0041, 0, 0, 0x0030]), (0x0020, [0x0042, 0, 0x0050, 0]), (0x0030, [0x0043, 0, 0, 0]), (0x0000, [0x0044, 0, 0, 0]), (0xFFFF, [0x0045, 0, 0, 0])],
    [([1, 2, 3], 4), ([0, 0, 0], 0)],
    [([9, 2], 4), ([3, 2], 5), ([9, 3], 6), ([3, 2], 7), ([5, 5], 5)],
    []
);
// codes of the Windows-1256 signature: with these rows, a font that has it has a Unicode lookup as well, for fina and for isol
fallback_over!(signature, [(0x0649, [0, 0, 0x064A, 0]), (0x0644, [0, 0, 0, 0x0652])], [], [], []);
// no row at all; a row of each kind
fallback_over!(none, [], [], [], []);
fallback_over!(lone, [(7, [8, 9, 10, 11])], [([7, 7, 8], 9)], [([8, 7], 10)], [([9, 8], 0)]);
// few codes, so that all that can be equal is; more of them; any codes; as many rows as document 01 allows
fallback_over!(few, shaping::<24>(1, 9), ligatures::<3, 8>(2, 9), ligatures::<2, 12>(3, 9), ligatures::<2, 10>(4, 9));
fallback_over!(some, shaping::<60>(5, 40), ligatures::<3, 20>(6, 40), ligatures::<2, 40>(7, 40), ligatures::<2, 17>(8, 40));
fallback_over!(spread, shaping::<40>(9, 65536), ligatures::<3, 30>(10, 65536), ligatures::<2, 30>(11, 65536), ligatures::<2, 30>(12, 65536));
fallback_over!(most, shaping::<1024>(13, 3000), ligatures::<3, 1024>(14, 3000), ligatures::<2, 1024>(15, 3000), ligatures::<2, 1024>(16, 3000));
