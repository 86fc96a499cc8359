//! Cases for replay_single: what the Rust's own `serialize_single_lookup` makes of a list.
//!
//! Goes in: flags u16; glyphs u16, substitutes u16; area u8 before the call. Comes out: number u8; length u32; area u8 after the call.
//!
//! The Rust has no area: its bytes are what has to stand at the start of the lent one, and the rest has to stay. Where it writes nothing, the port
//! refuses with 5. That an area shorter than the Rust's bytes is refused, with 8, is document 01's rule.
//!
//! Always: document 01's worked example; every list of up to three rules over three glyphs; lists of 32,763 to 33,000 rules.

mod frame;
mod lookups;

use frame::{Case, Cases, Draw};
use lookups::{List, SINGLE_LIMIT};

const DRIVER: &str = "single";
const EVERY_LIST: usize = 3;
/// rules that the program can read
const MOST: usize = 33_000;

fn main() {
    frame::run(DRIVER, sample, fresh);
}

fn sample(cases: &mut Cases) {
    let draw = &mut Draw::new(7);
    example(cases);
    every_list(cases, draw, 2);
    for _ in 0..300 {
        let count = draw.between(0, 20);
        random(cases, draw, count);
    }
    random(cases, draw, 1000);
}

fn fresh(cases: &mut Cases, draw: &mut Draw, count: u64) {
    example(cases);
    every_list(cases, draw, EVERY_LIST);
    for count in [SINGLE_LIMIT - 1, SINGLE_LIMIT, SINGLE_LIMIT + 1, MOST] {
        let list = lookups::any_list(draw, 0, count);
        lookups::put_limit(cases, draw, &list, count <= SINGLE_LIMIT, inputs);
    }
    for _ in 0..count {
        let count = lookups::any_length(draw);
        random(cases, draw, count);
    }
}

fn inputs(list: &List) -> Case {
    Case::new().u16s(&[list.flags]).u16s(&list.glyphs).u16s(&list.substitutes)
}

/// Document 01's, with the bytes that are written there, to which the Rust is held, too.
fn example(cases: &mut Cases) {
    let list = List { n: 0, flags: 8, glyphs: vec![5], substitutes: vec![7] };
    let words: [u16; 11] = [1, 8, 1, 8, 2, 8, 1, 7, 1, 1, 5];
    let bytes: Vec<u8> = words.iter().flat_map(|word| word.to_be_bytes()).collect();
    assert_eq!(list.written().as_ref(), Some(&bytes), "the Rust gives other bytes than the page");
    lookups::write(cases, inputs(&list), Some(&bytes), &[1; 22]);
}

fn every_list(cases: &mut Cases, draw: &mut Draw, most: usize) {
    let rules: Vec<(u16, u16)> = [0, 5, u16::MAX].into_iter().flat_map(|glyph| [0, 258, u16::MAX].map(|substitute| (glyph, substitute))).collect();
    frame::each_word(&rules, most, |word| {
        let (glyphs, substitutes) = word.iter().copied().unzip();
        let list = List { n: 0, flags: lookups::any_flags(draw), glyphs, substitutes };
        lookups::put(cases, draw, &list, inputs);
    });
}

fn random(cases: &mut Cases, draw: &mut Draw, count: usize) {
    let list = lookups::any_list(draw, 0, count);
    lookups::put(cases, draw, &list, inputs);
}
