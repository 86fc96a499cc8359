//! Cases for replay_ligature: what the Rust's own `serialize_ligature_lookup` makes of a list, for 2 and for 3 components.
//!
//! Goes in: number of components u8; flags u16; components u16, one rule behind the other, ligatures u16; area u8 before the call. Comes out:
//! number u8; length u32; area u8 after the call.
//!
//! The Rust has no area: its bytes are what has to stand at the start of the lent one, and the rest has to stay. Where it writes nothing, the port
//! refuses with 5. That an area shorter than the Rust's bytes is refused, with 8, is document 01's rule.
//!
//! Always: every list of up to four rules over two first glyphs; first glyphs 5 3 5 5; the greatest sets, and the most sets, of document 01, and one rule
//! more; the longest lookups, whose last set begins as late as it can.

mod frame;
mod lookups;

use frame::{Case, Cases, Draw};
use lookups::List;

const DRIVER: &str = "ligature";
const EVERY_LIST: usize = 4;

fn main() {
    frame::run(DRIVER, sample, fresh);
}

fn sample(cases: &mut Cases) {
    let draw = &mut Draw::new(8);
    every_list(cases, draw, 3);
    for n in [2, 3] {
        for _ in 0..200 {
            let count = draw.between(0, 14);
            random(cases, draw, n, count);
        }
        random(cases, draw, n, 300);
    }
}

fn fresh(cases: &mut Cases, draw: &mut Draw, count: u64) {
    every_list(cases, draw, EVERY_LIST);
    for n in [2, 3] {
        limits(cases, draw, n);
    }
    for i in 0..count {
        let count = lookups::any_length(draw);
        random(cases, draw, 2 + (i % 2) as usize, count);
    }
}

fn inputs(list: &List) -> Case {
    Case::new().u8s(&[list.n as u8]).u16s(&[list.flags]).u16s(&list.glyphs).u16s(&list.substitutes)
}

fn every_list(cases: &mut Cases, draw: &mut Draw, most: usize) {
    for n in [2, 3] {
        let mut each = |firsts: &[u16]| {
            let list = lookups::with_firsts(draw, n, firsts);
            lookups::put(cases, draw, &list, inputs);
        };
        each(&[5, 3, 5, 5]);
        frame::each_word(&[0, u16::MAX], most, &mut each);
        frame::each_word(&[3, 4, 5], most - 1, &mut each);
    }
}

/// How many rules one set holds, and how many sets of one rule there can be: for 2 components and for 3.
const ONE_SET: [usize; 2] = [8_192, 6_554];
const SETS_OF_ONE: [usize; 2] = [4_681, 4_096];
/// Of two sets, how many rules the first can have, so that the second begins at a place that fits; that one can be as great as a set can be.
const FIRST_OF_TWO: [usize; 2] = [8_189, 6_551];

fn limits(cases: &mut Cases, draw: &mut Draw, n: usize) {
    let (most, sets, first) = (ONE_SET[n - 2], SETS_OF_ONE[n - 2], FIRST_OF_TWO[n - 2]);
    let mut each = |rules: &[usize], fits: bool| {
        let list = lookups::with_sets(draw, n, rules);
        lookups::put_limit(cases, draw, &list, fits, inputs);
    };
    each(&[most - 1], true);
    each(&[most], true);
    each(&[most + 1], false);
    each(&[1, most + 1], false);
    each(&[most + 1, 1], false);
    each(&vec![1; sets - 1], true);
    each(&vec![1; sets], true);
    each(&vec![1; sets + 1], false);
    each(&[first, most], true);
    each(&[first, most + 1], false);
    each(&[first + 1, 1], false);
    each(&[first / 2, first / 2 - 3, 1, most], true);
}

fn random(cases: &mut Cases, draw: &mut Draw, n: usize, count: usize) {
    let list = lookups::any_list(draw, n, count);
    lookups::put(cases, draw, &list, inputs);
}
