//! Cases for replay_read: what the Rust's own writers give, read back.
//!
//! Goes in: bytes u8; glyphs u16 (or flat components) and substitutes u16 (or ligatures) before the call. Comes out: number u8; kind u8 (0 refused, 1
//! single, 4 ligature); number of components u8 (0 unless ligature); flags u16; length u32 (rules); the two columns after the call.
//!
//! The Rust has no reader. What has to come out follows from document 01: a list whose first glyphs do not fall comes back as it went in, an empty
//! ligature list with 2 components; one whose first glyphs fall is refused with 7, and so are rules of 1 and of 4 components, which the Rust
//! writes and the port does not. A column that is one short is refused with 8.
//!
//! Always: every list of up to three rules over three first glyphs, of each kind; the greatest sets, the most sets and the longest lookups.

mod frame;
mod lookups;

use frame::{Case, Cases, Draw};
use lookups::{List, SINGLE_LIMIT};

const DRIVER: &str = "read";
const EVERY_LIST: usize = 3;
/// a single lookup, and ligature lookups of 2 and 3 components, which the port writes; the Rust also writes others
const KINDS: [usize; 3] = [0, 2, 3];
const OTHERS: [usize; 2] = [1, 4];
/// elements of the two columns that the program can read
const MOST: [usize; 2] = [40_000, 33_000];

fn main() {
    frame::run(DRIVER, sample, fresh);
}

fn sample(cases: &mut Cases) {
    let draw = &mut Draw::new(9);
    every_list(cases, draw, 2);
    for i in 0..400 {
        let count = draw.between(0, 14);
        random(cases, draw, KINDS[i % 3], count);
    }
    for n in OTHERS {
        for count in 0..4 {
            random(cases, draw, n, count);
        }
    }
}

fn fresh(cases: &mut Cases, draw: &mut Draw, count: u64) {
    every_list(cases, draw, EVERY_LIST);
    long(cases, draw);
    for i in 0..count {
        let count = lookups::any_length(draw);
        let n = if i % 20 == 0 { draw.one_of(&OTHERS) } else { KINDS[(i % 3) as usize] };
        random(cases, draw, n, count);
    }
}

/// A case of bytes that the Rust wrote of a list.
fn write(cases: &mut Cases, draw: &mut Draw, list: &List) {
    let bytes = list.written().expect("the Rust writes a list that fits");
    let counts = [list.glyphs.len(), list.substitutes.len()];
    let written_by_port = KINDS.contains(&list.n) || list.rules() == 0;
    let refused = if list.falls() || !written_by_port { 7 } else { 0 };
    // one in sixteen has a column that is too short for its part of the answer
    let short = if list.rules() > 0 && draw.once_in(16) { Some(draw.below(2)) } else { None };
    let number = if refused == 0 && short.is_some() { 8 } else { refused };
    let before = [0, 1].map(|column| if short == Some(column) { any_column(draw, counts[column] - 1) } else { lent(draw, counts[column], MOST[column]) });
    let case = Case::new().u8s(&bytes).u16s(&before[0]).u16s(&before[1]).u8s(&[number]);
    let case = if number == 0 {
        let (kind, n) = if list.n == 0 { (1, 0) } else { (4, if list.rules() == 0 { 2 } else { list.n as u8 }) };
        case.u8s(&[kind]).u8s(&[n]).u16s(&[list.flags]).u32s(&[list.rules() as u32]).u16s(&over(&list.glyphs, &before[0])).u16s(&over(&list.substitutes, &before[1]))
    } else {
        case.u8s(&[0]).u8s(&[0]).u16s(&[0]).u32s(&[0]).u16s(&before[0]).u16s(&before[1])
    };
    cases.write(case);
}

fn any_column(draw: &mut Draw, count: usize) -> Vec<u16> {
    draw.list(count, |draw| draw.bits() as u16)
}

/// A column before the call: as long as its part of the answer, or longer by a few or by many.
fn lent(draw: &mut Draw, count: usize, most: usize) -> Vec<u16> {
    let more = match draw.below(16) {
        0..=7 => 0,
        8..=14 => draw.between(1, 3),
        _ => draw.between(4, 40),
    };
    any_column(draw, (count + more).min(most))
}

/// A column with the answer over its start.
fn over(answer: &[u16], before: &[u16]) -> Vec<u16> {
    [answer, &before[answer.len()..]].concat()
}

fn every_list(cases: &mut Cases, draw: &mut Draw, most: usize) {
    for n in KINDS {
        frame::each_word(&[0, 5, u16::MAX], most, |firsts| {
            let list = lookups::with_firsts(draw, n, firsts);
            write(cases, draw, &list);
        });
    }
}

/// As the list is drawn, or sorted by its first glyphs.
fn random(cases: &mut Cases, draw: &mut Draw, n: usize, count: usize) {
    let list = lookups::any_list(draw, n, count);
    let list = if draw.once_in(3) { list } else { list.sorted() };
    write(cases, draw, &list);
}

/// The longest lookups that there are, by document 01's limits.
fn long(cases: &mut Cases, draw: &mut Draw) {
    for _ in 0..2 {
        let list = lookups::any_list(draw, 0, SINGLE_LIMIT);
        write(cases, draw, &list);
        write(cases, draw, &list.sorted());
    }
    for (n, sets) in [(2, [8_189, 8_192]), (3, [6_551, 6_554])] {
        for rules in [&sets[..], &sets[1..], &vec![1; if n == 2 { 4_681 } else { 4_096 }]] {
            let list = lookups::with_sets(draw, n, rules);
            write(cases, draw, &list);
        }
    }
}
