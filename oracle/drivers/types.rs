//! Cases for replay_types: the joining type that the Rust's own `get_joining_type` gives a code of a category.
//!
//! Goes in: types u8 (what the Rust's table lists for a code), categories u8. Comes out: resolved types u8.
//! The three columns have equal counts, at most 4,096.

mod frame;

use frame::{Case, Cases, Draw};
use oracle::ot::shaper::arabic::probe;

const DRIVER: &str = "types";
const LINE_LIMIT: usize = 4096;
const LAST_CODE: u32 = 0x10FFFF;
const TYPES: u8 = 8;
const CATEGORIES: u8 = 30;
/// X: the table lists nothing for the code, and its category decides
const UNLISTED: u8 = 7;

/// A code, and the category that it is given.
type Pair = (u32, u8);

fn main() {
    frame::run(DRIVER, sample, fresh);
}

/// The same with every Python, so the listed codes get the categories in turn and not their own.
fn sample(cases: &mut Cases) {
    write_all(cases, every_type(0..=CATEGORIES - 1));
    write_all(cases, listed().zip((0..CATEGORIES).cycle()));
    write(cases, &[]);
}

fn fresh(cases: &mut Cases, draw: &mut Draw, count: u64) {
    write_all(cases, every_type(0..=u8::MAX));
    write_all(cases, (0..=LAST_CODE).map(own));
    write_all(cases, listed().flat_map(|code| (0..CATEGORIES).map(move |category| (code, category))));
    let listed: Vec<u32> = listed().collect();
    for _ in 0..count {
        let length = draw.length(LINE_LIMIT, LINE_LIMIT);
        write(cases, &draw.list(length, |draw| any_pair(draw, &listed)));
    }
}

// ---- codes and their categories

fn own(code: u32) -> Pair {
    (code, probe::gc_of(code))
}

/// The codes that have a type in the table.
fn listed() -> impl Iterator<Item = u32> {
    (0..=LAST_CODE).filter(|&code| probe::table_type(code) != UNLISTED)
}

/// Each type, by the first code that has it, with each of the categories.
fn every_type(categories: std::ops::RangeInclusive<u8>) -> impl Iterator<Item = Pair> {
    (0..TYPES).map(first_of_type).flat_map(move |code| categories.clone().map(move |category| (code, category)))
}

fn first_of_type(wanted: u8) -> u32 {
    (0..=LAST_CODE)
        .find(|&code| probe::table_type(code) == wanted)
        .unwrap_or_else(|| frame::fail(DRIVER, &format!("no code of the Rust's table has type {wanted}")))
}

/// Listed codes and others by halves; its own category, one of the thirty, or any byte.
fn any_pair(draw: &mut Draw, listed: &[u32]) -> Pair {
    let code = if draw.once_in(2) { draw.one_of(listed) } else { draw.below(LAST_CODE as usize + 1) as u32 };
    match draw.below(4) {
        0 => own(code),
        1 => (code, draw.below(256) as u8),
        _ => (code, draw.below(usize::from(CATEGORIES)) as u8),
    }
}

// ---- writing

/// All of the pairs, in as few cases as hold them.
fn write_all(cases: &mut Cases, pairs: impl Iterator<Item = Pair>) {
    let pairs: Vec<Pair> = pairs.collect();
    pairs.chunks(LINE_LIMIT).for_each(|some| write(cases, some));
}

fn write(cases: &mut Cases, pairs: &[Pair]) {
    let column = |of: fn(Pair) -> u8| pairs.iter().copied().map(of).collect::<Vec<u8>>();
    let types = column(|(code, _)| probe::table_type(code));
    let categories = column(|(_, category)| category);
    let resolved = column(|(code, category)| probe::jtype(code, category));
    cases.write(Case::new().u8s(&types).u8s(&categories).u8s(&resolved));
}
