//! Cases for replay_type: the joining type that the Rust's own table gives a code, before the code's category is looked at.
//!
//! Goes in: codes u32. Comes out: types u8, as many.
//! The Rust's look-up takes any number of 32 bits, so every answer here is its own. What a code above 10FFFF should have is
//! document 02's sentence "unlisted codes give X", and the Rust says the same.

mod frame;

use frame::{Case, Cases, Draw};
use oracle::ot::shaper::arabic::probe;

const DRIVER: &str = "type";
const LINE_LIMIT: usize = 4096;
/// the codes that a case may have: the program has room for so many
const MOST: usize = 4200;
const LAST_CODE: u32 = 0x10FFFF;
/// random codes above the last code, of every fresh run
const ABOVE: usize = 150_000;
/// X: the table lists nothing for the code
const UNLISTED: u8 = 7;

fn main() {
    frame::run(DRIVER, sample, fresh);
}

/// Every listed code; the ends of the rows and the codes beside them, as they are and moved; columns of none and one.
fn sample(cases: &mut Cases) {
    write_all(cases, (0..=LAST_CODE).filter(|&code| is_listed(code)));
    write_all(cases, edges().into_iter());
    write_all(cases, moved(&ends()));
    write(cases, &[]);
    write(cases, &[0x0628]);
}

fn fresh(cases: &mut Cases, draw: &mut Draw, count: u64) {
    write_all(cases, 0..=LAST_CODE);
    let edges = edges();
    write_all(cases, moved(&edges));
    let above: Vec<u32> = draw.list(ABOVE, code_above);
    write_all(cases, above.into_iter());
    for _ in 0..count {
        let length = draw.length(LINE_LIMIT, MOST);
        write(cases, &draw.list(length, |draw| any_code(draw, &edges)));
    }
}

// ---- codes

fn is_listed(code: u32) -> bool {
    probe::table_type(code) != UNLISTED
}

/// The first and the last code of each row: where the type is another than that of the code before or behind.
fn ends() -> Vec<u32> {
    (1..LAST_CODE).filter(|&code| is_listed(code) && (differ(code, code - 1) || differ(code, code + 1))).collect()
}

fn differ(a: u32, b: u32) -> bool {
    probe::table_type(a) != probe::table_type(b)
}

/// The ends of the rows and the codes beside them, each once.
fn edges() -> Vec<u32> {
    let mut all: Vec<u32> = ends().into_iter().flat_map(|code| [code - 1, code, code + 1]).collect();
    all.sort_unstable();
    all.dedup();
    all
}

/// Codes moved to where a cut number would take them for themselves; the last of all numbers.
fn moved(codes: &[u32]) -> impl Iterator<Item = u32> + '_ {
    let each = |code: &u32| [code + 0x10000, code + 0x110000, code | 0x8000_0000, code | 0xFFE0_0000];
    codes.iter().flat_map(each).chain([LAST_CODE + 1, u32::MAX - 1, u32::MAX])
}

/// A code above the last one, of any size: as many have few bits as many.
fn code_above(draw: &mut Draw) -> u32 {
    let bits = draw.between(0, 11);
    let code = draw.bits() as u32 >> bits;
    if code > LAST_CODE { code } else { LAST_CODE + 1 + code }
}

/// One beside the end of a row, one up to the last code, or any number.
fn any_code(draw: &mut Draw, edges: &[u32]) -> u32 {
    match draw.below(4) {
        0 => draw.bits() as u32,
        1 => draw.below(LAST_CODE as usize + 1) as u32,
        _ => draw.one_of(edges),
    }
}

// ---- writing

/// All of the codes, in as few cases as hold them.
fn write_all(cases: &mut Cases, codes: impl Iterator<Item = u32>) {
    let codes: Vec<u32> = codes.collect();
    codes.chunks(LINE_LIMIT).for_each(|some| write(cases, some));
}

fn write(cases: &mut Cases, codes: &[u32]) {
    let types: Vec<u8> = codes.iter().map(|&code| probe::table_type(code)).collect();
    cases.write(Case::new().u32s(codes).u8s(&types));
}
