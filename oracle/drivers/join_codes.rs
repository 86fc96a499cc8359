//! Cases for replay_join_codes: what the Rust's own `setup_masks_inner` makes of a line of codes, with the types of its own table. No type is lent.
//!
//! Goes in: mongolian u8; features u32 x7; pre codes u32, pre categories u8; post codes, post categories; codes u32, categories u8, base
//! masks u32; actions u8, masks u32 before the call. Comes out: number u8; actions u8, masks u32 after it.
//!
//! Always: every line of up to three letters of the seven types with every pair of contexts, of none or one letter of each type; every code of
//! the table, the codes beside each of its rows, and numbers that have the low bits of a listed code, each in a line and as a context; a
//! code of each type, and codes that are not listed, with each of the thirty categories.

mod frame;
mod lines;
#[path = "lines/own.rs"]
mod own;

use frame::{Cases, Draw};
use lines::{CATEGORIES, LINE_LIMIT, Letter, Line, RESOLVED, SELECTORS, T, TRANSPARENT};
use own::{Codes, UNLISTED};

const DRIVER: &str = "join_codes";
const EVERY_LINE: usize = 3;
/// A D and an Alaph: between them a letter of each type gives the line other actions.
const BEFORE: Letter = (0x628, 7);
const BEHIND: Letter = (0x710, 7);

fn main() {
    frame::run(DRIVER, sample, fresh);
}

/// The same with every Python: no category is looked up.
fn sample(cases: &mut Cases) {
    let codes = Codes::new(DRIVER);
    let draw = &mut Draw::new(4);
    codes.every_line(draw, 2, 0, |line| lines::write_coded(cases, line));
    for (first, _) in own::rows() {
        in_line(cases, draw, (first, TRANSPARENT[0]));
    }
    for letter in [0x628, 0x200C, SELECTORS[0]].into_iter().flat_map(with_each_category) {
        everywhere(cases, draw, letter);
    }
    for code in own::moved(0x628) {
        everywhere(cases, draw, (code, BEFORE.1));
    }
    for _ in 0..160 {
        let length = draw.between(0, 16);
        lines::write_coded(cases, &any_line(&codes, draw, length, false));
    }
    for length in [63, 64, 65] {
        lines::write_coded(cases, &any_line(&codes, draw, length, false));
    }
}

fn fresh(cases: &mut Cases, draw: &mut Draw, count: u64) {
    let codes = Codes::new(DRIVER);
    codes.every_line(draw, EVERY_LINE, EVERY_LINE, |line| lines::write_coded(cases, line));
    for row in own::rows() {
        each_code(cases, draw, row);
    }
    for letter in a_code_of_each_type(&codes, draw).into_iter().chain(UNLISTED).chain(SELECTORS).flat_map(with_each_category) {
        everywhere(cases, draw, letter);
    }
    for _ in 0..count {
        let length = any_length(draw);
        lines::write_coded(cases, &any_line(&codes, draw, length, true));
    }
}

// ---- each code, each category

/// Every code of a row and those beside it; each row's first code and last one moved out of the table.
fn each_code(cases: &mut Cases, draw: &mut Draw, row: (u32, u32)) {
    for code in own::around_row(row) {
        let category = if draw.once_in(2) { draw.one_of(&TRANSPARENT) } else { lines::any_category(draw) };
        everywhere(cases, draw, (code, category));
    }
    for code in [row.0, row.1].into_iter().flat_map(own::moved) {
        let category = lines::any_category(draw);
        everywhere(cases, draw, (code, category));
    }
}

fn a_code_of_each_type(codes: &Codes, draw: &mut Draw) -> [u32; 7] {
    RESOLVED.map(|t| codes.code(draw, t))
}

fn with_each_category(code: u32) -> impl Iterator<Item = Letter> {
    (0..CATEGORIES).map(move |category| (code, category))
}

/// The letter in a line, and as either context.
fn everywhere(cases: &mut Cases, draw: &mut Draw, letter: Letter) {
    in_line(cases, draw, letter);
    lines::write_coded(cases, &Line::drawn(draw, false, vec![letter], vec![BEHIND], vec![]));
    lines::write_coded(cases, &Line::drawn(draw, false, vec![], vec![BEFORE], vec![letter]));
}

fn in_line(cases: &mut Cases, draw: &mut Draw, letter: Letter) {
    lines::write_coded(cases, &Line::drawn(draw, false, vec![], vec![BEFORE, letter, BEHIND], vec![]));
}

// ---- random lines

/// Mostly short, often around the length past which types have a larger room, a few of some hundred records and of as many as a line may have.
fn any_length(draw: &mut Draw) -> usize {
    match draw.below(400) {
        0..=299 => draw.between(0, 12),
        300..=374 => draw.between(0, 64),
        375..=394 => draw.between(60, 68),
        395..=398 => draw.between(0, 512),
        _ => draw.length(LINE_LIMIT, LINE_LIMIT),
    }
}

/// Letters of all scripts, or most of them of one, of which the table has some code.
fn any_line(codes: &Codes, draw: &mut Draw, length: usize, own: bool) -> Line {
    let script = codes.listed(draw);
    let mixed = draw.once_in(2);
    let letter = |draw: &mut Draw| match draw.below(16) {
        0 => {
            let code = codes.listed(draw);
            (draw.one_of(&own::moved(code)), lines::any_category(draw))
        }
        1..=10 if !mixed => own::near(draw, script),
        _ => codes.any_letter(draw, own),
    };
    lines::any_line(draw, length, letter, |draw| codes.letter(draw, T))
}
