//! What the drivers share that need the feature `lent`: letters of any type, and selectors that are lent one.

#![allow(dead_code)] // a driver uses what it needs of this

use crate::lines::{self, Letter, NO_SELECTORS, RESOLVED, SELECTORS, T, X};
use crate::frame::Draw;
use oracle::ot::shaper::arabic_table::LENT;
use std::sync::atomic::Ordering;

/// code LENT_CODES + 16 k + t has type t
const LENT_CODES: u32 = 0x20_0000;

/// What a record is: a selector or not, and its type.
pub type Kind = (bool, u8);

/// A letter and a selector of each of the seven types.
pub fn kinds() -> Vec<Kind> {
    [false, true].into_iter().flat_map(|selector| RESOLVED.map(|t| (selector, t))).collect()
}

/// A record of a kind. A selector has the code given, which is lent its type.
pub fn record(draw: &mut Draw, (selector, t): Kind, code: u32) -> Letter {
    if !selector {
        return letter(draw, t);
    }
    lend(code, t);
    (code, lines::any_category(draw))
}

/// The context of a number: 0 is none, 1 to 7 are one letter of a type.
pub fn context(draw: &mut Draw, n: usize) -> Vec<Letter> {
    if n == 0 { vec![] } else { vec![letter(draw, RESOLVED[n - 1])] }
}

pub fn any_type(draw: &mut Draw) -> u8 {
    draw.below(usize::from(X) + 1) as u8
}

/// Selectors, the code among them that is none, and letters have all eight types, X too: then the category decides.
pub fn any_letter(draw: &mut Draw) -> Letter {
    match draw.below(8) {
        0 | 1 => (draw.one_of(&SELECTORS), lines::any_category(draw)),
        2 => (draw.one_of(&NO_SELECTORS), lines::any_category(draw)),
        _ => {
            let t = any_type(draw);
            letter(draw, t)
        }
    }
}

/// Any of the lent codes of a type.
pub fn letter(draw: &mut Draw, t: u8) -> Letter {
    (LENT_CODES + 16 * draw.below(0x1000) as u32 + u32::from(t), lines::any_category(draw))
}

/// From now on the codes from the first selector to the last have any type.
pub fn lend_any(draw: &mut Draw) {
    for code in SELECTORS[0]..=SELECTORS[3] {
        lend(code, any_type(draw));
    }
}

/// From now on the selectors are transparent, as they are in Unicode; the code among them that is none keeps its type.
pub fn lend_transparent() {
    for code in SELECTORS {
        lend(code, T);
    }
}

/// The type that a code from the first selector to the last has from now on.
fn lend(code: u32, t: u8) {
    LENT[(code - SELECTORS[0]) as usize].store(t, Ordering::Relaxed);
}
