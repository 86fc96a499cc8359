//! What the drivers share that go by the Rust's own table of types: its codes by their types and by its rows, some that it does not list, and
//! the drawing of lines of them.

#![allow(dead_code)] // a driver uses what it needs of this

use crate::frame::{self, Draw};
use crate::lines::{self, Letter, Line, NO_SELECTORS, RESOLVED, SELECTORS, T, TRANSPARENT, U, X};
use oracle::ot::shaper::arabic::probe;

const LAST_CODE: u32 = 0x10FFFF;
/// none, or one letter of a type, on each side
pub const PAIRS: usize = 8 * 8;
/// Codes that the table does not list, whatever their script, and numbers that are no codes.
pub const UNLISTED: [u32; 12] = [0x20, 0x41, 0x300, 0x5D0, 0x64B, 0x200B, 0x200E, 0xFE0F, 0x1F600, LAST_CODE, LAST_CODE + 1, u32::MAX];

/// The codes of the Rust's table by their types, and some that it does not list.
pub struct Codes {
    of_type: Vec<Vec<u32>>,
}

impl Codes {
    pub fn new(driver: &str) -> Self {
        let mut of_type = vec![vec![]; 8];
        for code in (0..=LAST_CODE).filter(|&code| probe::table_type(code) != X) {
            of_type[usize::from(probe::table_type(code))].push(code);
        }
        let unlisted = UNLISTED.iter().chain(&SELECTORS).copied().filter(|&code| probe::table_type(code) == X);
        of_type[usize::from(X)] = unlisted.collect();
        if let Some(t) = of_type.iter().position(Vec::is_empty) {
            frame::fail(driver, &format!("no code has type {t}"));
        }
        Self { of_type }
    }
    pub fn code(&self, draw: &mut Draw, t: u8) -> u32 {
        draw.one_of(&self.of_type[usize::from(t)])
    }
    /// A letter of a type: a listed code, whose category does not matter, or for U and T also one that has its type by its category.
    pub fn letter(&self, draw: &mut Draw, t: u8) -> Letter {
        let by_category = (t == T || t == U) && draw.once_in(2);
        if !by_category {
            return (self.code(draw, t), lines::any_category(draw));
        }
        let code = self.code(draw, X);
        if t == T {
            return (code, draw.one_of(&TRANSPARENT));
        }
        loop {
            let category = lines::any_category(draw);
            if !TRANSPARENT.contains(&category) {
                return (code, category);
            }
        }
    }
    /// The contexts by their numbers: 0 is none, 1 to 7 are one letter of a type. A code that comes twice has one category, which can
    /// take the second letter's type from it; then both are drawn again.
    pub fn contexts(&self, draw: &mut Draw, pre: usize, post: usize) -> (Vec<Letter>, Vec<Letter>) {
        let wanted = |context: usize| if context == 0 { vec![] } else { vec![RESOLVED[context - 1]] };
        loop {
            let mut drawn = |context| wanted(context).iter().map(|&t| self.letter(draw, t)).collect::<Vec<_>>();
            let (mut before, mut after) = (drawn(pre), drawn(post));
            lines::one_category_a_code(&mut before, &mut after);
            let has = |context: &[Letter]| context.iter().map(|&(code, category)| probe::jtype(code, category)).collect::<Vec<_>>();
            if has(&before) == wanted(pre) && has(&after) == wanted(post) {
                return (before, after);
            }
        }
    }
    /// Any letter: of each type alike, a selector or a code beside them, or, where they may be looked up, any code with its own category.
    pub fn any_letter(&self, draw: &mut Draw, own: bool) -> Letter {
        match draw.below(9) {
            0 | 1 => (draw.one_of(&SELECTORS), if draw.once_in(3) { lines::any_category(draw) } else { TRANSPARENT[0] }),
            2 => (draw.one_of(&NO_SELECTORS), lines::any_category(draw)),
            3 if own => {
                let code = if draw.once_in(2) { self.listed(draw) } else { draw.below(LAST_CODE as usize + 1) as u32 };
                (code, probe::gc_of(code))
            }
            _ => {
                let t = draw.one_of(&RESOLVED);
                self.letter(draw, t)
            }
        }
    }
    pub fn listed(&self, draw: &mut Draw) -> u32 {
        let t = draw.one_of(&RESOLVED);
        self.code(draw, t)
    }
    pub fn any_line(&self, draw: &mut Draw, length: usize, own: bool) -> Line {
        lines::any_line(draw, length, |draw| self.any_letter(draw, own), |draw| self.letter(draw, T))
    }
    /// Every line of at most so many letters; up to `every_pair` letters with every pair of contexts, and longer ones in turn.
    pub fn every_line(&self, draw: &mut Draw, most: usize, every_pair: usize, mut take: impl FnMut(&Line)) {
        let mut turn = draw.below(PAIRS);
        frame::each_word(&RESOLVED, most, |types| {
            let pairs = if types.len() <= every_pair { PAIRS } else { 1 };
            for _ in 0..pairs {
                turn = (turn + 1) % PAIRS;
                let letters = types.iter().map(|&t| self.letter(draw, t)).collect();
                let (pre, post) = self.contexts(draw, turn / 8, turn % 8);
                let mongolian = draw.once_in(2);
                take(&Line::drawn(draw, mongolian, pre, letters, post));
            }
        });
    }
}

// ---- the rows of the table

/// The first and the last code of each row: codes that follow each other and have one type.
pub fn rows() -> Vec<(u32, u32)> {
    let mut rows: Vec<(u32, u32)> = vec![];
    for code in (0..=LAST_CODE).filter(|&code| probe::table_type(code) != X) {
        match rows.last_mut() {
            Some((_, last)) if *last + 1 == code && probe::table_type(*last) == probe::table_type(code) => *last = code,
            _ => rows.push((code, code)),
        }
    }
    rows
}

/// Every code of a row, and the ones before it and behind it.
pub fn around_row((first, last): (u32, u32)) -> impl Iterator<Item = u32> {
    first - 1..=last + 1
}

/// A number that has the low bits of a code, and is another: no code, or one of another plane.
pub fn moved(code: u32) -> [u32; 4] {
    [code + 0x1_0000, code + LAST_CODE + 1, code | 0x8000_0000, code | 0xFFFF_0000]
}

/// A code of one of the 256 codes around a listed one, listed or not: letters of one script come together so. Its category is any one, or
/// one with which it is transparent if it is not listed.
pub fn near(draw: &mut Draw, listed: u32) -> Letter {
    let code = listed & !0xFF | draw.below(0x100) as u32;
    (code, if draw.once_in(3) { draw.one_of(&TRANSPARENT) } else { lines::any_category(draw) })
}
