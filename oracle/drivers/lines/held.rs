//! What the drivers of replacing share: a held line, the mix of its letters, and where and by which letter it is altered.

#![allow(dead_code)] // a driver uses what it needs of this

use crate::frame::Draw;
use crate::lines::{self, CATEGORIES, D, LINE_LIMIT, Letter, Line, NO_SELECTORS, RESOLVED, SELECTORS, T, U};
use oracle::ot::shaper::arabic::probe;

pub const MOST_STEPS: usize = 64;

/// Where the letters of a line come from.
pub trait Letters {
    /// a letter of a type
    fn of_type(&self, draw: &mut Draw, t: u8) -> Letter;
    /// a transparent letter, by its type or by its category
    fn mark(&self, draw: &mut Draw) -> Letter;
    /// any letter; selectors and codes beside them come, too
    fn any(&self, draw: &mut Draw) -> Letter;
    /// any letter of those that mostly make up a line
    fn common(&self, draw: &mut Draw) -> Letter;
}

/// From here on the line is held: its actions and masks are those that the Rust gives its letters.
pub fn hold(line: &mut Line) {
    (line.actions, line.masks) = lines::joined(line);
}

/// Mostly short, sometimes around the steps of the compiled loops, a few of some hundred records and of as many as a line may have.
pub fn any_length(draw: &mut Draw) -> usize {
    match draw.below(400) {
        0..=249 => draw.between(1, 12),
        250..=374 => draw.between(1, 40),
        375..=394 => draw.between(60, 68),
        395..=398 => draw.between(1, 512),
        _ => draw.length(LINE_LIMIT, LINE_LIMIT),
    }
}

/// How often a record of a line is a selector, and otherwise how often it is transparent: of eight.
#[derive(Clone, Copy)]
pub struct Mix {
    selectors: usize,
    marks: usize,
}

/// A held line, and the mix of its letters.
pub fn any_held(draw: &mut Draw, letters: &impl Letters, length: usize) -> (Line, Mix) {
    let mongolian = draw.below(5) < 2;
    let mix = Mix { selectors: if mongolian { draw.below(6) } else { draw.below(2) }, marks: draw.below(7) };
    let mut line = lines::any_line(draw, length, |draw| letter(draw, letters, mix), |draw| letters.mark(draw));
    line.mongolian = mongolian;
    if mongolian && draw.once_in(2) {
        with_selectors(draw, letters, &mut line.letters);
    }
    hold(&mut line);
    (line, mix)
}

/// Mongolian as it is written: most letters join on both sides and have selectors behind them.
fn with_selectors(draw: &mut Draw, letters: &impl Letters, line: &mut [Letter]) {
    for letter in line {
        match draw.below(8) {
            0..=2 => *letter = letters.of_type(draw, D),
            3..=6 => *letter = (draw.one_of(&SELECTORS), lines::any_category(draw)),
            _ => (),
        }
    }
}

/// A letter as the mix has it: all kinds come, with every type.
fn letter(draw: &mut Draw, letters: &impl Letters, mix: Mix) -> Letter {
    if draw.below(8) < mix.selectors {
        (draw.one_of(&SELECTORS), lines::any_category(draw))
    } else if draw.below(8) < mix.marks {
        letters.mark(draw)
    } else {
        letters.common(draw)
    }
}

/// A place of the line, and a letter for it; `near` is where the last one was. Of an empty line every place is refused.
pub fn any_change(draw: &mut Draw, letters: &impl Letters, line: &[Letter], mix: Mix, near: usize) -> (usize, Letter) {
    let place = if line.is_empty() { 0 } else { any_place(draw, line, near) };
    let old = line.get(place).copied().unwrap_or((0, 0));
    let new = match draw.below(5) {
        0 => turned(draw, letters, old),
        1 if !line.is_empty() => draw.one_of(line),
        2 => letters.any(draw),
        _ => letter(draw, letters, mix),
    };
    (place, new)
}

/// The ends of the line, the places around the last one, a selector, a transparent letter, another letter, and any place.
fn any_place(draw: &mut Draw, letters: &[Letter], near: usize) -> usize {
    let last = letters.len() - 1;
    match draw.below(8) {
        0 => 0,
        1 => last,
        2 => (near + draw.below(7)).saturating_sub(3).min(last),
        3 => one_where(draw, letters, is_selector),
        4 => one_where(draw, letters, is_transparent),
        5 => one_where(draw, letters, |letter| !is_selector(letter) && !is_transparent(letter)),
        _ => draw.between(0, last),
    }
}

/// The first record of such a kind from some place on, and round to the line's start; that place itself if there is none.
fn one_where(draw: &mut Draw, letters: &[Letter], fits: impl Fn(Letter) -> bool) -> usize {
    let from = draw.below(letters.len());
    (from..letters.len()).chain(0..from).find(|&i| fits(letters[i])).unwrap_or(from)
}

fn is_selector((code, _): Letter) -> bool {
    SELECTORS.contains(&code)
}

fn is_transparent((code, category): Letter) -> bool {
    probe::jtype(code, category) == T
}

/// What alters most of the neighbours: a transparent letter becomes D and a D becomes U or transparent; a selector becomes a letter, or
/// the code among the selectors that is none, and any other letter a selector.
fn turned(draw: &mut Draw, letters: &impl Letters, old: Letter) -> Letter {
    if is_selector(old) {
        if draw.once_in(3) {
            return (draw.one_of(&NO_SELECTORS), old.1);
        }
        let t = draw.one_of(&RESOLVED);
        return letters.of_type(draw, t);
    }
    match probe::jtype(old.0, old.1) {
        T => letters.of_type(draw, D),
        D if draw.once_in(2) => letters.of_type(draw, U),
        D => letters.mark(draw),
        _ => (draw.one_of(&SELECTORS), old.1),
    }
}

/// A place at the length of a line or past it.
pub fn past(draw: &mut Draw, length: usize) -> u32 {
    let far = draw.between(length, 1 << 16);
    draw.one_of(&[length as u32, length as u32 + 1, far as u32, u32::MAX])
}

/// A number that is no category, the one given with its high bit set among them.
pub fn no_category(draw: &mut Draw, category: u8) -> u8 {
    draw.one_of(&[CATEGORIES, CATEGORIES + 1, 0x80 | category, u8::MAX])
}
