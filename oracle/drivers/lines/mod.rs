//! What the drivers of lines share: a line between its contexts, what the Rust's own `setup_masks_inner` makes of it, and the
//! drawing of lines.
//!
//! A category is lent with each letter: in the line as a property of the record, in the contexts as the category of the code, since
//! there the Rust looks it up by the code. All records have one cluster, so the Rust sets no break flag in a mask, and masks are
//! compared in all their bits.

#![allow(dead_code)] // a driver uses what it needs of this

use crate::frame::{Case, Cases, Draw};
use oracle::lent::LENT_GC;
use oracle::ot::shaper::arabic::probe;
use std::collections::HashMap;

pub const LINE_LIMIT: usize = 4096;
/// as many as the Rust keeps of either context
pub const CONTEXT: usize = 5;
pub const CATEGORIES: u8 = 30;
/// Mn, Me, Cf: a code that has no type in the table is transparent with these
pub const TRANSPARENT: [u8; 3] = [12, 11, 1];
/// the types by their numbers: U, L, R, D, Alaph, Dalath-Rish, T are seven, and X is none of them
pub const RESOLVED: [u8; 7] = [0, 1, 2, 3, 4, 5, 6];
pub const U: u8 = 0;
pub const D: u8 = 3;
pub const T: u8 = 6;
pub const X: u8 = 7;
pub const SELECTORS: [u32; 4] = [0x180B, 0x180C, 0x180D, 0x180F];
/// codes that stand beside the selectors or between them, and are none
pub const NO_SELECTORS: [u32; 3] = [0x180A, 0x180E, 0x1810];

/// A code, and the category that it is given.
pub type Letter = (u32, u8);

/// All that goes into a call. The contexts have their nearest letter first.
pub struct Line {
    pub mongolian: bool,
    pub features: [u32; 7],
    pub pre: Vec<Letter>,
    pub post: Vec<Letter>,
    pub letters: Vec<Letter>,
    pub base: Vec<u32>,
    pub actions: Vec<u8>,
    pub masks: Vec<u32>,
}

impl Line {
    /// The letters between their contexts; everything else is drawn, also what the call has to write over.
    pub fn drawn(draw: &mut Draw, mongolian: bool, mut pre: Vec<Letter>, letters: Vec<Letter>, mut post: Vec<Letter>) -> Self {
        one_category_a_code(&mut pre, &mut post);
        let count = letters.len();
        let sparse = draw.once_in(4);
        Self {
            mongolian,
            features: std::array::from_fn(|_| mask(draw, sparse)),
            pre,
            post,
            letters,
            base: draw.list(count, |draw| mask(draw, sparse)),
            actions: draw.list(count, |draw| draw.bits() as u8),
            masks: draw.list(count, |draw| draw.bits() as u32),
        }
    }
}

/// A mask of any bits; a sparse one has one bit or none, so that what is not to be set shows.
fn mask(draw: &mut Draw, sparse: bool) -> u32 {
    if !sparse {
        return draw.bits() as u32;
    }
    (1u64 << draw.below(33)) as u32
}

/// In the contexts the Rust asks for the category of a code: where a code comes again it has the category that it had first.
pub fn one_category_a_code(pre: &mut [Letter], post: &mut [Letter]) {
    let mut first = HashMap::new();
    for (code, category) in pre.iter_mut().chain(post) {
        *category = *first.entry(*code).or_insert(*category);
    }
}

// ---- asking the Rust, and writing down

pub fn codes(letters: &[Letter]) -> Vec<u32> {
    letters.iter().map(|&(code, _)| code).collect()
}

pub fn categories(letters: &[Letter]) -> Vec<u8> {
    letters.iter().map(|&(_, category)| category).collect()
}

pub fn types(letters: &[Letter]) -> Vec<u8> {
    letters.iter().map(|&(code, _)| probe::table_type(code)).collect()
}

/// The actions and the masks after the call.
pub fn joined(line: &Line) -> (Vec<u8>, Vec<u32>) {
    LENT_GC.with(|lent| *lent.borrow_mut() = line.pre.iter().chain(&line.post).copied().collect());
    let mut buffer = probe::fresh(&codes(&line.letters), &categories(&line.letters), &codes(&line.pre), &codes(&line.post));
    for i in 0..line.letters.len() {
        probe::set_mask(&mut buffer, i, line.base[i]);
        probe::set_action(&mut buffer, i, line.actions[i]);
    }
    // the eighth entry is that of the action none
    let mut masks = [0; 8];
    masks[..7].copy_from_slice(&line.features);
    probe::masks(&probe::plan_data(masks, false), line.mongolian, &mut buffer);
    assert!(probe::ok(&buffer), "the Rust's own buffer failed");
    (probe::actions(&buffer), probe::masks_of(&buffer))
}

/// All that goes in, as every driver of lines writes it.
pub fn inputs(line: &Line) -> Case {
    Case::new()
        .flag(line.mongolian)
        .u32s(&line.features)
        .u8s(&types(&line.pre))
        .u8s(&categories(&line.pre))
        .u8s(&types(&line.post))
        .u8s(&categories(&line.post))
        .u32s(&codes(&line.letters))
        .u8s(&types(&line.letters))
        .u8s(&categories(&line.letters))
        .u32s(&line.base)
        .u8s(&line.actions)
        .u32s(&line.masks)
}

/// The same for the calls by codes: no type is lent, for the line or for its contexts.
pub fn coded_inputs(line: &Line) -> Case {
    Case::new()
        .flag(line.mongolian)
        .u32s(&line.features)
        .u32s(&codes(&line.pre))
        .u8s(&categories(&line.pre))
        .u32s(&codes(&line.post))
        .u8s(&categories(&line.post))
        .u32s(&codes(&line.letters))
        .u8s(&categories(&line.letters))
        .u32s(&line.base)
        .u8s(&line.actions)
        .u32s(&line.masks)
}

/// A case of joining: the Rust refuses nothing, so its number is 0.
pub fn write_joined(cases: &mut Cases, line: &Line) {
    write_answered(cases, line, inputs(line));
}

/// A case of joining by codes, likewise.
pub fn write_coded(cases: &mut Cases, line: &Line) {
    write_answered(cases, line, coded_inputs(line));
}

fn write_answered(cases: &mut Cases, line: &Line, case: Case) {
    let (actions, masks) = joined(line);
    cases.write(case.u8s(&[0]).u8s(&actions).u32s(&masks));
}

// ---- drawing

pub fn any_category(draw: &mut Draw) -> u8 {
    draw.below(usize::from(CATEGORIES)) as u8
}

/// Mostly short, sometimes of some hundred records, and around the limit.
pub fn any_length(draw: &mut Draw) -> usize {
    match draw.below(400) {
        0..=299 => draw.between(0, 12),
        300..=394 => draw.between(0, 64),
        395..=398 => draw.between(0, 512),
        _ => draw.length(LINE_LIMIT, LINE_LIMIT),
    }
}

/// A random line: its letters are those of a palette, half of the time a small one, so that letters, marks and selectors come in
/// runs; the contexts are long ones of transparent letters as often as not.
pub fn any_line(draw: &mut Draw, length: usize, mut letter: impl FnMut(&mut Draw) -> Letter, mut mark: impl FnMut(&mut Draw) -> Letter) -> Line {
    let colours = if draw.once_in(2) { draw.between(1, 6) } else { 24 };
    let palette = draw.list(colours, &mut letter);
    let mut context = |draw: &mut Draw| {
        let count = draw.between(0, CONTEXT);
        let plain = draw.below(count + 1);
        (0..count).map(|i| if i < plain { mark(draw) } else { letter(draw) }).collect()
    };
    let (pre, post) = (context(draw), context(draw));
    let letters = draw.list(length, |draw| draw.one_of(&palette));
    let mongolian = draw.once_in(2);
    Line::drawn(draw, mongolian, pre, letters, post)
}
