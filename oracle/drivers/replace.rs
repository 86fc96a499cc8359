//! Cases for replay_replace: letters of a held line are replaced, and after each the line is what the Rust makes of its present letters.
//!
//! Goes in: the columns of join.rs, then place u32, code u32, type u8, category u8. Comes out: number u8; codes u32, types u8,
//! categories u8, actions u8, masks u32 after the call.
//!
//! The Rust has no such call, but it can say what the answer must be: a held line stays as fresh joining would have it. So a line begins as
//! the Rust's own `setup_masks_inner` joins it, and each step is a case: the line as the step before left it goes in with the request; out
//! come the letters with the one at the place changed, and the actions and masks that the Rust gives when it joins these letters afresh. A
//! chain of cases is a sequence of calls on one held line, compared with the Rust after each of them, so that a form that is once left out
//! of date shows at its own step. The Rust refuses nothing: the number of a request that is refused is document 01's, and the line stays as
//! it was. A line that is not current is not to be had from the Rust; tools/limits_replace has these, and all other refusals.
//!
//! Always: every line of up to four letters of the seven types, each letter replaced by one of each type; every Mongolian line of up to
//! three records, each a letter or a selector of any type, each replaced by a letter and a selector of each type; contexts in turn. The
//! empty line, of which every place is refused. Then as many sequences as are asked for, of up to 64 replacements each.

// needs: lent

mod frame;
#[path = "lines/held.rs"]
mod held;
#[path = "lines/lent.rs"]
mod lent;
mod lines;

use frame::{Cases, Draw};
use held::{Letters, MOST_STEPS};
use lines::{CATEGORIES, D, Letter, Line, RESOLVED, SELECTORS, T, TRANSPARENT, X};
use oracle::ot::shaper::arabic::probe;

const DRIVER: &str = "replace";
/// Codes that have their types in the Rust's own table, one of each at least, and some that it does not list.
const OWN: [u32; 14] = [0x621, 0xA872, 0x627, 0x628, 0x640, 0x710, 0x715, 0x70F, 0x1820, 0x200D, 0x64E, 0x300, 0x20, u32::MAX];

/// What is asked for: the letter at a place is to become another.
#[derive(Clone, Copy)]
struct Request {
    place: u32,
    code: u32,
    joining_type: u8,
    category: u8,
}

impl Request {
    /// The letter, with the type that its code has.
    fn of(place: usize, (code, category): Letter) -> Self {
        Self { place: place as u32, code, joining_type: probe::table_type(code), category }
    }
    /// Document 01's number: 3 for what is no type or no category, 4 for a place that is not in the line; the smaller of both, 0 for none.
    fn number(self, length: usize) -> u8 {
        if self.joining_type > X || self.category >= CATEGORIES {
            3
        } else if self.place as usize >= length {
            4
        } else {
            0
        }
    }
}

fn main() {
    frame::run(DRIVER, sample, fresh);
}

fn sample(cases: &mut Cases) {
    let draw = &mut Draw::new(3);
    every_replacement(cases, draw, false, 1);
    every_replacement(cases, draw, true, 1);
    empty(cases, draw);
    for _ in 0..72 {
        let (length, steps) = (draw.between(1, 12), draw.between(1, 12));
        sequence(cases, draw, length, steps);
    }
    sequence(cases, draw, 64, 4);
}

fn fresh(cases: &mut Cases, draw: &mut Draw, count: u64) {
    every_replacement(cases, draw, false, 4);
    every_replacement(cases, draw, true, 3);
    empty(cases, draw);
    for _ in 0..count {
        let (length, steps) = (held::any_length(draw), draw.between(1, MOST_STEPS));
        sequence(cases, draw, length, steps);
    }
}

// ---- steps

/// One case: the request is made of the held line, which is then as it must be after it.
fn step(cases: &mut Cases, line: &mut Line, request: Request) {
    let case = lines::inputs(line).u32s(&[request.place]).u32s(&[request.code]).u8s(&[request.joining_type]).u8s(&[request.category]);
    let number = request.number(line.letters.len());
    if number == 0 {
        line.letters[request.place as usize] = (request.code, request.category);
        held::hold(line);
    }
    let letters = &line.letters;
    let case = case.u8s(&[number]).u32s(&lines::codes(letters)).u8s(&lines::types(letters)).u8s(&lines::categories(letters));
    cases.write(case.u8s(&line.actions).u32s(&line.masks));
}

// ---- all short ones

/// Every line of at most so many records, at most three if it is Mongolian, with every replacement of one of them. A selector has a code
/// of its own at each place, and the one that comes in a fourth, so that each can be lent its type.
fn every_replacement(cases: &mut Cases, draw: &mut Draw, mongolian: bool, most: usize) {
    let mut kinds = lent::kinds();
    if !mongolian {
        kinds.retain(|&(selector, _)| !selector);
    }
    let mut turn = draw.below(64);
    frame::each_word(&kinds, most, |word| {
        for place in 0..word.len() {
            for &new in &kinds {
                turn = (turn + 1) % 64;
                let (pre, post) = (lent::context(draw, turn / 8), lent::context(draw, turn % 8));
                let letters = word.iter().zip(SELECTORS).map(|(&kind, code)| lent::record(draw, kind, code)).collect();
                let new = lent::record(draw, new, SELECTORS[3]);
                let mut line = Line::drawn(draw, mongolian, pre, letters, post);
                held::hold(&mut line);
                step(cases, &mut line, Request::of(place, new));
            }
        }
    });
}

/// Of an empty line no place can be replaced.
fn empty(cases: &mut Cases, draw: &mut Draw) {
    for place in [0, 1, u32::MAX] {
        let new = lent::any_letter(draw);
        let (pre, post) = (lent::context(draw, 1 + usize::from(D)), lent::context(draw, 1 + usize::from(D)));
        let mut line = Line::drawn(draw, false, pre, vec![], post);
        step(cases, &mut line, Request { place, ..Request::of(0, new) });
    }
}

// ---- sequences

/// Letters that are lent their types, and some that have their own.
struct Lent;

impl Letters for Lent {
    fn of_type(&self, draw: &mut Draw, t: u8) -> Letter {
        lent::letter(draw, t)
    }
    fn mark(&self, draw: &mut Draw) -> Letter {
        if draw.once_in(3) {
            let (code, _) = lent::letter(draw, X);
            return (code, draw.one_of(&TRANSPARENT));
        }
        lent::letter(draw, T)
    }
    fn any(&self, draw: &mut Draw) -> Letter {
        lent::any_letter(draw)
    }
    fn common(&self, draw: &mut Draw) -> Letter {
        if draw.once_in(4) {
            (draw.one_of(&OWN), lines::any_category(draw))
        } else if draw.once_in(4) {
            lent::any_letter(draw)
        } else {
            let t = draw.one_of(&RESOLVED);
            lent::letter(draw, t)
        }
    }
}

/// A held line, and one replacement after the other. Once in eight times a request is one that must be refused. Selectors have any type, or
/// are transparent, so that runs of them stand behind letters.
fn sequence(cases: &mut Cases, draw: &mut Draw, length: usize, steps: usize) {
    lent::lend_any(draw);
    if draw.once_in(2) {
        lent::lend_transparent();
    }
    let (mut line, mix) = held::any_held(draw, &Lent, length);
    let mut near = 0;
    for _ in 0..steps {
        let (place, new) = held::any_change(draw, &Lent, &line.letters, mix, near);
        near = place;
        let request = Request::of(place, new);
        let request = if draw.once_in(8) { spoilt(draw, request, length) } else { request };
        step(cases, &mut line, request);
    }
}

/// A request that must be refused: its place is at the length or past it, its type or its category is none, or both.
fn spoilt(draw: &mut Draw, request: Request, length: usize) -> Request {
    let past = held::past(draw, length);
    let no_type = draw.one_of(&[X + 1, X + 2, 16 + request.joining_type, u8::MAX]);
    let no_category = held::no_category(draw, request.category);
    match draw.below(6) {
        0 | 1 => Request { place: past, ..request },
        2 => Request { joining_type: no_type, ..request },
        3 => Request { category: no_category, ..request },
        4 => Request { place: past, joining_type: no_type, ..request },
        _ => Request { place: past, category: no_category, ..request },
    }
}
