//! Cases for replay_replace_codes: letters of a line that is held by codes are replaced, and after each the line is what the Rust makes of its
//! present letters, with the types of its own table.
//!
//! Goes in: the columns of join_codes.rs, then place u32, code u32, category u8. Comes out: number u8; codes u32, categories u8, actions u8,
//! masks u32 after the call.
//!
//! The Rust has no such call; replace.rs says how it is asked all the same. Its number of refusal is document 01's, likewise.
//!
//! Always: every line of up to three letters of the seven types, each letter replaced by one of each type; every Mongolian line of up to two
//! records, each a letter of a type or a selector, transparent or not, each replaced likewise; contexts in turn. Every code of the table, and
//! the codes beside each of its rows, come into a line, and each row's first code leaves one. The empty line, of which every place is
//! refused. Then as many sequences as are asked for, of up to 64 replacements each.

mod frame;
#[path = "lines/held.rs"]
mod held;
mod lines;
#[path = "lines/own.rs"]
mod own;

use frame::{Cases, Draw};
use held::{Letters, MOST_STEPS};
use lines::{CATEGORIES, D, Letter, Line, RESOLVED, SELECTORS, T, TRANSPARENT, U};
use own::{Codes, PAIRS};

const DRIVER: &str = "replace_codes";
/// A D and an Alaph, and a letter between them that is to be replaced: a letter of each type gives the line other actions.
const LINE: [Letter; 3] = [(0x628, 7), (0x621, 7), (0x710, 7)];

/// What is asked for: the letter at a place is to become another.
#[derive(Clone, Copy)]
struct Request {
    place: u32,
    code: u32,
    category: u8,
}

impl Request {
    fn of(place: usize, (code, category): Letter) -> Self {
        Self { place: place as u32, code, category }
    }
    /// Document 01's number: 3 for what is no category, 4 for a place that is not in the line; the smaller of both, 0 for none.
    fn number(self, length: usize) -> u8 {
        if self.category >= CATEGORIES {
            3
        } else if self.place as usize >= length {
            4
        } else {
            0
        }
    }
}

fn main() {
    frame::run(DRIVER, sample, fresh);
}

/// The same with every Python: no category is looked up.
fn sample(cases: &mut Cases) {
    let codes = Codes::new(DRIVER);
    let draw = &mut Draw::new(5);
    every_replacement(cases, draw, &codes, false, 1);
    every_replacement(cases, draw, &codes, true, 1);
    empty(cases, draw);
    for (first, _) in own::rows() {
        comes(cases, draw, (first, TRANSPARENT[0]));
    }
    for _ in 0..40 {
        let (length, steps) = (draw.between(1, 12), draw.between(1, 12));
        sequence(cases, draw, &codes, length, steps);
    }
    for length in [64, 65] {
        sequence(cases, draw, &codes, length, 4);
    }
}

fn fresh(cases: &mut Cases, draw: &mut Draw, count: u64) {
    let codes = Codes::new(DRIVER);
    every_replacement(cases, draw, &codes, false, 3);
    every_replacement(cases, draw, &codes, true, 2);
    empty(cases, draw);
    for row in own::rows() {
        each_code(cases, draw, row);
    }
    for _ in 0..count {
        let (length, steps) = (held::any_length(draw), draw.between(1, MOST_STEPS));
        sequence(cases, draw, &codes, length, steps);
    }
}

// ---- steps

/// One case: the request is made of the held line, which is then as it must be after it.
fn step(cases: &mut Cases, line: &mut Line, request: Request) {
    let case = lines::coded_inputs(line).u32s(&[request.place]).u32s(&[request.code]).u8s(&[request.category]);
    let number = request.number(line.letters.len());
    if number == 0 {
        line.letters[request.place as usize] = (request.code, request.category);
        held::hold(line);
    }
    let case = case.u8s(&[number]).u32s(&lines::codes(&line.letters)).u8s(&lines::categories(&line.letters));
    cases.write(case.u8s(&line.actions).u32s(&line.masks));
}

// ---- all short ones

/// What a record is: a letter of a type, or a selector that is transparent by its category, or not.
#[derive(Clone, Copy)]
enum Kind {
    Letter(u8),
    Selector(bool),
}

fn record(draw: &mut Draw, codes: &Codes, kind: Kind) -> Letter {
    match kind {
        Kind::Letter(t) => codes.letter(draw, t),
        Kind::Selector(true) => (draw.one_of(&SELECTORS), draw.one_of(&TRANSPARENT)),
        Kind::Selector(false) => (draw.one_of(&SELECTORS), LINE[0].1),
    }
}

/// Every line of at most so many records with every replacement of one of them.
fn every_replacement(cases: &mut Cases, draw: &mut Draw, codes: &Codes, mongolian: bool, most: usize) {
    let mut kinds = RESOLVED.map(Kind::Letter).to_vec();
    if mongolian {
        kinds.extend([Kind::Selector(true), Kind::Selector(false)]);
    }
    let mut turn = draw.below(PAIRS);
    frame::each_word(&kinds, most, |word| {
        for place in 0..word.len() {
            for &new in &kinds {
                turn = (turn + 1) % PAIRS;
                let (pre, post) = codes.contexts(draw, turn / 8, turn % 8);
                let letters = word.iter().map(|&kind| record(draw, codes, kind)).collect();
                let new = record(draw, codes, new);
                let mut line = Line::drawn(draw, mongolian, pre, letters, post);
                held::hold(&mut line);
                step(cases, &mut line, Request::of(place, new));
            }
        }
    });
}

/// Of an empty line no place can be replaced.
fn empty(cases: &mut Cases, draw: &mut Draw) {
    for place in [0, 1, u32::MAX] {
        let mut line = Line::drawn(draw, false, vec![LINE[0]], vec![], vec![LINE[2]]);
        step(cases, &mut line, Request { place, ..Request::of(0, LINE[1]) });
    }
}

/// Every code of a row and those beside it come into a line; the row's first code leaves it; its first and last one, moved out of the table,
/// come into it.
fn each_code(cases: &mut Cases, draw: &mut Draw, row: (u32, u32)) {
    for code in own::around_row(row).chain(own::moved(row.0)).chain(own::moved(row.1)) {
        let category = if draw.once_in(2) { draw.one_of(&TRANSPARENT) } else { lines::any_category(draw) };
        comes(cases, draw, (code, category));
    }
    let category = lines::any_category(draw);
    leaves(cases, draw, (row.0, category));
}

fn comes(cases: &mut Cases, draw: &mut Draw, letter: Letter) {
    let mut line = Line::drawn(draw, false, vec![], LINE.to_vec(), vec![]);
    held::hold(&mut line);
    step(cases, &mut line, Request::of(1, letter));
}

fn leaves(cases: &mut Cases, draw: &mut Draw, letter: Letter) {
    let mut line = Line::drawn(draw, false, vec![], vec![LINE[0], letter, LINE[2]], vec![]);
    held::hold(&mut line);
    step(cases, &mut line, Request::of(1, LINE[1]));
}

// ---- sequences

/// Letters by the Rust's own table, many of them of one script.
struct Own<'a> {
    codes: &'a Codes,
    script: u32,
}

impl Letters for Own<'_> {
    fn of_type(&self, draw: &mut Draw, t: u8) -> Letter {
        self.codes.letter(draw, t)
    }
    fn mark(&self, draw: &mut Draw) -> Letter {
        self.codes.letter(draw, T)
    }
    fn any(&self, draw: &mut Draw) -> Letter {
        if draw.once_in(8) {
            let code = self.codes.listed(draw);
            return (draw.one_of(&own::moved(code)), lines::any_category(draw));
        }
        self.codes.any_letter(draw, false)
    }
    fn common(&self, draw: &mut Draw) -> Letter {
        match draw.below(8) {
            0..=2 => own::near(draw, self.script),
            3 => self.any(draw),
            4 => self.codes.letter(draw, U),
            5 => self.codes.letter(draw, D),
            _ => {
                let t = draw.one_of(&RESOLVED);
                self.codes.letter(draw, t)
            }
        }
    }
}

/// A held line, and one replacement after the other. Once in eight times a request is one that must be refused.
fn sequence(cases: &mut Cases, draw: &mut Draw, codes: &Codes, length: usize, steps: usize) {
    let letters = Own { codes, script: codes.listed(draw) };
    let (mut line, mix) = held::any_held(draw, &letters, length);
    let mut near = 0;
    for _ in 0..steps {
        let (place, new) = held::any_change(draw, &letters, &line.letters, mix, near);
        near = place;
        let request = Request::of(place, new);
        let request = if draw.once_in(8) { spoilt(draw, request, length) } else { request };
        step(cases, &mut line, request);
    }
}

/// A request that must be refused: its place is at the length or past it, its category is none, or both.
fn spoilt(draw: &mut Draw, request: Request, length: usize) -> Request {
    let past = held::past(draw, length);
    let no_category = held::no_category(draw, request.category);
    match draw.below(3) {
        0 => Request { place: past, ..request },
        1 => Request { category: no_category, ..request },
        _ => Request { place: past, category: no_category, ..request },
    }
}
