//! Cases for replay_join, as those of join.rs, where every code can have every type: types are lent beside the codes, so a selector
//! need not be transparent, and the record before it need not be a letter.
//!
//! Always: every Mongolian line of up to four records, each a letter or a selector of one of the seven types; contexts in turn.

// needs: lent

mod frame;
#[path = "lines/lent.rs"]
mod lent;
mod lines;

use frame::{Cases, Draw};
use lines::{Line, SELECTORS, T};

const DRIVER: &str = "join_lent";
const EVERY_LINE: usize = SELECTORS.len();

fn main() {
    frame::run(DRIVER, sample, fresh);
}

fn sample(cases: &mut Cases) {
    let draw = &mut Draw::new(2);
    every_line(cases, draw, 2);
    random(cases, draw, 40, |draw| draw.between(0, 16));
}

fn fresh(cases: &mut Cases, draw: &mut Draw, count: u64) {
    every_line(cases, draw, EVERY_LINE);
    random(cases, draw, count, lines::any_length);
}

/// Each record that is a selector has a code of its own, so each can be lent its type.
fn every_line(cases: &mut Cases, draw: &mut Draw, most: usize) {
    let mut turn = draw.below(64);
    frame::each_word(&lent::kinds(), most, |kinds| {
        turn = (turn + 1) % 64;
        let (pre, post) = (lent::context(draw, turn / 8), lent::context(draw, turn % 8));
        let letters = kinds.iter().zip(SELECTORS).map(|(&kind, code)| lent::record(draw, kind, code)).collect();
        lines::write_joined(cases, &Line::drawn(draw, true, pre, letters, post));
    });
}

fn random(cases: &mut Cases, draw: &mut Draw, count: u64, length: fn(&mut Draw) -> usize) {
    for _ in 0..count {
        lent::lend_any(draw);
        let length = length(draw);
        let line = lines::any_line(draw, length, lent::any_letter, |draw| lent::letter(draw, T));
        lines::write_joined(cases, &line);
    }
}
