//! Cases for replay_join: what the Rust's own `setup_masks_inner` makes of a line of codes that have their types in its table.
//!
//! Goes in: mongolian u8; features u32 x7; pre types u8, pre categories u8; post types, post categories; codes u32, types u8,
//! categories u8, base masks u32; actions u8, masks u32 before the call. Comes out: number u8; actions u8, masks u32 after it.
//!
//! Always: every line of up to six letters of the seven types with every pair of contexts, of none or one letter of each type: 8.8
//! million cases.

mod frame;
mod lines;
#[path = "lines/own.rs"]
mod own;

use frame::{Cases, Draw};
use own::Codes;

const DRIVER: &str = "join";
const EVERY_LINE: usize = 6;

fn main() {
    frame::run(DRIVER, sample, fresh);
}

/// The same with every Python: no category is looked up.
fn sample(cases: &mut Cases) {
    let codes = Codes::new(DRIVER);
    let draw = &mut Draw::new(1);
    codes.every_line(draw, 3, 1, |line| lines::write_joined(cases, line));
    for _ in 0..60 {
        let length = draw.between(0, 16);
        lines::write_joined(cases, &codes.any_line(draw, length, false));
    }
    lines::write_joined(cases, &codes.any_line(draw, 64, false));
}

fn fresh(cases: &mut Cases, draw: &mut Draw, count: u64) {
    let codes = Codes::new(DRIVER);
    codes.every_line(draw, EVERY_LINE, EVERY_LINE, |line| lines::write_joined(cases, line));
    for _ in 0..count {
        let length = lines::any_length(draw);
        lines::write_joined(cases, &codes.any_line(draw, length, true));
    }
}
