//! Cases for replay_record: what the Rust's own `record_stch` makes of a line.
//!
//! Goes in: stch mask u32; multiplied u8, components u8; actions u8 before the call. Comes out: number u8; recorded u8; actions u8 after the call.
//!
//! The Rust asks of the mask only whether there is one, which its plan says. A component number is what the Rust reads from a record's byte of
//! ligature properties, so it is below 16; every such byte is drawn. A yes of the column of multiplied records is any number but 0.
//!
//! Always: every line of up to three records, each multiplied or not with an even or an odd number, with a mask and without; every byte of ligature
//! properties; lines of 4,096 records.

mod frame;
mod lines;

use frame::{Case, Cases, Draw};
use lines::LINE_LIMIT;
use oracle::font::Font;
use oracle::ot::shaper::arabic::probe;
use oracle::{Direction, Script, ShapePlan, ShapePlanner, ShaperFont};

const DRIVER: &str = "record";
const EVERY_LINE: usize = 3;
const ACTIONS: usize = 10;

/// Whether it is multiplied, its byte of ligature properties, and its action.
#[derive(Clone, Copy)]
struct Record {
    multiplied: u8,
    properties: u8,
    action: u8,
}

fn main() {
    frame::run(DRIVER, sample, fresh);
}

fn sample(cases: &mut Cases) {
    let draw = &mut Draw::new(5);
    every_line(cases, draw, 2);
    every_byte(cases);
    for _ in 0..200 {
        let length = draw.between(0, 16);
        random(cases, draw, length);
    }
    random(cases, draw, 512);
}

fn fresh(cases: &mut Cases, draw: &mut Draw, count: u64) {
    every_line(cases, draw, EVERY_LINE);
    every_byte(cases);
    for length in [LINE_LIMIT - 1, LINE_LIMIT] {
        random(cases, draw, length);
    }
    for _ in 0..count {
        let length = lines::any_length(draw);
        random(cases, draw, length);
    }
}

// ---- asking the Rust, and writing down

/// A case. The Rust refuses nothing, so its number is 0.
fn write(cases: &mut Cases, mask: u32, line: &[Record]) {
    let codes: Vec<u32> = (0..line.len() as u32).collect();
    let mut buffer = probe::fresh(&codes, &vec![0; line.len()], &[], &[]);
    for (i, record) in line.iter().enumerate() {
        probe::set_multiplied(&mut buffer, i, record.multiplied != 0, record.properties);
        probe::set_action(&mut buffer, i, record.action);
    }
    let components = probe::components(&buffer);
    let before = probe::actions(&buffer);
    let font = Font::default();
    let font = ShaperFont::new(&font);
    let recorded = probe::record(&plan(&font, mask != 0), &font, &mut buffer);
    assert!(probe::ok(&buffer), "the Rust's own buffer failed");
    assert_eq!(probe::codes(&buffer), codes, "the Rust moved a record");
    let multiplied: Vec<u8> = line.iter().map(|record| record.multiplied).collect();
    let case = Case::new().u32s(&[mask]).u8s(&multiplied).u8s(&components).u8s(&before);
    cases.write(case.u8s(&[0]).flag(recorded).u8s(&probe::actions(&buffer)));
}

/// A plan of the Rust's, of which recording reads whether there is a mask.
fn plan(font: &ShaperFont<'_, '_>, has_stch: bool) -> ShapePlan {
    let mut planner = ShapePlanner::new(font.layout(), Direction::RightToLeft, Some(Script::ARABIC), None);
    let mut plan = planner.compile(&[]);
    probe::set_plan_data(&mut plan, probe::plan_data([0; 8], has_stch));
    plan
}

// ---- lines

fn every_line(cases: &mut Cases, draw: &mut Draw, most: usize) {
    let kinds = [(false, 0), (false, 1), (true, 0), (true, 1), (true, 2), (true, 15)];
    frame::each_word(&kinds, most, |word| {
        for mask in [0, any_mask(draw)] {
            let line: Vec<Record> = word.iter().map(|&(multiplied, component)| record(draw, multiplied, component)).collect();
            write(cases, mask, &line);
        }
    });
}

/// Every byte of ligature properties, in one line.
fn every_byte(cases: &mut Cases) {
    let line: Vec<Record> = (0..=u8::MAX).map(|properties| Record { multiplied: 1, properties, action: 0 }).collect();
    write(cases, 1, &line);
}

fn random(cases: &mut Cases, draw: &mut Draw, length: usize) {
    let mask = if draw.once_in(4) { 0 } else { any_mask(draw) };
    let rare = draw.one_of(&[1, 2, 10, 10_000]); // so that lines without a multiplied record are not only the short ones
    let line = draw.list(length, |draw| {
        let (multiplied, properties) = (draw.once_in(rare), draw.bits() as u8);
        record(draw, multiplied, properties)
    });
    write(cases, mask, &line);
}

/// A mask that is there: one bit, or any.
fn any_mask(draw: &mut Draw) -> u32 {
    if draw.once_in(2) { 1 << draw.below(32) } else { (draw.bits() as u32).max(1) }
}

/// A record whose old action is any byte: recording does not test it.
fn record(draw: &mut Draw, multiplied: bool, properties: u8) -> Record {
    let yes = if draw.once_in(2) { 1 } else { draw.between(1, 255) as u8 };
    let action = if draw.once_in(4) { draw.bits() as u8 } else { draw.below(ACTIONS) as u8 };
    Record { multiplied: if multiplied { yes } else { 0 }, properties, action }
}
