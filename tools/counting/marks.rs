//! Reordering the modifier marks of a part of a line.

use crate::{calls, same, Side, Times};
use oracle::ot::shaper::arabic::probe;
use oracle::{Buffer, GlyphInfo};
use std::hint::black_box;

/// fatha, which no pass moves, and its class in the Rust; a listed mark of each of the two classes
const VOWEL: (u32, u8) = (0x064E, 30);
const BELOW: (u32, u8) = (0x0655, 220);
const ABOVE: (u32, u8) = (0x0654, 230);

struct Marks {
    codes: Vec<u32>,
    classes: Vec<u8>,
    before: (Vec<u32>, Vec<u8>),
    end: usize,
    low: u8,
    high: u8,
    count: usize,
    ranges: [usize; 4],
}

/// `none`: an empty range; `plain`: vowels alone; `both`: vowels, then a mark of each class; `thirds`: vowels, and a block of each class.
fn line(kind: &str, size: usize) -> Option<Marks> {
    let blocks = match kind {
        "none" | "plain" => [size, 0, 0],
        "both" => [size - 2, 1, 1],
        "thirds" => [size - size / 3 * 2, size / 3, size / 3],
        _ => return None,
    };
    let line: Vec<(u32, u8)> = [VOWEL, BELOW, ABOVE].into_iter().zip(blocks).flat_map(|(mark, count)| vec![mark; count]).collect();
    let (codes, classes): (Vec<u32>, Vec<u8>) = line.into_iter().unzip();
    let (low, high) = probe::ccc22_26();
    let before = (codes.clone(), classes.clone());
    Some(Marks { codes, classes, before, end: if kind == "none" { 0 } else { size }, low, high, count: 0, ranges: [0; 4] })
}

impl Marks {
    fn back(&mut self) {
        self.codes.copy_from_slice(&self.before.0);
        self.classes.copy_from_slice(&self.before.1);
    }
    #[inline(always)]
    fn reorder(&mut self) -> u8 {
        calls::reorder_marks(&mut self.codes, &mut self.classes, 0, self.end, self.low, self.high, &mut self.count, &mut self.ranges)
    }
}

struct Rust {
    buffer: Buffer,
    records: Vec<GlyphInfo>,
    end: usize,
}

impl Rust {
    fn of(marks: &Marks) -> Self {
        let size = marks.codes.len();
        let mut buffer = probe::fresh(&marks.codes, &vec![0; size], &[], &[]);
        for (at, &class) in marks.classes.iter().enumerate() {
            probe::set_class(&mut buffer, at, class);
            probe::set_cluster(&mut buffer, at, at as u32);
        }
        probe::set_idx(&mut buffer, size);
        Rust { records: buffer.glyph_infos().to_vec(), buffer, end: marks.end }
    }
    fn back(&mut self) {
        self.buffer.glyph_infos_mut().copy_from_slice(&self.records);
    }
    #[inline(always)]
    fn reorder(&mut self) -> bool {
        probe::reorder(&mut self.buffer, 0, self.end)
    }
}

pub fn count(work: &str, side: Side, size: usize, times: Times) -> bool {
    let Some(mut marks) = work.strip_prefix("marks/").and_then(|kind| line(kind, size)) else { return false };
    match side {
        Side::Port => times.run(&mut marks, Marks::back, |marks| {
            black_box(marks.reorder());
        }),
        Side::Rust => times.run(&mut Rust::of(&marks), Rust::back, |rust| {
            black_box(rust.reorder());
        }),
    }
    true
}

pub fn check(work: &str, size: usize) -> bool {
    let Some(mut marks) = work.strip_prefix("marks/").and_then(|kind| line(kind, size)) else { return false };
    let mut rust = Rust::of(&marks);
    same("the Rust's buffer", rust.reorder() && probe::ok(&rust.buffer), true);
    same("number", marks.reorder(), 0);
    same("codes", &marks.codes, &probe::codes(&rust.buffer));
    same("classes", &marks.classes, &probe::classes(&rust.buffer));
    let blocks = usize::from(work == "marks/both" || work == "marks/thirds" && size > 2) * 2;
    same("number of ranges", marks.count, blocks);
    true
}
