//! Recording what `stch` has multiplied, and stretching it.

use crate::{calls, same, stays, Side, Times};
use oracle::font::Font;
use oracle::ot::shaper::arabic::probe;
use oracle::{Buffer, Direction, GlyphInfo, GlyphPosition, ShapePlan, ShapePlanner, ShaperFont};
use std::hint::black_box;

const WIDTHS: [i32; 7] = [168, 502, 430, 128, 79, 611, 260];
/// glyphs: the space, the letters of a word in turn, the fixed tile, the repeating one
const SPACE: u32 = 0;
const LETTERS: [u32; 7] = [1, 2, 5, 6, 1, 2, 6];
const TILES: [u32; 2] = [3, 4];
const CF: u8 = 1;
const LO: u8 = 7;
const ZS: u8 = 29;
const FIXED: u8 = 8;
const REPEATING: u8 = 9;
const MOST: usize = 16_384;

// ---- stretching

#[derive(Default)]
struct Records {
    glyphs: Vec<u32>,
    widths: Vec<i32>,
    categories: Vec<u8>,
    ignorables: Vec<u8>,
    actions: Vec<u8>,
    advances: Vec<i32>,
    offsets: Vec<i32>,
}

impl Records {
    fn push(&mut self, glyph: u32, category: u8, action: u8) {
        let width = WIDTHS[glyph as usize];
        self.glyphs.push(glyph);
        self.widths.push(width);
        self.categories.push(category);
        self.ignorables.push(0);
        self.actions.push(action);
        self.advances.push(width);
        self.offsets.push(0);
    }
    fn letter(&mut self, at: usize) {
        self.push(LETTERS[at % 7], LO, (at % 7) as u8);
    }
    fn tiles(&mut self, count: usize) {
        for at in 0..count {
            self.push(TILES[at % 2], CF, [FIXED, REPEATING][at % 2]);
        }
    }
    fn sized(size: usize) -> Self {
        Records {
            glyphs: vec![0; size], widths: vec![0; size], categories: vec![0; size], ignorables: vec![0; size],
            actions: vec![0; size], advances: vec![0; size], offsets: vec![0; size],
        }
    }
    fn cut(&mut self, size: usize) {
        self.glyphs.truncate(size);
        self.widths.truncate(size);
        self.categories.truncate(size);
        self.ignorables.truncate(size);
        self.actions.truncate(size);
        self.advances.truncate(size);
        self.offsets.truncate(size);
    }
    /// Words of seven letters and a space, and in every eighth word five tiles behind its fourth letter; a line of fewer than 64 records is one word with three
    /// tiles behind it, in the order in which it is read.
    fn tiled(size: usize, rtl: bool) -> Self {
        let mut records = Records::default();
        if size < 64 {
            if !rtl {
                records.tiles(3);
            }
            for at in 3..size {
                records.letter(at);
            }
            if rtl {
                records.tiles(3);
            }
            return records;
        }
        let mut word = 0;
        while records.glyphs.len() < size {
            for at in 0..7 {
                if word % 8 == 4 && at == 4 {
                    records.tiles(5);
                }
                records.letter(at);
            }
            records.push(SPACE, ZS, 0);
            word += 1;
        }
        records.cut(size);
        records
    }
    /// The same words with no tile.
    fn plain(size: usize) -> Self {
        let mut records = Records::default();
        for at in 0..size {
            if at % 8 == 7 { records.push(SPACE, ZS, 0) } else { records.letter(at % 8) }
        }
        records
    }
    fn buffer(&self, recorded: bool, rtl: bool) -> Buffer {
        let mut buffer = probe::fresh(&self.glyphs, &self.categories, &[], &[]);
        buffer.set_direction(if rtl { Direction::RightToLeft } else { Direction::LeftToRight });
        probe::enter(&mut buffer);
        probe::set_has_stch(&mut buffer, recorded);
        for (at, &action) in self.actions.iter().enumerate() {
            probe::set_cluster(&mut buffer, at, at as u32);
            probe::set_action(&mut buffer, at, action);
        }
        for (position, &advance) in buffer.glyph_positions_mut().iter_mut().zip(&self.advances) {
            position.x_advance = advance;
        }
        buffer
    }
}

struct Line {
    from: Records,
    to: Records,
    recorded: bool,
    rtl: bool,
    length: usize,
}

impl Line {
    #[inline(always)]
    fn stretch(&mut self) -> u8 {
        let Line { from, to, .. } = self;
        calls::stretch(
            self.recorded as u8, self.rtl as u8, &from.glyphs, &from.widths, &from.categories, &from.ignorables, &from.actions, &from.advances, &from.offsets,
            &mut to.glyphs, &mut to.widths, &mut to.categories, &mut to.ignorables, &mut to.actions, &mut to.advances, &mut to.offsets, &mut self.length,
        )
    }
}

/// The line of a work, if it is one that stretches.
fn line(work: &str, size: usize) -> Option<Line> {
    let (kind, direction) = work.strip_prefix("stretch/")?.split_once('/')?;
    let rtl = direction == "rtl";
    let (from, recorded) = match kind {
        "tiles" => (Records::tiled(size, rtl), true),
        "plain" => (Records::plain(size), true),
        "nothing" => (Records::plain(size), false),
        _ => return None,
    };
    Some(Line { from, to: Records::sized(MOST), recorded, rtl, length: 0 })
}

struct Rust<'a> {
    buffer: Buffer,
    font: ShaperFont<'a, 'a>,
    records: Vec<GlyphInfo>,
    positions: Vec<GlyphPosition>,
}

impl<'a> Rust<'a> {
    fn of(line: &Line, font: &'a Font) -> Self {
        let buffer = line.from.buffer(line.recorded, line.rtl);
        let (records, positions) = (buffer.glyph_infos().to_vec(), buffer.glyph_positions().to_vec());
        Rust { buffer, font: ShaperFont::new(font), records, positions }
    }
    fn back(&mut self) {
        probe::set_len(&mut self.buffer, self.records.len());
        self.buffer.glyph_infos_mut().copy_from_slice(&self.records);
        self.buffer.glyph_positions_mut().copy_from_slice(&self.positions);
    }
    #[inline(always)]
    fn stretch(&mut self) {
        probe::stretch(&self.font, &mut self.buffer)
    }
}

fn font() -> Font {
    Font { wide: WIDTHS.to_vec(), ..Font::default() }
}

// ---- recording

struct Multiplied {
    multiplied: Vec<u8>,
    components: Vec<u8>,
    actions: Vec<u8>,
    recorded: bool,
}

/// As in the tiled line: the tiles are what was multiplied.
fn multiplied(size: usize) -> Multiplied {
    let actions = Records::tiled(size, true).actions;
    let tile = |&action: &u8| u8::from(action == FIXED || action == REPEATING);
    let component = |&action: &u8| u8::from(action == REPEATING);
    Multiplied { multiplied: actions.iter().map(tile).collect(), components: actions.iter().map(component).collect(), actions: vec![7; size], recorded: false }
}

impl Multiplied {
    fn back(&mut self) {
        self.actions.fill(7);
    }
    #[inline(always)]
    fn record(&mut self) -> u8 {
        calls::record_stch(1, &self.multiplied, &self.components, &mut self.actions, &mut self.recorded)
    }
}

struct Recording<'a> {
    buffer: Buffer,
    records: Vec<GlyphInfo>,
    plan: ShapePlan,
    font: ShaperFont<'a, 'a>,
}

impl<'a> Recording<'a> {
    fn of(line: &Multiplied, font: &'a Font) -> Self {
        let size = line.actions.len();
        let mut buffer = probe::fresh(&vec![1; size], &vec![0; size], &[], &[]);
        for at in 0..size {
            probe::set_multiplied(&mut buffer, at, line.multiplied[at] != 0, line.components[at]);
            probe::set_action(&mut buffer, at, line.actions[at]);
        }
        let font = ShaperFont::new(font);
        let mut plan = ShapePlanner::new(font.layout(), Direction::RightToLeft, probe::ARABIC, None).compile(&[]);
        probe::set_plan_data(&mut plan, probe::plan_data([0; 8], true));
        Recording { records: buffer.glyph_infos().to_vec(), buffer, plan, font }
    }
    fn back(&mut self) {
        self.buffer.glyph_infos_mut().copy_from_slice(&self.records);
    }
    #[inline(always)]
    fn record(&mut self) -> bool {
        probe::record(&self.plan, &self.font, &mut self.buffer)
    }
}

// ---- both

pub fn count(work: &str, side: Side, size: usize, times: Times) -> bool {
    let font = font();
    match (work, line(work, size), side) {
        ("record", _, Side::Port) => times.run(&mut multiplied(size), Multiplied::back, |line| {
            black_box(line.record());
        }),
        ("record", _, Side::Rust) => times.run(&mut Recording::of(&multiplied(size), &font), Recording::back, |line| {
            black_box(line.record());
        }),
        (_, Some(mut line), Side::Port) => times.run(&mut line, stays, |line| {
            black_box(line.stretch());
        }),
        (_, Some(line), Side::Rust) => times.run(&mut Rust::of(&line, &font), Rust::back, Rust::stretch),
        _ => return false,
    }
    true
}

pub fn check(work: &str, size: usize) -> bool {
    let font = font();
    if work == "record" {
        let mut line = multiplied(size);
        let mut rust = Recording::of(&line, &font);
        same("number", line.record(), 0);
        same("recorded", line.recorded, rust.record());
        same("actions", &line.actions, &probe::actions(&rust.buffer));
        return true;
    }
    let Some(mut line) = line(work, size) else { return false };
    let mut rust = Rust::of(&line, &font);
    rust.stretch();
    same("the Rust's buffer", probe::ok(&rust.buffer), true);
    same("number", line.stretch(), 0);
    let length = line.length;
    same("length", length, rust.buffer.glyph_infos().len());
    if work.starts_with("stretch/tiles") && size >= 8 {
        same("more records than before", length > size, true);
    }
    same("glyphs", line.to.glyphs[..length].to_vec(), probe::codes(&rust.buffer));
    same("actions", line.to.actions[..length].to_vec(), probe::actions(&rust.buffer));
    same("categories", line.to.categories[..length].to_vec(), probe::categories(&rust.buffer));
    let positions = rust.buffer.glyph_positions();
    same("advances", line.to.advances[..length].to_vec(), positions.iter().map(|position| position.x_advance).collect());
    same("offsets", line.to.offsets[..length].to_vec(), positions.iter().map(|position| position.x_offset).collect());
    true
}
