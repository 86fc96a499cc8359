//! The fallback plan of a font.

use crate::{calls, same, stays, Side, Times};
use oracle::font::Font;
use oracle::ot::map::probe::lend;
use oracle::ot::shaper::{alt, arabic_fallback, Fallback};
use oracle::{Direction, Script, ShapePlan, ShapePlanner, ShaperFont};
use std::collections::BTreeMap;
use std::hint::black_box;

const MASKS: [u32; 5] = [0x10, 0x20, 0x40, 0x80, 0x100];
const FEATURES: [&[u8; 4]; 5] = [b"init", b"medi", b"fina", b"isol", b"rlig"];
const SIGNATURE: [(u32, u32); 5] = [(0x0627, 199), (0x0644, 225), (0x0649, 236), (0x064A, 237), (0x0652, 250)];
const MOST_BYTES: usize = 1 << 16;

type Map = BTreeMap<u32, u32>;

/// A work's rows and its font, for so many codes or rows a list.
fn named(work: &str, size: usize) -> Option<(Fallback, Map)> {
    let own = arabic_fallback::probe::FALLBACK;
    let kind = work.strip_prefix("plan/")?;
    Some(match kind {
        "rising" => full(own, rising),
        "shuffled" => full(own, shuffled),
        // the rows' codes, and others until there are so many
        "wide" => {
            let codes = codes_of(&own);
            let others = (0x4E00..).filter(|code| codes.binary_search(code).is_err()).take(size.saturating_sub(codes.len()));
            let mut all: Vec<u32> = codes.iter().copied().chain(others).collect();
            all.sort_unstable();
            (own, rising(all))
        }
        "bare" => (own, rising(bare())),
        "windows" => {
            let mut map = rising(bare());
            map.extend(SIGNATURE);
            (own, map)
        }
        "empty" => (own, Map::new()),
        "in-order" => {
            let rows = match size {
                16 => alt::sixteen::arabic_fallback::probe::FALLBACK,
                128 => alt::hundred::arabic_fallback::probe::FALLBACK,
                1_024 => alt::thousand::arabic_fallback::probe::FALLBACK,
                _ => panic!("no rows of that size"),
            };
            full(rows, rising)
        }
        "any-order" => full(alt::most::arabic_fallback::probe::FALLBACK, shuffled),
        _ => return None,
    })
}

/// Rows, and a font that has every code of theirs.
fn full(rows: Fallback, glyphs: fn(Vec<u32>) -> Map) -> (Fallback, Map) {
    let codes = codes_of(&rows);
    (rows, glyphs(codes))
}

/// Printable ASCII, Latin with its first extension, and the Arabic block: no presentation form.
fn bare() -> Vec<u32> {
    (0x20..0x7F).chain(0xA0..0x180).chain(0x600..0x700).collect()
}

/// Glyphs rise with the codes.
fn rising(codes: Vec<u32>) -> Map {
    codes.into_iter().zip(1..).collect()
}

/// The same glyphs, each at another code: the steps go round all of them.
fn shuffled(codes: Vec<u32>) -> Map {
    let count = codes.len() as u32;
    let step = (count * 5 / 8..).find(|&step| gcd(step, count) == 1).unwrap_or(1);
    codes.into_iter().zip(0..).map(|(code, at)| (code, 1 + at * step % count)).collect()
}

fn gcd(a: u32, b: u32) -> u32 {
    if b == 0 { a } else { gcd(b, a % b) }
}

/// Every code that the rows name.
fn codes_of(rows: &Fallback) -> Vec<u32> {
    let shaping = rows.shaping.iter().flat_map(|row| std::iter::once(row.0).chain(row.1.into_iter().filter(|&form| form != 0)));
    let three = rows.three.iter().flat_map(|row| row.0.into_iter().chain([row.1]));
    let two = rows.two.iter().chain(rows.marks).flat_map(|row| row.0.into_iter().chain([row.1]));
    let mut codes: Vec<u32> = shaping.chain(three).chain(two).map(u32::from).collect();
    codes.sort_unstable();
    codes.dedup();
    codes
}

struct Port {
    codes: Vec<u32>,
    glyphs: Vec<u32>,
    shaping: Vec<u16>,
    forms: Vec<u16>,
    three: (Vec<u16>, Vec<u16>),
    two: (Vec<u16>, Vec<u16>),
    marks: (Vec<u16>, Vec<u16>),
    area: Vec<u8>,
    count: usize,
    masks: [u32; 7],
    lengths: [u32; 7],
}

impl Port {
    fn of(rows: &Fallback, map: &Map) -> Self {
        Port {
            codes: map.keys().copied().collect(),
            glyphs: map.values().copied().collect(),
            shaping: rows.shaping.iter().map(|row| row.0).collect(),
            forms: rows.shaping.iter().flat_map(|row| row.1).collect(),
            three: list(rows.three),
            two: list(rows.two),
            marks: list(rows.marks),
            area: vec![0; MOST_BYTES],
            count: 0,
            masks: [0; 7],
            lengths: [0; 7],
        }
    }
    #[inline(always)]
    fn plan(&mut self) -> u8 {
        calls::fallback_plan(
            &MASKS, &self.codes, &self.glyphs, &self.shaping, &self.forms, &self.three.0, &self.three.1, &self.two.0, &self.two.1, &self.marks.0, &self.marks.1,
            &mut self.area, &mut self.count, &mut self.masks, &mut self.lengths,
        )
    }
    fn lookups(&self) -> Vec<(u32, Vec<u8>)> {
        let mut at = 0;
        (0..self.count).map(|entry| {
            let from = at;
            at += self.lengths[entry] as usize;
            (self.masks[entry], self.area[from..at].to_vec())
        }).collect()
    }
}

fn list<const N: usize>(rows: &[([u16; N], u16)]) -> (Vec<u16>, Vec<u16>) {
    (rows.iter().flat_map(|row| row.0).collect(), rows.iter().map(|row| row.1).collect())
}

fn font(map: &Map) -> Font {
    Font { cmap: map.iter().map(|(&code, &glyph)| (code, glyph)).collect(), ..Font::default() }
}

fn shape_plan(font: &ShaperFont<'_, '_>) -> ShapePlan {
    let mut plan = ShapePlanner::new(font.layout(), Direction::RightToLeft, Some(Script::ARABIC), None).compile(&[]);
    let features: Vec<_> = FEATURES.into_iter().zip(MASKS).map(|(tag, mask)| (tag, mask, true)).collect();
    lend(&mut plan, &features);
    plan
}

pub fn count(work: &str, side: Side, size: usize, times: Times) -> bool {
    let Some((rows, map)) = named(work, size) else { return false };
    match side {
        Side::Port => times.run(&mut Port::of(&rows, &map), stays, |port| {
            black_box(port.plan());
        }),
        Side::Rust => {
            let font = font(&map);
            let font = ShaperFont::new(&font);
            times.run(&mut (shape_plan(&font), font), stays, |(plan, font)| {
                black_box((rows.made)(plan, font));
            })
        }
    }
    true
}

pub fn check(work: &str, size: usize) -> bool {
    let Some((rows, map)) = named(work, size) else { return false };
    let mut port = Port::of(&rows, &map);
    let font = font(&map);
    let font = ShaperFont::new(&font);
    same("number", port.plan(), 0);
    let lookups = (rows.plan)(&shape_plan(&font), &font).unwrap_or_default();
    same("lookups", port.lookups(), lookups);
    let expected = match work {
        "plan/bare" | "plan/empty" => 0,
        "plan/windows" => 5,
        _ => 7,
    };
    same("number of lookups", port.count, expected);
    if work == "plan/wide" {
        same("codes of the font", map.len(), size);
    }
    true
}
