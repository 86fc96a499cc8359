//! Cases for replay_plan: what the Rust's own `FallbackPlan::new` makes of a font and of masks, over its own rule rows and over others.
//!
//! Goes in: masks u32 x5 (init, medi, fina, isol, rlig); font codes u32, font glyphs u32; shaping codes u16, forms u16 (four a row: init, medi, fina,
//! isol); components u16, one row behind the other, and ligatures u16 of the lists of 3, of 2 and of 2 components; area u8 before the call. Comes out:
//! number u8; count u8; masks u32 x7, lengths u32 x7 (zeros past the count); area u8 after the call.
//!
//! The Rust has no area: the bytes of its lookups, one behind the other, are what has to stand at the start of the lent one, and the rest has to stay. Where
//! it gives no plan, the port's has no lookup. That an area shorter than the Rust's bytes is refused, with 8, is document 01's rule. The Rust's rows are
//! constants of the compiled code, so its file is compiled once more over each other set of rows (overlay/src/ot/shaper/alt.rs).
//!
//! Always, for each set of rows: every choice of zero masks, on a font that has every code, on one with gaps and on one with the Windows-1256 signature;
//! each entry of that signature missing or changed; the fewest lookups and the most; a font of 4,096 codes.

mod frame;
mod lookups;

use frame::{Case, Cases, Draw};
use oracle::font::Font;
use oracle::ot::map::probe::lend;
use oracle::ot::shaper::{alt, arabic_fallback, Fallback};
use oracle::{Direction, Script, ShapePlanner, ShaperFont};
use std::collections::BTreeMap;

const DRIVER: &str = "plan";
const FEATURES: [&[u8; 4]; 5] = [b"init", b"medi", b"fina", b"isol", b"rlig"];
const MOST_LOOKUPS: usize = 7;
/// entries of a font's map that the program can read
const MOST_CODES: usize = 4_096;

/// The Rust's own rows, and the others: small ones, and the longest lists that there may be.
const OWN: Fallback = arabic_fallback::probe::FALLBACK;
const SMALL: [Fallback; 6] = [
    alt::telling::arabic_fallback::probe::FALLBACK,
    alt::signature::arabic_fallback::probe::FALLBACK,
    alt::none::arabic_fallback::probe::FALLBACK,
    alt::lone::arabic_fallback::probe::FALLBACK,
    alt::few::arabic_fallback::probe::FALLBACK,
    alt::some::arabic_fallback::probe::FALLBACK,
];
const SPREAD: Fallback = alt::spread::arabic_fallback::probe::FALLBACK;
const MOST: Fallback = alt::most::arabic_fallback::probe::FALLBACK;

/// The Windows-1256 signature, as document 001 has it.
const SIGNATURE: [(u32, u32); 5] = [(0x0627, 199), (0x0644, 225), (0x0649, 236), (0x064A, 237), (0x0652, 250)];

/// A font's map from codes to glyphs: its codes rise, and none comes twice.
type Map = BTreeMap<u32, u32>;
/// A mask with the bytes of a lookup, as the Rust's plan has them.
type Lookup = (u32, Vec<u8>);

fn main() {
    frame::run(DRIVER, sample, fresh);
}

fn sample(cases: &mut Cases) {
    let draw = &mut Draw::new(10);
    for rows in &SMALL[..2] {
        every_subset(cases, draw, rows);
    }
    signatures(cases, draw, &SMALL[0]);
    for i in 0..85 {
        random(cases, draw, &SMALL[i % 5]);
    }
    for rows in [&SMALL[5], &SPREAD, &OWN, &OWN] {
        let (masks, full, gappy) = (masks_of(draw, 0), full(draw, rows), gappy(draw, rows));
        put(cases, draw, rows, &masks, &full);
        put(cases, draw, rows, &masks, &gappy);
    }
}

fn fresh(cases: &mut Cases, draw: &mut Draw, count: u64) {
    ends(cases, draw);
    for rows in SMALL.iter().chain([&OWN, &SPREAD, &MOST]) {
        every_subset(cases, draw, rows);
        signatures(cases, draw, rows);
        widest(cases, draw, rows);
    }
    for _ in 0..count {
        let rows = match draw.below(512) {
            0 => &MOST,
            1..=160 => &OWN,
            161..=192 => &SPREAD,
            _ => &SMALL[draw.below(SMALL.len())],
        };
        random(cases, draw, rows);
    }
}

// ---- asking the Rust, and writing down

/// The lookups of the Rust's plan. A mask of 0 is that of a feature which the Rust's map does not have; where the Rust gives no plan there are no lookups.
fn asked(rows: &Fallback, masks: &[u32; 5], map: &Map) -> Vec<Lookup> {
    let font = Font { cmap: map.iter().map(|(&code, &glyph)| (code, glyph)).collect(), ..Font::default() };
    let font = ShaperFont::new(&font);
    let mut plan = ShapePlanner::new(font.layout(), Direction::RightToLeft, Some(Script::ARABIC), None).compile(&[]);
    let features: Vec<_> = FEATURES.into_iter().zip(*masks).filter(|feature| feature.1 != 0).map(|(tag, mask)| (tag, mask, true)).collect();
    lend(&mut plan, &features);
    let lookups = (rows.plan)(&plan, &font);
    assert!(lookups.as_ref().is_none_or(|lookups| (1..=MOST_LOOKUPS).contains(&lookups.len())), "the Rust's plan has no lookup, or more than seven");
    lookups.unwrap_or_default()
}

/// A case. An area that is shorter than the Rust's bytes is refused with 8.
fn write(cases: &mut Cases, rows: &Fallback, masks: &[u32; 5], map: &Map, lookups: &[Lookup], area: &[u8]) {
    let bytes: Vec<u8> = lookups.iter().flat_map(|lookup| &lookup.1).copied().collect();
    let fits = bytes.len() <= area.len();
    let (number, told, written) = if fits { (0, lookups, &bytes[..]) } else { (8, &[][..], &[][..]) };
    let seven = |of: fn(&Lookup) -> u32| {
        let mut all: Vec<u32> = told.iter().map(of).collect();
        all.resize(MOST_LOOKUPS, 0);
        all
    };
    let case = inputs(rows, masks, map).u8s(area).u8s(&[number]).u8s(&[told.len() as u8]);
    let case = case.u32s(&seven(|lookup| lookup.0)).u32s(&seven(|lookup| lookup.1.len() as u32));
    cases.write(case.u8s(&[written, &area[written.len()..]].concat()));
}

fn inputs(rows: &Fallback, masks: &[u32; 5], map: &Map) -> Case {
    let codes: Vec<u32> = map.keys().copied().collect();
    let glyphs: Vec<u32> = map.values().copied().collect();
    let shaping: Vec<u16> = rows.shaping.iter().map(|row| row.0).collect();
    let forms: Vec<u16> = rows.shaping.iter().flat_map(|row| row.1).collect();
    let case = Case::new().u32s(masks).u32s(&codes).u32s(&glyphs).u16s(&shaping).u16s(&forms);
    list(list(list(case, rows.three), rows.two), rows.marks)
}

/// The two columns of a ligature list.
fn list<const N: usize>(case: Case, rows: &[([u16; N], u16)]) -> Case {
    let components: Vec<u16> = rows.iter().flat_map(|row| row.0).collect();
    let ligatures: Vec<u16> = rows.iter().map(|row| row.1).collect();
    case.u16s(&components).u16s(&ligatures)
}

/// A plan's case: mostly with an area that is as long as the answer or longer, sometimes with one that is a byte short.
fn put(cases: &mut Cases, draw: &mut Draw, rows: &Fallback, masks: &[u32; 5], map: &Map) -> Vec<Lookup> {
    let lookups = asked(rows, masks, map);
    let length: usize = lookups.iter().map(|lookup| lookup.1.len()).sum();
    let area = if length > 0 && draw.once_in(16) { draw.list(length - 1, |draw| draw.bits() as u8) } else { lookups::any_area(draw, length) };
    write(cases, rows, masks, map, &lookups, &area);
    lookups
}

// ---- what is always tried

/// Every choice of zero masks, on three fonts. What document 01 says of the Windows-1256 lookups, the Rust is held to.
fn every_subset(cases: &mut Cases, draw: &mut Draw, rows: &Fallback) {
    for subset in 0..32 {
        let masks = masks_of(draw, subset);
        let (full, gappy) = (full(draw, rows), gappy(draw, rows));
        put(cases, draw, rows, &masks, &full);
        put(cases, draw, rows, &masks, &gappy);
        let mut windows = Map::from(SIGNATURE);
        add_strangers(draw, rows, &mut windows);
        let lookups = put(cases, draw, rows, &masks, &windows);
        let of_unicode = rows.shaping.iter().any(|row| row.1.contains(&0x064A)) && (masks[2] != 0 || masks[3] != 0);
        let [init, medi, fina, _, rlig] = masks;
        let in_order = [rlig, init, medi, fina, rlig].into_iter().filter(|&mask| mask != 0);
        assert!(of_unicode || lookups.iter().map(|lookup| lookup.0).eq(in_order), "the Rust's lookups of Windows-1256 are others than the page's");
    }
}

/// Each entry of the signature missing, with the glyph of a neighbour, with one that is the right one in 16 bits only, with a code that is the right one in
/// 16 bits only: then it is no such font.
fn signatures(cases: &mut Cases, draw: &mut Draw, rows: &Fallback) {
    let masks = masks_of(draw, 0);
    for (code, glyph) in SIGNATURE {
        let without = || Map::from_iter(SIGNATURE.into_iter().filter(|entry| entry.0 != code));
        for entry in [None, Some((code, glyph + 1)), Some((code, glyph - 1)), Some((code, glyph + 0x1_0000)), Some((code, glyph | 1 << 31)), Some((code + 0x1_0000, glyph))] {
            let mut map = without();
            map.extend(entry);
            let lookups = put(cases, draw, rows, &masks, &map);
            assert!(lookups.len() < 5, "the Rust takes another signature than the page's");
        }
    }
}

/// The fewest lookups and the most: fonts that are empty or have nothing that goes with anything; every lookup of the Rust's own rows, in exactly their order.
fn ends(cases: &mut Cases, draw: &mut Draw) {
    for map in [Map::new(), Map::from([(0x0628, 1)]), Map::from([(0xFE8F, 2)]), Map::from([(0x1_0628, 1), (0x1_FE8F, 2)])] {
        let masks = masks_of(draw, 0);
        assert!(asked(&OWN, &masks, &map).is_empty(), "the Rust makes a lookup of nothing");
        for room in [0, 1, 40] {
            let area = draw.list(room, |draw| draw.bits() as u8);
            write(cases, &OWN, &masks, &map, &[], &area);
        }
    }
    let masks = masks_of(draw, 0);
    let map: Map = codes_of(&OWN).into_iter().enumerate().map(|(at, code)| (code, at as u32)).collect();
    let lookups = put(cases, draw, &OWN, &masks, &map);
    let [init, medi, fina, isol, rlig] = masks;
    assert!(lookups.iter().map(|lookup| lookup.0).eq([init, medi, fina, isol, rlig, rlig, rlig]), "the Rust's lookups are in another order than the page's");
}

/// A font of as many codes as the program can read, all of the rows' among them.
fn widest(cases: &mut Cases, draw: &mut Draw, rows: &Fallback) {
    let mut map = full(draw, rows);
    while map.len() < MOST_CODES {
        let stranger = (draw.bits() as u32, any_number(draw));
        map.entry(stranger.0).or_insert(stranger.1);
    }
    let masks = masks_of(draw, 0);
    put(cases, draw, rows, &masks, &map);
}

// ---- drawing

fn random(cases: &mut Cases, draw: &mut Draw, rows: &Fallback) {
    let subset = if draw.once_in(3) { 0 } else { draw.below(32) & draw.below(32) };
    let (masks, map) = (masks_of(draw, subset), any_map(draw, rows));
    put(cases, draw, rows, &masks, &map);
}

/// Masks, of which those of the subset are 0: each of one bit, any, or all of them equal.
fn masks_of(draw: &mut Draw, subset: usize) -> [u32; 5] {
    let (way, same) = (draw.below(4), draw.bits() as u32 | 1);
    [0, 1, 2, 3, 4].map(|at| match way {
        _ if subset & (1 << at) != 0 => 0,
        0 => 1 << draw.below(32),
        1 => same,
        _ => (draw.bits() as u32).max(1),
    })
}

/// All codes that the rows name, as rows name them: a form that is 0 is none.
fn codes_of(rows: &Fallback) -> Vec<u32> {
    let bases = rows.shaping.iter().map(|row| row.0);
    let forms = rows.shaping.iter().flat_map(|row| row.1).filter(|&form| form != 0);
    let three = rows.three.iter().flat_map(|row| [row.0[0], row.0[1], row.0[2], row.1]);
    let two = rows.two.iter().chain(rows.marks).flat_map(|row| [row.0[0], row.0[1], row.1]);
    let mut codes: Vec<u32> = bases.chain(forms).chain(three).chain(two).map(u32::from).collect();
    codes.sort_unstable();
    codes.dedup();
    codes
}

/// A glyph of a font, or a code: any of 16 bits or of 32, or one at which a half of it turns.
fn any_number(draw: &mut Draw) -> u32 {
    const EDGES: [u32; 8] = [0, 1, 65_535, 65_536, 65_537, 0x7FFF_FFFF, 0x8000_0000, u32::MAX];
    match draw.below(4) {
        0 => draw.one_of(&EDGES),
        1 => draw.bits() as u32,
        _ => u32::from(lookups::any_glyph(draw)),
    }
}

/// So many glyphs: rising, falling, any of 16 bits, of a few, so that the order of rows shows where glyphs are equal, any of 32 bits, or of 16 with some that
/// are above.
fn any_glyphs(draw: &mut Draw, count: usize) -> Vec<u32> {
    let few = draw.between(1, 6);
    let palette = draw.list(few, |draw| u32::from(lookups::any_glyph(draw)));
    let (step, first) = (draw.between(1, 20) as u32, draw.below(4_000) as u32);
    let way = draw.below(7);
    let mut glyphs = draw.list(count, |draw| match way {
        0..=2 => u32::from(lookups::any_glyph(draw)),
        3 | 4 => draw.one_of(&palette),
        5 => any_number(draw),
        _ => if draw.once_in(5) { any_number(draw) } else { u32::from(draw.bits() as u16) },
    });
    match way {
        0 => glyphs = (0..count as u32).map(|at| first + at * step).collect(),
        1 => glyphs = (0..count as u32).rev().map(|at| first + at * step).collect(),
        _ => {}
    }
    glyphs
}

fn with_codes(draw: &mut Draw, codes: Vec<u32>) -> Map {
    let glyphs = any_glyphs(draw, codes.len());
    codes.into_iter().zip(glyphs).collect()
}

/// A font that has every code of the rows.
fn full(draw: &mut Draw, rows: &Fallback) -> Map {
    with_codes(draw, codes_of(rows))
}

/// A font that has some codes of the rows.
fn gappy(draw: &mut Draw, rows: &Fallback) -> Map {
    let of_ten = draw.one_of(&[1, 3, 5, 7, 9]);
    let codes = codes_of(rows).into_iter().filter(|_| draw.below(10) < of_ten).collect();
    with_codes(draw, codes)
}

/// Adds some codes that no row names: any, 0, and those that only in 16 bits are a row's.
fn add_strangers(draw: &mut Draw, rows: &Fallback, map: &mut Map) {
    let known = codes_of(rows);
    for _ in 0..draw.below(6) {
        let code = match draw.below(4) {
            0 => 0,
            1 if !known.is_empty() => draw.one_of(&known) + 0x1_0000 * draw.between(1, 65_535) as u32,
            _ => any_number(draw),
        };
        if !known.contains(&code) && !SIGNATURE.iter().any(|entry| entry.0 == code) {
            map.insert(code, any_number(draw));
        }
    }
}

/// A font without any form, or without any code that has a form: so no single lookup results.
fn one_sided(draw: &mut Draw, rows: &Fallback) -> Map {
    let is_form = |code: u32| rows.shaping.iter().any(|row| row.1.iter().any(|&form| u32::from(form) == code));
    let forms = draw.once_in(2);
    let codes = codes_of(rows).into_iter().filter(|&code| is_form(code) == forms).collect();
    with_codes(draw, codes)
}

fn any_map(draw: &mut Draw, rows: &Fallback) -> Map {
    let way = draw.below(16);
    let mut map = match way {
        0..=3 => full(draw, rows),
        4..=9 => gappy(draw, rows),
        10 | 11 => one_sided(draw, rows),
        _ => Map::new(),
    };
    if way > 8 {
        map.extend(SIGNATURE);
    }
    if way > 8 && draw.once_in(4) {
        let at = draw.one_of(&SIGNATURE);
        map.insert(at.0, at.1 + draw.one_of(&[1, 0x1_0000, 0x8000_0000]));
    }
    if draw.once_in(2) {
        add_strangers(draw, rows, &mut map);
    }
    map
}
