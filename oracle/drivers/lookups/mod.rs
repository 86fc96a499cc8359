//! What the drivers of lookups share: lists of rules, what the Rust's own writers make of them, areas, and the drawing of all these.
//!
//! A list is drawn flat, as the port has it: the first glyphs of its rules, or their components one rule behind the other, and what stands for
//! them. The Rust takes pairs, and its number of components is a constant of the compiled code: 2 and 3, and for the reader 1 and 4.

#![allow(dead_code)] // a driver uses what it needs of this

use crate::frame::{Case, Cases, Draw};
use oracle::ot::shaper::arabic_fallback::probe;

/// bytes of an area that the programs can read
pub const MOST_AREA: usize = 132_000;
/// rules of a single lookup: with one more, the offset of its coverage does not fit
pub const SINGLE_LIMIT: usize = 32_764;

/// A list as a lookup has it. `n` is 0 for a single lookup, else the number of components.
#[derive(Clone)]
pub struct List {
    pub n: usize,
    pub flags: u16,
    pub glyphs: Vec<u16>,
    pub substitutes: Vec<u16>,
}

impl List {
    /// How many glyphs of the flat column a rule has.
    pub fn width(&self) -> usize {
        self.n.max(1)
    }
    pub fn rules(&self) -> usize {
        self.substitutes.len()
    }
    pub fn firsts(&self) -> impl Iterator<Item = u16> + '_ {
        self.glyphs.iter().step_by(self.width()).copied()
    }
    pub fn falls(&self) -> bool {
        self.firsts().zip(self.firsts().skip(1)).any(|(x, y)| x > y)
    }
    /// The same rules, those of a smaller first glyph first; the others keep their order.
    pub fn sorted(&self) -> Self {
        let mut rules: Vec<(&[u16], u16)> = self.glyphs.chunks(self.width()).zip(self.substitutes.iter().copied()).collect();
        rules.sort_by_key(|rule| rule.0[0]);
        let glyphs = rules.iter().flat_map(|rule| rule.0).copied().collect();
        Self { glyphs, substitutes: rules.iter().map(|rule| rule.1).collect(), ..*self }
    }
    /// What the Rust writes: none where an offset or a count does not fit.
    pub fn written(&self) -> Option<Vec<u8>> {
        match self.n {
            0 => probe::single(&self.glyphs.iter().copied().zip(self.substitutes.iter().copied()).collect::<Vec<_>>(), self.flags),
            1 => probe::ligature(&self.pairs::<1>(), self.flags),
            2 => probe::ligature(&self.pairs::<2>(), self.flags),
            3 => probe::ligature(&self.pairs::<3>(), self.flags),
            4 => probe::ligature(&self.pairs::<4>(), self.flags),
            n => panic!("the Rust is not compiled for {n} components here"),
        }
    }
    fn pairs<const N: usize>(&self) -> Vec<([u16; N], u16)> {
        self.glyphs.chunks(N).map(|rule| rule.try_into().expect("a rule is whole")).zip(self.substitutes.iter().copied()).collect()
    }
}

// ---- writing down

/// A case of a writer: the columns that go in but the area, by the driver, then the area; number, length, area. Where the Rust writes nothing, the
/// port refuses with 5. The Rust's bytes are an answer of its own, so the area is no shorter than they are.
pub fn write(cases: &mut Cases, inputs: Case, written: Option<&[u8]>, area: &[u8]) {
    let (number, bytes) = match written {
        Some(bytes) => (0, bytes),
        None => (5, &[][..]),
    };
    let after = [bytes, &area[bytes.len()..]].concat();
    cases.write(inputs.u8s(area).u8s(&[number]).u32s(&[bytes.len() as u32]).u8s(&after));
}

/// What the Rust writes does not go into an area that is one byte shorter, which the port refuses with 8.
pub fn write_short(cases: &mut Cases, inputs: Case, bytes: &[u8], draw: &mut Draw) {
    let area = draw.list(bytes.len() - 1, |draw| draw.bits() as u8);
    cases.write(inputs.u8s(&area).u8s(&[8]).u32s(&[0]).u8s(&area));
}

/// A list's case: mostly an area of any bytes that is as long as the answer or longer, sometimes one that is a byte short.
pub fn put(cases: &mut Cases, draw: &mut Draw, list: &List, inputs: impl Fn(&List) -> Case) -> bool {
    let written = list.written();
    match &written {
        Some(bytes) if draw.once_in(16) => write_short(cases, inputs(list), bytes, draw),
        _ => {
            let area = any_area(draw, written.as_ref().map_or(0, Vec::len));
            write(cases, inputs(list), written.as_deref(), &area);
        }
    }
    written.is_some()
}

/// A list at a limit: of its area exactly full, a byte short and longer ones are tried, and whether it fits is what document 01 says of it.
pub fn put_limit(cases: &mut Cases, draw: &mut Draw, list: &List, fits: bool, inputs: impl Fn(&List) -> Case) {
    let written = list.written();
    assert_eq!(written.is_some(), fits, "the Rust writes, or does not, otherwise than the page says: {} rules", list.rules());
    let Some(bytes) = written else {
        for room in [0, 18, MOST_AREA] {
            let area = draw.list(room, |draw| draw.bits() as u8);
            write(cases, inputs(list), None, &area);
        }
        return;
    };
    for room in [bytes.len(), bytes.len() + 1, bytes.len() + 40] {
        let area = draw.list(room, |draw| draw.bits() as u8);
        write(cases, inputs(list), Some(&bytes), &area);
    }
    write_short(cases, inputs(list), &bytes, draw);
}

// ---- drawing

/// An area before the call, of any bytes: as long as the answer, or longer by a few or by many.
pub fn any_area(draw: &mut Draw, length: usize) -> Vec<u8> {
    let more = match draw.below(16) {
        0..=5 => 0,
        6..=14 => draw.between(1, 4),
        _ => draw.between(5, 60),
    };
    draw.list((length + more).min(MOST_AREA), |draw| draw.bits() as u8)
}

/// Any, or one at which a byte or a word turns.
pub fn any_glyph(draw: &mut Draw) -> u16 {
    const EDGES: [u16; 9] = [0, 1, 2, 255, 256, 257, 0x7FFF, 0x8000, u16::MAX];
    if draw.once_in(4) { draw.one_of(&EDGES) } else { draw.bits() as u16 }
}

/// None, those of the fallback (8: marks are passed over), all, or any.
pub fn any_flags(draw: &mut Draw) -> u16 {
    match draw.below(4) {
        0 => 0,
        1 => 8,
        2 => u16::MAX,
        _ => draw.bits() as u16,
    }
}

/// Mostly short, sometimes of some hundred rules.
pub fn any_length(draw: &mut Draw) -> usize {
    match draw.below(400) {
        0..=319 => draw.between(0, 10),
        320..=395 => draw.between(0, 48),
        _ => draw.between(0, 400),
    }
}

/// First glyphs: any; of a few, so that equal ones come in runs and come again; rising; all equal; falling by turns.
fn any_firsts(draw: &mut Draw, count: usize) -> Vec<u16> {
    let few = draw.between(1, 5);
    let palette = draw.list(few, any_glyph);
    let way = draw.below(6);
    let mut firsts = draw.list(count, |draw| if way == 0 { any_glyph(draw) } else { draw.one_of(&palette) });
    match way {
        1 | 2 => firsts.sort_unstable(),
        3 => {
            firsts = draw.list(count, any_glyph);
            firsts.sort_unstable();
            firsts.dedup();
            firsts.resize(count, u16::MAX);
        }
        4 => firsts.fill(palette[0]),
        _ => {}
    }
    firsts
}

/// A list of the width of `n`, with these first glyphs; all else of it is drawn.
pub fn with_firsts(draw: &mut Draw, n: usize, firsts: &[u16]) -> List {
    let mut glyphs = vec![];
    for &first in firsts {
        glyphs.push(first);
        (1..n).for_each(|_| glyphs.push(any_glyph(draw)));
    }
    List { n, flags: any_flags(draw), glyphs, substitutes: draw.list(firsts.len(), any_glyph) }
}

pub fn any_list(draw: &mut Draw, n: usize, count: usize) -> List {
    let firsts = any_firsts(draw, count);
    with_firsts(draw, n, &firsts)
}

/// Sets of so many rules each, one behind the other, whose first glyphs rise.
pub fn with_sets(draw: &mut Draw, n: usize, sets: &[usize]) -> List {
    let firsts: Vec<u16> = sets.iter().enumerate().flat_map(|(first, &rules)| vec![first as u16; rules]).collect();
    with_firsts(draw, n, &firsts)
}
