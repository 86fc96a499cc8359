//! Cases for replay_marks: what the Rust's own `reorder_modifier_combining_marks` makes of a part of a line.
//!
//! Goes in: codes u32, classes u8; start u32, end u32; the two lent class numbers u8 x2, which are always those that the Rust has fixed.
//! Comes out: number u8; ranges u32, start and end of each; codes u32, classes u8 after the call.
//!
//! The ranges are those that the Rust gives to `merge_clusters`, which answers nothing. They are recovered from clusters that fall from record to
//! record, all different: a merged range then has the cluster of its last record, which says where it ends, and begins where that cluster does. The
//! buffer's `idx`, which the reordering does not read, stands at the line's end, so that the second merging does not reach back over the
//! first one's records. Of a range of one record `merge_clusters` does nothing at all: that it was called is read off the code, where the
//! call stands before the renumbering, and the renumbering shows. The operations that the buffer counts, one for each record of a range
//! of two or more, are held to the ranges, and every record has a number of its own, so that what became of it is known.
//!
//! Always: every sequence of up to five marks of five classes, each with a listed code or another, as a whole line and as a part of one, with
//! marks of every kind or none before and behind it in turn; every code from 0600 to 08FF, and the listed ones with each of their bits changed, in
//! both classes; lines of 4,096 marks whose blocks are as long, or come as late, as can be.

mod frame;
mod lines;

use frame::{Case, Cases, Draw};
use lines::LINE_LIMIT;
use oracle::ot::shaper::arabic::probe;

const DRIVER: &str = "marks";
const EVERY_PART: usize = 5;
/// the classes of the two passes
const PASSES: [u8; 2] = [220, 230];
/// below both, of the first pass, between them, of the second pass, above both
const CLASSES: [u8; 5] = [219, 220, 225, 230, 231];
/// How many marks of 4,096 are below both classes, of the first, of the second, and above both.
const FULL: [[usize; 4]; 8] = [
    [LINE_LIMIT, 0, 0, 0],
    [0, LINE_LIMIT, 0, 0],
    [0, 0, LINE_LIMIT, 0],
    [0, 0, 0, LINE_LIMIT],
    [1, LINE_LIMIT - 1, 0, 0],
    [LINE_LIMIT - 1, 1, 0, 0],
    [LINE_LIMIT - 1, 0, 1, 0],
    [1365, 1365, 1365, 1],
];
/// Classes of one line; the last list is any class.
const PALETTES: [&[u8]; 6] = [&[30, 220, 230], &[30, 31, 32, 220, 230], &PASSES, &[219, 220, 221, 229, 230, 231], &[25, 26, 30, 220, 230, 255], &[]];
/// Marks that are not listed, letters, and numbers that are no codes.
const OTHERS: [u32; 10] = [0x64B, 0x64E, 0x651, 0x65F, 0x670, 0x628, 0x300, 0, 0x10FFFF, u32::MAX];

/// A code and its class.
type Mark = (u32, u8);

/// A kind of mark: its class, and whether its code is listed.
type Kind = (u8, bool);

/// A range of places, to the one before the second.
type Range = (usize, usize);

fn main() {
    frame::run(DRIVER, sample, fresh);
}

fn sample(cases: &mut Cases) {
    let draw = &mut Draw::new(4);
    examples(cases);
    every_part(cases, draw, 2);
    for &code in &listed_and_near() {
        alone(cases, code);
    }
    for _ in 0..400 {
        let length = draw.between(0, 16);
        random(cases, draw, length);
    }
    random(cases, draw, 64);
    random(cases, draw, 512);
}

fn fresh(cases: &mut Cases, draw: &mut Draw, count: u64) {
    examples(cases);
    every_part(cases, draw, EVERY_PART);
    for code in 0x600..0x900 {
        alone(cases, code);
    }
    for &code in probe::marks_list() {
        for bit in 0..32 {
            alone(cases, code ^ (1 << bit));
        }
    }
    full(cases, draw);
    for _ in 0..count {
        let length = lines::any_length(draw);
        random(cases, draw, length);
    }
}

// ---- asking the Rust, and writing down

/// The lent numbers of the two passes, as the Rust has them.
fn numbers() -> [u8; 2] {
    let (low, high) = probe::ccc22_26();
    [low, high]
}

/// A case: the part from start to end is reordered. The Rust refuses nothing, so its number is 0.
fn write(cases: &mut Cases, line: &[Mark], start: usize, end: usize) {
    let (ranges, after) = reordered(line, start, end);
    let ranges: Vec<u32> = ranges.iter().flat_map(|&(from, to)| [from as u32, to as u32]).collect();
    let case = Case::new().u32s(&codes(line)).u8s(&classes(line)).u32s(&[start as u32]).u32s(&[end as u32]).u8s(&numbers());
    cases.write(case.u8s(&[0]).u32s(&ranges).u32s(&codes(&after)).u8s(&classes(&after)));
}

fn codes(line: &[Mark]) -> Vec<u32> {
    line.iter().map(|&(code, _)| code).collect()
}

fn classes(line: &[Mark]) -> Vec<u8> {
    line.iter().map(|&(_, class)| class).collect()
}

/// The ranges that are merged, and the line afterwards.
fn reordered(line: &[Mark], start: usize, end: usize) -> (Vec<Range>, Vec<Mark>) {
    let count = line.len();
    let mut buffer = probe::fresh(&codes(line), &vec![0; count], &[], &[]);
    for (i, &(_, class)) in line.iter().enumerate() {
        probe::set_class(&mut buffer, i, class);
        probe::set_cluster(&mut buffer, i, (count - i) as u32);
        probe::set_mask(&mut buffer, i, (i as u32) << 3); // above the bits that merging clears
    }
    probe::set_idx(&mut buffer, count);
    let allowed = probe::max_ops(&buffer);
    assert!(probe::reorder(&mut buffer, start, end) && probe::ok(&buffer), "the Rust's own buffer failed");
    let after: Vec<Mark> = probe::codes(&buffer).into_iter().zip(probe::classes(&buffer)).collect();
    let old: Vec<Mark> = probe::masks_of(&buffer).iter().map(|&mask| line[(mask >> 3) as usize]).collect();
    let shown = merged(&probe::clusters(&buffer));
    let ranges = ranges(&old, &after, &shown);
    let spent: usize = shown.iter().map(|&(from, to)| to - from).sum();
    assert_eq!(spent as i32, allowed - probe::max_ops(&buffer), "the buffer counted other ranges");
    (ranges, after)
}

/// The ranges of two records or more, by the clusters afterwards.
fn merged(clusters: &[u32]) -> Vec<Range> {
    let mut ranges = vec![];
    let mut from = 0;
    for same in clusters.chunk_by(|a, b| a == b) {
        let to = clusters.len() - same[0] as usize + 1;
        if to > from + 1 {
            ranges.push((from, to));
        }
        from += same.len();
    }
    ranges
}

/// All ranges, of single records too: one for each pass that gave its number to marks, and it begins at the first of them.
fn ranges(old: &[Mark], after: &[Mark], shown: &[Range]) -> Vec<Range> {
    let mut ranges = vec![];
    for (class, number) in PASSES.into_iter().zip(numbers()) {
        let block: Vec<usize> = (0..old.len()).filter(|&i| old[i].1 == class && after[i].1 == number).collect();
        if let Some(&from) = block.first() {
            let single = (from, from + block.len());
            ranges.push(shown.iter().copied().find(|range| range.0 == from).unwrap_or(single));
        }
    }
    let long: Vec<Range> = ranges.iter().copied().filter(|(from, to)| from + 1 < *to).collect();
    assert_eq!(long, shown, "the Rust merged other ranges than those of its blocks");
    ranges
}

// ---- codes

fn is_listed(code: u32) -> bool {
    probe::marks_list().contains(&code)
}

/// Codes beside the listed ones, and numbers that agree with a listed one in their lower bits.
fn near(code: u32) -> [u32; 4] {
    [code - 1, code + 1, code | 0x1_0000, code | 0x8000_0000]
}

fn listed_and_near() -> Vec<u32> {
    probe::marks_list().iter().flat_map(|&code| [code].into_iter().chain(near(code))).collect()
}

/// A code that is listed or not; one that is not is near to a listed one as often as not.
fn any_code(draw: &mut Draw, listed: bool) -> u32 {
    let code = draw.one_of(probe::marks_list());
    if listed {
        return code;
    }
    let other = match draw.below(4) {
        0 | 1 => draw.one_of(&near(code)),
        2 => draw.one_of(&OTHERS),
        _ => draw.bits() as u32,
    };
    if is_listed(other) { any_code(draw, false) } else { other }
}

// ---- all short ones

/// Document 01's example, and others by document 01: a block that ends at a mark that is not listed, one mark alone; a class above both.
fn examples(cases: &mut Cases) {
    write(cases, &[(0x64E, 30), (0x655, 220), (0x65F, 220), (0x654, 230)], 0, 4);
    write(cases, &[(0x64E, 30), (0x655, 220), (0x65F, 220), (0x655, 220)], 0, 4);
    write(cases, &[(0x655, 220)], 0, 1);
    write(cases, &[(0x64E, 231), (0x655, 220), (0x654, 230)], 0, 3);
}

fn kinds() -> Vec<Kind> {
    CLASSES.iter().flat_map(|&class| [(class, false), (class, true)]).collect()
}

fn marks(draw: &mut Draw, kinds: &[Kind]) -> Vec<Mark> {
    kinds.iter().map(|&(class, listed)| (any_code(draw, listed), class)).collect()
}

/// Every sequence of at most so many marks, as a whole line, and with up to three marks of one kind, or none, before and behind it.
fn every_part(cases: &mut Cases, draw: &mut Draw, most: usize) {
    let kinds = kinds();
    let sides = kinds.len() + 1;
    let mut turn = draw.below(sides * sides);
    frame::each_word(&kinds, most, |word| {
        let part = marks(draw, word);
        write(cases, &part, 0, part.len());
        turn = (turn + 1) % (sides * sides);
        let before = side(draw, &kinds, turn / sides);
        let behind = side(draw, &kinds, turn % sides);
        let end = before.len() + part.len();
        write(cases, &[&before[..], &part, &behind].concat(), before.len(), end);
    });
}

/// What stands beside a part: marks of one kind, or none where the number is that behind the last kind.
fn side(draw: &mut Draw, kinds: &[Kind], number: usize) -> Vec<Mark> {
    let count = draw.between(1, 3);
    kinds.get(number).map_or(vec![], |&kind| marks(draw, &vec![kind; count]))
}

/// A code in both classes, behind a mark of a smaller one: it moves if it is listed.
fn alone(cases: &mut Cases, code: u32) {
    for class in PASSES {
        write(cases, &[(0x64E, 30), (code, class)], 0, 2);
    }
}

/// All marks are listed.
fn full(cases: &mut Cases, draw: &mut Draw) {
    for counts in FULL {
        let classes = [219, 220, 230, 231].into_iter().zip(counts).flat_map(|(class, count)| vec![class; count]);
        let line: Vec<Mark> = classes.map(|class| (any_code(draw, true), class)).collect();
        write(cases, &line, 0, LINE_LIMIT);
    }
}

// ---- random parts

/// A line; about half of the parts of two marks or more have their classes in order, those that are so by chance included. Some lines have hardly
/// a mark that is not listed, so that blocks are long.
fn random(cases: &mut Cases, draw: &mut Draw, length: usize) {
    let palette = draw.one_of(&PALETTES);
    let unlisted = draw.one_of(&[0, 1, 8, 40]);
    let mut line = draw.list(length, |draw| {
        let class = if palette.is_empty() { draw.bits() as u8 } else { draw.one_of(palette) };
        let listed = draw.below(80) >= unlisted;
        (any_code(draw, listed), class)
    });
    let (start, end) = any_part(draw, length);
    if draw.below(5) < 2 {
        line[start..end].sort_by_key(|&(_, class)| class);
    }
    write(cases, &line, start, end);
}

/// The whole line, a part at one of its ends, an empty part anywhere, and any part.
fn any_part(draw: &mut Draw, length: usize) -> Range {
    let (a, b) = (draw.between(0, length), draw.between(0, length));
    match draw.below(16) {
        0..=6 => (0, length),
        7 | 8 => (0, a),
        9 | 10 => (a, length),
        11 => (a, a),
        _ => (a.min(b), a.max(b)),
    }
}
