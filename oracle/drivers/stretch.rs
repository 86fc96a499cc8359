//! Cases for replay_stretch: what the Rust's own `apply_stch` makes of a line.
//!
//! Goes in: recorded u8; right to left u8; glyphs u32, widths i32, categories u8, ignorables u8, actions u8, advances i32, offsets i32; the seven output
//! columns before the call. Comes out: number u8; length u32; the seven output columns after it.
//!
//! In the Rust a width goes by its glyph, so records of one glyph have one width here. Each record has a cluster of its own, by which its copies are
//! known: an ignorable record is any number but 0 in a case, and yes or no in the Rust. Output columns are as long as the answer or longer, each by
//! itself, and what lies behind the answer must stay.
//!
//! Left out, and counted: lines whose answer has over 16,384 records, which the port refuses, and lines where the Rust's copies times tiles, an i32, may
//! overflow (`may_overflow`), which the port refuses, too. They are drawn again, so that as many lines are compared as were asked for.
//!
//! Always: HarfBuzz's own three tests and document 01's worked examples, with the offsets that are written there, to which the Rust is held, too; every line
//! of up to five records of seven kinds, in both directions; words cut by each category, ignorable or not; lines and answers that are full.

mod frame;
mod lines;

use frame::{Case, Cases, Draw};
use lines::LINE_LIMIT;
use oracle::font::Font;
use oracle::ot::shaper::arabic::probe;
use oracle::{Direction, ShaperFont};
use std::collections::HashMap;

const DRIVER: &str = "stretch";
const EVERY_LINE: usize = 5;
const STRETCHED_LIMIT: usize = 16384;
/// records of an output column that the program can read
const MOST_OUT: usize = 16400;
const NONE: u8 = 7;
const FIXED: u8 = 8;
const REPEATING: u8 = 9;
const CF: u8 = 1;
const LO: u8 = 7;
const ND: u8 = 13;
const PO: u8 = 21;
const ZS: u8 = 29;
/// Cn Co Lm Lo Mc Me Mn Nd Nl No Sc Sk Sm So
const OF_WORDS: [u8; 14] = [2, 3, 6, 7, 10, 11, 12, 13, 14, 15, 23, 24, 25, 26];
/// Directions that are not right to left: to the Rust they are all the same.
const OTHERS: [Direction; 4] = [Direction::LeftToRight, Direction::Invalid, Direction::TopToBottom, Direction::BottomToTop];
const HALF: i32 = 1 << 30;
/// Where sums of 32 bits saturate, and quotients turn.
const EDGES: [i32; 13] = [i32::MIN, i32::MIN + 1, -HALF - 1, -HALF, -2, -1, 0, 1, HALF - 1, HALF, HALF + 1, i32::MAX - 1, i32::MAX];

#[derive(Clone, Copy)]
struct Record {
    glyph: u32,
    width: i32,
    category: u8,
    ignorable: u8,
    action: u8,
    advance: i32,
    offset: i32,
}

impl Record {
    fn in_run(&self) -> bool {
        self.action == FIXED || self.action == REPEATING
    }
    fn in_word(&self) -> bool {
        !self.in_run() && (self.ignorable != 0 || OF_WORDS.contains(&self.category))
    }
}

fn main() {
    frame::run(DRIVER, sample, fresh);
}

fn sample(cases: &mut Cases) {
    let draw = &mut Draw::new(6);
    examples(cases, draw);
    every_line(cases, draw, 2);
    cut_words(cases, draw, 8);
    for _ in 0..100 {
        let length = draw.between(0, 12);
        random(cases, draw, length, 30);
    }
}

fn fresh(cases: &mut Cases, draw: &mut Draw, count: u64) {
    examples(cases, draw);
    every_line(cases, draw, EVERY_LINE);
    cut_words(cases, draw, 2);
    full(cases, draw);
    for i in 0..count {
        let length = lines::any_length(draw);
        // few answers are long: a full one has more bytes than a thousand short ones
        let most = if i % 1000 == 0 { STRETCHED_LIMIT } else { 100 + 2 * length };
        random(cases, draw, length, most);
    }
}

// ---- asking the Rust, and writing down

/// The line afterwards; none where the buffer's own limit was reached.
fn stretched(recorded: bool, direction: Direction, line: &[Record]) -> Option<Vec<Record>> {
    let widths: HashMap<u32, i32> = line.iter().map(|r| (r.glyph, r.width)).collect();
    assert!(line.iter().all(|r| widths[&r.glyph] == r.width), "a glyph has two widths");
    let mut buffer = probe::fresh(&column(line, |r| r.glyph), &column(line, |r| r.category), &[], &[]);
    probe::enter(&mut buffer);
    buffer.set_direction(direction);
    for (i, r) in line.iter().enumerate() {
        probe::set_props(&mut buffer, i, r.category, r.ignorable != 0);
        probe::set_cluster(&mut buffer, i, i as u32);
        probe::set_action(&mut buffer, i, r.action);
    }
    for (position, r) in buffer.glyph_positions_mut().iter_mut().zip(line) {
        position.x_advance = r.advance;
        position.x_offset = r.offset;
    }
    probe::set_has_stch(&mut buffer, recorded);
    let font = Font { widths, ..Font::default() };
    probe::stretch(&ShaperFont::new(&font), &mut buffer);
    if !probe::ok(&buffer) {
        return None;
    }
    let (glyphs, clusters, actions) = (probe::codes(&buffer), probe::clusters(&buffer), probe::actions(&buffer));
    let (categories, ignorables) = (probe::categories(&buffer), probe::ignorables(&buffer));
    let after = buffer.glyph_positions().iter().enumerate().map(|(i, position)| {
        let from = &line[clusters[i] as usize];
        assert_eq!(ignorables[i], from.ignorable != 0, "the Rust changed what is ignorable");
        Record {
            glyph: glyphs[i],
            width: font.widths[&glyphs[i]],
            category: categories[i],
            ignorable: from.ignorable,
            action: actions[i],
            advance: position.x_advance,
            offset: position.x_offset,
        }
    });
    Some(after.collect())
}

fn column<T>(line: &[Record], field: impl Fn(&Record) -> T) -> Vec<T> {
    line.iter().map(field).collect()
}

/// In the order of the work.
fn view(rtl: bool, line: &[Record]) -> Vec<Record> {
    if rtl { line.iter().rev().copied().collect() } else { line.to_vec() }
}

/// Each run of a line in the order of the work, with the word behind it: where the run begins, where it ends, where the word ends.
fn runs(work: &[Record]) -> Vec<(usize, usize, usize)> {
    let mut runs = vec![];
    let mut at = 0;
    while at < work.len() {
        let run = at + work[at..].iter().take_while(|r| r.in_run()).count();
        let word = run + work[run..].iter().take_while(|r| r.in_word()).count();
        if run > at {
            runs.push((at, run, word));
        }
        at = word.max(at + 1);
    }
    runs
}

/// Whether a run's copies times its tiles may pass 31 bits, in which the Rust counts them: there are at most room / w copies. Such a line has far more
/// than 16,384 records, and the port refuses it.
fn may_overflow(rtl: bool, line: &[Record]) -> bool {
    let work = view(rtl, line);
    let sum = |records: &[Record], of: fn(&Record) -> i32| records.iter().fold(0i32, |sum, r| sum.saturating_add(of(r)));
    runs(&work).into_iter().any(|(at, run, word)| {
        let tiles = work[at..run].iter().filter(|r| r.action == REPEATING).count() as i64;
        let fixed = sum(&work[at..run], |r| if r.action == FIXED { r.width } else { 0 });
        let w = sum(&work[at..run], |r| if r.action == REPEATING { r.width } else { 0 });
        let room = sum(&work[run..word], |r| r.advance).saturating_sub(fixed);
        w > 0 && i64::from(room / w) * tiles > i64::from(i32::MAX)
    })
}

/// A case of a line, unless it is one to leave out or its answer has more than `most` records. The Rust refuses nothing, so its number is 0.
fn write(cases: &mut Cases, draw: &mut Draw, recorded: bool, rtl: bool, line: &[Record], most: usize) -> bool {
    let direction = if rtl { Direction::RightToLeft } else { draw.one_of(&OTHERS) };
    if recorded && may_overflow(rtl, line) {
        cases.leave_out();
        return false;
    }
    let Some(after) = stretched(recorded, direction, line).filter(|after| after.len() <= STRETCHED_LIMIT) else {
        cases.leave_out();
        return false;
    };
    if after.len() > most.max(line.len()) {
        return false;
    }
    put(cases, draw, recorded, rtl, line, &after);
    true
}

fn put(cases: &mut Cases, draw: &mut Draw, recorded: bool, rtl: bool, line: &[Record], after: &[Record]) {
    let count = after.len();
    let glyphs = lent(draw, count, |bits| bits as u32);
    let [widths, advances, offsets] = std::array::from_fn(|_| lent(draw, count, |bits| bits as i32));
    let [categories, ignorables, actions] = std::array::from_fn(|_| lent(draw, count, |bits| bits as u8));
    let case = columns(Case::new().flag(recorded).flag(rtl), line);
    let case = case.u32s(&glyphs).i32s(&widths).u8s(&categories).u8s(&ignorables).u8s(&actions).i32s(&advances).i32s(&offsets);
    let case = case.u8s(&[0]).u32s(&[count as u32]);
    let case = case.u32s(&over(after, |r| r.glyph, &glyphs)).i32s(&over(after, |r| r.width, &widths)).u8s(&over(after, |r| r.category, &categories));
    let case = case.u8s(&over(after, |r| r.ignorable, &ignorables)).u8s(&over(after, |r| r.action, &actions));
    cases.write(case.i32s(&over(after, |r| r.advance, &advances)).i32s(&over(after, |r| r.offset, &offsets)));
}

fn columns(case: Case, line: &[Record]) -> Case {
    case.u32s(&column(line, |r| r.glyph))
        .i32s(&column(line, |r| r.width))
        .u8s(&column(line, |r| r.category))
        .u8s(&column(line, |r| r.ignorable))
        .u8s(&column(line, |r| r.action))
        .i32s(&column(line, |r| r.advance))
        .i32s(&column(line, |r| r.offset))
}

/// An output column before the call, of any bits: as long as the answer, or longer by a few or by many.
fn lent<T>(draw: &mut Draw, count: usize, of: fn(u64) -> T) -> Vec<T> {
    let more = match draw.below(16) {
        0..=7 => 0,
        8..=14 => draw.between(1, 3),
        _ => draw.between(4, 40),
    };
    draw.list((count + more).min(MOST_OUT), |draw| of(draw.bits()))
}

/// A column with the answer over its start.
fn over<T: Copy>(after: &[Record], field: impl Fn(&Record) -> T, before: &[T]) -> Vec<T> {
    [&column(after, field)[..], &before[after.len()..]].concat()
}

// ---- examples, with the offsets that are to come out

/// Width, category, action; the advance is the width, and the glyph goes by the width.
fn known(width: i32, category: u8, action: u8) -> Record {
    Record { glyph: width as u32, width, category, ignorable: 0, action, advance: width, offset: 0 }
}

/// The offsets are those of the page that has the example: the Rust is held to them, and they are what goes into the case.
fn example(cases: &mut Cases, draw: &mut Draw, rtl: bool, line: &[Record], offsets: &[i32]) {
    let direction = if rtl { Direction::RightToLeft } else { Direction::LeftToRight };
    let mut after = stretched(true, direction, line).expect("the Rust's own buffer failed");
    assert_eq!(column(&after, |r| r.offset), offsets, "the Rust gives other offsets than the page");
    after.iter_mut().zip(offsets).for_each(|(r, &offset)| r.offset = offset);
    put(cases, draw, true, rtl, line, &after);
}

fn examples(cases: &mut Cases, draw: &mut Draw) {
    let tiles = |widths: &[i32]| widths.iter().enumerate().map(|(i, &w)| known(w, CF, FIXED + i as u8 % 2)).collect::<Vec<_>>();
    let digits = |count| vec![known(449, ND, NONE); count];
    // HarfBuzz's own three
    let (po, lo) = (known(168, PO, NONE), known(502, LO, NONE));
    let line = [&[po, lo, lo][..], &tiles(&[128, 79, 128, 79, 128]), &[lo]].concat();
    example(cases, draw, true, &line, &[0, 0, 0, -1004, -876, -799, -722, -645, -566, -438, -361, -284, -207, -128, 0]);
    let po = known(222, PO, NONE);
    let line = [&tiles(&[644, 134, 190])[..], &digits(4), &[po]].concat();
    example(cases, draw, false, &line, &[0, 644, 778, 897, 1016, 1135, 1254, 1373, 1492, 1611, 0, 0, 0, 0, 0]);
    let line = [&digits(3)[..], &tiles(&[644, 134, 190]), &digits(1), &[po]].concat();
    example(cases, draw, false, &line, &[0, 0, 0, -192, 452, 586, 0, 0]);
    // document 01's
    let word = known(10, LO, NONE);
    example(cases, draw, true, &[word, known(4, CF, REPEATING)], &[0, -10, -7, -4]);
    example(cases, draw, true, &[word, known(5, CF, REPEATING)], &[0, -5, 0]);
    example(cases, draw, true, &[word, known(13, CF, FIXED)], &[0, -14]);
    example(cases, draw, true, &[word, known(0, CF, REPEATING)], &[0, 5, 5]);
    example(cases, draw, false, &[known(4, CF, REPEATING), word], &[0, 4, 7, 0]);
    // others by document 01: exact products, and an added copy without excess
    let word_of = |advance| Record { advance, ..word };
    example(cases, draw, true, &[word_of(i32::MAX), known(HALF, CF, REPEATING)], &[0, -i32::MAX, -HALF]);
    example(cases, draw, true, &[word, known(-4, CF, REPEATING)], &[0, 13, 9]);
    example(cases, draw, true, &[known(-4, CF, REPEATING)], &[8, 4]);
}

// ---- all short ones

/// A letter, a blank, an ignorable record, a fixed tile, and repeating tiles of a width above, at and below 0.
fn kinds() -> [Record; 7] {
    let ignorable = Record { ignorable: 1, advance: 3, ..known(6, 0, NONE) };
    let repeating = |width| known(width, CF, REPEATING);
    [known(10, LO, NONE), known(7, ZS, NONE), ignorable, known(3, CF, FIXED), repeating(4), repeating(0), repeating(-5)]
}

fn every_line(cases: &mut Cases, draw: &mut Draw, most: usize) {
    frame::each_word(&kinds(), most, |line| {
        for rtl in [false, true] {
            assert!(write(cases, draw, true, rtl, line, STRETCHED_LIMIT), "a short line was left out");
        }
    });
}

/// A record of each category between two letters, and a tile on either side; of all actions that are no tile's, one in `step` is tried.
fn cut_words(cases: &mut Cases, draw: &mut Draw, step: usize) {
    let (letter, tile) = (known(10, LO, NONE), known(4, CF, REPEATING));
    for category in 0..lines::CATEGORIES {
        for action in (0..=NONE).step_by(step) {
            for (ignorable, rtl) in [(0, false), (0, true), (1, false), (255, true)] {
                let cut = Record { category, ignorable, action, advance: 9, ..known(2, 0, NONE) };
                write(cases, draw, true, rtl, &[tile, letter, cut, letter, tile], STRETCHED_LIMIT);
            }
        }
    }
}

/// Lines of 4,096 records, and answers of 16,384; one record more is left out.
fn full(cases: &mut Cases, draw: &mut Draw) {
    let (letter, fixed, tile) = (Record { advance: 0, ..known(10, LO, NONE) }, known(3, CF, FIXED), known(5, CF, REPEATING));
    let wide = |copies: usize| Record { advance: 5 * (copies as i32 + 1), ..letter };
    for rtl in [false, true] {
        let mut each = |mut line: Vec<Record>, count: usize| {
            if !rtl {
                line.reverse();
            }
            let written = write(cases, draw, true, rtl, &line, STRETCHED_LIMIT);
            assert_eq!(written, count <= STRETCHED_LIMIT, "a full line has another length");
        };
        each(vec![letter; LINE_LIMIT], LINE_LIMIT);
        each(vec![fixed; LINE_LIMIT], LINE_LIMIT);
        each(vec![tile; LINE_LIMIT], LINE_LIMIT);
        each([letter, tile].repeat(LINE_LIMIT / 2), LINE_LIMIT);
        for count in [STRETCHED_LIMIT - 1, STRETCHED_LIMIT, STRETCHED_LIMIT + 1] {
            each(vec![wide(count - 2), tile], count);
            each([vec![wide(count - LINE_LIMIT)], vec![letter; LINE_LIMIT - 2], vec![tile]].concat(), count);
        }
        // 2,048 words, each with a tile and its six copies
        each([Record { advance: 35, ..letter }, tile].repeat(LINE_LIMIT / 2), STRETCHED_LIMIT);
    }
}

// ---- random lines

/// A line is drawn until one is written.
fn random(cases: &mut Cases, draw: &mut Draw, length: usize, most: usize) {
    loop {
        let recorded = !draw.once_in(12);
        let rtl = draw.once_in(2);
        let mut line = any_line(draw, length);
        if draw.once_in(3) {
            fit(draw, rtl, &mut line);
        }
        if write(cases, draw, recorded, rtl, &line, most) {
            return;
        }
    }
}

/// Parts of words, runs, and what cuts them, one after the other.
fn any_line(draw: &mut Draw, length: usize) -> Vec<Record> {
    let scale = draw.below(SCALES);
    let mut line = Vec::new();
    while line.len() < length {
        let part = draw.below(20);
        let tiles: &[u8] = [&[FIXED, REPEATING][..], &[REPEATING], &[FIXED]][draw.one_of(&[0, 0, 1, 2])];
        for _ in 0..draw.between(1, if part < 18 { 5 } else { 1 }) {
            // a line may have numbers of another size than its own here and there
            let scale = if draw.once_in(16) { draw.below(SCALES) } else { scale };
            line.push(any_record(draw, scale, part, tiles));
        }
    }
    line.truncate(length);
    one_width_a_glyph(&mut line);
    line
}

fn any_record(draw: &mut Draw, scale: usize, part: usize, tiles: &[u8]) -> Record {
    let any = lines::any_category(draw);
    let cut = loop {
        let category = lines::any_category(draw);
        if !OF_WORDS.contains(&category) {
            break category;
        }
    };
    let other = draw.below(8) as u8;
    let (category, ignorable, action) = match part {
        0..=7 => (draw.one_of(&OF_WORDS), 0, other),
        8..=14 => (any, if draw.once_in(4) { 1 } else { 0 }, draw.one_of(tiles)),
        15 => (any, draw.between(1, 255) as u8, other),
        16 | 17 => (any, 0, draw.one_of(tiles)),
        _ => (cut, 0, other),
    };
    let few = draw.once_in(4); // glyphs that come again
    Record {
        glyph: if few { draw.below(4) as u32 } else { draw.bits() as u32 },
        width: number(draw, scale, 1),
        category,
        ignorable,
        action,
        advance: number(draw, scale, 3),
        offset: if draw.once_in(2) { 0 } else { draw.bits() as i32 },
    }
}

/// As in a font, small, about 0, of both signs, where sums saturate, such that few tiles fill even the widest word, of any bits.
const SCALES: usize = 7;

fn number(draw: &mut Draw, scale: usize, times: i32) -> i32 {
    let mut between = |low: i32, high: i32| low + draw.below((high - low + 1) as usize) as i32;
    match scale {
        0 => between(60, 700) * times,
        1 => between(1, 12) * times,
        2 => between(-4, 5) * times,
        3 => between(-400, 500) * times,
        4 => draw.one_of(&EDGES),
        5 if times == 1 => between(1 << 22, i32::MAX),
        5 => draw.one_of(&EDGES).max(0) / 2 + draw.below(HALF as usize) as i32,
        _ => draw.bits() as i32,
    }
}

/// A glyph that comes again has the width that it had first.
fn one_width_a_glyph(line: &mut [Record]) {
    let mut first = HashMap::new();
    for r in line {
        r.width = *first.entry(r.glyph).or_insert(r.width);
    }
}

/// Lets words be such that the room of their run is a multiple of the repeating width, or next to one, by one letter's advance.
fn fit(draw: &mut Draw, rtl: bool, line: &mut [Record]) {
    if rtl {
        line.reverse();
    }
    let sum = |records: &[Record], of: fn(&Record) -> i64| records.iter().map(of).sum::<i64>();
    for (at, run, word) in runs(line) {
        if word == run {
            continue;
        }
        let fixed = sum(&line[at..run], |r| if r.action == FIXED { r.width.into() } else { 0 });
        let w = sum(&line[at..run], |r| if r.action == REPEATING { r.width.into() } else { 0 });
        let place = draw.between(run, word - 1);
        let others = sum(&line[run..word], |r| r.advance.into()) - i64::from(line[place].advance);
        let room = w * draw.between(0, 6) as i64 + draw.one_of(&[0, 0, 0, 1, -1]);
        if let Ok(advance) = i32::try_from(room + fixed - others) {
            line[place].advance = advance;
        }
    }
    if rtl {
        line.reverse();
    }
}
