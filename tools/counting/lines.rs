//! Joining a line, replacing a letter of it, both by types and by codes alone; the look-up of one type, and the Rust's look-ups of a line's types alone.

use crate::{calls, same, stays, Side, Times};
use oracle::ot::shaper::arabic::{probe, ArabicShapePlan};
use oracle::{Buffer, GlyphInfo};
use std::hint::black_box;

/// A sentence with few marks, and some words with all of them.
const ARABIC: &str = "يولد جميع الناس أحرارًا متساوين في الكرامة والحقوق. وقد وهبوا عقلاً وضميرًا وعليهم أن يعامل بعضهم بعضًا بروح الإخاء. إِنَّ الْعِلْمَ نُورٌ ";
/// Words with variation selectors in some of them, a vowel separator in one.
const MONGOLIAN: &str = "ᠮᠣᠩᠭᠣᠯ\u{180B} ᠤᠯᠤᠰ ᠤᠨ ᠨᠡᠶᠢᠰᠯᠡᠯ\u{180C} ᠬᠣᠲᠠ\u{180E}ᠠ ᠪᠣᠯ ᠤᠯᠠᠭᠠᠨ\u{180B}ᠪᠠᠭᠠᠲᠤᠷ\u{180D} ᠮᠥᠨ᠃ ";
/// One letter with selectors behind it: the line in which a letter's surroundings are all of it.
const LETTER: u32 = 0x1820;
const SELECTORS: [u32; 2] = [0x180B, 0x180C];
const FEATURES: [u32; 7] = [0x10, 0x20, 0x40, 0x80, 0x100, 0x200, 0x400];
const BASE: u32 = 0x8000_0000;
/// the bits of a mask in which the Rust has its break flags
const FLAGS: u32 = 7;
/// letters that join on both sides, and one that joins on one
const BEH: u32 = 0x0628;
const TEH: u32 = 0x062A;
const ALEF: u32 = 0x0627;

struct Columns {
    codes: Vec<u32>,
    types: Vec<u8>,
    categories: Vec<u8>,
}

impl Columns {
    fn of(codes: Vec<u32>) -> Self {
        Columns { types: codes.iter().map(|&code| probe::table_type(code)).collect(), categories: codes.iter().map(|&code| probe::gc_of(code)).collect(), codes }
    }
}

struct Line {
    own: Columns,
    pre: Columns,
    post: Columns,
    base: Vec<u32>,
    mongolian: bool,
    actions: Vec<u8>,
    masks: Vec<u32>,
    /// where letters are replaced, and how often it was done
    place: usize,
    step: usize,
    /// the letters that take turns at the place
    turns: [u32; 2],
}

/// The line of a work: what comes behind the work's first word.
fn line(kind: &str, size: usize) -> Line {
    let text = |s: &str| s.chars().cycle().take(size).map(|c| c as u32).collect::<Vec<u32>>();
    let (codes, mongolian, turns) = match kind {
        "arabic" => (text(ARABIC), false, [BEH, TEH]),
        "mongolian" => (text(MONGOLIAN), true, [LETTER, LETTER + 1]),
        "selectors" => ((0..size).map(|at| if at == 0 { LETTER } else { SELECTORS[at % 2] }).collect(), true, SELECTORS),
        _ => panic!("no such line: {kind}"),
    };
    let place = if kind == "selectors" { size - 1 } else { size / 2 };
    Line {
        own: Columns::of(codes),
        pre: Columns::of(vec![0x064E, BEH]),
        post: Columns::of(vec![0x0651, TEH]),
        base: vec![BASE; size],
        mongolian,
        actions: vec![0; size],
        masks: vec![0; size],
        place,
        step: 0,
        turns,
    }
}

impl Line {
    #[inline(always)]
    fn join(&mut self) -> u8 {
        let Line { own, pre, post, .. } = self;
        calls::join_line(
            &own.codes, &own.types, &own.categories, &pre.types, &pre.categories, &post.types, &post.categories,
            &self.base, &FEATURES, self.mongolian as u8, &mut self.actions, &mut self.masks,
        )
    }

    #[inline(always)]
    fn replace(&mut self, place: usize, code: u32, joining_type: u8, category: u8) -> u8 {
        let Line { own, pre, post, .. } = self;
        calls::replace_letter(
            &mut own.codes, &mut own.types, &mut own.categories, &pre.types, &pre.categories, &post.types, &post.categories,
            &self.base, &FEATURES, self.mongolian as u8, &mut self.actions, &mut self.masks, place, code, joining_type, category,
        )
    }

    #[inline(always)]
    fn join_codes(&mut self) -> u8 {
        let Line { own, pre, post, .. } = self;
        calls::join_codes(
            &own.codes, &own.categories, &pre.codes, &pre.categories, &post.codes, &post.categories,
            &self.base, &FEATURES, self.mongolian as u8, &mut self.actions, &mut self.masks,
        )
    }

    #[inline(always)]
    fn replace_code(&mut self, place: usize, code: u32, category: u8) -> u8 {
        let Line { own, pre, post, .. } = self;
        calls::replace_code(
            &mut own.codes, &mut own.categories, &pre.codes, &pre.categories, &post.codes, &post.categories,
            &self.base, &FEATURES, self.mongolian as u8, &mut self.actions, &mut self.masks, place, code, category,
        )
    }

    /// The Rust's buffer of this line, before it is joined.
    fn buffer(&self) -> Buffer {
        let mut buffer = probe::fresh(&self.own.codes, &self.own.categories, &self.pre.codes, &self.post.codes);
        for at in 0..self.own.codes.len() {
            probe::set_cluster(&mut buffer, at, at as u32);
            probe::set_mask(&mut buffer, at, BASE);
        }
        buffer
    }

    /// The Rust's answer: actions, and masks without break flags.
    fn asked(&self) -> (Vec<u8>, Vec<u32>) {
        let mut rust = Rust::of(self);
        rust.join();
        (probe::actions(&rust.buffer), probe::masks_of(&rust.buffer).iter().map(|mask| mask & !FLAGS).collect())
    }

    fn compare(&self, what: &str) {
        let (actions, masks) = self.asked();
        same(&format!("{what}: actions"), &self.actions, &actions);
        same(&format!("{what}: masks"), &self.masks, &masks);
    }
}

/// The Rust's side: a buffer, its records as they were, and the plan with the features' masks.
struct Rust {
    buffer: Buffer,
    records: Vec<GlyphInfo>,
    plan: ArabicShapePlan,
    mongolian: bool,
}

impl Rust {
    fn of(line: &Line) -> Self {
        let buffer = line.buffer();
        let mut masks = [0; 8];
        masks[..7].copy_from_slice(&FEATURES);
        Rust { records: buffer.glyph_infos().to_vec(), buffer, plan: probe::plan_data(masks, false), mongolian: line.mongolian }
    }
    fn back(&mut self) {
        self.buffer.glyph_infos_mut().copy_from_slice(&self.records);
    }
    #[inline(always)]
    fn join(&mut self) {
        probe::masks(&self.plan, self.mongolian, &mut self.buffer);
    }
}

pub fn count(work: &str, side: Side, size: usize, times: Times) -> bool {
    let Some((what, kind)) = work.split_once('/') else { return false };
    match (what, side) {
        ("join", Side::Port) => times.run(&mut line(kind, size), stays, |line| {
            black_box(line.join());
        }),
        ("join", Side::Rust) => times.run(&mut Rust::of(&line(kind, size)), Rust::back, Rust::join),
        ("replace", Side::Port) => {
            let mut line = line(kind, size);
            line.join();
            let turns = line.turns.map(|code| (code, probe::table_type(code), probe::gc_of(code)));
            times.run(&mut line, |line| line.step += 1, |line| {
                let (code, joining_type, category) = turns[line.step % 2];
                black_box(line.replace(line.place, code, joining_type, category));
            })
        }
        ("codes", Side::Port) => times.run(&mut line(kind, size), stays, |line| {
            black_box(line.join_codes());
        }),
        ("recode", Side::Port) => {
            let mut line = line(kind, size);
            line.join_codes();
            let turns = line.turns.map(|code| (code, probe::gc_of(code)));
            times.run(&mut line, |line| line.step += 1, |line| {
                let (code, category) = turns[line.step % 2];
                black_box(line.replace_code(line.place, code, category));
            })
        }
        ("type", Side::Port) => times.run(&mut code_named(kind), stays, |code| {
            black_box(calls::joining_type(*code));
        }),
        ("type", Side::Rust) => times.run(&mut code_named(kind), stays, |code| {
            black_box(probe::table_type(*code));
        }),
        // a loop that only adds the types up
        ("types", Side::Rust) => times.run(&mut line(kind, size), stays, |line| {
            black_box(line.own.codes.iter().map(|&code| u32::from(probe::table_type(code))).sum::<u32>());
        }),
        _ => return false,
    }
    true
}

/// The code that a work names, in hexadecimal.
fn code_named(kind: &str) -> u32 {
    u32::from_str_radix(kind, 16).expect("a code")
}

pub fn check(work: &str, size: usize) -> bool {
    let Some((what, kind)) = work.split_once('/') else { return false };
    match what {
        "join" | "types" => drop(joined(line(kind, size))),
        "replace" => check_replacing(joined(line(kind, size)), size),
        "codes" => drop(joined_by_codes(line(kind, size))),
        "recode" => check_replacing_codes(joined_by_codes(line(kind, size)), size),
        "type" => check_types(code_named(kind)),
        _ => return false,
    }
    true
}

fn joined(mut line: Line) -> Line {
    same("number of join_line", line.join(), 0);
    line.compare("joining");
    line
}

fn joined_by_codes(mut line: Line) -> Line {
    same("number of join_codes", line.join_codes(), 0);
    line.compare("joining by codes");
    line
}

/// Places and letters of some replacements one after the other.
fn replacements(line: &Line, size: usize) -> Vec<(usize, u32)> {
    let letters = [line.turns[0], ALEF, 0x064E, line.turns[1], 0x0020, BEH, LETTER, SELECTORS[0]];
    (0..40).map(|step| (if step % 3 == 0 { line.place } else { step * 37 % size }, letters[step % letters.len()])).collect()
}

fn check_replacing(mut line: Line, size: usize) {
    for (place, code) in replacements(&line, size) {
        same("number of replace_letter", line.replace(place, code, probe::table_type(code), probe::gc_of(code)), 0);
        same("the new code", line.own.codes[place], code);
        line.compare("replacing");
    }
}

fn check_replacing_codes(mut line: Line, size: usize) {
    for (place, code) in replacements(&line, size) {
        same("number of replace_code", line.replace_code(place, code, probe::gc_of(code)), 0);
        same("the new code", line.own.codes[place], code);
        line.compare("replacing by code");
    }
}

/// The code that is counted, and every code up to beyond the last one that is listed.
fn check_types(code: u32) {
    for code in (0..0x20000).chain([code]) {
        same(&format!("the type of {code:04X}"), calls::joining_type(code), probe::table_type(code));
    }
}
