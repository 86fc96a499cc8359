//! Writing lookups, and reading them back.

use crate::{calls, same, stays, Side, Times};
use oracle::ot::shaper::arabic_fallback::probe;
use std::hint::black_box;

const IGNORE_MARKS: u16 = 8;
const MOST_BYTES: usize = 1 << 17;

/// A list of rules: glyphs and substitutes, or components one rule behind the other and ligatures.
struct Rules {
    /// components of a rule, 1 for a single one
    n: u8,
    from: Vec<u16>,
    to: Vec<u16>,
    /// the same, as the Rust has them
    single: Vec<(u16, u16)>,
    two: Vec<([u16; 2], u16)>,
    three: Vec<([u16; 3], u16)>,
    area: Vec<u8>,
    length: usize,
    /// what was read
    read: Read,
}

#[derive(Default)]
struct Read {
    from: Vec<u16>,
    to: Vec<u16>,
    kind: u8,
    components: u8,
    flags: u16,
    count: usize,
}

/// Rules in the order of their first glyphs; for ligatures so many to a set.
fn rules(n: u8, per_set: usize, size: usize) -> Rules {
    let row = |at: usize| [100 + (at / per_set) as u16, 200 + (at % per_set) as u16, 300 + (at % 7) as u16];
    let single: Vec<(u16, u16)> = (0..size).map(|at| (3 + 7 * at as u16, 40_000 - 5 * at as u16)).collect();
    let ligature = |at: usize| 5_000 + at as u16;
    let (from, to) = match n {
        1 => single.iter().copied().unzip(),
        _ => ((0..size).flat_map(|at| row(at)[..usize::from(n)].to_vec()).collect(), (0..size).map(ligature).collect()),
    };
    let two = (0..size).map(|at| ([row(at)[0], row(at)[1]], ligature(at))).collect();
    let three = (0..size).map(|at| (row(at), ligature(at))).collect();
    let read = Read { from: vec![0; size * usize::from(n)], to: vec![0; size], ..Read::default() };
    Rules { n, from, to, single, two, three, area: vec![0; MOST_BYTES], length: 0, read }
}

impl Rules {
    #[inline(always)]
    fn write_single(&mut self) -> u8 {
        calls::write_single(&self.from, &self.to, IGNORE_MARKS, &mut self.area, &mut self.length)
    }
    #[inline(always)]
    fn write_ligature(&mut self) -> u8 {
        calls::write_ligature(self.n, &self.from, &self.to, IGNORE_MARKS, &mut self.area, &mut self.length)
    }
    fn write(&mut self) -> u8 {
        if self.n == 1 { self.write_single() } else { self.write_ligature() }
    }
    #[inline(always)]
    fn read(&mut self) -> u8 {
        let Read { from, to, kind, components, flags, count } = &mut self.read;
        calls::read_lookup(&self.area[..self.length], from, to, kind, components, flags, count)
    }
    fn asked(&self) -> Option<Vec<u8>> {
        match self.n {
            1 => probe::single(&self.single, IGNORE_MARKS),
            2 => probe::ligature(&self.two, IGNORE_MARKS),
            _ => probe::ligature(&self.three, IGNORE_MARKS),
        }
    }
}

/// WHAT/single, or WHAT/N/RULES-A-SET
fn named(work: &str, size: usize) -> Option<(&str, Rules)> {
    let (what @ ("write" | "read"), kind) = work.split_once('/')? else { return None };
    if kind == "single" {
        return Some((what, rules(1, 1, size)));
    }
    let (n, per_set) = kind.split_once('/')?;
    Some((what, rules(n.parse().ok()?, per_set.parse().ok()?, size)))
}

pub fn count(work: &str, side: Side, size: usize, times: Times) -> bool {
    let Some((what, mut rules)) = named(work, size) else { return false };
    match (what, rules.n, side) {
        ("write", 1, Side::Port) => times.run(&mut rules, stays, |rules| {
            black_box(rules.write_single());
        }),
        ("write", _, Side::Port) => times.run(&mut rules, stays, |rules| {
            black_box(rules.write_ligature());
        }),
        ("write", 1, Side::Rust) => times.run(&mut rules, stays, |rules| {
            black_box(probe::single(&rules.single, IGNORE_MARKS));
        }),
        ("write", 2, Side::Rust) => times.run(&mut rules, stays, |rules| {
            black_box(probe::ligature(&rules.two, IGNORE_MARKS));
        }),
        ("write", 3, Side::Rust) => times.run(&mut rules, stays, |rules| {
            black_box(probe::ligature(&rules.three, IGNORE_MARKS));
        }),
        ("read", _, Side::Port) => {
            assert_eq!(rules.write(), 0, "the lookup does not fit");
            times.run(&mut rules, stays, |rules| {
                black_box(rules.read());
            })
        }
        _ => return false,
    }
    true
}

pub fn check(work: &str, size: usize) -> bool {
    let Some((_, mut rules)) = named(work, size) else { return false };
    same("number of the writer", rules.write(), 0);
    same("bytes", Some(rules.area[..rules.length].to_vec()), rules.asked());
    same("number of the reader", rules.read(), 0);
    let read = &rules.read;
    same("kind, components, flags, count", (read.kind, read.components, read.flags, read.count), (if rules.n == 1 { 1 } else { 4 }, if rules.n == 1 { 0 } else { rules.n }, IGNORE_MARKS, size));
    same("glyphs", &read.from, &rules.from);
    same("substitutes", &read.to, &rules.to);
    true
}
