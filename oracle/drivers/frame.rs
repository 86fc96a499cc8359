//! What every driver stands on: cases and their columns, a seeded generator, lengths around a limit, all short inputs.
//!
//! A driver is one file beside this one. It names its columns at its top, and its `main` calls `run` with two functions:
//! one writes the fixed sample that the repository keeps, the other the cases of a fresh run.

#![allow(dead_code)] // a driver uses what it needs of this

use std::io::{self, BufWriter, StdoutLock, Write};
use std::process::exit;

/// Ends the driver: what it was to write cannot be written.
pub fn fail(driver: &str, why: &str) -> ! {
    eprintln!("{driver}: {why}");
    exit(1)
}

// ---- cases: all numbers are big-endian

/// A case while it is made: its columns, in the order in which they are added.
#[derive(Default)]
pub struct Case {
    body: Vec<u8>,
}

impl Case {
    pub fn new() -> Self {
        Self::default()
    }
    pub fn u8s(self, elements: &[u8]) -> Self {
        self.column(elements.iter().map(|x| x.to_be_bytes()))
    }
    pub fn u16s(self, elements: &[u16]) -> Self {
        self.column(elements.iter().map(|x| x.to_be_bytes()))
    }
    pub fn u32s(self, elements: &[u32]) -> Self {
        self.column(elements.iter().map(|x| x.to_be_bytes()))
    }
    /// signed numbers, in two's complement
    pub fn i32s(self, elements: &[i32]) -> Self {
        self.column(elements.iter().map(|x| x.to_be_bytes()))
    }
    /// a yes-or-no: a column of one byte
    pub fn flag(self, yes: bool) -> Self {
        self.u8s(&[u8::from(yes)])
    }
    /// count, width, elements; the width is that of the elements, so it is 1, 2 or 4
    fn column<const WIDTH: usize>(mut self, elements: impl ExactSizeIterator<Item = [u8; WIDTH]>) -> Self {
        self.body.extend(size(elements.len()));
        self.body.push(WIDTH as u8);
        elements.for_each(|e| self.body.extend(e));
        self
    }
}

/// A count or a length as the form has it.
fn size(n: usize) -> [u8; 4] {
    u32::try_from(n).expect("a count or a length is a 32-bit number").to_be_bytes()
}

/// Where cases go: standard output, counted.
pub struct Cases {
    driver: &'static str,
    out: BufWriter<StdoutLock<'static>>,
    cases: u64,
    bytes: u64,
    left_out: u64,
}

impl Cases {
    fn new(driver: &'static str) -> Self {
        Self { driver, out: BufWriter::new(io::stdout().lock()), cases: 0, bytes: 0, left_out: 0 }
    }
    pub fn write(&mut self, case: Case) {
        let done = self.out.write_all(&size(case.body.len())).and_then(|()| self.out.write_all(&case.body));
        self.stop_on_error(done);
        self.cases += 1;
        self.bytes += 4 + case.body.len() as u64;
    }
    /// Counts an input that is no case, since the Rust's answer is one that the port is not to give.
    pub fn leave_out(&mut self) {
        self.left_out += 1;
    }
    /// Says how many cases there were: whoever replays them must have counted as many.
    fn finish(mut self) {
        let done = self.out.flush();
        self.stop_on_error(done);
        let left_out = if self.left_out > 0 { format!(", {} left out", self.left_out) } else { String::new() };
        eprintln!("{}: {} cases, {} bytes{left_out}", self.driver, self.cases, self.bytes);
    }
    /// A program that finds a case unreadable ends, and its pipe with it: that is no fault of the driver's to show.
    fn stop_on_error(&self, done: io::Result<()>) {
        if let Err(e) = done {
            fail(self.driver, &format!("stopped after {} cases: {e}", self.cases));
        }
    }
}

// ---- the command line

/// The `main` of a driver: `NAME --sample` writes the sample, `NAME --seed S --count N` a fresh run.
pub fn run(driver: &'static str, sample: fn(&mut Cases), fresh: fn(&mut Cases, &mut Draw, u64)) {
    let words: Vec<String> = std::env::args().skip(1).collect();
    let words: Vec<&str> = words.iter().map(String::as_str).collect();
    let mut cases = Cases::new(driver);
    match words[..] {
        ["--sample"] => sample(&mut cases),
        ["--seed", seed, "--count", count] | ["--count", count, "--seed", seed] => {
            fresh(&mut cases, &mut Draw::new(number(driver, seed)), number(driver, count));
        }
        _ => usage(driver),
    }
    cases.finish();
}

fn number(driver: &str, word: &str) -> u64 {
    word.parse().unwrap_or_else(|_| usage(driver))
}

fn usage(driver: &str) -> ! {
    eprintln!("usage: {driver} --seed S --count N | {driver} --sample    (S and N: decimal numbers of 64 bits)");
    exit(2)
}

// ---- drawing

/// A seeded generator (SplitMix64): the same seed gives the same cases everywhere.
pub struct Draw(u64);

impl Draw {
    pub fn new(seed: u64) -> Self {
        Self(seed)
    }
    pub fn bits(&mut self) -> u64 {
        self.0 = self.0.wrapping_add(0x9E37_79B9_7F4A_7C15);
        let a = (self.0 ^ (self.0 >> 30)).wrapping_mul(0xBF58_476D_1CE4_E5B9);
        let b = (a ^ (a >> 27)).wrapping_mul(0x94D0_49BB_1331_11EB);
        b ^ (b >> 31)
    }
    /// a number below n, which is not 0
    pub fn below(&mut self, n: usize) -> usize {
        ((u128::from(self.bits()) * n as u128) >> 64) as usize
    }
    /// a number from low to high, both included
    pub fn between(&mut self, low: usize, high: usize) -> usize {
        low + self.below(high - low + 1)
    }
    /// true once in n times
    pub fn once_in(&mut self, n: usize) -> bool {
        self.below(n) == 0
    }
    pub fn one_of<T: Copy>(&mut self, from: &[T]) -> T {
        from[self.below(from.len())]
    }
    pub fn list<T>(&mut self, length: usize, mut each: impl FnMut(&mut Self) -> T) -> Vec<T> {
        (0..length).map(|_| each(self)).collect()
    }
    /// A length of at most `most`: half of the time one of those around the limit, otherwise any.
    pub fn length(&mut self, limit: usize, most: usize) -> usize {
        let edges: Vec<usize> = around(limit).into_iter().filter(|&n| n <= most).collect();
        if self.once_in(2) {
            self.one_of(&edges)
        } else {
            self.between(0, most)
        }
    }
}

/// The lengths at which a limit shows: 0, 1, limit - 1, limit, limit + 1; rising, each once.
pub fn around(limit: usize) -> Vec<usize> {
    let mut lengths = vec![0, 1, limit.saturating_sub(1), limit, limit + 1];
    lengths.sort_unstable();
    lengths.dedup();
    lengths
}

/// Every word of at most `most` letters of the alphabet, the empty one first, then by length.
pub fn each_word<T: Copy>(alphabet: &[T], most: usize, mut take: impl FnMut(&[T])) {
    for length in 0..=most {
        each_word_of(alphabet, length, &mut Vec::new(), &mut take);
    }
}

fn each_word_of<T: Copy>(alphabet: &[T], length: usize, word: &mut Vec<T>, take: &mut impl FnMut(&[T])) {
    if word.len() == length {
        return take(word);
    }
    for &letter in alphabet {
        word.push(letter);
        each_word_of(alphabet, length, word, take);
        word.pop();
    }
}
