//! One program with both sides: the port's archives and the Rust, compiled unchanged. tools/bench builds it and counts its instructions.
//!
//!     driver WORK SIDE SIZE TIMES CALL     prepares WORK's input, calls SIDE (port or rust) once, then TIMES times puts the input back and, if CALL is 1, calls again
//!     driver check WORK SIZE               compares the answers of both sides; prints `same`
//!
//! (instructions with CALL 1 - instructions with CALL 0) / TIMES is one call alone. The call before warms both up alike.

mod calls;
mod lines;
mod lookups;
mod marks;
mod plans;
mod stretching;

use std::hint::black_box;

/// How often, and whether the call is made at all.
#[derive(Clone, Copy)]
pub struct Times {
    count: usize,
    call: bool,
}

impl Times {
    /// Puts the input back and calls. Closures are built into this function: the call's own instructions are counted, and those that hand over its words.
    pub fn run<S>(self, state: &mut S, back: impl Fn(&mut S), call: impl Fn(&mut S)) {
        back(state);
        call(state);
        for _ in 0..self.count {
            back(black_box(&mut *state));
            if self.call {
                call(black_box(&mut *state));
            }
        }
    }
}

/// Nothing to be put back: the call leaves its input as it is, or makes it the same again.
pub fn stays<S>(_: &mut S) {}

#[derive(Clone, Copy, PartialEq)]
pub enum Side {
    Port,
    Rust,
}

/// Ends the program if the two sides differ.
pub fn same<T: PartialEq + std::fmt::Debug>(what: &str, port: T, rust: T) {
    if port != rust {
        let shown = |t: &T| format!("{t:?}").chars().take(300).collect::<String>();
        println!("different: {what}\n{}\n{}", shown(&port), shown(&rust));
        std::process::exit(1);
    }
}

fn main() {
    let words: Vec<String> = std::env::args().skip(1).collect();
    let words: Vec<&str> = words.iter().map(String::as_str).collect();
    let number = |at: usize| words[at].parse::<usize>().expect("a number");
    if words[0] == "check" {
        let (work, size) = (words[1], number(2));
        let known = lines::check(work, size) || marks::check(work, size) || stretching::check(work, size) || lookups::check(work, size) || plans::check(work, size);
        assert!(known, "no such work: {work}");
        println!("same");
        return;
    }
    let (work, size) = (words[0], number(2));
    let side = if words[1] == "port" { Side::Port } else { Side::Rust };
    let times = Times { count: number(3), call: words[4] == "1" };
    let known = lines::count(work, side, size, times)
        || marks::count(work, side, size, times)
        || stretching::count(work, side, size, times)
        || lookups::count(work, side, size, times)
        || plans::count(work, side, size, times);
    assert!(known, "no such work: {work}");
}
