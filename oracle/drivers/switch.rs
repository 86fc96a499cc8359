//! Cases for replay_switch: whether the Rust's own `data_create_arabic` turns the fallback on.
//!
//! Goes in: arabic u8; needs u8 x4 (isol, fina, medi, init). Comes out: fallback u8.
//!
//! What needs its fallback is what the Rust's own map says. For the Arabic script the Rust makes that map, of a font whose GSUB has some features: those
//! that it has need none. For another script the Rust's map never says so of any feature; so that all is asked all the same, the map's words are lent.
//!
//! Always: the 32 cases, for Arabic with the map as the Rust makes it and with a lent one, for no script and five others with a lent one; each with every
//! choice of the features that do not count (fin2, fin3, med2, rlig). There is nothing to draw, so a count asks for no more.

mod frame;

use frame::{Case, Cases, Draw};
use oracle::font::Font;
use oracle::ot::map::probe::lend;
use oracle::ot::shaper::arabic::probe;
use oracle::{Direction, Script, ShapePlanner, ShaperFont, Tag};

const DRIVER: &str = "switch";
const COUNT: [&[u8; 4]; 4] = [b"isol", b"fina", b"medi", b"init"];
const DO_NOT: [&[u8; 4]; 4] = [b"fin2", b"fin3", b"med2", b"rlig"];
const OTHERS: [Option<Script>; 6] = [None, Some(Script::SYRIAC), Some(Script::MONGOLIAN), Some(Script::COMMON), Some(Script::INHERITED), Some(Script::UNKNOWN)];

fn main() {
    frame::run(DRIVER, sample, fresh);
}

/// The 32 cases.
fn sample(cases: &mut Cases) {
    for needs in subsets() {
        write(cases, true, needs, made(needs, [true; 4]));
        write(cases, false, needs, lent(OTHERS[1], needs, [true; 4]));
    }
}

fn fresh(cases: &mut Cases, _: &mut Draw, _: u64) {
    sample(cases);
    for (needs, others) in subsets().flat_map(|needs| subsets().map(move |others| (needs, others))) {
        write(cases, true, needs, made(needs, others));
        write(cases, true, needs, lent(probe::ARABIC, needs, others));
        for script in OTHERS {
            write(cases, false, needs, lent(script, needs, others));
        }
    }
}

fn subsets() -> impl Iterator<Item = [bool; 4]> {
    (0..16).map(|subset| [0, 1, 2, 3].map(|at| subset & (1 << at) != 0))
}

fn write(cases: &mut Cases, arabic: bool, needs: [bool; 4], fallback: bool) {
    cases.write(Case::new().flag(arabic).u8s(&needs.map(u8::from)).flag(fallback));
}

/// What the Rust says of the Arabic script and its own map, of a font whose GSUB has the features that need no fallback.
fn made(needs: [bool; 4], others: [bool; 4]) -> bool {
    let features = COUNT.into_iter().zip(needs).chain(DO_NOT.into_iter().zip(others));
    let gsub = features.filter(|feature| !feature.1).map(|feature| Tag::new(feature.0)).collect();
    let font = Font { gsub, ..Font::default() };
    let font = ShaperFont::new(&font);
    let mut planner = ShapePlanner::new(font.layout(), Direction::RightToLeft, probe::ARABIC, None);
    planner.collect_features(&[]);
    probe::fallback_of(&planner.compile(&[]))
}

/// What the Rust says of a script and a lent map.
fn lent(script: Option<Script>, needs: [bool; 4], others: [bool; 4]) -> bool {
    let font = Font::default();
    let font = ShaperFont::new(&font);
    let mut plan = ShapePlanner::new(font.layout(), Direction::RightToLeft, script, None).compile(&[]);
    let features: Vec<_> = COUNT.into_iter().zip(needs).chain(DO_NOT.into_iter().zip(others)).map(|(tag, needs)| (tag, 1, needs)).collect();
    lend(&mut plan, &features);
    probe::fallback_of(&plan)
}
