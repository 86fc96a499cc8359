//! A held line: joined once, a letter altered, what changed, and a refusal that alters nothing.
//!
//!     cargo run --example held_line
use thawtrundle::{Category, JoiningType, Letter, Line, Refusal, Setting};

/// The masks of isol, fina, fin2, fin3, medi, med2 and init, as a font's plan gives them.
const FEATURES: [u32; 7] = [1, 2, 4, 8, 16, 32, 64];

const BEH: Letter = Letter { code: 0x0628, joining_type: JoiningType::D, category: Category::Lo };
const FATHA: Letter = Letter { code: 0x064E, joining_type: JoiningType::T, category: Category::Mn };
const ALEF: Letter = Letter { code: 0x0627, joining_type: JoiningType::R, category: Category::Lo };
const HAMZA: Letter = Letter { code: 0x0621, joining_type: JoiningType::U, category: Category::Lo };

fn show(what: &str, line: &Line) {
    println!("{what}:");
    for (place, code) in line.codes().iter().enumerate() {
        println!("  {place} {code:04X} {:?}", line.action(place));
    }
}

fn alter(line: &mut Line, place: usize, letter: Letter) -> Result<(), Refusal> {
    println!("{:04X} at {place}:", letter.code);
    let old = line.clone();
    line.replace(place, letter)?;
    for change in line.changes_from(&old) {
        println!("  {} {:?}, was {:?}", change.place, change.to, change.from);
    }
    Ok(())
}

fn main() -> Result<(), Refusal> {
    let word = [BEH, BEH, BEH];
    let mut line = Line::join(&word, &[0; 3], Setting::new(FEATURES))?;
    show("three letters", &line);
    alter(&mut line, 1, HAMZA)?;

    let marked = [BEH, FATHA, ALEF];
    let mut line = Line::join(&marked, &[0; 3], Setting::new(FEATURES))?;
    show("a word with a mark", &line);
    alter(&mut line, 0, HAMZA)?;

    let held = line.clone();
    match alter(&mut line, 3, BEH) {
        Ok(()) => println!("  done"),
        Err(refusal) => println!("  {refusal}; the line is {}", if line == held { "as it was" } else { "altered" }),
    }
    Ok(())
}
