//! A held line: made of text, a letter altered, what changed, and a refusal that alters nothing.
//!
//!     cargo run --example held_text
use thawtrundle::{Category, JoiningType, Line, Refusal, Setting, UNICODE_VERSION};

/// The masks of isol, fina, fin2, fin3, medi, med2 and init, as a font's plan gives them.
const FEATURES: [u32; 7] = [1, 2, 4, 8, 16, 32, 64];

const BEH: char = '\u{0628}';
const ALEF: char = '\u{0627}';
const HAMZA: char = '\u{0621}';

/// The general categories of the characters here. The standard library has none: a program takes them from data of its own.
fn category(character: char) -> Category {
    match character {
        '\u{064B}'..='\u{0652}' => Category::Mn,
        _ => Category::Lo,
    }
}

/// No type was given: those shown are the ones that Unicode lists.
fn show(what: &str, line: &Line) {
    println!("{what}:");
    for (place, code) in line.codes().iter().enumerate() {
        let joining_type = JoiningType::from_number(line.types()[place]).expect("a line has types");
        println!("  {place} {code:04X} {joining_type:?} {:?}", line.action(place));
    }
}

fn alter(line: &mut Line, place: usize, character: char) -> Result<(), Refusal> {
    println!("{:04X} at {place}:", u32::from(character));
    let old = line.clone();
    line.replace_char(place, character, category(character))?;
    for change in line.changes_from(&old) {
        println!("  {} {:?}, was {:?}", change.place, change.to, change.from);
    }
    Ok(())
}

fn main() -> Result<(), Refusal> {
    println!("types of Unicode {UNICODE_VERSION}");
    let mut line = Line::from_text("\u{0628}\u{0628}\u{0628}", category, &[0; 3], Setting::new(FEATURES))?;
    show("three letters", &line);
    alter(&mut line, 1, HAMZA)?;

    let mut line = Line::from_text("\u{0628}\u{064E}\u{0627}", category, &[0; 3], Setting::new(FEATURES))?;
    show("a word with a mark", &line);
    alter(&mut line, 0, HAMZA)?;

    let held = line.clone();
    match alter(&mut line, 3, BEH) {
        Ok(()) => println!("  done"),
        Err(refusal) => println!("  {refusal}; the line is {}", if line == held { "as it was" } else { "altered" }),
    }

    let setting = Setting::new(FEATURES).before_chars(&[(BEH, category(BEH))]);
    show("an alef behind another line's beh", &Line::from_chars(&[(ALEF, category(ALEF))], &[0], setting)?);
    Ok(())
}
