//! Document 01's worked examples, with the answers that stand there, through the safe calls.
use thawtrundle::JoiningType::{Alaph, DalathRish, D, L, R, T, U};
use thawtrundle::{
    reorder_modifier_combining_marks, serialize_single_lookup, stretch, Action, Category, Columns, JoiningType, Letter, Line,
    Setting,
};

const FEATURES: [u32; 7] = [1, 2, 4, 8, 16, 32, 64];

fn letter(joining_type: JoiningType) -> Letter {
    Letter { code: 0x0628, joining_type, category: Category::Lo }
}

fn context(types: &[JoiningType]) -> Vec<(JoiningType, Category)> {
    types.iter().map(|&one| (one, Category::Lo)).collect()
}

fn actions(line: &Line) -> Vec<Action> {
    (0..line.len()).map(|place| line.action(place)).collect()
}

fn joined(before: &[JoiningType], types: &[JoiningType], behind: &[JoiningType]) -> Line {
    let letters: Vec<Letter> = types.iter().map(|&one| letter(one)).collect();
    let setting = Setting::new(FEATURES).before(&context(before)).behind(&context(behind));
    Line::join(&letters, &vec![0x100; types.len()], setting).expect("it is joined")
}

/// The letters before a line, the line, those behind it, and the actions that it gets.
type Example<'a> = (&'a [JoiningType], &'a [JoiningType], &'a [JoiningType], &'a [Action]);

#[test]
fn lines_are_joined() {
    use Action::{Fin2, Fin3, Fina, Init, Isol, Med2, Medi, None};
    let examples: [Example; 12] = [
        (&[], &[D, D, D], &[], &[Init, Medi, Fina]),
        (&[], &[D, L], &[], &[Isol, Isol]),
        (&[], &[L, R], &[], &[Init, Fina]),
        (&[], &[T, T], &[], &[None, None]),
        (&[D], &[R], &[], &[Fina]),
        (&[], &[D], &[R], &[Init]),
        (&[D], &[], &[], &[]),
        (&[], &[R, Alaph], &[], &[Isol, Fin2]),
        (&[], &[DalathRish, Alaph], &[], &[Isol, Fin3]),
        (&[], &[D, Alaph, R], &[], &[Init, Med2, Isol]),
        (&[], &[R, Alaph, D], &[], &[Isol, Isol, Isol]),
        (&[], &[D, Alaph, L], &[], &[Init, Fina, Isol]),
    ];
    for (before, types, behind, expected) in examples {
        assert_eq!(actions(&joined(before, types, behind)), expected, "{before:?} {types:?} {behind:?}");
    }
}

#[test]
fn masks_go_by_the_actions() {
    assert_eq!(joined(&[], &[D, D, T, D, U], &[]).masks(), [0x140, 0x110, 0x100, 0x102, 0x100]);
}

#[test]
fn mongolian_selectors_take_the_action_before_them() {
    let letters = [
        Letter { code: 0x1820, joining_type: D, category: Category::Lo },
        Letter { code: 0x180B, joining_type: T, category: Category::Mn },
        Letter { code: 0x180E, joining_type: U, category: Category::Cf },
    ];
    let line = Line::join(&letters, &[0; 3], Setting::new(FEATURES).mongolian(true)).unwrap();
    assert_eq!(actions(&line), [Action::Isol, Action::Isol, Action::None]);
}

#[test]
fn a_letter_is_replaced() {
    let mut line = joined(&[], &[D, D, D], &[]);
    let old = line.clone();
    line.replace(1, letter(U)).unwrap();
    let changes = line.changes_from(&old);
    assert_eq!(actions(&line), [Action::Isol, Action::None, Action::Isol]);
    assert_eq!(changes.iter().map(|change| change.place).collect::<Vec<_>>(), [0, 1, 2]);
    assert_eq!((changes[2].from, changes[2].to), (Action::Fina, Action::Isol));
    assert_eq!(line, joined(&[], &[D, U, D], &[]));
}

#[test]
fn marks_are_reordered() {
    let (mut codes, mut classes) = ([0x064E, 0x0655, 0x065F, 0x0654], [30, 220, 220, 230]);
    let ranges = reorder_modifier_combining_marks(&mut codes, &mut classes, 0..4, 25, 26).unwrap();
    assert_eq!(codes, [0x0655, 0x0654, 0x064E, 0x065F]);
    assert_eq!(classes, [25, 26, 30, 220]);
    assert_eq!(ranges, [0..2, 1..4]);
}

/// A word of one letter of this advance, and a tile, in one order or the other.
fn word_and_tile(tile_first: bool, advance: i32, tile: Action, width: i32) -> Columns {
    let mut records = [(1, 0, Category::Lo, Action::Isol, advance), (2, width, Category::Cf, tile, 0)];
    if tile_first {
        records.reverse();
    }
    Columns {
        glyphs: records.iter().map(|record| record.0).collect(),
        widths: records.iter().map(|record| record.1).collect(),
        categories: records.iter().map(|record| record.2.number()).collect(),
        ignorables: vec![0; 2],
        actions: records.iter().map(|record| record.3.number()).collect(),
        advances: records.iter().map(|record| record.4).collect(),
        offsets: vec![0; 2],
    }
}

#[test]
fn tiles_are_stretched() {
    let right_to_left = |tile, width| stretch(true, true, &word_and_tile(false, 10, tile, width)).unwrap().offsets;
    assert_eq!(right_to_left(Action::Repeating, 4), [0, -10, -7, -4]);
    assert_eq!(right_to_left(Action::Repeating, 5), [0, -5, 0]);
    assert_eq!(right_to_left(Action::Fixed, 13), [0, -14]);
    assert_eq!(right_to_left(Action::Repeating, 0), [0, 5, 5]);
    let left_to_right = stretch(true, false, &word_and_tile(true, 10, Action::Repeating, 4)).unwrap();
    assert_eq!(left_to_right.offsets, [0, 4, 7, 0]);
    assert_eq!(left_to_right.glyphs, [2, 2, 2, 1]);
}

#[test]
fn what_is_not_recorded_is_laid_as_it_is() {
    let line = word_and_tile(false, 10, Action::Repeating, 4);
    assert_eq!(stretch(false, true, &line).unwrap(), line);
}

#[test]
fn a_single_lookup_is_written() {
    let mut area = [0xA5; 24];
    assert_eq!(serialize_single_lookup(&[5], &[7], 8, &mut area), Ok(22));
    assert_eq!(area[..22], [0, 1, 0, 8, 0, 1, 0, 8, 0, 2, 0, 8, 0, 1, 0, 7, 0, 1, 0, 1, 0, 5]);
    assert_eq!(area[22..], [0xA5; 2]);
}
