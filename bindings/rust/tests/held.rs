//! What is promised over several calls: a held line is never out of date, a refused call alters nothing, what is written reads back.
use thawtrundle::{
    do_fallback, fallback_plan, read_lookup, record_stch, reorder_modifier_combining_marks, serialize_ligature_lookup,
    serialize_single_lookup, stretch, stretch_into, Action, Category, Columns, Entry, FontMap, JoiningType, Kind, Letter, Line,
    Lookup, Needs, Refusal, Rows, Setting, LONGEST_PLAN,
};

const FEATURES: [u32; 7] = [1, 2, 4, 8, 16, 32, 64];

/// Numbers that look random and are the same every time.
struct Draw(u64);

impl Draw {
    fn below(&mut self, limit: u64) -> u64 {
        self.0 = self.0.wrapping_mul(6364136223846793005).wrapping_add(1442695040888963407);
        (self.0 >> 33) % limit
    }

    fn letter(&mut self) -> Letter {
        let code = [0x0628, 0x180B, 0x180C, 0x1820][self.below(4) as usize];
        let joining_type = JoiningType::from_number(self.below(8) as u8).unwrap();
        Letter { code, joining_type, category: Category::from_number(self.below(30) as u8).unwrap() }
    }
}

fn letters(line: &Line) -> Vec<Letter> {
    let letter = |place| Letter {
        code: line.codes()[place],
        joining_type: JoiningType::from_number(line.types()[place]).unwrap(),
        category: Category::from_number(line.categories()[place]).unwrap(),
    };
    (0..line.len()).map(letter).collect()
}

#[test]
fn a_held_line_is_never_out_of_date() {
    let mut draw = Draw(1);
    for round in 0..50 {
        let length = 1 + draw.below(40) as usize;
        let drawn: Vec<Letter> = (0..length).map(|_| draw.letter()).collect();
        let base: Vec<u32> = (0..length).map(|place| 0x1000 * place as u32).collect();
        let around = (JoiningType::from_number(draw.below(7) as u8).unwrap(), Category::Lo);
        let setting = Setting::new(FEATURES).before(&[around]).behind(&[around]).mongolian(round % 2 == 1);
        let mut line = Line::join(&drawn, &base, setting.clone()).unwrap();
        for _ in 0..40 {
            let place = draw.below(length as u64 + 1) as usize;
            let old = line.clone();
            match line.replace(place, draw.letter()) {
                Ok(()) => {
                    let told = line.changes_from(&old);
                    assert!(told
                        .iter()
                        .all(|change| change.from == old.action(change.place) && change.to == line.action(change.place)));
                    assert!(
                        (0..length).all(|at| old.action(at) == line.action(at) || told.iter().any(|change| change.place == at))
                    );
                }
                Err(refusal) => {
                    assert_eq!((refusal, place), (Refusal::Place, length));
                    assert_eq!(line, old);
                }
            }
            assert_eq!(line, Line::join(&letters(&line), &base, setting.clone()).unwrap());
        }
    }
}

#[test]
fn a_setting_changes_by_joining_again() {
    let alone = Letter { code: 0x0628, joining_type: JoiningType::D, category: Category::Lo };
    let mut line = Line::join(&[alone], &[0], Setting::new(FEATURES)).unwrap();
    assert_eq!(line.action(0), Action::Isol);
    let neighbour = (JoiningType::D, Category::Lo);
    line.rejoin(Setting::new(FEATURES).behind(&[neighbour])).unwrap();
    assert_eq!(line.action(0), Action::Init);
    let old = line.clone();
    assert_eq!(line.rejoin(Setting::new([0; 7]).behind(&[neighbour; 65])), Err(Refusal::TooLong));
    assert_eq!(line, old);
}

#[test]
fn refusals_alter_nothing() {
    let letter = Letter { code: 0x0628, joining_type: JoiningType::D, category: Category::Lo };
    assert_eq!(Line::join(&[letter], &[], Setting::new(FEATURES)), Err(Refusal::Uneven));
    assert_eq!(Line::join(&[letter; 4097], &[0; 4097], Setting::new(FEATURES)), Err(Refusal::TooLong));
    assert!(Line::join(&[letter; 4096], &[0; 4096], Setting::new(FEATURES)).is_ok());

    let (mut codes, mut classes) = ([0x064E, 0x0654], [30, 230]);
    assert_eq!(reorder_modifier_combining_marks(&mut codes, &mut classes, 1..3, 25, 26), Err(Refusal::Place));
    assert_eq!((codes, classes), ([0x064E, 0x0654], [30, 230]));

    let mut actions = [7, 7];
    assert_eq!(record_stch(1, &[1, 1], &[0], &mut actions), Err(Refusal::Uneven));
    assert_eq!(actions, [7, 7]);

    let line = Columns {
        widths: vec![1; 2],
        actions: vec![0, 9],
        advances: vec![20000, 0],
        categories: vec![7; 2],
        ..Columns::zeros(2)
    };
    assert_eq!(stretch(true, true, &line), Err(Refusal::Stretched));
    let mut short = Columns::zeros(1);
    assert_eq!(stretch_into(false, true, &line, &mut short), Err(Refusal::NoRoom));
    assert_eq!(short, Columns::zeros(1));
    assert_eq!(stretch(true, true, &Columns { actions: vec![10; 2], ..line }), Err(Refusal::OutOfRange));

    let mut area = [0xA5; 21];
    assert_eq!(serialize_single_lookup(&[5], &[7], 8, &mut area), Err(Refusal::NoRoom));
    assert_eq!(serialize_ligature_lookup(4, &[1, 2, 3, 4], &[9], 0, &mut area), Err(Refusal::OutOfRange));
    assert_eq!(serialize_ligature_lookup(2, &[1; 2 * 8193], &[9; 8193], 0, &mut area), Err(Refusal::Offset));
    assert_eq!(read_lookup(&area, &mut [], &mut []), Err(Refusal::NoLookup));
    assert_eq!(area, [0xA5; 21]);
}

#[test]
fn refusals_have_their_numbers() {
    let all = [
        Refusal::Uneven,
        Refusal::TooLong,
        Refusal::OutOfRange,
        Refusal::Place,
        Refusal::Offset,
        Refusal::Stretched,
        Refusal::NoLookup,
        Refusal::NoRoom,
    ];
    assert_eq!(all.map(Refusal::number), [1, 2, 3, 4, 5, 6, 7, 8]);
    let as_error: &dyn std::error::Error = &Refusal::Place;
    assert_eq!(as_error.to_string(), "refused 4: a place or a range is not in the line");
}

#[test]
fn recorded_records_are_told() {
    let mut actions = [0, 1, 2];
    assert_eq!(record_stch(0, &[1, 0, 1], &[1, 1, 2], &mut actions), Ok(false));
    assert_eq!(actions, [0, 1, 2]);
    assert_eq!(record_stch(4, &[1, 0, 1], &[1, 1, 2], &mut actions), Ok(true));
    assert_eq!(actions, [Action::Repeating.number(), 1, Action::Fixed.number()]);
}

#[test]
fn ligatures_read_back() {
    let (components, ligatures) = ([3, 4, 5, 3, 6, 7, 8, 1, 2], [100, 101, 102]);
    let mut area = [0; 100];
    let length = serialize_ligature_lookup(3, &components, &ligatures, 8, &mut area).unwrap();
    assert_eq!(length, 18 + 6 * 2 + 3 * (4 + 2 * 3));
    let (mut glyphs, mut substitutes) = ([0; 10], [0; 4]);
    let lookup = read_lookup(&area[..length], &mut glyphs, &mut substitutes).unwrap();
    assert_eq!(lookup, Lookup { kind: Kind::Ligature(3), flags: 8, length: 3 });
    assert_eq!((&glyphs[..9], glyphs[9]), (&components[..], 0));
    assert_eq!((&substitutes[..3], substitutes[3]), (&ligatures[..], 0));
}

#[test]
fn a_plan_has_the_lookups_of_its_rows() {
    let font = FontMap { codes: &[0x0628, 0xFE8F, 0xFE90, 0xFE91, 0xFE92], glyphs: &[10, 20, 21, 22, 23] };
    let rows = Rows { shaping: &[0x0628], forms: &[0xFE91, 0xFE92, 0xFE90, 0xFE8F], ..Rows::default() };
    let mut area = vec![0; LONGEST_PLAN];
    let plan = fallback_plan(&[1, 2, 0, 8, 16], font, rows, &mut area).unwrap();
    assert_eq!(plan.entries, [1, 2, 8].map(|mask| Entry { mask, length: 22 }));
    let mut found = Vec::new();
    for (mask, bytes) in plan.lookups(&area) {
        let (mut glyphs, mut substitutes) = ([0], [0]);
        let lookup = read_lookup(bytes, &mut glyphs, &mut substitutes).unwrap();
        assert_eq!((lookup.kind, lookup.length), (Kind::Single, 1));
        found.push((mask, glyphs[0], substitutes[0]));
    }
    assert_eq!(found, [(1, 10, 22), (2, 10, 23), (8, 10, 20)]);
    let falling = FontMap { codes: &[2, 1], glyphs: &[0, 0] };
    assert_eq!(fallback_plan(&[1; 5], falling, rows, &mut area), Err(Refusal::OutOfRange));
}

#[test]
fn the_fallback_is_used_if_all_need_it() {
    let needs = Needs { isol: true, fina: true, medi: true, init: true };
    assert!(do_fallback(true, needs));
    assert!(!do_fallback(false, needs));
    assert!(!do_fallback(true, Needs { medi: false, ..needs }));
}
