//! Lines of characters: types come from Unicode, and what is promised of a held line is promised of these.
use thawtrundle::JoiningType::{Alaph, DalathRish, D, L, R, T, U, X};
use thawtrundle::{Action, Category, JoiningType, Letter, Line, Refusal, Setting, UNICODE_VERSION};

const FEATURES: [u32; 7] = [1, 2, 4, 8, 16, 32, 64];

/// Characters of every type, some of them of no listed one, variation selectors among them.
const CHARACTERS: [char; 16] = [
    '\u{0628}',
    '\u{0627}',
    '\u{0621}',
    '\u{0640}',
    '\u{064E}',
    '\u{070F}',
    '\u{0710}',
    '\u{0712}',
    '\u{0715}',
    '\u{1820}',
    '\u{180B}',
    '\u{180E}',
    '\u{200C}',
    '\u{A872}',
    '\u{10ED9}',
    ' ',
];

type Pair = (char, Category);

fn letters_of(text: &str) -> Vec<Pair> {
    text.chars().map(|character| (character, Category::Lo)).collect()
}

fn actions(line: &Line) -> Vec<Action> {
    (0..line.len()).map(|place| line.action(place)).collect()
}

fn joined(letters: &[Pair], setting: Setting) -> Line {
    Line::from_chars(letters, &vec![0x100; letters.len()], setting).expect("it is joined")
}

/// A character as a letter whose type is lent, by hand.
fn typed(&(character, category): &Pair) -> Letter {
    Letter { code: character.into(), joining_type: JoiningType::of(character), category }
}

fn types(letters: &[Pair]) -> Vec<(JoiningType, Category)> {
    letters.iter().map(|&(character, category)| (JoiningType::of(character), category)).collect()
}

/// Numbers that look random and are the same every time.
struct Draw(u64);

impl Draw {
    fn below(&mut self, limit: usize) -> usize {
        self.0 = self.0.wrapping_mul(6364136223846793005).wrapping_add(1442695040888963407);
        (self.0 >> 33) as usize % limit
    }

    fn letter(&mut self) -> Pair {
        (CHARACTERS[self.below(CHARACTERS.len())], Category::from_number(self.below(30) as u8).unwrap())
    }

    fn letters(&mut self, count: usize) -> Vec<Pair> {
        (0..count).map(|_| self.letter()).collect()
    }
}

#[test]
fn types_are_those_that_unicode_lists() {
    let listed = [
        ('\u{0621}', U),
        ('\u{0627}', R),
        ('\u{0628}', D),
        ('\u{0640}', D),
        ('\u{070F}', T),
        ('\u{0710}', Alaph),
        ('\u{0715}', DalathRish),
        ('\u{0716}', DalathRish),
        ('\u{072A}', DalathRish),
        ('\u{072F}', DalathRish),
        ('\u{088F}', D),
        ('\u{1885}', T),
        ('\u{200C}', U),
        ('\u{200D}', D),
        ('\u{A872}', L),
        ('\u{10EC2}', R),
        ('\u{10ED9}', L),
        ('\u{10EEE}', L),
        ('\u{1E943}', D),
        ('\u{1E94B}', T),
    ];
    for (character, expected) in listed {
        assert_eq!(JoiningType::of(character), expected, "{:04X}", u32::from(character));
    }
    for character in ['\0', 'a', '\u{064E}', '\u{10628}', '\u{10ED8}', '\u{10EEF}', '\u{E000}', '\u{10FFFF}'] {
        assert_eq!(JoiningType::of(character), X, "{:04X}", u32::from(character));
    }
    assert_eq!(UNICODE_VERSION, "18.0.0");
}

#[test]
fn a_category_decides_only_where_none_is_listed() {
    let between = |character, category| {
        let letters = [('\u{0628}', Category::Lo), (character, category), ('\u{0627}', Category::Lo)];
        actions(&joined(&letters, Setting::new(FEATURES)))
    };
    let (passed, parted) = ([Action::Init, Action::None, Action::Fina], [Action::Isol, Action::None, Action::Isol]);
    assert_eq!(between('\u{064E}', Category::Mn), passed);
    assert_eq!(between('\u{064E}', Category::Lo), parted);
    assert_eq!(between('\u{200C}', Category::Cf), parted);
    assert_eq!(between('\u{070F}', Category::Lo), passed);
}

#[test]
fn the_nearest_character_around_a_line_counts() {
    let beh_alef = |setting| actions(&joined(&letters_of("\u{0628}\u{0627}"), setting));
    let (beh, alef, mark) = (('\u{0628}', Category::Lo), ('\u{0627}', Category::Lo), ('\u{064E}', Category::Mn));
    let new = || Setting::new(FEATURES);
    assert_eq!(beh_alef(new()), [Action::Init, Action::Fina]);
    assert_eq!(beh_alef(new().before_chars(&[beh, alef])), [Action::Medi, Action::Fina]);
    assert_eq!(beh_alef(new().before_chars(&[alef, beh])), [Action::Init, Action::Fina]);
    assert_eq!(beh_alef(new().before_chars(&[mark, beh])), [Action::Medi, Action::Fina]);

    let alone = |setting| joined(&[beh], setting).action(0);
    assert_eq!(alone(new().behind_chars(&[alef, (' ', Category::Zs)])), Action::Init);
    assert_eq!(alone(new().behind_chars(&[(' ', Category::Zs), alef])), Action::Isol);
    assert_eq!(alone(new().before_chars(&[beh]).behind_chars(&[mark, alef])), Action::Medi);
    assert_eq!(alone(new().before_chars(&[beh]).before_chars(&[])), Action::Isol);
}

#[test]
fn a_text_is_its_characters() {
    let category = |character| if character == '\u{064E}' { Category::Mn } else { Category::Lo };
    let text = "\u{0628}\u{064E}\u{0627}\u{10ED9}";
    let line = Line::from_text(text, category, &[0, 1, 2, 3], Setting::new(FEATURES)).unwrap();
    let letters: Vec<Pair> = text.chars().map(|character| (character, category(character))).collect();
    assert_eq!(line, Line::from_chars(&letters, &[0, 1, 2, 3], Setting::new(FEATURES)).unwrap());
    assert_eq!(line.codes(), [0x0628, 0x064E, 0x0627, 0x10ED9]);
    assert_eq!(line.types(), [D, X, R, L].map(JoiningType::number));
    assert_eq!(line.categories(), [Category::Lo, Category::Mn, Category::Lo, Category::Lo].map(Category::number));
    assert_eq!(actions(&line), [Action::Init, Action::None, Action::Fina, Action::Isol]);
    assert_eq!(line.masks(), [64, 1, 2, 3]);
}

#[test]
fn characters_are_letters_of_the_listed_types() {
    let mut draw = Draw(1);
    for round in 0..400 {
        let (size, before, behind) = (draw.below(70), draw.below(6), draw.below(6));
        let (letters, before, behind) = (draw.letters(size), draw.letters(before), draw.letters(behind));
        let base: Vec<u32> = (0..size).map(|place| 0x1000 * place as u32).collect();
        let new = || Setting::new(FEATURES).mongolian(round % 2 == 1);
        let by_chars = Line::from_chars(&letters, &base, new().before_chars(&before).behind_chars(&behind)).unwrap();
        let by_types = new().before(&types(&before)).behind(&types(&behind));
        let by_types = Line::join(&letters.iter().map(typed).collect::<Vec<_>>(), &base, by_types).unwrap();
        assert_eq!(by_chars.types(), by_types.types());
        assert_eq!(by_chars.actions(), by_types.actions());
        assert_eq!(by_chars.masks(), by_types.masks());
        assert!(!by_chars.has_lent_types() && by_types.has_lent_types());
    }
}

#[test]
fn a_line_of_characters_is_never_out_of_date() {
    let mut draw = Draw(2);
    for round in 0..50 {
        let size = 1 + draw.below(if round % 10 == 0 { 100 } else { 20 });
        let mut letters = draw.letters(size);
        let base: Vec<u32> = (0..size).map(|place| 0x1000 * place as u32).collect();
        let (before, behind) = (draw.letters(2), draw.letters(2));
        let setting = Setting::new(FEATURES).before_chars(&before).behind_chars(&behind).mongolian(round % 2 == 1);
        let mut line = Line::from_chars(&letters, &base, setting.clone()).unwrap();
        for _ in 0..40 {
            let (place, new) = (draw.below(size + 1), draw.letter());
            let old = line.clone();
            match line.replace_char(place, new.0, new.1) {
                Ok(()) => letters[place] = new,
                Err(refusal) => {
                    assert_eq!((refusal, place), (Refusal::Place, size));
                    assert_eq!(line, old);
                }
            }
            assert_eq!(line, Line::from_chars(&letters, &base, setting.clone()).unwrap());
        }
    }
}

/// A line, the letters that it has to have, and whether the type of one of them was lent.
struct Mixed {
    line: Line,
    letters: Vec<Letter>,
    lent: bool,
}

impl Mixed {
    /// Alters a letter, seldom by a type, or joins the line again in one of two settings.
    fn step(&mut self, draw: &mut Draw, settings: &[Setting; 2]) {
        let (place, (character, category)) = (draw.below(self.letters.len()), draw.letter());
        match draw.below(12) {
            0 => {
                let joining_type = JoiningType::from_number(draw.below(8) as u8).unwrap();
                self.letters[place] = Letter { code: character.into(), joining_type, category };
                self.line.replace(place, self.letters[place]).unwrap();
                self.lent = true;
            }
            1..=4 => self.line.rejoin(settings[draw.below(2)].clone()).unwrap(),
            _ => {
                self.letters[place] = typed(&(character, category));
                self.line.replace_char(place, character, category).unwrap();
            }
        }
    }
}

/// Letters of both kinds in one line, and types or characters around it: the forms are those of the types that the line says.
#[test]
fn lent_types_and_listed_ones_stand_side_by_side() {
    let mut draw = Draw(3);
    for round in 0..50 {
        let size = 1 + draw.below(20);
        let (chars, base) = (draw.letters(size), vec![0; size]);
        let (before, behind) = (draw.letters(2), draw.letters(2));
        let new = || Setting::new(FEATURES).behind_chars(&behind).mongolian(round % 2 == 1);
        let settings = [new().before_chars(&before), new().before(&types(&before))];
        let line = Line::from_chars(&chars, &base, settings[draw.below(2)].clone()).unwrap();
        let mut mixed = Mixed { line, letters: chars.iter().map(typed).collect(), lent: false };
        for _ in 0..20 {
            mixed.step(&mut draw, &settings);
            let line = &mixed.line;
            let afresh = Line::join(&mixed.letters, &base, line.setting().clone()).unwrap();
            assert_eq!((line.codes(), line.types(), line.categories()), (afresh.codes(), afresh.types(), afresh.categories()));
            assert_eq!((line.actions(), line.masks()), (afresh.actions(), afresh.masks()));
            assert_eq!(line.has_lent_types(), mixed.lent || *line.setting() == settings[1]);
        }
    }
}

#[test]
fn a_letter_of_the_private_use_area_may_have_a_type_of_its_own() {
    let mut line = joined(&letters_of("\u{0628}\u{E000}\u{0628}"), Setting::new(FEATURES));
    assert_eq!(actions(&line), [Action::Isol, Action::None, Action::Isol]);
    line.replace(1, Letter { code: 0xE000, joining_type: D, category: Category::Co }).unwrap();
    assert_eq!(actions(&line), [Action::Init, Action::Medi, Action::Fina]);
    line.replace_char(0, '\u{0627}', Category::Lo).unwrap();
    assert_eq!(actions(&line), [Action::Isol, Action::Init, Action::Fina]);
    assert_eq!(line.types(), [R, D, D].map(JoiningType::number));
    assert!(line.has_lent_types());
}

#[test]
fn refusals_alter_nothing() {
    let beh = ('\u{0628}', Category::Lo);
    let new = || Setting::new(FEATURES);
    assert_eq!(Line::from_chars(&[beh], &[], new()), Err(Refusal::Uneven));
    assert_eq!(Line::from_text("\u{0628}", |_| Category::Lo, &[0; 2], new()), Err(Refusal::Uneven));
    assert_eq!(Line::from_chars(&[beh; 4097], &[0; 4097], new()), Err(Refusal::TooLong));
    assert_eq!(Line::from_chars(&[beh], &[0], new().before_chars(&[beh; 65])), Err(Refusal::TooLong));
    assert!(Line::from_chars(&[], &[], new()).unwrap().is_empty());

    let mut line = Line::from_chars(&[beh; 4096], &[0; 4096], new().before_chars(&[beh; 64]).behind_chars(&[beh; 64])).unwrap();
    assert!(line.actions().iter().all(|&action| action == Action::Medi.number()));
    let old = line.clone();
    assert_eq!(line.replace_char(4096, '\u{0627}', Category::Lo), Err(Refusal::Place));
    assert_eq!(line.replace(4096, typed(&beh)), Err(Refusal::Place));
    assert_eq!(line.rejoin(new().behind_chars(&[beh; 65])), Err(Refusal::TooLong));
    assert_eq!(line, old);
    line.replace_char(4095, '\u{0627}', Category::Lo).unwrap();
    assert_eq!((line.action(4094), line.action(4095)), (Action::Medi, Action::Fina));
}
