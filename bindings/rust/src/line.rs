//! A held line: joined once, altered letter by letter.
use crate::calls::{self, Around, AroundCodes, CodeRequest, Request};
use crate::letters::{Action, Category, JoiningType};
use crate::refusal::Refusal;

/// A letter as a record of a line has it.
#[derive(Clone, Copy, Debug, PartialEq, Eq)]
pub struct Letter {
    /// Its code point.
    pub code: u32,
    /// How it joins.
    pub joining_type: JoiningType,
    /// Its general category.
    pub category: Category,
}

impl Letter {
    /// A character with the type that Unicode lists for it.
    fn listed(&(character, category): &(char, Category)) -> Letter {
        Letter { code: character.into(), joining_type: JoiningType::of(character), category }
    }
}

/// The letters on one side of a line, the nearest first. They have codes if none of their types was lent.
#[derive(Clone, Debug, PartialEq, Eq)]
struct Side {
    codes: Option<Vec<u32>>,
    types: Vec<u8>,
    categories: Vec<u8>,
}

impl Side {
    fn of_types(letters: &[(JoiningType, Category)]) -> Side {
        Side {
            codes: letters.is_empty().then(Vec::new),
            types: letters.iter().map(|letter| letter.0.number()).collect(),
            categories: letters.iter().map(|letter| letter.1.number()).collect(),
        }
    }

    fn of_chars(letters: &[(char, Category)]) -> Side {
        Side {
            codes: Some(letters.iter().map(|letter| letter.0.into()).collect()),
            types: letters.iter().map(|letter| JoiningType::of(letter.0).number()).collect(),
            categories: letters.iter().map(|letter| letter.1.number()).collect(),
        }
    }
}

/// What a line is joined with: the letters around it, the feature masks, and whether it is Mongolian.
#[derive(Clone, Debug, PartialEq, Eq)]
pub struct Setting {
    pre: Side,
    post: Side,
    features: [u32; 7],
    mongolian: bool,
}

impl Setting {
    /// A setting with no letters around the line, not Mongolian. The masks are those of isol, fina, fin2, fin3, medi, med2 and
    /// init, in the order of the actions' numbers.
    pub fn new(features: [u32; 7]) -> Setting {
        Setting { pre: Side::of_types(&[]), post: Side::of_types(&[]), features, mongolian: false }
    }

    /// With these letters before the line, the nearest first; at most 64.
    pub fn before(mut self, letters: &[(JoiningType, Category)]) -> Setting {
        self.pre = Side::of_types(letters);
        self
    }

    /// With these letters behind the line, the nearest first; at most 64.
    pub fn behind(mut self, letters: &[(JoiningType, Category)]) -> Setting {
        self.post = Side::of_types(letters);
        self
    }

    /// With these characters before the line, the nearest first; at most 64. Of a text that ends where the line begins the nearest is
    /// the last, so it is handed over from its end. Their types are those that Unicode lists.
    ///
    /// ```
    /// use thawtrundle::{Action, Category, Line, Setting};
    ///
    /// let before: Vec<_> = "\u{0627}\u{0628}".chars().rev().map(|letter| (letter, Category::Lo)).collect();
    /// let setting = Setting::new([1, 2, 4, 8, 16, 32, 64]).before_chars(&before);
    /// let line = Line::from_chars(&[('\u{0627}', Category::Lo)], &[0], setting)?;
    /// assert_eq!(line.action(0), Action::Fina); // the beh joins it
    /// # Ok::<(), thawtrundle::Refusal>(())
    /// ```
    pub fn before_chars(mut self, letters: &[(char, Category)]) -> Setting {
        self.pre = Side::of_chars(letters);
        self
    }

    /// With these characters behind the line, the nearest first, as a text has them; at most 64. Their types are those that Unicode
    /// lists.
    pub fn behind_chars(mut self, letters: &[(char, Category)]) -> Setting {
        self.post = Side::of_chars(letters);
        self
    }

    /// For a Mongolian line: variation selectors take the action of the record before them.
    pub fn mongolian(mut self, yes: bool) -> Setting {
        self.mongolian = yes;
        self
    }

    /// The feature masks.
    pub fn features(&self) -> [u32; 7] {
        self.features
    }

    /// Whether the line is Mongolian.
    pub fn is_mongolian(&self) -> bool {
        self.mongolian
    }

    fn around(&self) -> Around<'_> {
        Around {
            pre_types: &self.pre.types,
            pre_categories: &self.pre.categories,
            post_types: &self.post.types,
            post_categories: &self.post.categories,
            features: &self.features,
            mongolian: self.mongolian,
        }
    }

    /// The same by codes, if no type around the line was lent.
    fn around_codes(&self) -> Option<AroundCodes<'_>> {
        Some(AroundCodes {
            pre_codes: self.pre.codes.as_deref()?,
            pre_categories: &self.pre.categories,
            post_codes: self.post.codes.as_deref()?,
            post_categories: &self.post.categories,
            features: &self.features,
            mongolian: self.mongolian,
        })
    }
}

/// A record whose action has changed.
#[derive(Clone, Copy, Debug, PartialEq, Eq)]
pub struct Change {
    /// Its place in the line.
    pub place: usize,
    /// The action that it had.
    pub from: Action,
    /// The action that it has now.
    pub to: Action,
}

/// A line that is joined and held.
///
/// Its actions and masks are always those that joining its present letters gives in its setting. There is no `Line` that is not
/// joined. What joining depends on, letters, base masks and setting, is owned here and can only be looked at: a letter is altered
/// by [`Line::replace_char`] or [`Line::replace`], which renew the forms that go by it, and the setting by [`Line::rejoin`], which
/// joins the line again. So no safe code can make a form of it out of date.
///
/// # Types
///
/// A line that is made by [`Line::from_text`] or [`Line::from_chars`] has the types that Unicode lists for its characters, and
/// [`Line::replace_char`] keeps it so: no type comes from the caller. [`Line::join`] and [`Line::replace`] take a letter's type as it is
/// given, which serves a letter that Unicode does not list, of the private use area for instance, and is a mistake wherever it is
/// another type than the listed one. Both kinds of letters can stand in one line, each with its own type: `replace_char` on a line
/// with lent types looks up the type of the new letter alone, and `replace` on a line of characters lends the type of the new letter
/// alone. [`Line::has_lent_types`] says whether any was lent. Equal lines agree in this, too.
#[derive(Clone, Debug, PartialEq, Eq)]
pub struct Line {
    setting: Setting,
    codes: Vec<u32>,
    /// Those that Unicode lists for the codes, unless some were lent.
    types: Vec<u8>,
    lent: bool,
    categories: Vec<u8>,
    base: Vec<u32>,
    actions: Vec<u8>,
    masks: Vec<u32>,
}

impl Line {
    /// Joins letters, each with its base mask, and holds the line.
    ///
    /// Refused are over 4,096 letters or over 64 around them ([`Refusal::TooLong`]), and base masks that are not one for each
    /// letter ([`Refusal::Uneven`]).
    pub fn join(letters: &[Letter], base: &[u32], setting: Setting) -> Result<Line, Refusal> {
        Line::held(letters, true, base, setting)
    }

    /// Joins characters, each with its general category and its base mask, and holds the line. How they join is what Unicode lists.
    ///
    /// Refused are over 4,096 characters or over 64 around them ([`Refusal::TooLong`]), and base masks that are not one for each
    /// character ([`Refusal::Uneven`]).
    ///
    /// ```
    /// use thawtrundle::{Action, Category, Line, Setting};
    ///
    /// let word = [('\u{0628}', Category::Lo), ('\u{064E}', Category::Mn), ('\u{0627}', Category::Lo)];
    /// let line = Line::from_chars(&word, &[0; 3], Setting::new([1, 2, 4, 8, 16, 32, 64]))?;
    /// assert_eq!([line.action(0), line.action(1), line.action(2)], [Action::Init, Action::None, Action::Fina]);
    /// # Ok::<(), thawtrundle::Refusal>(())
    /// ```
    pub fn from_chars(letters: &[(char, Category)], base: &[u32], setting: Setting) -> Result<Line, Refusal> {
        let letters: Vec<Letter> = letters.iter().map(Letter::listed).collect();
        Line::held(&letters, false, base, setting)
    }

    /// Joins a text as [`Line::from_chars`] does its characters. `category` says the general category of each, as the caller's own
    /// data of Unicode has it; there is one base mask for each character, not for each byte.
    ///
    /// ```
    /// use thawtrundle::{Action, Category, Line, Setting};
    ///
    /// let text = "\u{0628}\u{0628}\u{0628}";
    /// let mut line = Line::from_text(text, |_| Category::Lo, &[0; 3], Setting::new([1, 2, 4, 8, 16, 32, 64]))?;
    /// assert_eq!([line.action(0), line.action(1), line.action(2)], [Action::Init, Action::Medi, Action::Fina]);
    /// line.replace_char(1, '\u{0621}', Category::Lo)?;
    /// assert_eq!([line.action(0), line.action(1), line.action(2)], [Action::Isol, Action::None, Action::Isol]);
    /// # Ok::<(), thawtrundle::Refusal>(())
    /// ```
    pub fn from_text(
        text: &str,
        mut category: impl FnMut(char) -> Category,
        base: &[u32],
        setting: Setting,
    ) -> Result<Line, Refusal> {
        let letters: Vec<(char, Category)> = text.chars().map(|character| (character, category(character))).collect();
        Line::from_chars(&letters, base, setting)
    }

    fn held(letters: &[Letter], lent: bool, base: &[u32], setting: Setting) -> Result<Line, Refusal> {
        let mut line = Line {
            setting,
            codes: letters.iter().map(|letter| letter.code).collect(),
            types: letters.iter().map(|letter| letter.joining_type.number()).collect(),
            lent,
            categories: letters.iter().map(|letter| letter.category.number()).collect(),
            base: base.to_vec(),
            actions: vec![0; letters.len()],
            masks: vec![0; letters.len()],
        };
        line.join_again()?;
        Ok(line)
    }

    /// Joins the line again in another setting. A refusal leaves the line in the setting that it had.
    pub fn rejoin(&mut self, setting: Setting) -> Result<(), Refusal> {
        let old = std::mem::replace(&mut self.setting, setting);
        let joined = self.join_again();
        if joined.is_err() {
            self.setting = old;
        }
        joined
    }

    /// By codes, as long as no type was lent.
    fn join_again(&mut self) -> Result<(), Refusal> {
        match self.setting.around_codes().filter(|_| !self.lent) {
            Some(around) => {
                calls::join_codes(&self.codes, &self.categories, &around, &self.base, &mut self.actions, &mut self.masks)
            }
            None => calls::join_line(
                &self.codes,
                &self.types,
                &self.categories,
                &self.setting.around(),
                &self.base,
                &mut self.actions,
                &mut self.masks,
            ),
        }
    }

    /// Puts a character in the place of a letter, and renews the forms that go by it. How it joins is what Unicode lists. It costs less
    /// than joining the line, and more than [`Line::replace`] where no type was lent: the types of the whole line are looked up again.
    ///
    /// Refused is a place at or past the length ([`Refusal::Place`]); the line is then as it was.
    pub fn replace_char(&mut self, place: usize, character: char, category: Category) -> Result<(), Refusal> {
        let letter = Letter::listed(&(character, category));
        let Some(around) = self.setting.around_codes().filter(|_| !self.lent) else {
            return self.put(place, letter);
        };
        calls::replace_code(
            &mut self.codes,
            &mut self.categories,
            &around,
            &self.base,
            &mut self.actions,
            &mut self.masks,
            &CodeRequest { place, code: letter.code, category: category.number() },
        )?;
        self.types[place] = letter.joining_type.number();
        Ok(())
    }

    /// Puts a letter in the place of another, and renews the forms that go by it. Beyond the tests of the columns it costs what stands
    /// around the place. The letter's type is taken as it is given: see [`Line`], "Types".
    ///
    /// Refused is a place at or past the length ([`Refusal::Place`]); the line is then as it was.
    pub fn replace(&mut self, place: usize, letter: Letter) -> Result<(), Refusal> {
        self.put(place, letter)?;
        self.lent = true;
        Ok(())
    }

    fn put(&mut self, place: usize, letter: Letter) -> Result<(), Refusal> {
        let request =
            Request { place, code: letter.code, joining_type: letter.joining_type.number(), category: letter.category.number() };
        calls::replace_letter(
            &mut self.codes,
            &mut self.types,
            &mut self.categories,
            &self.setting.around(),
            &self.base,
            &mut self.actions,
            &mut self.masks,
            &request,
        )
    }

    /// The records whose action is another than in a copy made before letters were replaced, in their order. It looks at all of them.
    pub fn changes_from(&self, old: &Line) -> Vec<Change> {
        let both = old.actions.iter().zip(&self.actions).enumerate();
        both.filter(|(_, (from, to))| from != to)
            .map(|(place, (&from, &to))| Change { place, from: action(from), to: action(to) })
            .collect()
    }

    /// How many records the line has.
    pub fn len(&self) -> usize {
        self.codes.len()
    }

    /// Whether the line has no record.
    pub fn is_empty(&self) -> bool {
        self.codes.is_empty()
    }

    /// What the line is joined with.
    pub fn setting(&self) -> &Setting {
        &self.setting
    }

    /// The code points.
    pub fn codes(&self) -> &[u32] {
        &self.codes
    }

    /// The joining types, by their numbers: those that Unicode lists for the codes, but for letters whose type was lent.
    pub fn types(&self) -> &[u8] {
        &self.types
    }

    /// Whether a type was lent: the line was made by [`Line::join`], a letter was put into it by [`Line::replace`], or letters around
    /// it were given by [`Setting::before`] or [`Setting::behind`]. If not, all of them are those that Unicode lists.
    pub fn has_lent_types(&self) -> bool {
        self.lent || self.setting.around_codes().is_none()
    }

    /// The general categories, by their numbers.
    pub fn categories(&self) -> &[u8] {
        &self.categories
    }

    /// The base masks, which no call writes.
    pub fn base_masks(&self) -> &[u32] {
        &self.base
    }

    /// The actions, by their numbers.
    pub fn actions(&self) -> &[u8] {
        &self.actions
    }

    /// The masks: each the base mask OR the feature mask of the action.
    pub fn masks(&self) -> &[u32] {
        &self.masks
    }

    /// The action at a place, which must be below the length.
    pub fn action(&self, place: usize) -> Action {
        action(self.actions[place])
    }
}

/// Joining and replacing give no number that is no action.
fn action(number: u8) -> Action {
    Action::from_number(number).expect("an action is 0 to 9")
}
