//! Joining types, general categories and actions.
use crate::calls;

/// The version of Unicode whose joining types are looked up.
pub const UNICODE_VERSION: &str = "18.0.0";

/// An enum by numbers: each name with its number and what it is.
macro_rules! numbered {
    ($(#[$about:meta])* $name:ident { $($(#[$what:meta])* $case:ident = $number:literal,)* }) => {
        $(#[$about])*
        #[derive(Clone, Copy, Debug, PartialEq, Eq, Hash)]
        #[repr(u8)]
        pub enum $name { $($(#[$what])* $case = $number,)* }

        impl $name {
            /// Its number, as columns have it.
            pub const fn number(self) -> u8 {
                self as u8
            }

            /// The one that has this number, if there is one.
            pub const fn from_number(number: u8) -> Option<Self> {
                match number {
                    $($number => Some($name::$case),)*
                    _ => None,
                }
            }
        }
    };
}

numbered! {
    /// How a letter joins its neighbours. Joining causers, as the tatweel, are `D`.
    JoiningType {
        /// Joins on neither side.
        U = 0,
        /// Joins the letter behind it.
        L = 1,
        /// Joins the letter before it.
        R = 2,
        /// Joins on both sides.
        D = 3,
        /// The Syriac letter Alaph.
        Alaph = 4,
        /// The Syriac letters Dalath and Rish.
        DalathRish = 5,
        /// Transparent: joining passes over it.
        T = 6,
        /// `T` for the categories `Mn`, `Me` and `Cf`, and `U` otherwise.
        X = 7,
    }
}

impl JoiningType {
    /// The type that Unicode lists for a character, in [`UNICODE_VERSION`]. One that it does not list is `X`.
    ///
    /// ```
    /// use thawtrundle::JoiningType;
    ///
    /// assert_eq!(JoiningType::of('\u{0628}'), JoiningType::D); // beh
    /// assert_eq!(JoiningType::of('\u{0710}'), JoiningType::Alaph);
    /// assert_eq!(JoiningType::of('\u{200C}'), JoiningType::U); // listed, so that its category does not matter
    /// assert_eq!(JoiningType::of('\u{064E}'), JoiningType::X); // a mark, by its category
    /// ```
    pub fn of(character: char) -> JoiningType {
        JoiningType::from_number(calls::joining_type(character.into())).expect("a type is 0 to 7")
    }
}

numbered! {
    /// A general category of Unicode, by its two letters.
    Category {
        /// Control.
        Cc = 0,
        /// Format.
        Cf = 1,
        /// Unassigned.
        Cn = 2,
        /// Private use.
        Co = 3,
        /// Surrogate.
        Cs = 4,
        /// Lowercase letter.
        Ll = 5,
        /// Modifier letter.
        Lm = 6,
        /// Other letter.
        Lo = 7,
        /// Titlecase letter.
        Lt = 8,
        /// Uppercase letter.
        Lu = 9,
        /// Spacing mark.
        Mc = 10,
        /// Enclosing mark.
        Me = 11,
        /// Nonspacing mark.
        Mn = 12,
        /// Decimal number.
        Nd = 13,
        /// Letter number.
        Nl = 14,
        /// Other number.
        No = 15,
        /// Connector punctuation.
        Pc = 16,
        /// Dash punctuation.
        Pd = 17,
        /// Close punctuation.
        Pe = 18,
        /// Final punctuation.
        Pf = 19,
        /// Initial punctuation.
        Pi = 20,
        /// Other punctuation.
        Po = 21,
        /// Open punctuation.
        Ps = 22,
        /// Currency symbol.
        Sc = 23,
        /// Modifier symbol.
        Sk = 24,
        /// Mathematical symbol.
        Sm = 25,
        /// Other symbol.
        So = 26,
        /// Line separator.
        Zl = 27,
        /// Paragraph separator.
        Zp = 28,
        /// Space separator.
        Zs = 29,
    }
}

numbered! {
    /// What a record becomes: a form by joining, or a tile by recording.
    Action {
        /// Isolated.
        Isol = 0,
        /// Final.
        Fina = 1,
        /// The second final form, of the Syriac Alaph.
        Fin2 = 2,
        /// The third final form, of the Syriac Alaph.
        Fin3 = 3,
        /// Medial.
        Medi = 4,
        /// The second medial form, of the Syriac Alaph.
        Med2 = 5,
        /// Initial.
        Init = 6,
        /// No form.
        None = 7,
        /// A tile that is laid once.
        Fixed = 8,
        /// A tile that is repeated.
        Repeating = 9,
    }
}
