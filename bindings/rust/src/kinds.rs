//! What an item holds: the tables of kinds, usages, signs and storages, each with its number in answers and its word.

/// An enum whose values have a number in the C interface and a word: one line a value.
macro_rules! numbered {
    ($($(#[$about:meta])* $name:ident { $($value:ident = $number:literal $word:literal),* $(,)? })*) => { $(
        $(#[$about])*
        #[derive(Debug, Clone, Copy, PartialEq, Eq)]
        #[repr(u8)]
        pub enum $name { $($value = $number),* }

        impl $name {
            /// Every value, in the order of the numbers.
            pub const ALL: &'static [$name] = &[$($name::$value),*];

            /// Its number in answers.
            pub fn number(self) -> u8 {
                self as u8
            }

            /// Its word, for people.
            pub fn word(self) -> &'static str {
                match self {
                    $($name::$value => $word),*
                }
            }

            /// The value of a word, whatever its case.
            pub fn of_word(word: &str) -> Option<$name> {
                $name::ALL.iter().copied().find(|value| value.word().eq_ignore_ascii_case(word))
            }

            /// The value of a number in answers.
            pub fn of_number(number: u64) -> Option<$name> {
                match number {
                    $($number => Some($name::$value),)*
                    _ => None,
                }
            }
        }
    )* };
}

numbered! {
    /// The usage that a picture is asked with.
    Usage { Display = 0 "display", Comp3 = 1 "comp-3", Comp = 2 "comp" }

    /// Whether and where a number has its sign. In a question, no SIGN clause is 0 and these are one more.
    SignKind {
        Unsigned = 0 "unsigned",
        Embedded = 1 "embedded",
        LeadingSeparate = 2 "leading-separate",
        TrailingSeparate = 3 "trailing-separate",
    }

    /// What a SIGN clause says; TRAILING where it has neither word. No clause is 0.
    SignClause {
        Trailing = 1 "trailing",
        Leading = 2 "leading",
        SeparateTrailing = 3 "separate trailing",
        SeparateLeading = 4 "separate leading",
    }

    /// How a decimal is stored.
    NumRepr { Display = 0 "display", Comp3 = 1 "packed", Zoned = 2 "zoned" }
}

/// Where the facts of a kind are read from: each is asked for in the order of the listing.
pub(crate) trait Facts<'t> {
    fn signed(&mut self) -> bool;
    fn sign(&mut self) -> SignKind;
    fn precision(&mut self) -> u8;
    fn scale(&mut self) -> u8;
    fn repr(&mut self) -> NumRepr;
    fn picture(&mut self) -> &'t str;
    fn members(&mut self) -> usize;
    fn bits(&mut self) -> u8;
}

/// The kinds: number, word, and the facts that follow in a listing, in its order; each is a function of [`Facts`].
macro_rules! kinds {
    ($($(#[$about:meta])* $number:literal $word:literal $kind:ident $({ $($fact:ident: $holds:ty),* })?;)*) => {
        /// What an item holds.
        #[derive(Debug, Clone, Copy, PartialEq, Eq)]
        pub enum FieldKind<'t> { $($(#[$about])* $kind $({ $($fact: $holds),* })?,)* }

        impl<'t> FieldKind<'t> {
            /// The kind's number in answers.
            pub fn number(&self) -> u8 {
                match self {
                    $(FieldKind::$kind { .. } => $number,)*
                }
            }

            /// The kind's word in a printed layout.
            pub fn word(&self) -> &'static str {
                match self {
                    $(FieldKind::$kind { .. } => $word,)*
                }
            }

            /// The kind of that number, with its facts.
            pub(crate) fn read(number: u64, from: &mut impl Facts<'t>) -> FieldKind<'t> {
                match number {
                    $($number => FieldKind::$kind { $($($fact: from.$fact()),*)? },)*
                    _ => unreachable!("no kind has number {number}"),
                }
            }
        }
    };
}

kinds! {
    1 "text" Text;
    2 "int" Int { signed: bool, sign: SignKind };
    /// Big-endian.
    3 "bin" Binary { signed: bool };
    4 "dec" Decimal { precision: u8, scale: u8, repr: NumRepr, sign: SignKind };
    /// An edited number, with its picture as the text has it; [`crate::mask`] gives that without repeat counts.
    5 "edit" Edited { precision: u8, scale: u8, signed: bool, picture: &'t str };
    /// The members follow it.
    6 "group" Group { members: usize };
    /// COMP-1 has 32 bits, COMP-2 has 64. Big-endian.
    7 "float" Float { bits: u8 };
}
