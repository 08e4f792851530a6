//! Refusals: why there is no answer, and where.

use std::fmt::{Display, Formatter};

/// What is said of a refusal.
struct Entry {
    /// Its name in docs/FORMAT.md.
    name: &'static str,
    /// What its place is the number of, if it has one.
    place: Option<&'static str>,
    /// What it means, for people.
    sentence: &'static str,
}

/// Makes [`Refusal`] and all that is said of each from one table, by rising numbers.
macro_rules! refusals {
    ($($refusal:ident = $number:literal, $name:literal, $place:expr, $sentence:literal;)*) => {
        /// Why an entry has no answer (FORMAT §11.1).
        #[derive(Clone, Copy, Debug, PartialEq, Eq, PartialOrd, Ord, Hash)]
        #[repr(u32)]
        pub enum Refusal {
            $(#[doc = concat!($name, ": ", $sentence, ".")] $refusal = $number,)*
        }

        impl Refusal {
            /// All refusals, by rising numbers.
            pub const ALL: &[Refusal] = &[$(Refusal::$refusal),*];

            /// Its line of the table.
            fn entry(self) -> Entry {
                match self {
                    $(Refusal::$refusal => {
                        Entry { name: $name, place: $place, sentence: $sentence }
                    })*
                }
            }
        }
    };
}

// A line each: number, name, what its place is the number of, what it means.
refusals! {
    TooLong = 1, "TOO_LONG", None, "the text, the tokens or the rows are more than the limits allow";
    BadTable = 2, "BAD_TABLE", Some("token"), "this token has an unknown kind or lies outside the text, or the table ends within it";
    End = 3, "END", Some("token"), "the expression stops too early";
    NoAtom = 4, "NO_ATOM", Some("token"), "no operand can start with this token";
    WrongToken = 5, "WRONG_TOKEN", Some("token"), "something else is needed here: a `)`, a `,`, a column's name after `.`, or NULL or NAN after IS";
    LeftOver = 6, "LEFT_OVER", Some("token"), "the expression ends before this token";
    BadNumber = 7, "BAD_NUMBER", Some("token"), "this is no number, or a whole number that is too large";
    TooDeep = 8, "TOO_DEEP", Some("token"), "the expression is nested more than 64 levels deep";
    NoRoom = 9, "NO_ROOM", Some("token"), "the expression needs more rows than there is room for";
    BadTree = 10, "BAD_TREE", Some("row"), "at this row the predicate stops being one whole tree";
    TooMany = 11, "TOO_MANY", None, "the predicate comes to more than 1,024 clauses or 8,192 literals";
    NoList = 12, "NO_LIST", None, "a list lent for the clauses is too short";
    NotLookup = 13, "NOT_LOOKUP", None, "the clause is no lookup on one column";
    NoSuch = 14, "NO_SUCH", None, "there is no clause or value with this number";
}

impl Refusal {
    /// The refusal with a number, if there is one.
    ///
    /// ```
    /// use fontrisc::Refusal;
    /// assert_eq!(Refusal::of(4), Some(Refusal::NoAtom));
    /// assert_eq!(Refusal::of(0), None);
    /// ```
    pub fn of(number: u32) -> Option<Refusal> {
        Refusal::ALL.iter().copied().find(|refusal| refusal.number() == number)
    }

    /// The number that the C functions return for it.
    pub fn number(self) -> u32 {
        self as u32
    }

    /// Its name in docs/FORMAT.md, as NO_ATOM.
    pub fn name(self) -> &'static str {
        self.entry().name
    }

    /// What its place is the number of, a "token" or a "row"; none where it has no
    /// place.
    pub fn place_of(self) -> Option<&'static str> {
        self.entry().place
    }

    /// What it means, for people.
    pub fn sentence(self) -> &'static str {
        self.entry().sentence
    }
}

impl Display for Refusal {
    fn fmt(&self, f: &mut Formatter<'_>) -> std::fmt::Result {
        f.write_str(self.name())
    }
}

/// A refusal and its place: what an entry gives when it has no answer.
///
/// ```
/// use fontrisc::{Refusal, Refused};
/// let refused = Refused { why: Refusal::End, place: 2 };
/// assert_eq!(refused.to_string(), "END (3) at token 2: the expression stops too early");
/// let refused = Refused { why: Refusal::NotLookup, place: 0 };
/// assert_eq!(refused.to_string(), "NOT_LOOKUP (13): the clause is no lookup on one column");
/// ```
#[derive(Clone, Copy, Debug, PartialEq, Eq, Hash)]
pub struct Refused {
    /// Why.
    pub why: Refusal,
    /// Where: the number of a token or of a row; 0 where there is no place.
    pub place: usize,
}

impl Display for Refused {
    fn fmt(&self, f: &mut Formatter<'_>) -> std::fmt::Result {
        write!(f, "{} ({})", self.why, self.why.number())?;
        if let Some(what) = self.why.place_of() {
            write!(f, " at {what} {}", self.place)?;
        }
        write!(f, ": {}", self.why.sentence())
    }
}

impl std::error::Error for Refused {}
