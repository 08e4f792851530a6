//! The error type that the original's sources report through.

/// Why the original code stopped.
#[derive(Clone, Debug, PartialEq, Eq)]
pub enum Error {
    /// It called `errinput!`; the argument list is kept as it was written, so
    /// that the place in the source that refused can be told.
    Input(&'static str),
    /// A number did not read as an integer or as a float.
    Number,
}

/// A result with that error.
pub type Result<T> = std::result::Result<T, Error>;

/// Makes an [`Error::Input`], or a result that holds one.
#[macro_export]
macro_rules! errinput {
    ($($args:tt)*) => {{
        let _ = format_args!($($args)*);
        $crate::error::Error::Input(stringify!($($args)*)).into()
    }};
}

/// What `errinput!` leaves to its caller: an error, or a result that is one.
impl<T> From<Error> for Result<T> {
    fn from(made: Error) -> Self {
        Self::Err(made)
    }
}

impl From<std::num::ParseIntError> for Error {
    fn from(_: std::num::ParseIntError) -> Self {
        Error::Number
    }
}

impl From<std::num::ParseFloatError> for Error {
    fn from(_: std::num::ParseFloatError) -> Self {
        Error::Number
    }
}

/// The original's source asks for it; there is no such error.
impl From<regex::Error> for Error {
    fn from(_: regex::Error) -> Self {
        unreachable!("no pattern is ever made")
    }
}
