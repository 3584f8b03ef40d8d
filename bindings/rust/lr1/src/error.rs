//! Errors.

use std::fmt;

/// Why there is no result.
#[derive(Clone, Debug, PartialEq, Eq)]
#[non_exhaustive]
pub enum Error {
    /// This is no name of a nonterminal. A name has ASCII letters, digits and `_`, and begins with
    /// no digit.
    Name(String),
    /// This is no text of a literal. It is empty, or has a double quote, a blank, a tab, a line end
    /// or the character U+0000.
    Literal(String),
    /// This word has the character U+0000.
    Word(String),
    /// The grammar, or what is asked of it, has a fault. The text is the library's message, such as
    /// `line 2: not a grammar line`.
    Fault(String),
    /// There is not enough memory.
    OutOfMemory,
    /// The library's answer has another form than this crate knows.
    Answer(String),
}

impl Error {
    /// The number of the line of the grammar's text that has a fault, from 1.
    pub fn line(&self) -> Option<usize> {
        match self {
            Error::Fault(message) => message.strip_prefix("line ")?.split(':').next()?.parse().ok(),
            _ => None,
        }
    }
}

impl fmt::Display for Error {
    fn fmt(&self, to: &mut fmt::Formatter<'_>) -> fmt::Result {
        match self {
            Error::Name(text) => write!(
                to,
                "{text:?} is not a name: use ASCII letters, digits and _, and no digit first"
            ),
            Error::Literal(text) if text.is_empty() => to.write_str("a literal is empty: leave it out"),
            Error::Literal(text) => {
                write!(
                    to,
                    "the literal {text:?} has a double quote, a blank, a tab, a line end or U+0000"
                )
            }
            Error::Word(text) => write!(to, "the word {text:?} has a character U+0000"),
            Error::Fault(message) => to.write_str(message),
            Error::OutOfMemory => to.write_str("out of memory"),
            Error::Answer(text) => write!(to, "an answer of another form: {text}"),
        }
    }
}

impl std::error::Error for Error {}
