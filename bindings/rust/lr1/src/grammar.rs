//! Grammars, production by production or as a text.

use crate::json::{self, Value};
use crate::{ask, Error, Method, Status, Tables};
use std::fmt;

/// A symbol of a right side, or of a parse tree.
#[derive(Clone, Copy, Debug, PartialEq, Eq, Hash, PartialOrd, Ord)]
pub enum Symbol<'text> {
    /// A nonterminal, by its name.
    Nonterminal(&'text str),
    /// A terminal, by its text.
    Literal(&'text str),
}

impl fmt::Display for Symbol<'_> {
    fn fmt(&self, to: &mut fmt::Formatter<'_>) -> fmt::Result {
        match self {
            Symbol::Nonterminal(name) => to.write_str(name),
            Symbol::Literal(text) => write!(to, "\"{text}\""),
        }
    }
}

/// What is wrong or doubtful with a grammar. Its text is a line for an editor, without a file.
///
/// ```
/// let found = lr1::Grammar::from_text("S = Exp").check("S")?;
/// let line = "1:5: warning: `Exp` has no production; write one, or mend the name";
/// assert_eq!(found[0].to_string(), line);
/// # Ok::<(), lr1::Error>(())
/// ```
#[derive(Clone, Debug, PartialEq, Eq)]
pub struct Finding {
    /// Whether the grammar cannot be read for it.
    pub is_error: bool,
    /// The line of the place, from 1.
    pub line: usize,
    /// The column of the place in characters, from 1.
    pub column: usize,
    /// The offset of the place in bytes of the text.
    pub start: usize,
    /// The offset of what is after the place.
    pub end: usize,
    /// What it is.
    pub message: String,
    /// A way out.
    pub hint: String,
}

impl fmt::Display for Finding {
    fn fmt(&self, to: &mut fmt::Formatter<'_>) -> fmt::Result {
        let severity = if self.is_error { "error" } else { "warning" };
        let (line, column) = (self.line, self.column);
        write!(to, "{line}:{column}: {severity}: {}; {}", self.message, self.hint)
    }
}

/// A grammar, as a text with one production in a line.
///
/// ```
/// use lr1::{Grammar, Symbol::Literal};
///
/// let mut grammar = Grammar::new();
/// grammar.add_production("S", &[Literal("("), Literal(")")])?;
/// assert_eq!(grammar.text(), "S = \"(\" \")\"\n");
/// assert!(grammar.add_production("S", &[Literal("a b")]).is_err());
/// # Ok::<(), lr1::Error>(())
/// ```
#[derive(Clone, Debug, Default, PartialEq, Eq)]
pub struct Grammar {
    text: String,
}

impl Grammar {
    /// A grammar without productions.
    pub fn new() -> Grammar {
        Grammar::default()
    }

    /// A grammar of a text. A fault in it is reported when something is asked of the grammar.
    ///
    /// ```
    /// let error = lr1::Grammar::from_text("S = \"a\"\nS : \"b\"").tables("S").unwrap_err();
    /// assert_eq!(error.line(), Some(2));
    /// ```
    pub fn from_text(text: impl Into<String>) -> Grammar {
        Grammar { text: text.into() }
    }

    /// The text of the grammar.
    pub fn text(&self) -> &str {
        &self.text
    }

    /// Adds a production. If a name or a literal has a fault, the grammar stays as it is.
    pub fn add_production(&mut self, name: &str, symbols: &[Symbol<'_>]) -> Result<&mut Grammar, Error> {
        let mut line = format!("{} =", checked_name(name)?);
        for symbol in symbols {
            line += &format!(" {}", checked(*symbol)?);
        }
        Ok(self.with_line(&line))
    }

    /// Marks a nonterminal, which is replaced by its right sides before tables are made.
    pub fn inline(&mut self, name: &str) -> Result<&mut Grammar, Error> {
        let line = format!("inline {}", checked_name(name)?);
        Ok(self.with_line(&line))
    }

    fn with_line(&mut self, line: &str) -> &mut Grammar {
        if !self.text.is_empty() && !self.text.ends_with('\n') {
            self.text.push('\n');
        }
        self.text += line;
        self.text.push('\n');
        self
    }

    /// The tables for a start symbol, or the states and conflicts if the grammar is not LR(1).
    pub fn tables(&self, start: &str) -> Result<Tables, Error> {
        self.tables_by(start, Method::default())
    }

    /// The same by a method.
    pub fn tables_by(&self, start: &str, method: Method) -> Result<Tables, Error> {
        Tables::new(&self.text, checked_name(start)?, method)
    }

    /// What is wrong or doubtful with the grammar, in the order of the command `lrshow .. check`.
    /// Conflicts are warnings. A faulty line is an error in the list.
    ///
    /// ```
    /// let found = lr1::Grammar::from_text("S = Exp\nExpr = \"n\"").check("S")?;
    /// assert_eq!(found[0].message, "`Exp` has no production");
    /// assert_eq!(found[0].hint, "perhaps `Expr` is meant");
    /// # Ok::<(), lr1::Error>(())
    /// ```
    pub fn check(&self, start: &str) -> Result<Vec<Finding>, Error> {
        let answer = ask(
            &self.text,
            &[checked_name(start)?, "check", "--json"],
            Method::default(),
        )?;
        if answer.status == Status::Fault && !answer.text.starts_with('[') {
            return Err(Error::Fault(answer.text.trim_end().to_string()));
        }
        let findings = json::read(&answer.text).and_then(|it| it.list(finding));
        findings.ok_or(Error::Answer(answer.text))
    }
}

fn finding(value: &Value) -> Option<Finding> {
    Some(Finding {
        is_error: value.get("severity")?.text()? == "error",
        line: value.get("line")?.number()?,
        column: value.get("column")?.number()?,
        start: value.get("start")?.number()?,
        end: value.get("end")?.number()?,
        message: value.get("message")?.text()?,
        hint: value.get("hint")?.text()?,
    })
}

fn checked_name(name: &str) -> Result<&str, Error> {
    let is_name = name.bytes().all(|it| it.is_ascii_alphanumeric() || it == b'_');
    if is_name && name.starts_with(|it: char| !it.is_ascii_digit()) {
        Ok(name)
    } else {
        Err(Error::Name(name.to_string()))
    }
}

fn checked(symbol: Symbol<'_>) -> Result<Symbol<'_>, Error> {
    match symbol {
        Symbol::Nonterminal(name) => checked_name(name).map(Symbol::Nonterminal),
        Symbol::Literal(text) if text.is_empty() || text.contains(['"', ' ', '\t', '\n', '\0']) => {
            Err(Error::Literal(text.to_string()))
        }
        Symbol::Literal(_) => Ok(symbol),
    }
}
