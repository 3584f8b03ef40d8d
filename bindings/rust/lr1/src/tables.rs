//! Tables of a grammar, or its states and conflicts.

use crate::json::{self, Value};
use crate::{ask, Error, Method, Status, Symbol, Tree};
use std::collections::BTreeMap;

/// A production, with marked nonterminals inlined.
#[derive(Clone, Debug, PartialEq, Eq)]
pub struct Production {
    /// Its number: that of its line among the lines with a production, from 0, if it has one.
    pub number: usize,
    /// Its left side.
    pub nonterminal: String,
    symbols: Vec<(bool, String)>,
}

impl Production {
    /// Its right side.
    pub fn symbols(&self) -> impl ExactSizeIterator<Item = Symbol<'_>> {
        self.symbols.iter().map(|(is_literal, text)| match is_literal {
            true => Symbol::Literal(text),
            false => Symbol::Nonterminal(text),
        })
    }
}

/// An item of a state.
#[derive(Clone, Debug, PartialEq, Eq)]
pub struct Item {
    /// The number of its production.
    pub production: usize,
    /// How many symbols are before the dot.
    pub dot: usize,
    /// The number of its set of tokens, or `None` if it has all, as in lane tables.
    pub lookahead: Option<usize>,
}

/// A reduction of a state.
#[derive(Clone, Debug, PartialEq, Eq)]
pub struct Reduction {
    /// The number of its production.
    pub production: usize,
    /// The number of the set of tokens on which it is made.
    pub lookahead: usize,
}

/// A state of the parser.
#[derive(Clone, Debug, PartialEq, Eq)]
pub struct State {
    /// Its items.
    pub items: Vec<Item>,
    /// The state that each terminal leads to.
    pub shifts: BTreeMap<String, usize>,
    /// The state that each nonterminal leads to.
    pub gotos: BTreeMap<String, usize>,
    /// Its reductions.
    pub reductions: Vec<Reduction>,
}

/// An action of a conflict.
#[derive(Clone, Debug, PartialEq, Eq)]
pub enum Action {
    /// A reduction by the production of this number.
    Reduce(usize),
    /// A shift of a terminal.
    Shift {
        /// The terminal.
        terminal: String,
        /// The state that it leads to.
        state: usize,
    },
}

/// Two actions of a state on the same tokens.
#[derive(Clone, Debug, PartialEq, Eq)]
pub struct Conflict {
    /// The number of the state.
    pub state: usize,
    /// The number of the set of tokens.
    pub lookahead: usize,
    /// The two actions, the first of which is a reduction.
    pub actions: Vec<Action>,
}

/// How a parse ends.
#[derive(Clone, Debug, PartialEq, Eq)]
pub enum ParseOutcome {
    /// The parse tree.
    Tree(Tree),
    /// The first wrong token, or `None` if it is the end of the input.
    Refused(Option<String>),
    /// There are more steps than the limit.
    Limit,
    /// The grammar is not LR(1), and has so many conflicts.
    Conflicts(usize),
}

/// LR(1) tables of a grammar, or its states and conflicts if the grammar is not LR(1).
#[derive(Clone, Debug, PartialEq, Eq)]
pub struct Tables {
    text: String,
    start: String,
    method: Method,
    json: String,
    terminals: Vec<String>,
    productions: Vec<Production>,
    sets: Vec<Vec<Option<String>>>,
    states: Vec<State>,
    conflicts: Vec<Conflict>,
}

impl Tables {
    pub(crate) fn new(text: &str, start: &str, method: Method) -> Result<Tables, Error> {
        let json = asked(text, start, method, &["json"])?;
        let read = json::read(&json).and_then(|data| {
            Some(Tables {
                text: text.to_string(),
                start: start.to_string(),
                method,
                terminals: data.get("terminals")?.list(Value::text)?,
                productions: data.get("productions")?.list(production)?,
                sets: data
                    .get("sets")?
                    .list(|set| set.list(|it| it.option(Value::text)))?,
                states: data.get("states")?.list(state)?,
                conflicts: data.get("conflicts")?.list(conflict)?,
                json: String::new(),
            })
        });
        match read {
            Some(tables) => Ok(Tables { json, ..tables }),
            None => Err(Error::Answer(json)),
        }
    }

    /// Whether there are tables, and no conflicts.
    pub fn is_lr1(&self) -> bool {
        self.conflicts.is_empty()
    }

    /// The terminals.
    pub fn terminals(&self) -> &[String] {
        &self.terminals
    }

    /// The productions. Their numbers may have gaps.
    pub fn productions(&self) -> &[Production] {
        &self.productions
    }

    /// The states, by their numbers.
    pub fn states(&self) -> &[State] {
        &self.states
    }

    /// The conflicts.
    pub fn conflicts(&self) -> &[Conflict] {
        &self.conflicts
    }

    /// The set of tokens of a number. The token `None` is the end of the input.
    ///
    /// # Panics
    ///
    /// If no `lookahead` of these tables has the number.
    ///
    /// ```
    /// let tables = lr1::Grammar::from_text("S = \"x\"").tables("S")?;
    /// assert_eq!(tables.lookahead(tables.states()[1].reductions[0].lookahead), [None]);
    /// # Ok::<(), lr1::Error>(())
    /// ```
    pub fn lookahead(&self, number: usize) -> &[Option<String>] {
        &self.sets[number]
    }

    /// The data of all this as JSON, with examples for the conflicts.
    pub fn json(&self) -> &str {
        &self.json
    }

    /// Parses tokens, each the text of a terminal. Each shift and each reduction is a step, of which
    /// a parse makes at most `limit`.
    ///
    /// ```
    /// # use lr1::{Grammar, ParseOutcome};
    /// let tables = Grammar::from_text("S = \"x\"").tables("S")?;
    /// assert_eq!(tables.parse(&["y"], 9)?, ParseOutcome::Refused(Some("y".to_string())));
    /// assert_eq!(tables.parse(&[""; 0], 9)?, ParseOutcome::Refused(None));
    /// # Ok::<(), lr1::Error>(())
    /// ```
    pub fn parse(&self, tokens: &[impl AsRef<str>], limit: u64) -> Result<ParseOutcome, Error> {
        let limit = limit.to_string();
        let mut words = vec!["parse", &limit];
        words.extend(tokens.iter().map(AsRef::as_ref));
        let line = self.asked(&words)?;
        outcome(&line).ok_or(Error::Answer(line))
    }

    /// The states as a text, with their conflicts.
    pub fn report(&self) -> Result<String, Error> {
        self.asked(&["report"])
    }

    /// The conflicts with examples of input, as a text.
    pub fn explain(&self) -> Result<String, Error> {
        self.asked(&["explain"])
    }

    /// The conflicts by their causes, with two derivations of one input, as a text.
    pub fn causes(&self) -> Result<String, Error> {
        self.asked(&["conflicts"])
    }

    /// A graph of the states for Graphviz.
    pub fn dot(&self) -> Result<String, Error> {
        self.asked(&["dot"])
    }

    /// A page for a browser.
    pub fn html(&self) -> Result<String, Error> {
        self.asked(&["html"])
    }

    fn asked(&self, words: &[&str]) -> Result<String, Error> {
        asked(&self.text, &self.start, self.method, words)
    }
}

/// The text of an answer that is no fault.
fn asked(text: &str, start: &str, method: Method, words: &[&str]) -> Result<String, Error> {
    let words = [&[start], words].concat();
    let answer = ask(text, &words, method)?;
    match answer.status {
        Status::Fault => Err(Error::Fault(answer.text.trim_end().to_string())),
        Status::Ok | Status::Refused => Ok(answer.text),
    }
}

fn outcome(line: &str) -> Option<ParseOutcome> {
    if line.starts_with('[') {
        return Tree::of(line).map(ParseOutcome::Tree);
    }
    let line = line.strip_suffix('\n')?;
    if let Some(count) = line.strip_prefix("conflicts: ") {
        return count.parse().ok().map(ParseOutcome::Conflicts);
    }
    match line.strip_prefix("refused at ") {
        Some("Eof") => Some(ParseOutcome::Refused(None)),
        Some(token) => {
            let token = token.strip_prefix('"')?.strip_suffix('"')?;
            Some(ParseOutcome::Refused(Some(token.to_string())))
        }
        None => (line == "limit").then_some(ParseOutcome::Limit),
    }
}

fn production(value: &Value) -> Option<Production> {
    Some(Production {
        number: value.get("number")?.number()?,
        nonterminal: value.get("nonterminal")?.text()?,
        symbols: value.get("symbols")?.list(symbol)?,
    })
}

fn symbol(value: &Value) -> Option<(bool, String)> {
    match value.get("terminal") {
        Some(terminal) => Some((true, terminal.text()?)),
        None => Some((false, value.get("nonterminal")?.text()?)),
    }
}

fn state(value: &Value) -> Option<State> {
    Some(State {
        items: value.get("items")?.list(item)?,
        shifts: value.get("shifts")?.map(Value::number)?,
        gotos: value.get("gotos")?.map(Value::number)?,
        reductions: value.get("reductions")?.list(reduction)?,
    })
}

fn item(value: &Value) -> Option<Item> {
    Some(Item {
        production: value.get("production")?.number()?,
        dot: value.get("dot")?.number()?,
        lookahead: value.get("lookahead")?.option(Value::number)?,
    })
}

fn reduction(value: &Value) -> Option<Reduction> {
    Some(Reduction {
        production: value.get("production")?.number()?,
        lookahead: value.get("lookahead")?.number()?,
    })
}

fn conflict(value: &Value) -> Option<Conflict> {
    Some(Conflict {
        state: value.get("state")?.number()?,
        lookahead: value.get("lookahead")?.number()?,
        actions: value.get("actions")?.list(action)?,
    })
}

fn action(value: &Value) -> Option<Action> {
    match value.get("reduce") {
        Some(number) => Some(Action::Reduce(number.number()?)),
        None => Some(Action::Shift {
            terminal: value.get("shift")?.text()?,
            state: value.get("state")?.number()?,
        }),
    }
}
