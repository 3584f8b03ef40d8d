// A parser by the LR(1) tables of lrshow 0.23.1. Do not edit it.
//
// Start symbol: Input. Method: lane. Conflicts: none. States: 18.
// The tables are exact: a state has an action on a terminal only if the LR(1) tables have one.
// Declare it as a module. It needs no crate but core and alloc.

#![allow(dead_code, non_camel_case_types, clippy::all)]
#![forbid(unsafe_code)]

extern crate alloc;

use alloc::format;
use alloc::string::String;
use alloc::vec::Vec;

/// A terminal, or the end of the input.
#[derive(Clone, Copy, Debug, PartialEq, Eq, PartialOrd, Ord, Hash)]
#[repr(u8)]
pub enum Terminal {
    /// `"("`
    Lparen,
    /// `")"`
    Rparen,
    /// `"*"`
    Star,
    /// `"+"`
    Plus,
    /// `"-"`
    Minus,
    /// `"/"`
    Slash,
    /// `"number"`
    Number,
    /// the end of the input
    End,
}

/// A nonterminal.
#[derive(Clone, Copy, Debug, PartialEq, Eq, PartialOrd, Ord, Hash)]
#[repr(u8)]
pub enum Nonterminal {
    /// `Factor`
    Factor,
    /// `Input`
    Input,
    /// `Product`
    Product,
    /// `Sum`
    Sum,
}

/// A production.
#[derive(Clone, Copy, Debug, PartialEq, Eq, PartialOrd, Ord, Hash)]
#[repr(u8)]
pub enum Production {
    /// `Factor = "number"`
    FactorIsNumber,
    /// `Factor = "-" Factor`
    FactorIsMinusFactor,
    /// `Factor = "(" Sum ")"`
    FactorIsLparenSumRparen,
    /// `Input = Sum`
    InputIsSum,
    /// `Product = Product "*" Factor`
    ProductIsProductStarFactor,
    /// `Product = Product "/" Factor`
    ProductIsProductSlashFactor,
    /// `Product = Factor`
    ProductIsFactor,
    /// `Sum = Sum "+" Product`
    SumIsSumPlusProduct,
    /// `Sum = Sum "-" Product`
    SumIsSumMinusProduct,
    /// `Sum = Product`
    SumIsProduct,
}

/// the terminals, by number
#[rustfmt::skip]
pub static TERMINALS: [Terminal; 8] = [
    Terminal::Lparen,
    Terminal::Rparen,
    Terminal::Star,
    Terminal::Plus,
    Terminal::Minus,
    Terminal::Slash,
    Terminal::Number,
    Terminal::End,
];

/// the nonterminals, by number
#[rustfmt::skip]
pub static NONTERMINALS: [Nonterminal; 4] = [
    Nonterminal::Factor,
    Nonterminal::Input,
    Nonterminal::Product,
    Nonterminal::Sum,
];

/// the productions, by number
#[rustfmt::skip]
pub static PRODUCTIONS: [Production; 10] = [
    Production::FactorIsNumber,
    Production::FactorIsMinusFactor,
    Production::FactorIsLparenSumRparen,
    Production::InputIsSum,
    Production::ProductIsProductStarFactor,
    Production::ProductIsProductSlashFactor,
    Production::ProductIsFactor,
    Production::SumIsSumPlusProduct,
    Production::SumIsSumMinusProduct,
    Production::SumIsProduct,
];

/// the text of a terminal
#[rustfmt::skip]
static TERMINAL_TEXTS: [&str; 8] = [
    "(",
    ")",
    "*",
    "+",
    "-",
    "/",
    "number",
    "end of input",
];

/// the name of a nonterminal
#[rustfmt::skip]
static NONTERMINAL_TEXTS: [&str; 4] = [
    "Factor",
    "Input",
    "Product",
    "Sum",
];

/// how many bytes a set has
const SET_BYTES: usize = 1;

struct Tables {
    /// where the row of a state begins in the next two arrays
    row: [u8; 18],
    /// the terminal to which a cell belongs
    column: [u8; 18],
    /// the action in a cell
    cell: [u8; 18],
    /// the usual reduction of a state, as an action, or 0
    reduction: [u8; 18],
    /// the set of the terminals on which a state makes its usual reduction
    set: [u8; 18],
    /// the sets, by their bits: the lowest bit of a byte is of the first terminal
    sets: [u8; 3],
    /// where the row of a state begins in the next two arrays
    goto_row: [u8; 18],
    /// the nonterminal to which a cell belongs
    goto_column: [u8; 10],
    /// the state to which a goto leads
    goto_cell: [u8; 10],
    /// where the gotos on a nonterminal lead in most states
    goto_usual: [u8; 4],
    /// the nonterminal of a production
    left: [u8; 10],
    /// how many symbols the right side of a production has
    length: [u8; 10],
}

#[rustfmt::skip]
static TABLES: Tables = Tables {
    row: [
        0, 0, 0, 0, 0, 0, 0, 1, 7, 10, 1, 4, 1, 1, 1, 7, 7, 1,
    ],
    column: [
        0, 8, 8, 8, 4, 1, 6, 3, 4, 2, 8, 8, 5, 3, 4, 8, 8, 8,
    ],
    cell: [
        12, 0, 0, 0, 13, 28, 21, 16, 17, 14, 0, 0, 15, 16, 17, 0, 0, 0,
    ],
    reduction: [
        0, 0, 0, 0, 0, 0, 0, 7, 10, 4, 1, 0, 2, 5, 6, 8, 9, 3,
    ],
    set: [
        0, 0, 0, 0, 0, 0, 0, 0, 1, 2, 0, 0, 0, 0, 0, 1, 1, 0,
    ],
    sets: [
        190, 154, 128,
    ],
    goto_row: [
        6, 0, 1, 2, 4, 3, 5, 6, 6, 6, 6, 6, 6, 6, 6, 6, 6, 6,
    ],
    goto_column: [
        4, 0, 0, 3, 0, 2, 4, 2, 4, 4,
    ],
    goto_cell: [
        0, 12, 13, 11, 14, 15, 0, 16, 0, 0,
    ],
    goto_usual: [
        7, 0, 8, 9,
    ],
    left: [
        0, 0, 0, 1, 2, 2, 2, 3, 3, 3,
    ],
    length: [
        1, 2, 3, 1, 3, 3, 1, 3, 3, 1,
    ],
};

/// The action of a state on a terminal.
#[inline(always)]
fn action_of(state: usize, terminal: usize) -> Action {
    let place = TABLES.row[state] as usize + terminal;
    if TABLES.column[place] as usize == terminal {
        return Action::of(TABLES.cell[place] as usize);
    }
    let set = TABLES.sets[TABLES.set[state] as usize * SET_BYTES + terminal / 8];
    if set.rotate_right(terminal as u32) & 1 == 1 {
        return Action::of_reduction(TABLES.reduction[state] as usize);
    }
    Action::Refuse
}

/// Where the gotos of a state begin.
fn gotos_of(state: usize) -> usize {
    TABLES.goto_row[state] as usize
}

/// The state to which one of these gotos leads, or nothing if there is none.
#[inline(always)]
fn goto_of(gotos: usize, nonterminal: usize) -> Option<usize> {
    let place = gotos + nonterminal;
    if TABLES.goto_column[place] as usize == nonterminal {
        return Some(TABLES.goto_cell[place] as usize);
    }
    match TABLES.goto_usual[nonterminal] {
        0 => None,
        state => Some(state as usize),
    }
}

impl Terminal {
    /// The text of the terminal.
    pub fn text(self) -> &'static str {
        TERMINAL_TEXTS[self as usize]
    }
}

impl Nonterminal {
    /// The name of the nonterminal.
    pub fn text(self) -> &'static str {
        NONTERMINAL_TEXTS[self as usize]
    }
}

impl Production {
    /// The nonterminal on the left side.
    pub fn left(self) -> Nonterminal {
        NONTERMINALS[TABLES.left[self as usize] as usize]
    }

    /// How many symbols the right side has.
    pub fn length(self) -> usize {
        TABLES.length[self as usize] as usize
    }
}

/// What takes the steps of a run.
pub trait Handler {
    /// Why a run is stopped.
    type Stop;

    /// Takes the shift of a terminal at a position of the input.
    fn shift(&mut self, position: usize, token: Terminal) -> Result<(), Self::Stop>;

    /// Takes a reduction. It has the terminals from the position `first` up to `end`, without `end`.
    fn reduce(&mut self, by: Production, first: usize, end: usize) -> Result<(), Self::Stop>;
}

/// Why a run ends without a parse.
#[derive(Clone, Debug, PartialEq, Eq)]
pub enum Error<Stop> {
    /// The terminal at a position is wrong. The list has those that may be there.
    Refused(usize, Terminal, Vec<Terminal>),
    /// No step was left.
    Limit,
    /// The handler stopped the run.
    Stopped(Stop),
}

impl<Stop> Error<Stop> {
    /// What is wrong, as a message.
    pub fn message(&self) -> String {
        match self {
            Error::Refused(position, token, expected) => {
                let texts: Vec<_> = expected.iter().map(|it| it.text()).collect();
                let (number, text, texts) = (position + 1, token.text(), texts.join(" "));
                format!("token {number}, {text}, is wrong; expected: {texts}")
            }
            Error::Limit => "the parse needs more steps than the limit allows".into(),
            Error::Stopped(_) => "the parse was stopped".into(),
        }
    }
}

/// A run that is given one terminal after the other.
#[derive(Clone, Debug)]
pub struct Run {
    stack: Vec<Entry>,
    /// Entries over which reductions on a terminal wrote. They are of the run until it is shifted.
    kept: Vec<Entry>,
    at: At,
}

impl Run {
    /// A run that makes at most so many steps: each shift and each reduction is one.
    pub fn new(limit: Option<usize>) -> Run {
        let (stack, kept, last) = (Vec::new(), Vec::new(), limit.unwrap_or(usize::MAX));
        #[rustfmt::skip]
        let at = At { state: 0, depth: 0, position: 0, last };
        Run { stack, kept, at }
    }

    /// Reads a terminal, or the end of the input. Returns whether the input is accepted. After a
    /// refusal the run is as before. But the handler may have taken reductions.
    pub fn push<H: Handler>(
        &mut self,
        token: Terminal,
        to: &mut H,
    ) -> Result<bool, Error<H::Stop>> {
        self.read(core::iter::once(token), to)
    }

    /// The terminals that may come next in the steps that are left, each after a trial.
    #[cold]
    pub fn expected(&mut self) -> Vec<Terminal> {
        let may_follow = |token: &Terminal| {
            self.undo();
            let mut at = self.at;
            let target = self.reduce_all(&mut at, *token, |_, _, _| Ok::<(), ()>(()));
            matches!(target, Ok(Some(target)) if target == 0 || at.position < at.last)
        };
        TERMINALS.iter().copied().filter(may_follow).collect()
    }
}

/// What a state does on a terminal. A shift to state 0 accepts the input.
enum Action {
    Shift(usize),
    Reduce(Production),
    Refuse,
}

impl Action {
    /// The action with a number: one above the number of productions shifts.
    #[inline(always)]
    fn of(number: usize) -> Action {
        match number.checked_sub(PRODUCTIONS.len() + 1) {
            Some(state) => Action::Shift(state),
            None => Action::of_reduction(number),
        }
    }

    /// The action with another number: 0 refuses, and others reduce by the production before them.
    #[inline(always)]
    fn of_reduction(number: usize) -> Action {
        match PRODUCTIONS.get(number.wrapping_sub(1)) {
            Some(by) => Action::Reduce(*by),
            None => Action::Refuse,
        }
    }
}

/// Where the gotos of a state of the stack begin, and the position of the symbol after that state.
#[derive(Clone, Copy, Debug)]
struct Entry(usize, usize);

/// Where a run is: its state, and what is below that, which are the first `depth` entries of the
/// stack. No step is left at the position `last`, which is one less after each reduction.
#[derive(Clone, Copy, Debug)]
struct At {
    state: usize,
    depth: usize,
    position: usize,
    last: usize,
}

impl Run {
    /// Reads terminals as long as they are shifted. Returns whether the input is accepted.
    fn read<H: Handler>(
        &mut self,
        terminals: impl Iterator<Item = Terminal>,
        to: &mut H,
    ) -> Result<bool, Error<H::Stop>> {
        self.undo();
        let mut at = self.at;
        for token in terminals {
            let takes = |by, first, end| to.reduce(by, first, end);
            let target = match self.reduce_all(&mut at, token, takes) {
                Ok(Some(0)) => return Ok(true),
                Ok(Some(target)) => target,
                Ok(None) => return Err(Error::Refused(at.position, token, self.expected())),
                Err(None) => return Err(Error::Limit),
                Err(Some(reason)) => return Err(Error::Stopped(reason)),
            };
            if at.position == at.last {
                return Err(Error::Limit);
            }
            to.shift(at.position, token).map_err(Error::Stopped)?;
            let entry = Entry(gotos_of(at.state), at.position);
            match self.stack.get_mut(at.depth) {
                Some(old) => *old = entry,
                None => self.put(at.depth, entry),
            }
            self.kept.clear();
            at.state = target;
            at.depth += 1;
            at.position += 1;
            self.at = at;
        }
        Ok(false)
    }

    /// Makes the reductions on a terminal. Returns the state to which it is shifted, 0 if the input
    /// is accepted, or nothing if the terminal is refused.
    #[inline(always)]
    fn reduce_all<Stop>(
        &mut self,
        at: &mut At,
        token: Terminal,
        mut takes: impl FnMut(Production, usize, usize) -> Result<(), Stop>,
    ) -> Result<Option<usize>, Option<Stop>> {
        loop {
            let by = match action_of(at.state, token as usize) {
                Action::Shift(target) => return Ok(Some(target)),
                Action::Reduce(by) => by,
                Action::Refuse => return Ok(None),
            };
            if at.position == at.last {
                return Err(None);
            }
            at.last -= 1;
            if by.length() == 0 {
                self.put(at.depth, Entry(gotos_of(at.state), at.position));
            }
            at.depth = at.depth + 1 - by.length();
            let Entry(gotos, first) = self.stack[at.depth - 1];
            takes(by, first, at.position).map_err(Some)?;
            match goto_of(gotos, TABLES.left[by as usize] as usize) {
                Some(state) => at.state = state,
                None => return Ok(Some(0)),
            }
        }
    }

    /// Writes an entry, at most at the end of the stack. Keeps the entries of the run from that
    /// place on, the last one first.
    #[cold]
    #[inline(never)]
    fn put(&mut self, place: usize, entry: Entry) {
        for it in (place..self.at.depth - self.kept.len()).rev() {
            self.kept.push(self.stack[it]);
        }
        match self.stack.get_mut(place) {
            Some(old) => *old = entry,
            None => self.stack.push(entry),
        }
    }

    /// Writes the kept entries back, after a terminal that was not shifted.
    fn undo(&mut self) {
        while let Some(entry) = self.kept.pop() {
            self.stack[self.at.depth - self.kept.len() - 1] = entry;
        }
    }
}

/// Parses terminals, up to their end or the first `Terminal::End`.
pub fn parse<H: Handler>(
    terminals: impl IntoIterator<Item = Terminal>,
    handler: &mut H,
    limit: Option<usize>,
) -> Result<(), Error<H::Stop>> {
    let mut terminals = terminals.into_iter();
    let all = core::iter::from_fn(|| Some(terminals.next().unwrap_or(Terminal::End)));
    Run::new(limit).read(all, handler).map(|_| ())
}
