//! Actions, gotos and parses by the numbers of tables, which [`table_numbers`](crate::table_numbers)
//! returns. Terminals, nonterminals, productions and states have the numbers that `docs/FORMATS.md`
//! gives them. The end of the input is the number of terminals.
//!
//! ```
//! use lr1::numbers::{parse, End, Step};
//!
//! // The terminal "x" is 0, and so is the production S = "x".
//! let (_, tables) = lr1::table_numbers("S = \"x\"", "S", lr1::Method::Lane)?;
//! let parsed = parse(&tables, &[0], 100)?;
//! assert_eq!(parsed.steps, [Step::Shift(0), Step::Reduce(0)]);
//! assert_eq!(parsed.end, End::Parsed);
//! # Ok::<(), lr1::Error>(())
//! ```

use crate::Error;
use lr1_sys::{LR1_FAULT, LR1_LIMIT, LR1_NO_MEMORY, LR1_OK, LR1_REDUCE, LR1_REFUSED, LR1_SHIFT, LR1_STOP};

/// What a state does on a token.
#[derive(Clone, Copy, Debug, PartialEq, Eq)]
pub enum Action {
    /// It shifts the token, and goes to this state.
    Shift(u32),
    /// It reduces.
    Reduce {
        /// By this production.
        production: u32,
        /// The nonterminal on the left side of the production.
        nonterminal: u32,
        /// How many symbols the right side has.
        length: u32,
    },
}

/// A step of a parse.
#[derive(Clone, Copy, Debug, PartialEq, Eq)]
pub enum Step {
    /// A shift of this token.
    Shift(u32),
    /// A reduction by this production.
    Reduce(u32),
}

/// How a parse ends. A refusal and the limit have the state on top of the stack.
#[derive(Clone, Copy, Debug, PartialEq, Eq)]
pub enum End {
    /// The tokens are parsed.
    Parsed,
    /// The next token was refused.
    Refused(u32),
    /// The parse needs more steps than the limit.
    Limit(u32),
}

/// A parse.
#[derive(Clone, Debug, PartialEq, Eq)]
pub struct Parse {
    /// The steps, in order.
    pub steps: Vec<Step>,
    /// How many tokens were shifted. It is the position of a refused token.
    pub read: usize,
    /// How the parse ends.
    pub end: End,
}

/// What a state does on a token, if it does anything.
pub fn action(tables: &[u32], state: u32, token: u32) -> Result<Option<Action>, Error> {
    let (mut out, mut length) = ([0; 4], 0);
    // SAFETY: each pointer is that of a slice or of a reference, with its length. `out` and `length`
    // are borrowed mutably, so nothing overlaps them.
    let status = unsafe {
        lr1_sys::lr1_action(
            tables.as_ptr(),
            tables.len(),
            state,
            token,
            out.as_mut_ptr(),
            out.len(),
            &mut length,
        )
    };
    match (status, out) {
        (LR1_OK, [LR1_SHIFT, target, ..]) => Ok(Some(Action::Shift(target))),
        (LR1_OK, [LR1_REDUCE, production, nonterminal, length]) => Ok(Some(Action::Reduce {
            production,
            nonterminal,
            length,
        })),
        (LR1_REFUSED, _) => Ok(None),
        _ => Err(error(status)),
    }
}

/// The state to which a state leads on a nonterminal, if there is one.
pub fn goto(tables: &[u32], state: u32, nonterminal: u32) -> Result<Option<u32>, Error> {
    let (mut out, mut length) = ([0; 1], 0);
    // SAFETY: as for `action`.
    let status = unsafe {
        lr1_sys::lr1_goto(
            tables.as_ptr(),
            tables.len(),
            state,
            nonterminal,
            out.as_mut_ptr(),
            out.len(),
            &mut length,
        )
    };
    match status {
        LR1_OK => Ok(Some(out[0])),
        LR1_REFUSED => Ok(None),
        _ => Err(error(status)),
    }
}

/// Parses tokens in at most `limit` steps. Each shift and each reduction is one.
pub fn parse(tables: &[u32], tokens: &[u32], limit: usize) -> Result<Parse, Error> {
    let mut read = 0;
    let (status, numbers) = answered(2 * tokens.len() + 64, |out, length| {
        // SAFETY: as for `action`.
        unsafe {
            lr1_sys::lr1_parse(
                tables.as_ptr(),
                tables.len(),
                tokens.as_ptr(),
                tokens.len(),
                limit,
                out.as_mut_ptr(),
                out.len(),
                length,
                &mut read,
            )
        }
    })?;
    let mut pairs = numbers.chunks_exact(2).map(|it| (it[0], it[1]));
    let end = match status {
        LR1_OK => End::Parsed,
        LR1_REFUSED => match pairs.next_back() {
            Some((LR1_STOP, state)) => End::Refused(state),
            Some((LR1_LIMIT, state)) => End::Limit(state),
            _ => return Err(Error::Answer(format!("{numbers:?}"))),
        },
        _ => return Err(error(status)),
    };
    let steps = pairs.map(|(kind, number)| match kind {
        LR1_SHIFT => Step::Shift(number),
        _ => Step::Reduce(number),
    });
    Ok(Parse {
        steps: steps.collect(),
        read,
        end,
    })
}

/// The tokens that may come after tokens, ascending. There is no list if the given tokens are refused,
/// or more than `limit` steps would be needed.
pub fn expected(tables: &[u32], tokens: &[u32], limit: usize) -> Result<Option<Vec<u32>>, Error> {
    let (status, numbers) = answered(64, |out, length| {
        // SAFETY: as for `action`.
        unsafe {
            lr1_sys::lr1_expected(
                tables.as_ptr(),
                tables.len(),
                tokens.as_ptr(),
                tokens.len(),
                limit,
                out.as_mut_ptr(),
                out.len(),
                length,
            )
        }
    })?;
    match status {
        LR1_OK => Ok(Some(numbers)),
        LR1_REFUSED => Ok(None),
        _ => Err(error(status)),
    }
}

/// The status and the numbers of a call, which is made again if there is too little room.
fn answered(
    room: usize,
    mut call: impl FnMut(&mut [u32], &mut usize) -> u8,
) -> Result<(u8, Vec<u32>), Error> {
    let (mut out, mut length) = (Vec::new(), room);
    loop {
        out.try_reserve_exact(length).map_err(|_| Error::OutOfMemory)?;
        out.resize(length, 0);
        let status = call(&mut out, &mut length);
        if length <= out.len() {
            out.truncate(length);
            return Ok((status, out));
        }
        out.clear();
    }
}

fn error(status: u8) -> Error {
    match status {
        LR1_FAULT => Error::Fault("the numbers are not those of tables, or have no such number".to_string()),
        LR1_NO_MEMORY => Error::OutOfMemory,
        _ => Error::Answer(format!("status {status}")),
    }
}
