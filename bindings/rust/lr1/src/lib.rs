//! LR(1) tables of a grammar, whose construction is proved.
//!
//! ```
//! use lr1::{Grammar, ParseOutcome, Symbol::{Literal, Nonterminal}};
//!
//! let mut grammar = Grammar::new();
//! grammar.add_production("S", &[Nonterminal("E")])?;
//! grammar.add_production("E", &[Nonterminal("E"), Literal("+"), Literal("n")])?;
//! grammar.add_production("E", &[Literal("n")])?;
//! let tables = grammar.tables("S")?;
//! assert_eq!(tables.states().len(), 5);
//! match tables.parse(&["n", "+", "n"], 1000)? {
//!     ParseOutcome::Tree(tree) => assert_eq!(tree.to_string(), r#"[S: [E: [E: "n"], "+", "n"]]"#),
//!     other => panic!("{other:?}"),
//! }
//! # Ok::<(), lr1::Error>(())
//! ```
//!
//! - [`Grammar`] is built production by production, or from a text.
//! - [`Tables`] has the states and the conflicts, parses, and makes reports.
//! - [`Grammar::check`] finds what is wrong or doubtful with a grammar.
//! - [`ask`] asks any question of the library, as its programs are asked.
//! - [`table_numbers`] returns the tables as one list of numbers, and [`check`] checks such a list.
//! - [`numbers`] has the actions, gotos and parses by such a list.
#![deny(missing_docs)]

mod ask;
mod error;
mod grammar;
mod json;
pub mod numbers;
mod tables;
mod tree;

pub use ask::{ask, check, table_numbers, table_numbers_with_items, version, Answer, Method, Status};
pub use error::Error;
pub use grammar::{Finding, Grammar, Symbol};
pub use tables::{Action, Conflict, Item, ParseOutcome, Production, Reduction, State, Tables};
pub use tree::{Children, Node, Tree};

/// The examples of the page.
#[cfg(doctest)]
#[doc = include_str!("../../README.md")]
struct Page;
