//! States of a grammar, by the proved tables of the crate `lr1`.
//!
//! The grammar goes there as a text whose names are numbers: `n00000012 = n00000007 "t00000003"`.
//! All numbers have eight digits, so the names have the order that lalrpop gives them.

use collections::map;
use grammar::repr::*;
use lr1::core::*;
use lr1::lookahead::*;
use proved_tables::{table_numbers, Grammar as Text, Method, Reduction, State as Row, Status, Tables};
use std::collections::BTreeMap;
use std::fmt::Write;

/// The text of a grammar, and what its numbers name.
struct Names<'grammar> {
    text: String,
    start: String,
    productions: Vec<&'grammar Production>,
    terminals: &'grammar [TerminalString],
    nonterminals: Vec<&'grammar NonterminalString>,
}

/// The states, or `None` if the grammar has conflicts. lalrpop's own construction reports these.
pub fn build_states<'grammar>(
    grammar: &'grammar Grammar,
    start: &NonterminalString,
    lane: bool,
) -> Option<Vec<LR1State<'grammar>>> {
    let names = Names::of(grammar, start);
    let method = if lane { Method::Lane } else { Method::Canonical };
    let (status, _) = table_numbers(&names.text, &names.start, method).expect("no tables");
    if status == Status::Refused {
        return None;
    }
    let tables = Text::from_text(&names.text).tables_by(&names.start, method).expect("no tables");
    let rows = tables.states().iter().enumerate();
    Some(rows.map(|(number, row)| names.state(&tables, number, row)).collect())
}

impl<'grammar> Names<'grammar> {
    fn of(grammar: &'grammar Grammar, start: &NonterminalString) -> Names<'grammar> {
        let nonterminals: Vec<&NonterminalString> = grammar.nonterminals.keys().collect();
        let numbers: BTreeMap<&NonterminalString, usize> =
            nonterminals.iter().enumerate().map(|(number, name)| (*name, number)).collect();
        let mut text = String::new();
        let mut productions = vec![];
        for production in grammar.nonterminals.values().flat_map(|it| &it.productions) {
            write!(text, "n{:08} =", numbers[&production.nonterminal]).unwrap();
            for symbol in &production.symbols {
                match symbol {
                    Symbol::Nonterminal(name) => match numbers.get(name) {
                        Some(number) => write!(text, " n{:08}", number).unwrap(),
                        None => write!(text, " undefined").unwrap(),
                    },
                    Symbol::Terminal(it) => {
                        write!(text, " \"t{:08}\"", grammar.terminals.bits[it]).unwrap()
                    }
                }
            }
            text.push('\n');
            productions.push(production);
        }
        let start = format!("n{:08}", numbers[start]);
        Names { text, start, productions, terminals: &grammar.terminals.all, nonterminals }
    }

    fn state(&self, tables: &Tables, number: usize, row: &Row) -> LR1State<'grammar> {
        let mut shifts = map();
        for (name, target) in &row.shifts {
            shifts.insert(self.terminal(name), StateIndex(*target));
        }
        let mut gotos = map();
        for (name, target) in &row.gotos {
            gotos.insert(self.nonterminals[number_of(name)].clone(), StateIndex(*target));
        }
        let items = row.items.iter().map(|it| Item {
            production: self.productions[it.production],
            index: it.dot,
            lookahead: it.lookahead.map_or_else(TokenSet::all, |set| self.set(tables.lookahead(set))),
        });
        State {
            index: StateIndex(number),
            items: Items { vec: items.collect() },
            shifts,
            reductions: row.reductions.iter().map(|it| self.reduction(tables, it)).collect(),
            gotos,
        }
    }

    fn reduction(&self, tables: &Tables, it: &Reduction) -> (TokenSet, &'grammar Production) {
        (self.set(tables.lookahead(it.lookahead)), self.productions[it.production])
    }

    fn set(&self, tokens: &[Option<String>]) -> TokenSet {
        let mut set = TokenSet::new();
        for token in tokens {
            match token {
                Some(name) => set.insert(Token::Terminal(self.terminal(name))),
                None => set.insert_eof(),
            };
        }
        set
    }

    fn terminal(&self, name: &str) -> TerminalString {
        self.terminals[number_of(name)].clone()
    }
}

/// The number in a name of eight digits.
fn number_of(name: &str) -> usize {
    name[1..].parse().expect("a name without a number")
}
