//! main EXPRESSION prints the value of the expression.
mod calc;

use calc::{parse, Handler, Production, Terminal, TERMINALS};

/// The terminals of a text, each with the value of a number. Nothing if it has something else.
fn read(mut text: &str) -> Option<Vec<(Terminal, f64)>> {
    let mut found = Vec::new();
    while let Some(sign) = text.chars().next() {
        let after = text.trim_start_matches(|it: char| it.is_ascii_digit() || it == '.');
        let (word, rest) = text.split_at((text.len() - after.len()).max(sign.len_utf8()));
        match TERMINALS.iter().find(|it| it.text() == word) {
            Some(sign) => found.push((*sign, 0.0)),
            None if sign == ' ' => {}
            None => found.push((Terminal::Number, word.parse().ok()?)),
        }
        text = rest;
    }
    Some(found)
}

/// The terminals, and the value of each symbol on the stack.
struct Values<'a>(&'a [(Terminal, f64)], Vec<f64>);

impl Handler for Values<'_> {
    type Stop = ();
    fn shift(&mut self, position: usize, _token: Terminal) -> Result<(), ()> {
        self.1.push(self.0[position].1);
        Ok(())
    }

    fn reduce(&mut self, by: Production, _first: usize, _end: usize) -> Result<(), ()> {
        let it = self.1.split_off(self.1.len() - by.length());
        self.1.push(match by {
            Production::SumIsSumPlusProduct => it[0] + it[2],
            Production::SumIsSumMinusProduct => it[0] - it[2],
            Production::ProductIsProductStarFactor => it[0] * it[2],
            Production::ProductIsProductSlashFactor => it[0] / it[2],
            Production::FactorIsMinusFactor => -it[1],
            Production::FactorIsLparenSumRparen => it[1],
            _ => it[0],
        });
        Ok(())
    }
}

fn stop(why: &str) -> ! {
    eprintln!("{why}");
    std::process::exit(1)
}

fn main() {
    let text = std::env::args().nth(1).unwrap_or_default();
    let terminals = read(&text).unwrap_or_else(|| stop("a sign is none of + - * / ( )"));
    let mut values = Values(&terminals, Vec::new());
    let ended = parse(terminals.iter().map(|it| it.0), &mut values, None);
    ended.unwrap_or_else(|error| stop(&error.message()));
    println!("{}", values.1[0]);
}
