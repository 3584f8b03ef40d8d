//! answer QUESTIONS ANSWERS
//!
//! Asks each question by `lr1::ask`, and again by the typed call for it, if there is one. If the two
//! differ, the answer is a text on that, with the status 255.

use lr1::{ask, Error, Grammar, Method, ParseOutcome, Status, Tables};
use std::collections::HashMap;
use std::{env, fs, io, str};

/// The tables of a grammar text, a start symbol and a method, which several questions name.
#[derive(Default)]
struct Made(HashMap<(String, String, bool), Result<Tables, Error>>);

impl Made {
    fn tables(&mut self, text: &str, start: &str, method: Method) -> Result<&Tables, Error> {
        let key = (text.to_string(), start.to_string(), method == Method::Canonical);
        let made = self
            .0
            .entry(key)
            .or_insert_with(|| Grammar::from_text(text).tables_by(start, method));
        made.as_ref().map_err(Error::clone)
    }
}

fn main() -> io::Result<()> {
    let paths: Vec<String> = env::args().skip(1).collect();
    let bytes = fs::read(&paths[0])?;
    let (mut rest, mut answers, mut count) = (&bytes[..], Vec::new(), 0);
    let mut made = Made::default();
    while !rest.is_empty() {
        let (text, words) = (part(&mut rest), part(&mut rest));
        let method = if take(&mut rest, 1)[0] == 1 {
            Method::Canonical
        } else {
            Method::Lane
        };
        let (status, answer) = answer(&mut made, text, words, method);
        answers.push(status);
        answers.extend((answer.len() as u32).to_le_bytes());
        answers.extend(answer.as_bytes());
        count += 1;
    }
    println!("{count} questions");
    fs::write(&paths[1], answers)
}

fn take<'bytes>(rest: &mut &'bytes [u8], length: usize) -> &'bytes [u8] {
    let (first, others) = rest.split_at(length);
    *rest = others;
    first
}

fn part<'bytes>(rest: &mut &'bytes [u8]) -> &'bytes str {
    let length = take(rest, 4)
        .try_into()
        .map(u32::from_le_bytes)
        .expect("four bytes");
    str::from_utf8(take(rest, length as usize)).expect("the stored cases are UTF-8")
}

fn answer(made: &mut Made, text: &str, words: &str, method: Method) -> (u8, String) {
    let words: Vec<&str> = words.split('\0').collect();
    let answer = match ask(text, &words, method) {
        Ok(answer) => answer,
        Err(error) => return (255, format!("{error:?}")),
    };
    let typed = typed(made, text, &words, method);
    if typed.as_ref().is_some_and(|it| *it != answer.text) {
        return (
            255,
            format!("{:?} by a typed call, {:?} by ask", typed, answer.text),
        );
    }
    let status = match answer.status {
        Status::Ok => 0,
        Status::Refused => 1,
        Status::Fault => 2,
    };
    (status, answer.text)
}

/// What the typed call returns, as the text of the answer.
fn typed(made: &mut Made, text: &str, words: &[&str], method: Method) -> Option<String> {
    let [start, verb, arguments @ ..] = words else {
        return None;
    };
    let returned = match (*verb, arguments) {
        ("parse", [limit, tokens @ ..]) if limit.parse::<u64>().is_ok() && !limit.starts_with('+') => made
            .tables(text, start, method)
            .and_then(|it| parse(it, limit, tokens)),
        ("report", []) => made.tables(text, start, method).and_then(Tables::report),
        ("explain", []) => made.tables(text, start, method).and_then(Tables::explain),
        ("json", []) => made.tables(text, start, method).map(|it| it.json().to_string()),
        // (no text is made of the list, but each member is read)
        ("check", ["--json"]) => {
            return Grammar::from_text(text)
                .check(start)
                .err()
                .map(|it| it.to_string())
        }
        _ => return None,
    };
    match returned {
        Ok(returned) => Some(returned),
        Err(Error::Fault(message)) => Some(format!("{message}\n")),
        // (the library has one text for all wrong words)
        Err(Error::Name(_)) => None,
        Err(error) => Some(format!("{error:?}")),
    }
}

fn parse(tables: &Tables, limit: &str, tokens: &[&str]) -> Result<String, Error> {
    Ok(match tables.parse(tokens, limit.parse().expect("a limit"))? {
        ParseOutcome::Tree(tree) => format!("{tree}\n"),
        ParseOutcome::Refused(Some(token)) => format!("refused at \"{token}\"\n"),
        ParseOutcome::Refused(None) => "refused at Eof\n".to_string(),
        ParseOutcome::Limit => "limit\n".to_string(),
        ParseOutcome::Conflicts(count) => {
            assert_eq!((count, tables.is_lr1()), (tables.conflicts().len(), false));
            format!("conflicts: {count}\n")
        }
    })
}
