//! Tests of the crate.

use lr1::numbers::{self, End, Step};
use lr1::Symbol::{Literal, Nonterminal};
use lr1::{ask, check, table_numbers, table_numbers_with_items, version};
use lr1::{Action, Error, Grammar, Method, ParseOutcome, Status};
use std::{error, thread};

const SUMS: &str = "S = E\nE = E \"+\" \"n\"\nE = \"n\"\n";
const AMBIGUOUS: &str = "S = E\nE = E \"+\" E\nE = \"n\"\n";
/// LR(1), and not LALR(1).
const BRACKETS: &str = "S = A
A = \"(\" E \")\"
A = \"(\" F \"]\"
A = \"[\" F \")\"
A = \"[\" E \"]\"
E = \"x\"
F = \"x\"
";

fn tree_text(text: &str, tokens: &[&str]) -> String {
    let tables = Grammar::from_text(text).tables("S").unwrap();
    match tables.parse(tokens, 1000).unwrap() {
        ParseOutcome::Tree(tree) => tree.to_string(),
        other => panic!("{other:?}"),
    }
}

#[test]
fn productions() -> Result<(), Error> {
    let mut grammar = Grammar::new();
    grammar
        .add_production("S", &[Nonterminal("E")])?
        .add_production("E", &[Nonterminal("E"), Literal("+"), Literal("n")])?
        .add_production("E", &[Literal("n")])?;
    assert_eq!(grammar.text(), SUMS);
    Ok(())
}

#[test]
fn text_without_a_last_line_end() -> Result<(), Error> {
    let mut grammar = Grammar::from_text("S = A \"x\"");
    grammar.add_production("A", &[])?.inline("A")?;
    assert_eq!(grammar.text(), "S = A \"x\"\nA =\ninline A\n");
    assert_eq!(tree_text(grammar.text(), &["x"]), "[S: \"x\"]");
    Ok(())
}

#[test]
fn wrong_symbols() {
    let mut grammar = Grammar::from_text(SUMS);
    for name in ["", "1", "A-B", "é", "n\n", "a b"] {
        let error = Error::Name(name.to_string());
        assert_eq!(
            grammar.add_production("S", &[Nonterminal(name)]),
            Err(error.clone())
        );
        assert_eq!(grammar.inline(name), Err(error.clone()));
        assert_eq!(grammar.tables(name), Err(error.clone()));
        assert_eq!(grammar.check(name), Err(error));
    }
    for text in ["", "\"", "a b", "\t", "\n", "\0"] {
        let error = Err(Error::Literal(text.to_string()));
        assert_eq!(grammar.add_production("S", &[Literal(text)]).map(|_| ()), error);
    }
    assert_eq!(grammar.text(), SUMS);
}

#[test]
fn any_literal() -> Result<(), Error> {
    for text in [
        "é", "🦀", "\\", "=", "inline", "[", "]", ",", "'", "\r", "Eof", "\u{1}",
    ] {
        let mut grammar = Grammar::new();
        grammar.add_production("S", &[Literal(text), Literal("x")])?;
        let tables = grammar.tables("S")?;
        let ParseOutcome::Tree(tree) = tables.parse(&[text, "x"], 9)? else {
            panic!("{text:?}");
        };
        let symbols: Vec<_> = tree.root().children().map(|it| it.symbol()).collect();
        assert_eq!(symbols, [Literal(text), Literal("x")]);
        assert!(tables.terminals().contains(&text.to_string()), "{text:?}");
    }
    Ok(())
}

#[test]
fn faults() {
    let error = Grammar::from_text("S = \"x\"\nS -> \"y\"")
        .tables("S")
        .unwrap_err();
    assert_eq!(
        (error.line(), error.to_string().as_str()),
        (Some(2), "line 2: not a grammar line")
    );
    let error: Box<dyn error::Error> = Grammar::from_text("S = A\nA = A\ninline A")
        .tables("S")
        .unwrap_err()
        .into();
    assert_eq!(error.to_string(), "cyclic inline of A");
}

#[test]
fn findings() -> Result<(), Error> {
    let found = Grammar::from_text("S : x").check("S")?;
    assert_eq!(
        (found.len(), found[0].is_error, found[0].line, found[0].column),
        (1, true, 1, 3)
    );
    assert_eq!(Grammar::from_text(SUMS).check("S")?, []);
    Ok(())
}

#[test]
fn data() -> Result<(), Error> {
    let tables = Grammar::from_text(SUMS).tables("S")?;
    assert!(tables.is_lr1());
    assert_eq!(tables.terminals(), ["+", "n"]);
    let names: Vec<_> = tables
        .productions()
        .iter()
        .map(|it| (it.nonterminal.as_str(), it.number))
        .collect();
    assert_eq!(names, [("E", 1), ("E", 2), ("S", 0)]);
    let right: Vec<_> = tables.productions()[0].symbols().collect();
    assert_eq!(right, [Nonterminal("E"), Literal("+"), Literal("n")]);
    let first = &tables.states()[0];
    assert_eq!(
        (first.shifts.len(), first.gotos.len(), first.reductions.len()),
        (1, 1, 0)
    );
    assert_eq!(tables.states()[first.gotos["E"]].reductions[0].production, 0);
    Ok(())
}

#[test]
fn methods() -> Result<(), Error> {
    let grammar = Grammar::from_text(SUMS);
    assert_eq!(grammar.tables("S")?.states()[0].items[0].lookahead, None);
    let canonical = grammar.tables_by("S", Method::Canonical)?;
    assert!(canonical.states()[0].items[0].lookahead.is_some());
    assert_eq!(
        tree_text(BRACKETS, &["(", "x", "]"]),
        "[S: [A: \"(\", [F: \"x\"], \"]\"]]"
    );
    Ok(())
}

#[test]
fn parses() -> Result<(), Error> {
    let tables = Grammar::from_text(SUMS).tables("S")?;
    assert_eq!(
        tree_text(SUMS, &["n", "+", "n"]),
        "[S: [E: [E: \"n\"], \"+\", \"n\"]]"
    );
    assert_eq!(
        tables.parse(&["n", "n"], 9)?,
        ParseOutcome::Refused(Some("n".to_string()))
    );
    assert_eq!(tables.parse(&["n", "+"], 9)?, ParseOutcome::Refused(None));
    assert_eq!(tables.parse(&["n", "+", "n"], 3)?, ParseOutcome::Limit);
    assert_eq!(tables.parse(&["n\0"], 9), Err(Error::Word("n\0".to_string())));
    Ok(())
}

#[test]
fn conflicts() -> Result<(), Error> {
    let tables = Grammar::from_text(AMBIGUOUS).tables("S")?;
    let conflict = &tables.conflicts()[0];
    assert_eq!((tables.is_lr1(), tables.conflicts().len()), (false, 1));
    assert_eq!(tables.lookahead(conflict.lookahead), [Some("+".to_string())]);
    assert_eq!(conflict.actions[0], Action::Reduce(1));
    assert!(matches!(&conflict.actions[1], Action::Shift { terminal, .. } if terminal == "+"));
    assert_eq!(tables.parse(&["n"], 9)?, ParseOutcome::Conflicts(1));
    assert!(tables.explain()?.starts_with("conflict 1 in state "));
    Ok(())
}

#[test]
fn texts() -> Result<(), Error> {
    let tables = Grammar::from_text(SUMS).tables("S")?;
    assert!(tables.report()?.contains("Constructed 5 states"));
    assert!(tables.dot()?.starts_with("digraph"));
    assert!(tables.html()?.contains("<html"));
    assert!(tables.json().starts_with("{\"format\":\"lrshow\""));
    Ok(())
}

#[test]
fn long_answers() -> Result<(), Error> {
    let tokens: Vec<String> = (0..3000).map(|it| it.to_string()).collect();
    let text: String = (0..3000)
        .map(|it| format!("A{it} = \"{it}\" A{}\n", it + 1))
        .collect();
    let tables = Grammar::from_text(text + "A3000 =").tables("A0")?;
    let ParseOutcome::Tree(tree) = tables.parse(&tokens, 9999)? else {
        panic!()
    };
    assert_eq!(tree.node_count(), 6001);
    let (mut node, mut depth) = (tree.root(), 1);
    while let Some(last) = node.children().last() {
        (node, depth) = (last, depth + 1);
    }
    assert_eq!((node.symbol(), depth), (Nonterminal("A3000"), 3001));
    Ok(())
}

#[test]
fn questions() -> Result<(), Error> {
    assert_eq!(version(), 1);
    assert_eq!(
        ask(b"S = \xff", &["S", "json"], Method::Lane)?.status,
        Status::Fault
    );
    assert_eq!(
        ask("", &["S", "parse", "1"], Method::Canonical)?.text,
        "refused at Eof\n"
    );
    Ok(())
}

#[test]
fn numbers() -> Result<(), Error> {
    // The numbers of `S = "x"`, by docs/FORMATS.md.
    let numbers = [
        1280454996, 1, 0, 1, 1, 1, 1, 2, 13, 15, 20, 0, 1, 1, 1, 1, 0, 1, 0, 0, 0, 0, 1, 0, 0,
    ];
    for method in [Method::Lane, Method::Canonical] {
        assert_eq!(
            table_numbers("S = \"x\"", "S", method)?,
            (Status::Ok, numbers.to_vec())
        );
    }
    assert_eq!(
        table_numbers(AMBIGUOUS, "S", Method::Lane)?,
        (Status::Refused, vec![])
    );
    assert_eq!(table_numbers(SUMS, "T", Method::Lane)?, (Status::Fault, vec![]));
    let mut text: String = (0..9000)
        .map(|it| format!("A{it} = \"{it}\" A{}\n", it + 1))
        .collect();
    text.push_str("A9000 =");
    assert!(table_numbers(text, "A0", Method::Lane)?.1.len() > 1 << 16);
    Ok(())
}

#[test]
fn calls_by_numbers() -> Result<(), Error> {
    // The terminals "+" and "n" are 0 and 1, and the end is 2. The nonterminals E and S are 0 and 1.
    // The productions E = E "+" "n", E = "n" and S = E are 0, 1 and 2.
    let tables = table_numbers(SUMS, "S", Method::Lane)?.1;
    let reduce = numbers::Action::Reduce {
        production: 1,
        nonterminal: 0,
        length: 1,
    };
    let Some(numbers::Action::Shift(after)) = numbers::action(&tables, 0, 1)? else {
        panic!()
    };
    assert_eq!(numbers::action(&tables, after, 0)?, Some(reduce));
    assert_eq!(numbers::action(&tables, 0, 0)?, None);
    assert!(numbers::goto(&tables, 0, 0)?.is_some());
    assert_eq!(numbers::goto(&tables, 0, 1)?, None);
    let parsed = numbers::parse(&tables, &[1, 0, 1], 9)?;
    let steps = [
        Step::Shift(1),
        Step::Reduce(1),
        Step::Shift(0),
        Step::Shift(1),
        Step::Reduce(0),
        Step::Reduce(2),
    ];
    assert_eq!((&parsed.steps[..], parsed.end), (&steps[..], End::Parsed));
    let refused = numbers::parse(&tables, &[1, 1], 9)?;
    assert!(matches!(refused.end, End::Refused(_)));
    assert_eq!(refused.read, 1);
    assert!(matches!(
        numbers::parse(&tables, &[1, 0, 1], 5)?.end,
        End::Limit(_)
    ));
    assert_eq!(numbers::expected(&tables, &[], 9)?, Some(vec![1]));
    assert_eq!(numbers::expected(&tables, &[1], 9)?, Some(vec![0, 2]));
    assert_eq!(numbers::expected(&tables, &[1, 1], 9)?, None);
    Ok(())
}

#[test]
fn faults_of_numbers() -> Result<(), Error> {
    let tables = table_numbers(SUMS, "S", Method::Lane)?.1;
    let is_fault = |it: Result<bool, Error>| matches!(it, Err(Error::Fault(_)));
    assert!(is_fault(numbers::action(&tables, 0, 3).map(|it| it.is_some())));
    assert!(is_fault(numbers::action(&tables, 99, 0).map(|it| it.is_some())));
    assert!(is_fault(numbers::goto(&tables, 0, 2).map(|it| it.is_some())));
    assert!(is_fault(numbers::parse(&tables, &[2], 9).map(|_| true)));
    assert!(is_fault(numbers::parse(&[], &[], 9).map(|_| true)));
    assert!(is_fault(numbers::expected(&tables[..8], &[], 9).map(|_| true)));
    Ok(())
}

#[test]
fn threads() -> Result<(), Error> {
    let tables = Grammar::from_text(SUMS).tables("S")?;
    thread::scope(|scope| {
        let parses: Vec<_> = (0..8).map(|_| scope.spawn(|| tables.parse(&["n"], 9))).collect();
        for it in parses {
            assert!(matches!(it.join().unwrap(), Ok(ParseOutcome::Tree(_))));
        }
    });
    Ok(())
}

#[test]
fn checks() -> Result<(), Error> {
    for method in [Method::Lane, Method::Canonical] {
        for text in [SUMS, BRACKETS] {
            let (status, numbers) = table_numbers_with_items(text, "S", method)?;
            let answer = check(text, "S", &numbers)?;
            assert_eq!(
                (status, answer.status, answer.text.as_str()),
                (Status::Ok, Status::Ok, "")
            );
        }
    }
    let (_, numbers) = table_numbers_with_items(SUMS, "S", Method::Canonical)?;
    let answer = check(BRACKETS, "S", &numbers)?;
    assert_eq!(answer.status, Status::Fault);
    assert!(answer.text.starts_with("the tables: place 3: "));
    let answer = check(SUMS, "none", &numbers)?;
    assert_eq!(answer.text, "the start symbol is no nonterminal\n");
    let mut text = "A".repeat(1000);
    text.insert_str(0, "inline ");
    text.push_str(&format!("\n{0} = {0}", "A".repeat(1000)));
    let answer = check(&text, "S", &numbers)?;
    assert_eq!(answer.text, format!("cyclic inline of {}\n", "A".repeat(1000)));
    Ok(())
}
