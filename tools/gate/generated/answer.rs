//! answer QUESTIONS ANSWERS
//!
//! Answers each question, with a byte 0 after it, by the generated modules. A question is a line of
//! numbers: that of the tables, the limit, whether the end is read, and the terminals.

use std::{env, fs, io};

macro_rules! answers {
    ($($name:ident)*) => {
        $(mod $name;)*

        fn answer(tables: usize, limit: usize, has_end: bool, terminals: &[usize]) -> String {
            match tables {
                $(number if number == stringify!($name)[1..].parse::<usize>().expect("a number") => {
                    use $name::{parse, Error, Handler, Production, Run, Terminal, TERMINALS};
                    by!(limit, has_end, terminals)
                })*
                _ => panic!("there are no such tables"),
            }
        }
    };
}

macro_rules! by {
    ($limit:ident, $has_end:ident, $terminals:ident) => {{
        /// The trees so far, with the positions from which and up to which they have terminals.
        struct Trees(Vec<(String, usize, usize)>, usize);

        impl Handler for Trees {
            type Stop = ();

            fn shift(&mut self, position: usize, terminal: Terminal) -> Result<(), ()> {
                assert_eq!(position, self.1);
                self.1 += 1;
                self.0.push((shown(terminal), position, self.1));
                Ok(())
            }

            fn reduce(&mut self, by: Production, first: usize, end: usize) -> Result<(), ()> {
                let parts = self.0.split_off(self.0.len() - by.length());
                let mut at = first;
                for part in &parts {
                    assert_eq!(part.1, at);
                    at = part.2;
                }
                assert_eq!((at, end), (end, self.1));
                let texts: Vec<_> = parts.into_iter().map(|part| part.0).collect();
                let tree = format!("[{}: {}]", by.left().text(), texts.join(", "));
                self.0.push((tree, first, end));
                Ok(())
            }
        }

        fn shown(terminal: Terminal) -> String {
            if terminal == Terminal::End {
                return "Eof".to_string();
            }
            format!("\"{}\"", terminal.text())
        }

        fn pushed(terminals: &[Terminal], to: &mut Trees, limit: usize) -> Result<bool, Error<()>> {
            let mut run = Run::new(Some(limit));
            terminals.iter().try_for_each(|it| run.push(*it, to).map(|_| ()))?;
            Ok(false)
        }

        let terminals: Vec<Terminal> = $terminals.iter().map(|it| TERMINALS[*it]).collect();
        let mut trees = Trees(Vec::new(), 0);
        let result = if $has_end {
            parse(terminals.iter().copied(), &mut trees, Some($limit)).map(|_| true)
        } else {
            pushed(&terminals, &mut trees, $limit)
        };
        match result {
            Ok(true) => {
                assert_eq!(trees.0.len(), 1);
                format!("{}\n", trees.0[0].0)
            }
            Ok(false) => "goes on\n".to_string(),
            Err(Error::Limit) => "limit\n".to_string(),
            Err(Error::Stopped(())) => "fault\n".to_string(),
            Err(Error::Refused(position, terminal, expected)) => {
                let expected: String = expected.iter().map(|it| shown(*it) + "\n").collect();
                format!("refused at {}\n{}\n{}", shown(terminal), position, expected)
            }
        }
    }};
}

answers!(NAMES);

fn main() -> io::Result<()> {
    let paths: Vec<String> = env::args().skip(1).collect();
    let mut answers = String::new();
    for line in fs::read_to_string(&paths[0])?.lines() {
        let numbers: Vec<usize> = line.split(' ').map(|it| it.parse().expect("a number")).collect();
        answers += &answer(numbers[0], numbers[1], numbers[2] == 1, &numbers[3..]);
        answers.push('\0');
    }
    fs::write(&paths[1], answers)
}
