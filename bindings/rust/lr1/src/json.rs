//! A reader of the JSON texts that the library writes.

use std::collections::BTreeMap;
use std::iter::Peekable;
use std::str::Chars;

/// A JSON value whose numbers are natural.
#[derive(Debug, PartialEq)]
pub(crate) enum Value {
    Null,
    Number(usize),
    Text(String),
    List(Vec<Value>),
    Object(BTreeMap<String, Value>),
}

impl Value {
    pub(crate) fn get(&self, name: &str) -> Option<&Value> {
        match self {
            Value::Object(members) => members.get(name),
            _ => None,
        }
    }

    pub(crate) fn number(&self) -> Option<usize> {
        match self {
            Value::Number(number) => Some(*number),
            _ => None,
        }
    }

    pub(crate) fn text(&self) -> Option<String> {
        match self {
            Value::Text(text) => Some(text.clone()),
            _ => None,
        }
    }

    /// The elements of a list, each read by a function.
    pub(crate) fn list<T>(&self, read: impl Fn(&Value) -> Option<T>) -> Option<Vec<T>> {
        match self {
            Value::List(values) => values.iter().map(read).collect(),
            _ => None,
        }
    }

    /// The members of an object, each read by a function.
    pub(crate) fn map<T>(&self, read: impl Fn(&Value) -> Option<T>) -> Option<BTreeMap<String, T>> {
        match self {
            Value::Object(members) => members
                .iter()
                .map(|(name, it)| Some((name.clone(), read(it)?)))
                .collect(),
            _ => None,
        }
    }

    /// None for `null`, or what a function reads.
    pub(crate) fn option<T>(&self, read: impl Fn(&Value) -> Option<T>) -> Option<Option<T>> {
        match self {
            Value::Null => Some(None),
            _ => read(self).map(Some),
        }
    }
}

/// The value of a text, or `None` if the text has another form.
pub(crate) fn read(text: &str) -> Option<Value> {
    let mut reader = Reader {
        rest: text.chars().peekable(),
    };
    let value = reader.value()?;
    reader.skip_blanks();
    reader.rest.next().is_none().then_some(value)
}

struct Reader<'text> {
    rest: Peekable<Chars<'text>>,
}

impl Reader<'_> {
    fn skip_blanks(&mut self) {
        while self.rest.next_if(|it| it.is_ascii_whitespace()).is_some() {}
    }

    /// Whether a character is next, which is then passed over, with blanks before it.
    fn takes(&mut self, character: char) -> bool {
        self.skip_blanks();
        self.rest.next_if_eq(&character).is_some()
    }

    // The library's texts have few levels, so a call for each level is enough.
    fn value(&mut self) -> Option<Value> {
        self.skip_blanks();
        match self.rest.peek()? {
            '"' => self.string().map(Value::Text),
            '[' => self.list(),
            '{' => self.object(),
            '0'..='9' => self.number(),
            _ => "null"
                .chars()
                .all(|it| self.rest.next() == Some(it))
                .then_some(Value::Null),
        }
    }

    fn number(&mut self) -> Option<Value> {
        let mut digits = String::new();
        while let Some(digit) = self.rest.next_if(char::is_ascii_digit) {
            digits.push(digit);
        }
        digits.parse().ok().map(Value::Number)
    }

    fn list(&mut self) -> Option<Value> {
        let mut values = Vec::new();
        self.parts('[', ']', |reader| {
            values.push(reader.value()?);
            Some(())
        })?;
        Some(Value::List(values))
    }

    fn object(&mut self) -> Option<Value> {
        let mut members = BTreeMap::new();
        self.parts('{', '}', |reader| {
            reader.skip_blanks();
            let name = reader.string()?;
            let value = reader.takes(':').then(|| reader.value())??;
            members.insert(name, value);
            Some(())
        })?;
        Some(Value::Object(members))
    }

    /// Reads parts with commas between them, in brackets.
    fn parts(
        &mut self,
        open: char,
        close: char,
        mut part: impl FnMut(&mut Self) -> Option<()>,
    ) -> Option<()> {
        if !self.takes(open) {
            return None;
        }
        if self.takes(close) {
            return Some(());
        }
        loop {
            part(self)?;
            if !self.takes(',') {
                return self.takes(close).then_some(());
            }
        }
    }

    fn string(&mut self) -> Option<String> {
        let mut text = String::new();
        self.rest.next_if_eq(&'"')?;
        loop {
            match self.rest.next()? {
                '"' => return Some(text),
                '\\' => text.push(self.escaped()?),
                other => text.push(other),
            }
        }
    }

    /// The character after a backslash.
    fn escaped(&mut self) -> Option<char> {
        match self.rest.next()? {
            'b' => Some('\u{8}'),
            'f' => Some('\u{c}'),
            'n' => Some('\n'),
            'r' => Some('\r'),
            't' => Some('\t'),
            'u' => self.by_number(),
            other => Some(other),
        }
    }

    /// The character of four digits, or of two such numbers, which UTF-16 has for it.
    fn by_number(&mut self) -> Option<char> {
        let first = self.unit()?;
        let is_pair = (0xd800..0xdc00).contains(&first);
        let second = if is_pair && self.takes('\\') && self.takes('u') {
            Some(self.unit()?)
        } else {
            None
        };
        char::decode_utf16([first].into_iter().chain(second)).next()?.ok()
    }

    fn unit(&mut self) -> Option<u16> {
        let digits: String = self.rest.by_ref().take(4).collect();
        u16::from_str_radix(&digits, 16).ok()
    }
}

#[cfg(test)]
mod tests {
    use super::*;

    fn text(it: &str) -> Value {
        Value::Text(it.to_string())
    }

    #[test]
    fn values() {
        assert_eq!(read("null"), Some(Value::Null));
        assert_eq!(read(" 12 "), Some(Value::Number(12)));
        assert_eq!(read("[]"), Some(Value::List(vec![])));
        assert_eq!(
            read("[1,\n null]"),
            Some(Value::List(vec![Value::Number(1), Value::Null]))
        );
        assert_eq!(
            read("{\"a\": \"b\"}"),
            Some(Value::Object([("a".to_string(), text("b"))].into()))
        );
    }

    #[test]
    fn escapes() {
        assert_eq!(read(r#""\"\\\/\b\f\n\r\t""#), Some(text("\"\\/\u{8}\u{c}\n\r\t")));
        assert_eq!(read(r#""\u0001\u00e9\ud83e\udd80""#), Some(text("\u{1}é🦀")));
        assert_eq!(read("\"é🦀\""), Some(text("é🦀")));
    }

    #[test]
    fn other_texts() {
        for it in [
            "",
            "[",
            "[1",
            "[1,",
            "[1 2]",
            "{\"a\"}",
            "{1:2}",
            "\"a",
            "nul",
            "1 2",
            "-1",
            "\"\\ud83e\"",
        ] {
            assert_eq!(read(it), None, "{it}");
        }
    }
}
