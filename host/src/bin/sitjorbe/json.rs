//! JSON, read and written.

use std::fmt;

/// A JSON value. A map keeps its order.
#[derive(Clone, Debug, PartialEq)]
pub enum Value {
    Null,
    Bool(bool),
    Number(f64),
    Text(String),
    List(Vec<Value>),
    Map(Vec<(String, Value)>),
}

/// Values stand in no more lists and maps than this.
const DEEPEST: usize = 32;

impl Value {
    pub fn text(words: &str) -> Value {
        Value::Text(words.to_string())
    }

    /// A whole number, or any other that a float is.
    pub fn count(count: usize) -> Value {
        Value::Number(count as f64)
    }

    /// A number, or null for none.
    pub fn maybe(number: Option<f64>) -> Value {
        number.map_or(Value::Null, Value::Number)
    }

    pub fn map<const N: usize>(pairs: [(&str, Value); N]) -> Value {
        Value::Map(pairs.into_iter().map(|(name, value)| (name.to_string(), value)).collect())
    }

    pub fn list(values: impl Iterator<Item = Value>) -> Value {
        Value::List(values.collect())
    }

    pub fn point([x, y]: [f64; 2]) -> Value {
        Value::List(vec![Value::Number(x), Value::Number(y)])
    }

    /// What a map has by a name; the first counts.
    pub fn get(&self, name: &str) -> Option<&Value> {
        match self {
            Value::Map(pairs) => pairs.iter().find(|(other, _)| other == name).map(|(_, value)| value),
            _ => None,
        }
    }

    pub fn as_list(&self) -> Option<&[Value]> {
        match self {
            Value::List(values) => Some(values),
            _ => None,
        }
    }

    pub fn as_text(&self) -> Option<&str> {
        match self {
            Value::Text(words) => Some(words),
            _ => None,
        }
    }

    pub fn as_number(&self) -> Option<f64> {
        match self {
            Value::Number(number) => Some(*number),
            _ => None,
        }
    }

    /// A whole number up to a bound.
    pub fn as_count(&self, most: usize) -> Option<usize> {
        self.as_number().filter(|x| *x >= 0.0 && *x <= most as f64 && x.fract() == 0.0).map(|x| x as usize)
    }

    /// Two numbers.
    pub fn as_point(&self) -> Option<[f64; 2]> {
        match self.as_list()? {
            [x, y] => Some([x.as_number()?, y.as_number()?]),
            _ => None,
        }
    }
}

/// Text between quotes.
fn write_text(f: &mut fmt::Formatter<'_>, words: &str) -> fmt::Result {
    f.write_str("\"")?;
    for c in words.chars() {
        match c {
            '"' | '\\' => write!(f, "\\{c}")?,
            _ if c.is_control() => write!(f, "\\u{:04x}", u32::from(c))?,
            _ => write!(f, "{c}")?,
        }
    }
    f.write_str("\"")
}

/// On one line. Numbers are as short as may be and are read back bit by bit; one that isn't finite is null.
impl fmt::Display for Value {
    fn fmt(&self, f: &mut fmt::Formatter<'_>) -> fmt::Result {
        match self {
            Value::Null => f.write_str("null"),
            Value::Bool(bool) => write!(f, "{bool}"),
            Value::Number(x) if !x.is_finite() => f.write_str("null"),
            Value::Number(x) if x.fract() == 0.0 && x.abs() < 1e15 && x.to_bits() != (-0.0f64).to_bits() => {
                write!(f, "{x}")
            }
            Value::Number(x) => write!(f, "{x:?}"),
            Value::Text(words) => write_text(f, words),
            Value::List(values) => {
                f.write_str("[")?;
                for (place, value) in values.iter().enumerate() {
                    write!(f, "{}{value}", if place > 0 { "," } else { "" })?;
                }
                f.write_str("]")
            }
            Value::Map(pairs) => {
                f.write_str("{")?;
                for (place, (name, value)) in pairs.iter().enumerate() {
                    f.write_str(if place > 0 { "," } else { "" })?;
                    write_text(f, name)?;
                    write!(f, ":{value}")?;
                }
                f.write_str("}")
            }
        }
    }
}

// ---- reading

/// The value that a text is, or what is wrong, with the line.
pub fn parse(text: &str) -> Result<Value, String> {
    let mut reader = Reader { bytes: text.as_bytes(), text, place: 0 };
    let value = reader.value(0).and_then(|value| {
        reader.spaces();
        if reader.place == text.len() {
            Ok(value)
        } else {
            Err("something follows the value")
        }
    });
    value.map_err(|what| format!("line {}: {what}", 1 + text[..reader.place].matches('\n').count()))
}

struct Reader<'a> {
    bytes: &'a [u8],
    text: &'a str,
    place: usize,
}

type Read<T> = Result<T, &'static str>;

impl Reader<'_> {
    fn peek(&self) -> Option<u8> {
        self.bytes.get(self.place).copied()
    }

    fn spaces(&mut self) {
        while matches!(self.peek(), Some(b' ' | b'\t' | b'\n' | b'\r')) {
            self.place += 1;
        }
    }

    /// Goes past a byte if it comes next.
    fn past(&mut self, byte: u8) -> bool {
        let there = self.peek() == Some(byte);
        self.place += usize::from(there);
        there
    }

    fn word(&mut self, word: &str, value: Value) -> Read<Value> {
        if self.text[self.place..].starts_with(word) {
            self.place += word.len();
            Ok(value)
        } else {
            Err("this isn't JSON")
        }
    }

    fn value(&mut self, depth: usize) -> Read<Value> {
        self.spaces();
        match self.peek() {
            _ if depth > DEEPEST => Err("too many lists in lists"),
            Some(b'{') => self.map(depth),
            Some(b'[') => self.list(depth),
            Some(b'"') => self.quoted().map(Value::Text),
            Some(b't') => self.word("true", Value::Bool(true)),
            Some(b'f') => self.word("false", Value::Bool(false)),
            Some(b'n') => self.word("null", Value::Null),
            Some(b'-' | b'0'..=b'9') => self.number(),
            _ => Err("a value is wanted"),
        }
    }

    fn list(&mut self, depth: usize) -> Read<Value> {
        self.place += 1;
        let mut values = vec![];
        self.spaces();
        while !self.past(b']') {
            if !values.is_empty() && !self.past(b',') {
                return Err("a comma or ] is wanted");
            }
            values.push(self.value(depth + 1)?);
            self.spaces();
        }
        Ok(Value::List(values))
    }

    fn map(&mut self, depth: usize) -> Read<Value> {
        self.place += 1;
        let mut pairs = vec![];
        self.spaces();
        while !self.past(b'}') {
            if !pairs.is_empty() && !self.past(b',') {
                return Err("a comma or } is wanted");
            }
            self.spaces();
            if self.peek() != Some(b'"') {
                return Err("a name in quotes is wanted");
            }
            let name = self.quoted()?;
            self.spaces();
            if !self.past(b':') {
                return Err("a colon is wanted");
            }
            pairs.push((name, self.value(depth + 1)?));
            self.spaces();
        }
        Ok(Value::Map(pairs))
    }

    fn number(&mut self) -> Read<Value> {
        let from = self.place;
        while matches!(self.peek(), Some(b'-' | b'+' | b'.' | b'e' | b'E' | b'0'..=b'9')) {
            self.place += 1;
        }
        let word = &self.text[from..self.place];
        let digits = word.strip_prefix('-').unwrap_or(word);
        let begins_well = digits.starts_with(|c: char| c.is_ascii_digit())
            && !(digits.starts_with('0') && digits[1..].starts_with(|c: char| c.is_ascii_digit()));
        let ends_well = !digits.ends_with('.') && !digits.contains(".e") && !digits.contains(".E");
        match word.parse::<f64>() {
            Ok(number) if number.is_finite() && begins_well && ends_well => Ok(Value::Number(number)),
            _ => Err("this isn't a number"),
        }
    }

    fn quoted(&mut self) -> Read<String> {
        self.place += 1;
        let mut words = String::new();
        loop {
            let from = self.place;
            while !matches!(self.peek(), None | Some(b'"' | b'\\' | 0..=0x1f)) {
                self.place += 1;
            }
            words += &self.text[from..self.place];
            if self.past(b'"') {
                return Ok(words);
            }
            if !self.past(b'\\') {
                return Err("a text in quotes doesn't end");
            }
            words.push(self.escape()?);
        }
    }

    fn escape(&mut self) -> Read<char> {
        let byte = self.peek().ok_or("a text in quotes doesn't end")?;
        self.place += 1;
        Ok(match byte {
            b'"' | b'\\' | b'/' => char::from(byte),
            b'b' => '\u{8}',
            b'f' => '\u{c}',
            b'n' => '\n',
            b'r' => '\r',
            b't' => '\t',
            b'u' => {
                let first = self.unit()?;
                if !(0xd800..0xdc00).contains(&first) {
                    return char::from_u32(first).ok_or("half a character");
                }
                let second = if self.past(b'\\') && self.past(b'u') { self.unit()? } else { 0 };
                if !(0xdc00..0xe000).contains(&second) {
                    return Err("half a character");
                }
                char::from_u32(0x10000 + ((first - 0xd800) << 10) + (second - 0xdc00)).ok_or("half a character")?
            }
            _ => {
                self.place -= 1;
                return Err("an unknown escape");
            }
        })
    }

    /// Four hexadecimal digits.
    fn unit(&mut self) -> Read<u32> {
        let digits = self.bytes.get(self.place..self.place + 4).filter(|word| word.iter().all(u8::is_ascii_hexdigit));
        let digits =
            digits.and_then(|word| std::str::from_utf8(word).ok()).ok_or("four hexadecimal digits are wanted")?;
        self.place += 4;
        u32::from_str_radix(digits, 16).map_err(|_| "four hexadecimal digits are wanted")
    }
}
