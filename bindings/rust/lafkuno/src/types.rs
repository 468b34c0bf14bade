//! Types of columns as text: the format strings of the Arrow C Data Interface, `?` for nullable, values of a dictionary in
//! brackets, children in parentheses. `+ud:5,7(i?, C?[u])` is a dense union of nullable i32 and of byte strings behind u8 keys.

use crate::Error;
use std::fmt;
use std::str::FromStr;

/// A type tree.
#[derive(Clone, Debug, PartialEq, Eq)]
pub struct Type {
    /// The format string of the Arrow C Data Interface.
    pub format: String,
    /// Whether it may hold nulls.
    pub nullable: bool,
    /// The types of its children.
    pub children: Vec<Type>,
    /// The type of a dictionary's values.
    pub dictionary: Option<Box<Type>>,
}

/// The format that a logical type is stored as: dates, times, timestamps, durations and short intervals are integers, half floats 16 bits.
pub fn storage(format: &str) -> &str {
    match format {
        "tdD" | "tts" | "ttm" | "tiM" => "i",
        "tdm" | "tiD" | "ttu" | "ttn" | "tDs" | "tDm" | "tDu" | "tDn" => "l",
        "e" => "S",
        f if ["tss:", "tsm:", "tsu:", "tsn:"].iter().any(|p| f.starts_with(p)) => "l",
        f => f,
    }
}

impl Type {
    pub(crate) fn ids(&self) -> Vec<u8> {
        self.format[4..].split(',').filter_map(|id| id.parse().ok()).collect()
    }

    /// The bytes of a number or of an offset.
    pub(crate) fn width(&self) -> usize {
        match storage(&self.format) {
            "c" | "C" => 1,
            "s" | "S" => 2,
            "i" | "I" | "f" | "z" | "u" | "+l" | "+vl" => 4,
            "l" | "L" | "g" | "Z" | "U" | "+L" | "+vL" => 8,
            _ => 0,
        }
    }

    pub(crate) fn kind(&self) -> Kind {
        match storage(&self.format) {
            _ if self.dictionary.is_some() => Kind::Dictionary,
            "c" | "C" | "s" | "S" | "i" | "I" | "l" | "L" | "f" | "g" => Kind::Fixed,
            "z" | "u" | "Z" | "U" => Kind::Strings,
            "vz" | "vu" => Kind::Views,
            "+l" | "+L" => Kind::List,
            "+vl" | "+vL" => Kind::ListView,
            "+r" => Kind::Runs,
            f if f.starts_with("+us:") => Kind::Sparse,
            f if f.starts_with("+ud:") => Kind::Dense,
            _ => Kind::Other,
        }
    }
}

#[derive(Clone, Copy, Debug, PartialEq, Eq)]
pub(crate) enum Kind {
    Fixed,
    Strings,
    Views,
    List,
    ListView,
    Sparse,
    Dense,
    Runs,
    Dictionary,
    Other,
}

impl fmt::Display for Type {
    fn fmt(&self, f: &mut fmt::Formatter) -> fmt::Result {
        f.write_str(&self.format)?;
        if self.nullable {
            f.write_str("?")?;
        }
        if let Some(values) = &self.dictionary {
            write!(f, "[{values}]")?;
        }
        for (k, child) in self.children.iter().enumerate() {
            write!(f, "{}{child}", if k == 0 { "(" } else { ", " })?;
        }
        f.write_str(if self.children.is_empty() { "" } else { ")" })
    }
}

struct Parser<'a> {
    text: &'a str,
    at: usize,
    depth: usize,
}

impl Parser<'_> {
    fn rest(&self) -> &str {
        &self.text[self.at..]
    }

    fn skip(&mut self, n: usize) {
        self.at += n;
        self.at += self.rest().len() - self.rest().trim_start().len();
    }

    fn eat(&mut self, c: char) -> bool {
        let here = self.rest().starts_with(c);
        if here {
            self.skip(c.len_utf8());
        }
        here
    }

    fn fail<T>(&self, what: &str) -> Result<T, Error> {
        Err(Error::Column(format!("type `{}`: {what} at character {}", self.text, self.at + 1)))
    }

    fn ty(&mut self) -> Result<Type, Error> {
        if self.depth == 64 {
            return self.fail("nested too deep");
        }
        self.depth += 1;
        let rest = self.rest();
        let len = if rest.starts_with("+us:") || rest.starts_with("+ud:") {
            4 + rest[4..].find(|c: char| !c.is_ascii_digit() && c != ',').unwrap_or(rest.len() - 4)
        } else if rest.starts_with("ts") {
            // a time zone stands behind the colon
            rest.find(|c: char| c.is_whitespace() || "?[](),".contains(c)).unwrap_or(rest.len())
        } else {
            rest.find(|c: char| !c.is_ascii_alphanumeric() && c != '+').unwrap_or(rest.len())
        };
        let format = rest[..len].to_string();
        let known = Type { format: format.clone(), nullable: false, children: vec![], dictionary: None };
        if known.kind() == Kind::Other {
            return self.fail("a format string such as i, u, vu, +l, +vl, +ud:5,7 or +r is due");
        }
        self.skip(len);
        let nullable = self.eat('?');
        let mut dictionary = None;
        if self.eat('[') {
            dictionary = Some(Box::new(self.ty()?));
            if !self.eat(']') {
                return self.fail("`]` is due");
            }
        }
        let mut children = vec![];
        if self.eat('(') {
            loop {
                children.push(self.ty()?);
                if self.eat(')') {
                    break;
                }
                if !self.eat(',') {
                    return self.fail("`,` or `)` is due");
                }
            }
        }
        self.depth -= 1;
        Ok(Type { format, nullable, children, dictionary })
    }
}

impl FromStr for Type {
    type Err = Error;

    fn from_str(text: &str) -> Result<Type, Error> {
        let mut parser = Parser { text: text.trim(), at: 0, depth: 0 };
        let ty = parser.ty()?;
        if !parser.rest().is_empty() {
            return parser.fail("nothing more is due");
        }
        Ok(ty)
    }
}
