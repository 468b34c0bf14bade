//! Columns and orders as text (docs/USING.md), and rows as text.

use crate::build::shape;
pub use crate::orders::{read_orders, Orders, Trip};
pub use crate::values::{rows, show};
use crate::{Choices, Column, Row, Type};

/// An order, with the line that gives it.
#[derive(Clone, Debug, PartialEq, Eq)]
pub struct Order {
    /// Its line.
    pub line: usize,
    /// The line itself.
    pub text: String,
    /// What it asks for.
    pub what: What,
    /// The line that begins the trip which it belongs to: all orders of a trip are carried out, or none.
    pub trip: Option<usize>,
}

/// What an order asks for.
pub use crate::Order as What;

/// What a file describes: columns of one type, and orders.
#[derive(Clone, Debug)]
pub struct Description {
    /// The type of all sources.
    pub ty: Type,
    /// What is chosen at the opening.
    pub choices: Choices,
    /// The sources with their names.
    pub sources: Vec<(String, Column)>,
    /// The orders.
    pub orders: Vec<Order>,
}

/// A mistake of the text, by its line.
#[derive(Clone, Debug, PartialEq, Eq)]
pub struct Mistake {
    /// The line, counted from 1.
    pub line: usize,
    /// What is wrong.
    pub what: String,
}

impl std::fmt::Display for Mistake {
    fn fmt(&self, f: &mut std::fmt::Formatter) -> std::fmt::Result {
        write!(f, "line {}: {}", self.line, self.what)
    }
}

impl std::error::Error for Mistake {}

/// Rows as text: START..END.
pub fn range(text: &str) -> Option<(u64, u64)> {
    let (a, b) = text.split_once("..")?;
    Some((a.trim().parse().ok()?, b.trim().parse().ok()?))
}

/// The line without a comment: a `#` outside of bytes begins one.
pub(crate) fn without_comment(line: &str) -> &str {
    let (mut quoted, mut escaped) = (false, false);
    for (at, c) in line.char_indices() {
        match c {
            '#' if !quoted => return &line[..at],
            '"' if !escaped => quoted = !quoted,
            _ => {}
        }
        escaped = c == '\\' && !escaped;
    }
    line
}

#[derive(Default)]
struct File {
    ty: Option<Type>,
    choices: Choices,
    share: bool,
    names: Vec<String>,
    rows: Vec<Vec<Row>>,
    /// Each line of rows: its number, its source, and how many rows that source then has.
    fills: Vec<(usize, usize, usize)>,
    slices: Vec<Option<(u64, u64, usize)>>,
    orders: Vec<Order>,
    trip: Option<usize>,
}

impl File {
    fn line(&mut self, number: usize, line: &str) -> Result<(), String> {
        let (word, rest) = line.split_once(char::is_whitespace).unwrap_or((line, ""));
        let rest = rest.trim();
        let ordered = !self.orders.is_empty();
        match word {
            "type" if self.ty.is_some() => return Err("the type is given twice".into()),
            "type" => {
                let ty: Type = rest.parse().map_err(|e: crate::Error| e.to_string())?;
                shape(&ty).map_err(|e| e.to_string())?;
                self.ty = Some(ty);
            }
            "keep" if rest == "nulls" => self.choices.keep_nulls = true,
            "one" if rest == "run for gaps" => self.choices.one_run_for_gaps = true,
            "share" if rest == "dictionaries" => self.share = true,
            "source" if ordered => return Err("sources stand before the first order".into()),
            "source" if rest.is_empty() || rest.contains(char::is_whitespace) => return Err("a source has a name of one word".into()),
            "source" if self.names.iter().any(|n| n == rest) => return Err(format!("there is a source `{rest}` already")),
            "source" => {
                self.names.push(rest.into());
                self.rows.push(vec![]);
                self.slices.push(None);
            }
            "rows" => {
                let ty = self.ty.as_ref().ok_or("the type stands before the first rows")?;
                let all = self.rows.last_mut().ok_or("`source NAME` stands before its rows")?;
                let more = rows(ty, rest)?;
                Column::build(ty, &more).map_err(|e| e.to_string())?;
                all.extend(more);
                self.fills.push((number, self.rows.len() - 1, self.rows.last().map_or(0, Vec::len)));
            }
            "slice" => {
                let (a, b) = range(rest).filter(|(a, b)| a <= b).ok_or("a slice is START..END, START not above END")?;
                *self.slices.last_mut().ok_or("`source NAME` stands before its slice")? = Some((a, b, number));
            }
            "copy" => {
                let (name, rows) = rest.split_once(char::is_whitespace).ok_or("a copy is: copy SOURCE START..END")?;
                let (start, end) = range(rows).ok_or("a copy is: copy SOURCE START..END")?;
                let found = self.names.iter().position(|n| n == name).or_else(|| name.parse().ok());
                let source = found.ok_or_else(|| format!("there is no source `{name}`"))?;
                self.orders.push(Order { line: number, text: line.into(), what: What::Copy { source, start, end }, trip: self.trip });
            }
            "nulls" => {
                let n = rest.parse().map_err(|_| "a count is due: nulls N".to_string())?;
                self.orders.push(Order { line: number, text: line.into(), what: What::Nulls(n), trip: self.trip });
            }
            "trip" if !rest.is_empty() => return Err("`trip` stands alone before its orders".into()),
            "trip" if self.trip.is_some() => return Err("the trip before this one has no `end`".into()),
            "trip" => self.trip = Some(number),
            "end" if self.trip.take().is_none() => return Err("`trip` stands before its `end`".into()),
            "end" => {}
            _ => return Err(format!("`{line}`: type, keep nulls, one run for gaps, share dictionaries, source, rows, slice, copy, nulls, trip or end is due")),
        }
        Ok(())
    }

    fn describe(self, last: usize) -> Result<Description, Mistake> {
        let mistake = |line: usize, what: String| Mistake { line, what };
        if let Some(line) = self.trip {
            return Err(mistake(line, "this trip has no `end`".into()));
        }
        let ty = self.ty.ok_or_else(|| mistake(last, "no type is given: type FORMAT".into()))?;
        // the sources as the first n lines of rows make them
        let build = |n: usize| {
            let count = |s: usize| self.fills[..n].iter().rev().find(|f| f.1 == s).map_or(0, |f| f.2);
            let rows: Vec<&[Row]> = self.rows.iter().enumerate().map(|(s, r)| &r[..count(s)]).collect();
            Column::build_all(&ty, &rows, self.share)
        };
        // rows that fit line by line may be too many together: the first line that is too much is told
        let columns = build(self.fills.len()).map_err(|e| {
            let lines: Vec<usize> = (1..=self.fills.len()).collect();
            let first = lines.partition_point(|n| build(*n).is_ok());
            mistake(self.fills.get(first).map_or(last, |f| f.0), e.to_string())
        })?;
        let mut sources = vec![];
        for ((name, column), slice) in self.names.into_iter().zip(columns).zip(self.slices) {
            let column = match slice {
                Some((a, b, line)) => column.slice(a, b - a).map_err(|e| mistake(line, e.to_string()))?,
                None => column,
            };
            sources.push((name, column));
        }
        Ok(Description { ty, choices: self.choices, sources, orders: self.orders })
    }
}

/// The text, or the line that is not UTF-8.
pub(crate) fn utf8(bytes: &[u8]) -> Result<&str, Mistake> {
    std::str::from_utf8(bytes).map_err(|e| {
        let before = &bytes[..e.valid_up_to()];
        let line = 1 + before.iter().filter(|b| **b == b'\n').count();
        let column = before.iter().rev().take_while(|b| **b != b'\n').count();
        Mistake { line, what: format!("byte {} of the line is not UTF-8; write it as \\x{:02x}", column + 1, bytes[before.len()]) }
    })
}

/// Reads a description of columns and orders: UTF-8.
pub fn read_bytes(bytes: &[u8]) -> Result<Description, Mistake> {
    read(utf8(bytes)?)
}

/// Reads a description of columns and orders.
pub fn read(text: &str) -> Result<Description, Mistake> {
    let mut file = File::default();
    let mut last = 1;
    for (k, line) in text.lines().enumerate() {
        let line = without_comment(line).trim();
        last = k + 1;
        if !line.is_empty() {
            file.line(last, line).map_err(|what| Mistake { line: last, what })?;
        }
    }
    file.describe(last)
}

/// Reads columns of their own types: `column NAME TYPE`, each with its rows and slice.
pub fn columns(text: &str) -> Result<Vec<(String, Column)>, Mistake> {
    type Slice = Option<(u64, u64, usize)>;
    let mut found: Vec<(String, Type, Vec<Row>, Slice, usize)> = vec![];
    let mut read = |number: usize, line: &str| -> Result<(), String> {
        let (word, rest) = line.split_once(char::is_whitespace).unwrap_or((line, ""));
        let rest = rest.trim();
        match word {
            "column" => {
                let (name, ty) = rest.split_once(char::is_whitespace).ok_or("a column is: column NAME TYPE")?;
                if found.iter().any(|c| c.0 == name) {
                    return Err(format!("there is a column `{name}` already"));
                }
                let ty: Type = ty.trim().parse().map_err(|e: crate::Error| e.to_string())?;
                shape(&ty).map_err(|e| e.to_string())?;
                found.push((name.into(), ty, vec![], None, number));
            }
            "rows" => {
                let (_, ty, all, _, _) = found.last_mut().ok_or("`column NAME TYPE` stands before its rows")?;
                all.extend(rows(ty, rest)?);
            }
            "slice" => {
                let (a, b) = range(rest).filter(|(a, b)| a <= b).ok_or("a slice is START..END, START not above END")?;
                found.last_mut().ok_or("`column NAME TYPE` stands before its slice")?.3 = Some((a, b, number));
            }
            _ => return Err(format!("`{line}`: column, rows or slice is due")),
        }
        Ok(())
    };
    for (k, line) in text.lines().enumerate() {
        let line = without_comment(line).trim();
        if !line.is_empty() {
            read(k + 1, line).map_err(|what| Mistake { line: k + 1, what })?;
        }
    }
    let build = |(name, ty, rows, slice, line): (String, Type, Vec<Row>, Slice, usize)| {
        let column = Column::build(&ty, &rows).map_err(|e| Mistake { line, what: e.to_string() })?;
        let column = match slice {
            Some((a, b, line)) => column.slice(a, b - a).map_err(|e| Mistake { line, what: e.to_string() })?,
            None => column,
        };
        Ok((name, column))
    };
    found.into_iter().map(build).collect()
}

/// Whether a text describes columns of their own types: its first word is `column`.
pub fn has_columns(text: &str) -> bool {
    let first = text.lines().map(|line| without_comment(line).trim()).find(|line| !line.is_empty());
    first.is_some_and(|line| line.split_whitespace().next() == Some("column"))
}

#[cfg(test)]
mod tests {
    use super::*;

    #[test]
    fn rows_are_shown_as_they_are_read() {
        for (ty, text) in [
            ("i?", "1, null, -5"),
            ("f", "1.5, -0.0, 0x7fc00001"),
            ("u", r#""a\"b\\", "\x00\xff", "caf\u{e9}""#),
            ("vu?", r#""a longer text than twelve bytes", null"#),
            ("+l?(u?)", r#"["a", null], null, []"#),
            ("+vl?(u?)", r#"["a", null], null, []"#),
            ("+ud:5,7(i?, u)", r#"5:null, 7:"x", 5:3"#),
            ("+us:5,7(i?, u)", r#"5:null, 7:"x", 5:3"#),
            ("+r(s, u?)", r#""A", "A", null"#),
            ("C?[u]", r#""x", null, "y", "x""#),
            ("S[i]", "7, -7, 7"),
            ("+r(i, C[l])", "7, 7, -7"),
            ("+L(+r(i, C?[U]))", r#"["a", "a"], [], [null]"#),
            ("+vL(+r(i, C?[U]))", r#"["a", "a"], [], [null]"#),
        ] {
            let ty: Type = ty.parse().unwrap();
            let text = text.replace("\\u{e9}", "é");
            let column = Column::build(&ty, &rows(&ty, &text).unwrap()).unwrap();
            let shown: Vec<String> = column.rows().unwrap().iter().map(|r| show(&ty, r)).collect();
            assert_eq!(shown.join(", "), text, "{ty}");
            assert_eq!(ty.to_string().parse::<Type>().unwrap(), ty);
        }
    }

    #[test]
    fn a_null_entry_is_no_null_key() {
        let ty: Type = "C?[u?]".parse().unwrap();
        let text = r#""Ana", entry:null, null, "Bo", 2*entry:null"#;
        let column = Column::build(&ty, &rows(&ty, text).unwrap()).unwrap();
        let shown: Vec<String> = column.rows().unwrap().iter().map(|r| show(&ty, r)).collect();
        assert_eq!(shown.join(", "), r#""Ana", null, null, "Bo", null, null"#);
        assert_eq!((column.null_count(), &column.buffers[0][..]), (1, &[0, 1, 0, 2, 1, 1][..]));
        let values = column.dictionary.unwrap();
        assert_eq!((values.length, values.null_count()), (3, 1));
    }

    #[test]
    fn mistakes_name_their_line() {
        for (text, line) in [
            ("type i\nrows 1", 2),
            ("type q", 1),
            ("type +vl", 1),
            ("type +l", 1),
            ("type +L(i, i)", 1),
            ("type u[i]", 1),
            ("type +l(i)\nsource a\nrows 1", 3),
            ("type +r(i)", 1),
            ("type i\nsource a\nrows 1 x", 3),
            ("type i\nsource a\nrows null", 3),
            ("type i\nsource a\nrows 1\n\nrows 2\nsource b\nrows 3 99999999999", 7),
            ("type +r(s, i)\nsource a\nrows 30000*1\nsource b\nrows 9\nrows 32767*2\nrows 5", 6),
            ("type +r(s, i)\nsource a\nrows 32767*1\nrows 5 6\nrows 7", 4),
            ("type i\nsource a\nrows 1\nslice 0..2", 4),
            ("type i\nsource a\ncopy b 0..1", 3),
            ("type c\nsource a\nrows 128", 3),
            ("type C[u]\nsource a\nrows entry:null", 3),
            ("type C[u?]\nsource a\nrows entry:x", 3),
            ("type u?\nsource a\nrows entry:null", 3),
            ("type i\nsource a\ntrip\ncopy a 0..0", 3),
            ("type i\nsource a\ntrip\ntrip", 4),
            ("type i\nsource a\nend", 3),
            ("type i\nsource a\ntrip home", 3),
            ("source a", 1),
            ("# nothing", 1),
        ] {
            assert_eq!(read(text).unwrap_err().line, line, "{text}");
        }
        assert_eq!(read_bytes(b"type u\nsource a\nrows \"a\xff\"").unwrap_err().line, 3);
    }
}
