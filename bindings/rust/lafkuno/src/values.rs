//! Rows as text (docs/USING.md).

use crate::build::shape;
use crate::types::{storage, Kind};
use crate::{Column, Row, Type};
use std::fmt::Write;

struct Values<'a> {
    rest: &'a str,
}

type Parsed<T> = Result<T, String>;

impl<'a> Values<'a> {
    fn space(&mut self) {
        self.rest = self.rest.trim_start();
    }

    fn eat(&mut self, c: char) -> bool {
        self.space();
        match self.rest.strip_prefix(c) {
            Some(rest) => {
                self.rest = rest;
                true
            }
            None => false,
        }
    }

    /// The characters up to the next that ends a number or a word.
    fn word(&mut self) -> &'a str {
        self.space();
        let end = self.rest.find(|c: char| c.is_whitespace() || ",[]:*\"".contains(c)).unwrap_or(self.rest.len());
        let (word, rest) = self.rest.split_at(end);
        self.rest = rest;
        word
    }

    fn string(&mut self) -> Parsed<Vec<u8>> {
        let mut bytes = vec![];
        let mut chars = self.rest.char_indices();
        while let Some((at, c)) = chars.next() {
            let escaped = match c {
                '"' => {
                    self.rest = &self.rest[at + 1..];
                    return Ok(bytes);
                }
                '\\' => chars.next().map(|(_, c)| c),
                _ => {
                    bytes.extend(c.encode_utf8(&mut [0; 4]).bytes());
                    continue;
                }
            };
            match escaped {
                Some('n') => bytes.push(b'\n'),
                Some('t') => bytes.push(b'\t'),
                Some(c @ ('"' | '\\')) => bytes.push(c as u8),
                Some('x') => {
                    let digits: String = [chars.next(), chars.next()].into_iter().flatten().map(|(_, c)| c).collect();
                    bytes.push(u8::from_str_radix(&digits, 16).map_err(|_| "two hexadecimal digits are due after \\x".to_string())?);
                }
                _ => return Err("after \\ one of n, t, x, \" and \\ is due".into()),
            }
        }
        Err("a \" is due at the end of the bytes".into())
    }

    /// `entry:null`, a valid key of a null entry.
    fn null_entry(&mut self) -> Parsed<bool> {
        let start = self.rest;
        if self.word() != "entry" || !self.eat(':') {
            self.rest = start;
            return Ok(false);
        }
        match self.word() {
            "null" => Ok(true),
            word => Err(format!("`null` is due after `entry:`, not `{word}`")),
        }
    }

    /// A value of the type; rows of a dictionary are those of its values.
    fn value(&mut self, ty: &Type) -> Parsed<Row> {
        if let Some(values) = &ty.dictionary {
            return if self.null_entry()? { Ok(Row::NullEntry) } else { self.value(values) };
        }
        if ty.format == "+r" {
            return self.value(&ty.children[1]);
        }
        if self.eat('"') {
            let bytes = self.string()?;
            return match ty.format.as_str() {
                "z" | "u" | "Z" | "U" | "vz" | "vu" => Ok(Row::Bytes(bytes)),
                _ => Err(format!("bytes are no row of type {ty}")),
            };
        }
        if self.eat('[') {
            if !matches!(ty.kind(), Kind::List | Kind::ListView) {
                return Err(format!("a list is no row of type {ty}"));
            }
            let mut rows = vec![];
            while !self.eat(']') {
                if !rows.is_empty() && !self.eat(',') {
                    return Err("`,` or `]` is due in a list".into());
                }
                rows.extend(self.repeated(&ty.children[0])?);
            }
            return Ok(Row::List(rows));
        }
        let word = self.word();
        if word == "null" {
            return Ok(Row::Null);
        }
        let wrong = || format!("`{word}` is no row of type {ty}");
        if ty.format.starts_with("+u") {
            let id: u8 = word.parse().map_err(|_| wrong())?;
            let Some(c) = ty.ids().iter().position(|d| *d == id) else {
                return Err(format!("{id} is no id of the union {ty}"));
            };
            if !self.eat(':') {
                return Err(format!("`:` is due after a union's id, as in {id}:null"));
            }
            return Ok(Row::Union(id, Box::new(self.value(&ty.children[c])?)));
        }
        let bits = word.strip_prefix("0x").map(|hex| u64::from_str_radix(hex, 16));
        match storage(&ty.format) {
            "f" => match bits {
                Some(bits) => bits.ok().and_then(|b| u32::try_from(b).ok()).map(Row::Single),
                None => word.parse::<f32>().ok().map(|x| Row::Single(x.to_bits())),
            },
            "g" => match bits {
                Some(bits) => bits.ok().map(Row::Double),
                None => word.parse::<f64>().ok().map(|x| Row::Double(x.to_bits())),
            },
            "c" | "C" | "s" | "S" | "i" | "I" | "l" | "L" => word.parse().ok().map(Row::Whole),
            _ => None,
        }
        .ok_or_else(wrong)
    }

    /// A value, or `n*value`.
    fn repeated(&mut self, ty: &Type) -> Parsed<Vec<Row>> {
        self.space();
        let start = self.rest;
        let word = self.word();
        if self.eat('*') {
            let n: usize = word.parse().map_err(|_| format!("a count is due before `*`, not `{word}`"))?;
            if 1 << 24 < n {
                return Err(format!("{n} rows are more than a text may ask for"));
            }
            return Ok(vec![self.value(ty)?; n]);
        }
        self.rest = start;
        Ok(vec![self.value(ty)?])
    }

    fn all(&mut self, ty: &Type) -> Parsed<Vec<Row>> {
        let mut rows = vec![];
        loop {
            self.space();
            if self.rest.is_empty() {
                return Ok(rows);
            }
            rows.extend(self.repeated(ty)?);
            self.eat(',');
        }
    }
}

/// Rows of a type: values with spaces or commas between them.
pub fn rows(ty: &Type, text: &str) -> Result<Vec<Row>, String> {
    shape(ty).map_err(|e| e.to_string())?;
    Values { rest: text }.all(ty)
}

fn show_bytes(bytes: &[u8], out: &mut String) {
    out.push('"');
    for chunk in bytes.utf8_chunks() {
        for c in chunk.valid().chars() {
            match c {
                '"' | '\\' => out.extend(['\\', c]),
                '\n' => out.push_str("\\n"),
                '\t' => out.push_str("\\t"),
                c if c.is_control() => c.encode_utf8(&mut [0; 4]).bytes().for_each(|b| write!(out, "\\x{b:02x}").unwrap()),
                c => out.push(c),
            }
        }
        chunk.invalid().iter().for_each(|b| write!(out, "\\x{b:02x}").unwrap());
    }
    out.push('"');
}

/// The number that the stored bytes of a dictionary's entry are.
fn stored(ty: &Type, bytes: &[u8]) -> Option<Row> {
    let column = Column { format: ty.format.clone(), length: 1, buffers: vec![bytes.to_vec().into()], ..Column::default() };
    column.row(0)
}

fn show_into(ty: &Type, row: &Row, out: &mut String) {
    match (row, ty.format.as_str()) {
        (Row::Bytes(bytes), _) => {
            match ty.dictionary.as_ref().filter(|v| !matches!(v.format.as_str(), "z" | "u" | "Z" | "U")).and_then(|v| Some((v, stored(v, bytes)?))) {
                Some((values, number)) => show_into(values, &number, out),
                None => show_bytes(bytes, out),
            }
        }
        (_, "+r") => show_into(&ty.children[1], row, out),
        (Row::Null, _) => out.push_str("null"),
        (Row::NullEntry, _) => out.push_str("entry:null"),
        (Row::Whole(n), _) => write!(out, "{n}").unwrap(),
        (Row::Single(bits), _) if f32::from_bits(*bits).is_nan() => write!(out, "0x{bits:08x}").unwrap(),
        (Row::Double(bits), _) if f64::from_bits(*bits).is_nan() => write!(out, "0x{bits:016x}").unwrap(),
        (Row::Single(bits), _) => write!(out, "{:?}", f32::from_bits(*bits)).unwrap(),
        (Row::Double(bits), _) => write!(out, "{:?}", f64::from_bits(*bits)).unwrap(),
        (Row::List(rows), _) => {
            out.push('[');
            for (k, row) in rows.iter().enumerate() {
                out.push_str(if k == 0 { "" } else { ", " });
                show_into(&ty.children[0], row, out);
            }
            out.push(']');
        }
        (Row::Union(id, row), _) => {
            write!(out, "{id}:").unwrap();
            let child = ty.ids().iter().position(|d| d == id).and_then(|c| ty.children.get(c));
            show_into(child.unwrap_or(ty), row, out);
        }
    }
}

/// A row as [`rows`] reads it.
pub fn show(ty: &Type, row: &Row) -> String {
    let mut out = String::new();
    // a run-end column's bytes are its values'
    let mut shown = ty;
    while shown.format == "+r" && 2 <= shown.children.len() {
        shown = &shown.children[1];
    }
    show_into(shown, row, &mut out);
    out
}
