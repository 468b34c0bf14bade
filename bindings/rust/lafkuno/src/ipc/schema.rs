//! The schema of a file: fields as flatbuffers, and as columns without rows.

use super::flat::{Cell, Flat, Read, Table};
use crate::{Column, Field, Metadata};

/// Numbers of the type's table in Schema.fbs.
mod code {
    pub const NULL: u8 = 1;
    pub const INT: u8 = 2;
    pub const FLOAT: u8 = 3;
    pub const BINARY: u8 = 4;
    pub const UTF8: u8 = 5;
    pub const BOOL: u8 = 6;
    pub const DECIMAL: u8 = 7;
    pub const DATE: u8 = 8;
    pub const TIME: u8 = 9;
    pub const TIMESTAMP: u8 = 10;
    pub const INTERVAL: u8 = 11;
    pub const LIST: u8 = 12;
    pub const STRUCT: u8 = 13;
    pub const UNION: u8 = 14;
    pub const FIXED_BINARY: u8 = 15;
    pub const FIXED_LIST: u8 = 16;
    pub const MAP: u8 = 17;
    pub const DURATION: u8 = 18;
    pub const LARGE_BINARY: u8 = 19;
    pub const LARGE_UTF8: u8 = 20;
    pub const LARGE_LIST: u8 = 21;
    pub const RUN_ENDS: u8 = 22;
    pub const BINARY_VIEW: u8 = 23;
    pub const UTF8_VIEW: u8 = 24;
    pub const LIST_VIEW: u8 = 25;
    pub const LARGE_LIST_VIEW: u8 = 26;
}

const UNITS: [&str; 4] = ["s", "m", "u", "n"];
const FIELDS: usize = 10_000;

/// A field: its column without rows, and the numbers of its dictionaries in depth-first order.
#[derive(Clone, Debug)]
pub struct Shape {
    pub column: Column,
    pub dictionary: Option<i64>,
    pub children: Vec<Shape>,
    pub values: Option<Box<Shape>>,
}

/// The schema.
#[derive(Clone, Debug)]
pub struct Schema {
    pub fields: Vec<Shape>,
    pub metadata: Metadata,
}

fn unit(table: &Table, k: usize, default: i16) -> Read<&'static str> {
    let n = table.i16(k, default)?;
    usize::try_from(n).ok().and_then(|n| UNITS.get(n)).copied().ok_or_else(|| format!("an unknown time unit, {n}"))
}

fn int(table: &Table) -> Read<&'static str> {
    let signed = table.u8(1)? != 0;
    Ok(match (table.i32(0, 0)?, signed) {
        (8, true) => "c",
        (8, false) => "C",
        (16, true) => "s",
        (16, false) => "S",
        (32, true) => "i",
        (32, false) => "I",
        (64, true) => "l",
        (64, false) => "L",
        (n, _) => return Err(format!("integers of {n} bits")),
    })
}

/// The format string of a type with so many children.
fn format(code: u8, table: &Table, children: usize) -> Read<String> {
    let plain = match code {
        code::NULL => "n",
        code::INT => int(table)?,
        code::FLOAT => match table.i16(0, 0)? {
            0 => "e",
            1 => "f",
            2 => "g",
            n => return Err(format!("floats of unknown precision {n}")),
        },
        code::BINARY => "z",
        code::UTF8 => "u",
        code::BOOL => "b",
        code::DECIMAL => return Ok(format!("d:{},{},{}", table.i32(0, 0)?, table.i32(1, 0)?, table.i32(2, 128)?)),
        code::DATE if table.i16(0, 1)? == 0 => "tdD",
        code::DATE => "tdm",
        code::TIME => return Ok(format!("tt{}", unit(table, 0, 1)?)),
        code::TIMESTAMP => return Ok(format!("ts{}:{}", unit(table, 0, 0)?, table.text(1)?)),
        code::INTERVAL => match table.i16(0, 0)? {
            0 => "tiM",
            1 => "tiD",
            _ => "tin",
        },
        code::LIST => "+l",
        code::STRUCT => "+s",
        code::UNION => {
            let ids = table.vector(1, 4)?;
            let ids: Vec<i32> = if ids.len == 0 { (0..children as i32).collect() } else { (0..ids.len).map(|k| ids.i32(k)).collect::<Read<_>>()? };
            let ids: Vec<String> = ids.iter().map(i32::to_string).collect();
            return Ok(format!("{}{}", if table.i16(0, 0)? == 0 { "+us:" } else { "+ud:" }, ids.join(",")));
        }
        code::FIXED_BINARY => return Ok(format!("w:{}", table.i32(0, 0)?)),
        code::FIXED_LIST => return Ok(format!("+w:{}", table.i32(0, 0)?)),
        code::MAP => "+m",
        code::DURATION => return Ok(format!("tD{}", unit(table, 0, 1)?)),
        code::LARGE_BINARY => "Z",
        code::LARGE_UTF8 => "U",
        code::LARGE_LIST => "+L",
        code::RUN_ENDS => "+r",
        code::BINARY_VIEW => "vz",
        code::UTF8_VIEW => "vu",
        code::LIST_VIEW => "+vl",
        code::LARGE_LIST_VIEW => "+vL",
        n => return Err(format!("a type of unknown number {n}")),
    };
    Ok(plain.to_string())
}

pub fn pairs(table: &Table, k: usize) -> Read<Metadata> {
    let pairs = table.vector(k, 4)?;
    (0..pairs.len).map(|k| pairs.table(k).and_then(|p| Ok((p.bytes(0)?.to_vec(), p.bytes(1)?.to_vec())))).collect()
}

fn shape(table: &Table, depth: usize, count: &mut usize) -> Read<Shape> {
    *count += 1;
    if 64 < depth || FIELDS < *count {
        return Err("the schema has too many fields or is nested too deep".into());
    }
    let below = table.vector(5, 4)?;
    let children = (0..below.len).map(|k| shape(&below.table(k)?, depth + 1, count)).collect::<Read<Vec<_>>>()?;
    let Some(ty) = table.table(3)? else { return Err("a field without a type".into()) };
    let code = table.u8(2)?;
    let sorted = code == code::MAP && ty.u8(0)? != 0;
    let format = format(code, &ty, children.len())?;
    let field = Field { name: table.text(0)?.into(), metadata: pairs(table, 6)?, ordered: false, keys_sorted: sorted };
    let column = Column { format, nullable: table.u8(1)? != 0, field, ..Column::default() };
    let plain = Shape { column, dictionary: None, children, values: None };
    let Some(encoding) = table.table(4)? else { return Ok(plain) };
    // the type is that of the values, and the field's name and flag are those of the keys
    let keys = encoding.table(1)?.map_or(Ok("i"), |ty| int(&ty))?;
    let field = Field { ordered: encoding.u8(2)? != 0, ..plain.column.field.clone() };
    let column = Column { format: keys.into(), nullable: plain.column.nullable, field, ..Column::default() };
    let values = Shape { column: Column { nullable: true, field: Field::default(), ..plain.column }, ..plain };
    Ok(Shape { column, dictionary: Some(encoding.i64(0)?), children: vec![], values: Some(Box::new(values)) })
}

/// Reads a schema; big-endian ones are refused.
pub fn read(table: &Table) -> Read<Schema> {
    if table.i16(0, 0)? != 0 {
        return Err("the data is big-endian, which is not read".into());
    }
    let fields = table.vector(1, 4)?;
    let mut count = 0;
    let fields = (0..fields.len).map(|k| shape(&fields.table(k)?, 1, &mut count)).collect::<Read<_>>()?;
    Ok(Schema { fields, metadata: pairs(table, 2)? })
}

// ---- writing

fn text(text: &str) -> Cell {
    Cell::To(Flat::Text(text.as_bytes().to_vec()))
}

pub fn flat_pairs(pairs: &[(Vec<u8>, Vec<u8>)]) -> Cell {
    if pairs.is_empty() {
        return Cell::None;
    }
    let pair = |(key, value): &(Vec<u8>, Vec<u8>)| Flat::Table(vec![Cell::To(Flat::Text(key.clone())), Cell::To(Flat::Text(value.clone()))]);
    Cell::To(Flat::Tables(pairs.iter().map(pair).collect()))
}

fn flat_int(format: &str) -> Option<Flat> {
    let bits = match format {
        "c" | "C" => 8,
        "s" | "S" => 16,
        "i" | "I" => 32,
        "l" | "L" => 64,
        _ => return None,
    };
    Some(Flat::Table(vec![Cell::I32(bits), Cell::U8(format.starts_with(['c', 's', 'i', 'l']) as u8)]))
}

/// The type's number and its table; None where a format is not written.
fn flat_type(format: &str) -> Option<(u8, Flat)> {
    let none = || Flat::Table(vec![]);
    let short = |n: i16| Flat::Table(vec![Cell::I16(n)]);
    let unit = |at: usize| Some(UNITS.iter().position(|u| format.get(at..at + 1) == Some(u))? as i16);
    Some(match format {
        "e" => (code::FLOAT, short(0)),
        "f" => (code::FLOAT, short(1)),
        "g" => (code::FLOAT, short(2)),
        "z" => (code::BINARY, none()),
        "u" => (code::UTF8, none()),
        "Z" => (code::LARGE_BINARY, none()),
        "U" => (code::LARGE_UTF8, none()),
        "vz" => (code::BINARY_VIEW, none()),
        "vu" => (code::UTF8_VIEW, none()),
        "+l" => (code::LIST, none()),
        "+L" => (code::LARGE_LIST, none()),
        "+vl" => (code::LIST_VIEW, none()),
        "+vL" => (code::LARGE_LIST_VIEW, none()),
        "+r" => (code::RUN_ENDS, none()),
        "tdD" => (code::DATE, short(0)),
        "tdm" => (code::DATE, short(1)),
        "tiM" => (code::INTERVAL, short(0)),
        "tiD" => (code::INTERVAL, short(1)),
        "tts" | "ttm" => (code::TIME, Flat::Table(vec![Cell::I16(unit(2)?), Cell::I32(32)])),
        "ttu" | "ttn" => (code::TIME, Flat::Table(vec![Cell::I16(unit(2)?), Cell::I32(64)])),
        "tDs" | "tDm" | "tDu" | "tDn" => (code::DURATION, short(unit(2)?)),
        f if f.starts_with("ts") => {
            let zone = f.get(4..)?;
            (code::TIMESTAMP, Flat::Table(vec![Cell::I16(unit(2)?), if zone.is_empty() { Cell::None } else { text(zone) }]))
        }
        f if f.starts_with("+us:") || f.starts_with("+ud:") => {
            let ids = f[4..].split(',').filter(|id| !id.is_empty()).map(|id| id.parse().ok()).collect::<Option<Vec<i32>>>()?;
            (code::UNION, Flat::Table(vec![Cell::I16(f.starts_with("+ud:") as i16), Cell::To(Flat::Ints(ids))]))
        }
        f => (code::INT, flat_int(f)?),
    })
}

/// A field; dictionaries are numbered from `next` on in depth-first order.
fn flat_field(column: &Column, next: &mut i64) -> Result<Flat, String> {
    let values = column.dictionary.as_deref();
    let mut encoding = Cell::None;
    if values.is_some() {
        let keys = flat_int(&column.format).ok_or_else(|| format!("keys of format {} are not written", column.format))?;
        encoding = Cell::To(Flat::Table(vec![Cell::I64(*next), Cell::To(keys), Cell::U8(column.field.ordered as u8)]));
        *next += 1;
    }
    let typed = values.unwrap_or(column);
    let (code, ty) = flat_type(&typed.format).ok_or_else(|| format!("the format {} is not written", typed.format))?;
    let children = typed.children.iter().map(|c| flat_field(c, next)).collect::<Result<Vec<_>, _>>()?;
    Ok(Flat::Table(vec![
        text(&column.field.name),
        Cell::U8(column.nullable as u8),
        Cell::U8(code),
        Cell::To(ty),
        encoding,
        Cell::To(Flat::Tables(children)),
        flat_pairs(&column.field.metadata),
    ]))
}

/// The schema of columns.
pub fn write(columns: &[Column], metadata: &[(Vec<u8>, Vec<u8>)]) -> Result<Flat, String> {
    let mut next = 0;
    let fields = columns.iter().map(|c| flat_field(c, &mut next)).collect::<Result<Vec<_>, _>>()?;
    Ok(Flat::Table(vec![Cell::I16(0), Cell::To(Flat::Tables(fields)), flat_pairs(metadata)]))
}
