//! Columns built from rows.

use crate::types::{storage, Kind};
use crate::{Buffer, Column, Error, Row, Type};
use std::collections::HashMap;

/// The key of each entry, the entries in order, and the values that they were built into.
type Entries = (HashMap<Row, u64>, Vec<Row>, Option<Column>);

/// The entries of each dictionary node, by its number in the tree.
#[derive(Default)]
struct Dictionaries(HashMap<usize, Entries>);

fn mismatch<T>(ty: &Type, row: &Row) -> Result<T, Error> {
    Err(Error::Column(format!("{row:?} is no row of type {ty}")))
}

/// What stands in a slot that is not shown.
fn filler(ty: &Type) -> Row {
    match ty.kind() {
        Kind::Sparse | Kind::Dense => match ty.children.first() {
            Some(child) => Row::Union(ty.ids()[0], Box::new(filler(child))),
            None => Row::Null,
        },
        Kind::Runs => filler(&ty.children[1]),
        _ if ty.nullable => Row::Null,
        Kind::Dictionary => filler(ty.dictionary.as_ref().unwrap()),
        Kind::Fixed if ty.format == "f" => Row::Single(0),
        Kind::Fixed if ty.format == "g" => Row::Double(0),
        Kind::Fixed => Row::Whole(0),
        Kind::List | Kind::ListView => Row::List(vec![]),
        _ => Row::Bytes(vec![]),
    }
}

/// The bytes of a number that fits the format.
fn encode(ty: &Type, row: &Row) -> Result<Vec<u8>, Error> {
    let w = ty.width();
    match (storage(&ty.format), row) {
        ("f", Row::Single(bits)) => Ok(bits.to_le_bytes().to_vec()),
        ("g", Row::Double(bits)) => Ok(bits.to_le_bytes().to_vec()),
        ("f" | "g", _) => mismatch(ty, row),
        (format, Row::Whole(n)) => {
            let bits = 8 * w as u32;
            let fits = match format {
                "C" | "S" | "I" | "L" => (0..1 << bits).contains(n),
                _ => (-(1 << (bits - 1))..1 << (bits - 1)).contains(n),
            };
            if fits {
                Ok(n.to_le_bytes()[..w].to_vec())
            } else {
                Err(Error::Column(format!("{n} does not fit type {ty}")))
            }
        }
        _ => mismatch(ty, row),
    }
}

fn offset(n: usize, w: usize) -> Result<Vec<u8>, Error> {
    if w == 4 && i32::MAX as usize <= n {
        return Err(Error::Column("more bytes or rows than offsets of four bytes reach: use a wider type".into()));
    }
    Ok(n.to_le_bytes()[..w].to_vec())
}

/// The rows that go to each child.
fn below(ty: &Type, rows: &[&Row]) -> Result<Vec<Vec<Row>>, Error> {
    match ty.kind() {
        Kind::List | Kind::ListView => {
            let mut child = vec![];
            for row in rows {
                match row {
                    Row::List(list) => child.extend(list.iter().cloned()),
                    Row::Null => {}
                    _ => return mismatch(ty, row),
                }
            }
            Ok(vec![child])
        }
        Kind::Sparse | Kind::Dense => {
            let ids = ty.ids();
            let mut children = vec![vec![]; ids.len()];
            for row in rows {
                let Row::Union(id, inner) = row else { return mismatch(ty, row) };
                let Some(c) = ids.iter().position(|d| d == id) else { return mismatch(ty, row) };
                for (k, child) in children.iter_mut().enumerate() {
                    if k == c {
                        child.push((**inner).clone());
                    } else if ty.kind() == Kind::Sparse {
                        child.push(filler(&ty.children[k]));
                    }
                }
            }
            Ok(children)
        }
        Kind::Runs => {
            let mut values: Vec<Row> = rows.iter().map(|r| (*r).clone()).collect();
            values.dedup();
            Ok(vec![values])
        }
        _ => Ok(vec![]),
    }
}

/// Whether a type has the children and the dictionary of its format.
pub(crate) fn shape(ty: &Type) -> Result<(), Error> {
    let good = match ty.kind() {
        Kind::List | Kind::ListView => ty.children.len() == 1,
        Kind::Sparse | Kind::Dense => ty.children.len() == ty.ids().len(),
        Kind::Runs => ty.children.len() == 2 && matches!(ty.children[0].format.as_str(), "s" | "i" | "l") && ty.children[0].dictionary.is_none(),
        Kind::Dictionary => {
            let keys = Type { dictionary: None, ..ty.clone() };
            let values = ty.dictionary.as_ref().unwrap().kind();
            keys.kind() == Kind::Fixed
                && !matches!(ty.format.as_str(), "f" | "g")
                && matches!(values, Kind::Fixed | Kind::Strings)
                && ty.children.is_empty()
        }
        Kind::Other => false,
        _ => ty.children.is_empty(),
    };
    if good {
        ty.children.iter().try_for_each(shape)
    } else {
        Err(Error::Column(format!("{ty} is not a type with the right children")))
    }
}

impl Dictionaries {
    /// Takes up the entries that rows of node `node` need; answers where its subtree ends.
    fn collect(&mut self, ty: &Type, node: usize, rows: &[&Row]) -> Result<usize, Error> {
        if ty.kind() == Kind::Dictionary {
            let (keys, entries, _) = self.0.entry(node).or_default();
            for row in rows.iter().filter(|r| ***r != Row::Null) {
                let next = entries.len() as u64;
                if *keys.entry((*row).clone()).or_insert(next) == next {
                    entries.push((*row).clone());
                }
            }
            return Ok(node + 2);
        }
        let mut at = node + 1;
        let mut children = ty.children.iter();
        if ty.kind() == Kind::Runs {
            at += 1;
            children.next();
        }
        for (child, rows) in children.zip(below(ty, rows)?) {
            at = self.collect(child, at, &rows.iter().collect::<Vec<_>>())?;
        }
        Ok(at)
    }

    fn build(&mut self, ty: &Type, node: usize, rows: &[&Row]) -> Result<(Column, usize), Error> {
        let masked = !matches!(ty.kind(), Kind::Sparse | Kind::Dense | Kind::Runs);
        let mut column = Column { format: ty.format.clone(), nullable: ty.nullable, length: rows.len() as u64, ..Column::default() };
        if masked && rows.contains(&&Row::Null) {
            if !ty.nullable {
                return Err(Error::Column(format!("a null in a column of type {ty}: write {}? for a nullable one", ty.format)));
            }
            let mut bits = vec![0; rows.len().div_ceil(8)];
            for (k, _) in rows.iter().enumerate().filter(|(_, r)| ***r != Row::Null) {
                bits[k / 8] |= 1 << (k % 8);
            }
            column.validity = Some(bits.into());
        }
        let w = ty.width();
        let mut at = node + 1;
        let (mut one, mut two, mut data) = (vec![], vec![], vec![]);
        match ty.kind() {
            Kind::Fixed => {
                for row in rows {
                    one.extend(if **row == Row::Null { vec![0; w] } else { encode(ty, row)? });
                }
            }
            Kind::Strings | Kind::Views => {
                if w != 0 {
                    one.extend(offset(0, w)?);
                }
                for row in rows {
                    let bytes = match row {
                        Row::Bytes(bytes) => &bytes[..],
                        Row::Null => &[],
                        _ => return mismatch(ty, row),
                    };
                    if w != 0 {
                        two.extend(bytes);
                        one.extend(offset(two.len(), w)?);
                        continue;
                    }
                    let mut view = [0; 16];
                    view[..4].copy_from_slice(&offset(bytes.len(), 4)?);
                    if bytes.len() <= 12 {
                        view[4..4 + bytes.len()].copy_from_slice(bytes);
                    } else {
                        view[4..8].copy_from_slice(&bytes[..4]);
                        view[12..].copy_from_slice(&offset(data.len(), 4)?);
                        data.extend(bytes);
                    }
                    one.extend(view);
                }
            }
            Kind::List => {
                let mut end = 0;
                one.extend(offset(end, w)?);
                for row in rows {
                    end += if let Row::List(list) = row { list.len() } else { 0 };
                    one.extend(offset(end, w)?);
                }
            }
            Kind::ListView => {
                let mut end = 0;
                for row in rows {
                    let n = if let Row::List(list) = row { list.len() } else { 0 };
                    one.extend(if **row == Row::Null { vec![0; w] } else { offset(end, w)? });
                    two.extend(offset(n, w)?);
                    end += n;
                }
            }
            Kind::Sparse | Kind::Dense => {
                let mut counts = [0; 128];
                for row in rows {
                    let Row::Union(id, _) = row else { return mismatch(ty, row) };
                    one.push(*id);
                    two.extend(offset(counts[*id as usize & 127], 4)?);
                    counts[*id as usize & 127] += 1;
                }
            }
            Kind::Runs => {
                let ends_ty = &ty.children[0];
                let mut ends = vec![];
                for (k, row) in rows.iter().enumerate() {
                    if rows.get(k + 1) != Some(row) {
                        ends.extend(encode(ends_ty, &Row::Whole(k as i128 + 1))?);
                    }
                }
                let length = (ends.len() / ends_ty.width()) as u64;
                column.children.push(Column { format: ends_ty.format.clone(), length, buffers: vec![ends.into()], ..Column::default() });
                at += 1;
            }
            Kind::Dictionary => {
                let values = ty.dictionary.as_ref().unwrap();
                if self.0.get(&node).is_some_and(|d| d.2.is_none()) {
                    let entries: Vec<Row> = self.0[&node].1.iter().map(|r| if *r == Row::NullEntry { Row::Null } else { r.clone() }).collect();
                    let built = self.build(values, node + 1, &entries.iter().collect::<Vec<_>>())?.0;
                    self.0.get_mut(&node).unwrap().2 = Some(built);
                }
                let (keys, _, built) = self.0.entry(node).or_default();
                for row in rows {
                    let key = keys.get(row).copied().unwrap_or(0);
                    one.extend(encode(&Type { dictionary: None, ..ty.clone() }, &Row::Whole(key as i128))?);
                }
                column.dictionary = built.clone().map(Box::new);
                column.buffers = vec![one.into()];
                return Ok((column, node + 2));
            }
            Kind::Other => return Err(Error::Column(format!("{ty} is not a type that is taken"))),
        }
        column.buffers = match ty.kind() {
            Kind::Fixed | Kind::Views | Kind::List | Kind::Sparse => vec![one.into()],
            Kind::Runs => vec![],
            _ => vec![one.into(), two.into()],
        };
        if !data.is_empty() {
            column.data = vec![Buffer::from(data)];
        }
        let skip = usize::from(ty.kind() == Kind::Runs);
        for (child, rows) in ty.children[skip..].iter().zip(below(ty, rows)?) {
            let built = self.build(child, at, &rows.iter().collect::<Vec<_>>())?;
            column.children.push(built.0);
            at = built.1;
        }
        Ok((column, at))
    }
}

impl Column {
    /// A column of these rows. Rows of a dictionary are rows of its values, `NullEntry` one that is null; equal neighbours in a run-end
    /// column are one run.
    pub fn build(ty: &Type, rows: &[Row]) -> Result<Column, Error> {
        Ok(Column::build_all(ty, &[rows], false)?.remove(0))
    }

    /// Several columns of one type; with `share`, over the same dictionaries.
    pub fn build_all(ty: &Type, columns: &[&[Row]], share: bool) -> Result<Vec<Column>, Error> {
        shape(ty)?;
        let columns: Vec<Vec<&Row>> = columns.iter().map(|rows| rows.iter().collect()).collect();
        let mut dictionaries = Dictionaries::default();
        for rows in &columns {
            dictionaries.collect(ty, 0, rows)?;
        }
        let mut built = vec![];
        for rows in &columns {
            if !share {
                dictionaries = Dictionaries::default();
                dictionaries.collect(ty, 0, rows)?;
            }
            built.push(dictionaries.build(ty, 0, rows)?.0);
        }
        Ok(built)
    }
}
