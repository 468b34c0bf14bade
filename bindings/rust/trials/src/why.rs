//! What stopped an order: its ground is the order's, its node is one that can be the cause, and its numbers clash.

use crate::compare::same;
use lafkuno::calls::Why;
use lafkuno::Type;

/// The first part that is too small: its node, the bytes due there, and its own.
pub type Short = Option<(usize, u64, u64)>;

fn list(ty: &Type, all: &mut Vec<String>) {
    all.push(ty.format.clone());
    ty.dictionary.iter().for_each(|d| list(d, all));
    ty.children.iter().for_each(|c| list(c, all));
}

/// The formats of the nodes in tree order.
pub fn formats(ty: &Type) -> Vec<String> {
    let mut all = vec![];
    list(ty, &mut all);
    all
}

/// The largest number that does not clash at a node.
fn largest(formats: &[String], node: usize, ground: u8) -> Option<u64> {
    let format = formats.get(node)?;
    match (ground, format.as_str()) {
        (7, "+r") => Some(match formats.get(node + 1)?.as_str() {
            "s" => i16::MAX as u64,
            "i" => i32::MAX as u64,
            _ => i64::MAX as u64,
        }),
        (6, "u" | "z" | "+l" | "+vl") => Some(i32::MAX as u64),
        (6, "U" | "Z" | "+L" | "+vL") => Some(i64::MAX as u64),
        (6, f) if f.starts_with("+ud:") => Some(i32::MAX as u64),
        _ => None,
    }
}

/// Whether the answer is right for an order of this ground.
pub fn judge(why: Why, ground: u8, formats: &[String], short: Short) -> Result<(), String> {
    same("the ground of what stopped it", why.ground, ground)?;
    let Why { node, row, needed, allowed, .. } = why;
    match ground {
        13 => same("the first small part", Some((node, needed, allowed)), short)?,
        6 | 7 => same("the largest allowed", Some(allowed), largest(formats, node, ground))?,
        4 | 5 if !formats.get(node).is_some_and(|f| f.starts_with("+u")) => return Err(format!("{why:?} names no union")),
        4 | 5 => same("the numbers of a union", (row, needed, allowed), (0, 0, 0))?,
        _ => same("what names no node", why, Why { ground, ..Why::default() })?,
    }
    match ground {
        6 | 7 | 13 if needed <= allowed => Err(format!("{why:?}: what is needed is not above what is allowed")),
        7 | 13 => same("the row", row, 0),
        _ => Ok(()),
    }
}
