//! Where a column can't become another type, and what was found there. The library answers the ground; this only looks for its place.

use crate::calls::{self, Into};
use crate::explain::{self, Source};
use crate::types::{Kind, Type};
use crate::{Column, Error, Ground, Lent, Place};

/// The error of a refused conversion of the first column that is laid to the type of the second.
pub(crate) fn converting(lent: &Lent, (column, to): (&Column, &Type), into: Into, ground: Ground) -> Error {
    let [first, n, target, target_n] = lent.sources[..] else { return Error::Refused(ground) };
    let x = lent.tables();
    if calls::column_ground(&x, first, n) == ground.number() {
        return explain::opening(lent, ground);
    }
    let [from, due] = [(first, n), (target, target_n)].map(|(first, n)| Source::new(x, first as usize, n as usize));
    let place = match (ground, into) {
        (Ground::UnknownType, _) => differing(column, to, into),
        (Ground::OffsetTooLarge, Into::List) => from.sum_too_large(&due),
        (Ground::OffsetTooLarge | Ground::RunEndTooLarge | Ground::TooManyEntries, Into::Widths) => from.too_wide(&due),
        _ => None,
    };
    place.map_or(Error::Refused(ground), |place| Error::RefusedAt(ground, Box::new(place)))
}

/// Whether a type, logical types included, is not one that a column becomes.
pub(crate) fn is_other_type(column: &Column, to: &Type, into: Into) -> bool {
    differing(column, to, into).is_some()
}

/// What a node is to the one above it.
#[derive(Clone, Copy, PartialEq)]
enum Node {
    Root,
    /// A dictionary's values.
    Values,
    RunEnds,
    Other,
}

/// The first node at which a type is not the one due for a column.
fn differing(column: &Column, to: &Type, into: Into) -> Option<Place> {
    let mut nodes = vec![];
    walk(column, Some(to), Node::Root, &mut nodes);
    let found = nodes.iter().enumerate().find_map(|(k, (column, to, node))| {
        let Some(to) = to else { return Some((k, format!("`{}`, and the type has no such node", column.format))) };
        let (old, new) = (column.format.as_str(), to.format.as_str());
        let formats = match (*node, into) {
            (Node::Root, Into::List) => matches!((old, new), ("+vl", "+l") | ("+vL", "+L")),
            (Node::Root, Into::ListView) => matches!((old, new), ("+l", "+vl") | ("+L", "+vL")),
            (_, Into::Widths) => old == new || width_class(column, *node).is_some_and(|class| class.contains(&new)),
            _ => old == new,
        };
        let shape = (column.children.len(), column.dictionary.is_some()) == (to.children.len(), to.dictionary.is_some());
        // the flags of a list's child are its own there, as those of roots and dictionary values are everywhere
        let free = matches!(node, Node::Root | Node::Values) || k == 1 && into != Into::Widths;
        let flags = free || column.nullable == to.nullable;
        let say = |format: &str, nullable: bool| format!("`{format}`{}", if nullable { ", nullable" } else { "" });
        let found = || format!("{}, which does not become {}", say(old, column.nullable), say(new, to.nullable));
        (!formats || !shape || !flags).then(|| (k, found()))
    });
    found.map(|(node, found)| Place { node: Some(node), found, ..Place::default() })
}

/// The formats of all widths of a node; None where it has one alone.
fn width_class(column: &Column, node: Node) -> Option<&'static [&'static str]> {
    Some(match column.format.as_str() {
        _ if column.dictionary.is_some() => &["c", "C", "s", "S", "i", "I", "l", "L"],
        "s" | "i" | "l" if node == Node::RunEnds => &["s", "i", "l"],
        "z" | "Z" => &["z", "Z"],
        "u" | "U" => &["u", "U"],
        "+l" | "+L" => &["+l", "+L"],
        "+vl" | "+vL" => &["+vl", "+vL"],
        _ => return None,
    })
}

type Pair<'a> = (&'a Column, Option<&'a Type>, Node);

/// The nodes of a column in depth-first order, each with the type's node of the same place.
fn walk<'a>(column: &'a Column, to: Option<&'a Type>, node: Node, out: &mut Vec<Pair<'a>>) {
    out.push((column, to, node));
    if let Some(values) = &column.dictionary {
        walk(values, to.and_then(|t| t.dictionary.as_deref()), Node::Values, out);
    }
    for (k, child) in column.children.iter().enumerate() {
        let node = if column.format == "+r" && k == 0 { Node::RunEnds } else { Node::Other };
        walk(child, to.and_then(|t| t.children.get(k)), node, out);
    }
}

/// The largest offset, size or run end of a width.
fn most(w: usize) -> u64 {
    (1 << (8 * w - 1)) - 1
}

/// A number at a node that is above the largest allowed.
fn above(node: usize, row: u64, needed: u64, allowed: u64) -> Option<Place> {
    (allowed < needed).then(|| Place { node: Some(node), row: Some(row), needed: Some(needed), allowed: Some(allowed), ..Place::default() })
}

impl Source<'_> {
    /// The first valid row of a list-view with which the rows so far are more than an offset holds.
    fn sum_too_large(&self, due: &Source) -> Option<Place> {
        let (length, offset) = self.rows(0)?;
        let (w, sizes, most) = (self.ty(0).width(), self.buffer(0, 2)?, most(due.ty(0).width()));
        let mut sum = 0u64;
        (0..length).find_map(|row| {
            if self.valid(0, offset + row) {
                sum = sum.saturating_add(entry(sizes, offset + row, w));
            }
            above(0, row, sum, most)
        })
    }

    /// The first number in tree order that does not fit the widths that are due. Each node has the range of rows that its parent settles.
    fn too_wide(&self, due: &Source) -> Option<Place> {
        let mut ranges = vec![(0, 0); self.nodes.len()];
        ranges[0] = (0, self.rows(0)?.0);
        (0..self.nodes.len()).find_map(|k| {
            let (a, n) = ranges[k];
            let s = self.rows(k)?.1 + a;
            let found = self.own_too_wide(due, k, s, n);
            if found.is_none() {
                self.settle(k, s, n, &mut ranges);
            }
            found
        })
    }

    /// The same of node k's own numbers, for n slots from slot s on.
    fn own_too_wide(&self, due: &Source, k: usize, s: u64, n: u64) -> Option<Place> {
        let (ty, to) = (self.ty(k), due.ty(k));
        let (w, one, two) = (ty.width(), self.buffer(k, 1).unwrap_or(&[]), self.buffer(k, 2).unwrap_or(&[]));
        match ty.kind() {
            Kind::Strings | Kind::List => {
                (0..n).find_map(|i| above(k, i, entry(one, s + i + 1, w).saturating_sub(entry(one, s, w)), most(to.width())))
            }
            Kind::ListView => [one, two].iter().find_map(|buffer| (0..n).find_map(|i| above(k, i, entry(buffer, s + i, w), most(to.width())))),
            Kind::Runs if 0 < n => {
                let (allowed, (first, count)) = (most(due.ty(k + 1).width()), self.touched(k, s, n));
                (first..first + count).find_map(|run| above(k, 0, self.run_end(k, run).min(s + n) - s, allowed))
            }
            Kind::Dictionary => {
                let bits = 8 * to.width() as u32 - u32::from("csil".contains(&to.format));
                above(k, 0, self.rows(k + 1)?.0.saturating_sub(1), u64::MAX >> (64 - bits))
            }
            _ => None,
        }
    }

    /// Which rows of the nodes below node k are written.
    fn settle(&self, k: usize, s: u64, n: u64, ranges: &mut [(u64, u64)]) {
        let (ty, below) = (self.ty(k), &self.nodes[k].below);
        let (w, one) = (ty.width(), self.buffer(k, 1).unwrap_or(&[]));
        let all = |b: usize| (0, self.rows(b).unwrap_or_default().0);
        for (j, b) in below.iter().enumerate() {
            ranges[*b] = match ty.kind() {
                Kind::List => (entry(one, s, w), entry(one, s + n, w).saturating_sub(entry(one, s, w))),
                Kind::Sparse => (s, n),
                Kind::Runs if j == 0 => (0, 0),
                Kind::Runs => self.touched(k, s, n),
                _ => all(*b),
            };
        }
    }

    /// Where a run of the run-end node k ends.
    fn run_end(&self, k: usize, run: u64) -> u64 {
        entry(self.buffer(k + 1, 1).unwrap_or(&[]), self.rows(k + 1).unwrap_or_default().1 + run, self.ty(k + 1).width())
    }

    /// The first run that n slots from slot s on touch, and how many.
    fn touched(&self, k: usize, s: u64, n: u64) -> (u64, u64) {
        let all = self.rows(k + 1).unwrap_or_default().0;
        let past = |slot: u64| (0..all).find(|run| slot < self.run_end(k, *run)).unwrap_or(all);
        match n {
            0 => (0, 0),
            _ => (past(s), past(s + n - 1) + 1 - past(s)),
        }
    }
}

/// An entry of w bytes without a sign.
fn entry(s: &[u8], k: u64, w: usize) -> u64 {
    let mut word = [0; 8];
    let at = usize::try_from(k).ok().and_then(|k| k.checked_mul(w)).unwrap_or(usize::MAX);
    if let Some(bytes) = s.get(at..).and_then(|s| s.get(..w)) {
        word[..w].copy_from_slice(bytes);
    }
    u64::from_le_bytes(word)
}
