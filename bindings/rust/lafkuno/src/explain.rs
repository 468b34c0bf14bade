//! Where an opening was refused, and what was found there. The library answers the ground; this only looks for its place.

use crate::calls::{self, Tables};
use crate::lent::entry;
use crate::types::{Kind, Type};
use crate::{Error, Ground, Lent, Place};

/// A node of one source: where it stands in the tables, its depth, and the nodes right below it.
pub(crate) struct Node {
    pub at: usize,
    pub depth: usize,
    pub below: Vec<usize>,
}

pub(crate) struct Source<'a> {
    pub x: Tables<'a>,
    first: usize,
    pub nodes: Vec<Node>,
    /// How many nodes the source says it has.
    count: usize,
}

pub(crate) type Found = Option<(usize, String)>;

/// The error of a refused opening, with its place where one is found.
pub(crate) fn opening(lent: &Lent, ground: Ground) -> Error {
    let x = lent.tables();
    let count = x.sources.len() / 2;
    let place = match ground {
        Ground::CeilingPassed if count == 0 || 16 < count => {
            Some(Place { found: format!("{count} sources, and 1 to 16 are taken"), ..Place::default() })
        }
        Ground::CeilingPassed | Ground::UnknownType | Ground::BadSource => (0..count).find_map(|s| {
            let (first, n) = (x.sources[2 * s], x.sources[2 * s + 1]);
            (calls::column_ground(&x, first, n) == ground.number()).then(|| alone(&x, s, ground))
        }),
        Ground::TypesDiffer => differ(lent),
        Ground::TooManyEntries => entries(&x),
        _ => None,
    };
    place.map_or(Error::Refused(ground), |place| Error::RefusedAt(ground, Box::new(place)))
}

/// The place in one source that is refused by itself.
fn alone(x: &Tables, s: usize, ground: Ground) -> Place {
    let source = Source::new(*x, x.sources[2 * s] as usize, x.sources[2 * s + 1] as usize);
    let found = match ground {
        Ground::CeilingPassed => source.ceiling(),
        Ground::UnknownType => source.unknown(),
        _ => source.broken(),
    };
    let (node, found) = found.map_or((None, String::new()), |(node, found)| (Some(node), found));
    Place { source: Some(s), node, found, ..Place::default() }
}

/// The first node at which a source has another type than source 0, logical types included.
pub(crate) fn differ(lent: &Lent) -> Option<Place> {
    if lent.sources.len() <= 2 {
        return None;
    }
    let x = lent.tables();
    let first = |s: usize| Some(*x.sources.get(2 * s)? as usize);
    let count = |s: usize| Some(*x.sources.get(2 * s + 1)? as usize);
    let head = |s: usize, i: usize| {
        let at = first(s)? + i;
        let entry = entry(x.schema, at);
        let format = match lent.fields.get(at) {
            Some((format, _)) => format.clone(),
            None => format_at(&x, at),
        };
        Some((format, entry[3], entry[4], entry[2] & 2))
    };
    let mut values = vec![];
    for i in 0..count(0)? {
        // the flags of the root and of dictionary values are not compared
        values.push(i != 0 && head(0, i - 1)?.2 != 0);
    }
    for s in 1..x.sources.len() / 2 {
        if count(s)? != count(0)? {
            let found = format!("{} nodes, and source 0 has {}", count(s)?, count(0)?);
            return Some(Place { source: Some(s), node: Some(0), found, ..Place::default() });
        }
        for (i, is_values) in values.iter().enumerate() {
            let (theirs, ours) = (head(s, i)?, head(0, i)?);
            let plain = i == 0 || *is_values;
            if (&theirs.0, theirs.1, theirs.2) != (&ours.0, ours.1, ours.2) || !plain && theirs.3 != ours.3 {
                let say = |h: &(String, u32, u32, u32)| format!("`{}`{}", h.0, if h.3 != 0 { ", nullable" } else { "" });
                let found = format!("{}, and source 0 has {}", say(&theirs), say(&ours));
                return Some(Place { source: Some(s), node: Some(i), found, ..Place::default() });
            }
        }
    }
    None
}

/// The first dictionary node whose entries may be more than its keys can name.
fn entries(x: &Tables) -> Option<Place> {
    let sources: Vec<Source> = x.sources.chunks_exact(2).map(|s| Source::new(*x, s[0] as usize, s[1] as usize)).collect();
    let first = sources.first()?;
    (0..first.nodes.len()).filter(|k| first.ty(*k).dictionary.is_some()).find_map(|k| {
        let keys = Type { dictionary: None, ..first.ty(k) };
        let counts: Vec<u64> = sources.iter().filter_map(|s| Some(s.rows(k + 1)?.0)).collect();
        let bits = 8 * keys.width() as u32 - u32::from("csil".contains(&keys.format));
        let found = format!("dictionaries of {counts:?} entries, and keys of format `{}` name 2^{bits}", keys.format);
        (1 << bits <= counts.iter().map(|n| *n as u128).sum::<u128>()).then(|| Place { node: Some(k), found, ..Place::default() })
    })
}

fn format_at(x: &Tables, at: usize) -> String {
    let [start, len, ..] = entry(x.schema, at);
    let bytes = x.formats.get(start as usize..start as usize + len as usize).unwrap_or(&[]);
    String::from_utf8_lossy(&bytes[..bytes.len().min(80)]).into_owned()
}

impl<'a> Source<'a> {
    pub(crate) fn new(x: Tables<'a>, first: usize, count: usize) -> Source<'a> {
        let mut source = Source { x, first, nodes: vec![], count };
        // a source may say that it has more nodes than its tree
        while source.nodes.len() < count.min(33) {
            source.walk(1);
        }
        source
    }

    /// Takes up the next node and what is below it; no more than a source may have, and a few.
    fn walk(&mut self, depth: usize) {
        let k = self.nodes.len();
        if self.count <= k || 40 < k || 40 < depth {
            return;
        }
        let at = self.first + k;
        self.nodes.push(Node { at, depth, below: vec![] });
        let [.., children, dictionary] = entry(self.x.schema, at);
        for _ in 0..children.saturating_add(dictionary) {
            let next = self.nodes.len();
            self.walk(depth + 1);
            if self.nodes.len() == next {
                break;
            }
            self.nodes[k].below.push(next);
        }
    }

    pub(crate) fn ty(&self, k: usize) -> Type {
        let [.., dictionary] = entry(self.x.schema, self.nodes[k].at);
        let values = Type { format: "i".into(), nullable: false, children: vec![], dictionary: None };
        Type {
            format: format_at(&self.x, self.nodes[k].at),
            nullable: false,
            children: vec![],
            dictionary: (dictionary != 0).then(|| Box::new(values)),
        }
    }

    /// Length and offset, where they are not negative.
    pub(crate) fn rows(&self, k: usize) -> Option<(u64, u64)> {
        let at = self.nodes[k].at;
        let [length, offset] = [0, 1].map(|j| self.x.lengths.get(2 * at + j).copied().unwrap_or(0));
        (length.checked_add(offset)? <= i64::MAX as u64).then_some((length, offset))
    }

    pub(crate) fn place(&self, k: usize, j: usize) -> u64 {
        self.x.places.get(9 * self.nodes[k].at + j).copied().unwrap_or(0)
    }

    /// Buffer j: 0 is the validity.
    pub(crate) fn buffer(&self, k: usize, j: usize) -> Option<&'a [u8]> {
        let start = usize::try_from(self.place(k, 1 + 2 * j)).ok()?;
        self.x.body.get(start..start.checked_add(usize::try_from(self.place(k, 2 + 2 * j)).ok()?)?)
    }

    pub(crate) fn data(&self, k: usize, b: u64) -> Option<&'a [u8]> {
        let at = usize::try_from(self.place(k, 7).checked_add(b)?).ok()?.checked_mul(2)?;
        let place = self.x.buffers.get(at..)?.get(..2)?;
        let [start, len] = [place[0], place[1]].map(|n| usize::try_from(n).ok());
        self.x.body.get(start?..start?.checked_add(len?)?)
    }

    fn ceiling(&self) -> Found {
        if 32 < self.count {
            return Some((0, format!("{} nodes, and 32 are taken", self.count)));
        }
        (0..self.nodes.len()).find_map(|k| {
            let node = &self.nodes[k];
            let [.., children, _] = entry(self.x.schema, node.at);
            let [length, offset] = [0, 1].map(|j| self.x.lengths.get(2 * node.at + j).map_or(0, |n| *n as i64));
            // by the format alone: a view that says it has a dictionary is counted too
            let views = if matches!(self.ty(k).format.as_str(), "vz" | "vu") { self.place(k, 8) } else { 0 };
            let found = if 8 < node.depth {
                format!("depth {}, and 8 is taken", node.depth)
            } else if self.rows(k).is_none() {
                format!("length {length} and offset {offset}: neither is negative, and their sum fits 63 bits")
            } else if 16 < children && self.ty(k).format.starts_with("+u") {
                format!("{children} union fields, and 16 are taken")
            } else if 32 < views {
                format!("{views} data buffers, and 32 are taken")
            } else {
                return None;
            };
            Some((k, found))
        })
    }

    fn unknown(&self) -> Found {
        let found = (0..self.nodes.len()).find_map(|k| {
            let (ty, node) = (self.ty(k), &self.nodes[k]);
            let [.., children, dictionary] = entry(self.x.schema, node.at);
            let below = |j: usize| node.below.get(j).map(|b| self.ty(*b));
            let plain = Type { dictionary: None, ..ty.clone() };
            let ids: Vec<&str> = ty.format.get(4..).map_or(vec![], |ids| ids.split(',').filter(|id| !id.is_empty()).collect());
            let distinct = ids.iter().enumerate().all(|(j, id)| id.parse::<u8>().is_ok_and(|n| n < 128) && !ids[..j].contains(id));
            let due = match plain.kind() {
                Kind::Other => return Some((k, format!("the format `{}` is not taken", ty.format))),
                Kind::List | Kind::ListView => 1,
                Kind::Runs => 2,
                Kind::Sparse | Kind::Dense => ids.len() as u32,
                _ => 0,
            };
            let found = if dictionary != 0 && (plain.kind() != Kind::Fixed || matches!(ty.format.as_str(), "f" | "g")) {
                format!("keys of format `{}`, and integers are taken", ty.format)
            } else if dictionary != 0 && below(0).is_some_and(|v| !matches!(v.kind(), Kind::Fixed | Kind::Strings)) {
                format!("a dictionary of `{}`, and numbers and byte strings are taken", below(0).map_or(String::new(), |v| v.format))
            } else if children != due {
                format!("`{}` with {children} children, and {due} are due", ty.format)
            } else if !distinct && matches!(plain.kind(), Kind::Sparse | Kind::Dense) {
                format!("the ids of `{}`: distinct ones from 0 to 127 are taken", ty.format)
            } else if plain.kind() == Kind::Runs && below(0).is_some_and(|e| !matches!(e.format.as_str(), "s" | "i" | "l") || e.dictionary.is_some())
            {
                format!("run ends of format `{}`, and s, i and l are taken", below(0).map_or(String::new(), |e| e.format))
            } else {
                return None;
            };
            Some((k, found))
        });
        found.or_else(|| Some((0, format!("{} nodes, and the children ask for another number", self.count))))
    }
}
