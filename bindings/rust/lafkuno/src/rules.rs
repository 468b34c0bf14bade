//! The first rule that a refused source breaks: a plain check, node by node.

use crate::explain::{Found, Source};
use crate::types::{Kind, Type};

fn entry(s: &[u8], k: u64, w: usize) -> i128 {
    let mut word = [0; 8];
    let at = usize::try_from(k).ok().and_then(|k| k.checked_mul(w)).unwrap_or(usize::MAX);
    match s.get(at..).and_then(|s| s.get(..w)) {
        Some(bytes) => word[..w].copy_from_slice(bytes),
        None => return -1,
    }
    u64::from_le_bytes(word) as i128
}

/// The same of a signed type.
fn signed(s: &[u8], k: u64, w: usize) -> i128 {
    let n = entry(s, k, w);
    let half = 1 << (8 * w - 1);
    if n < half {
        n
    } else {
        n - 2 * half
    }
}

impl Source<'_> {
    /// The first node that breaks a rule, and how.
    pub(crate) fn broken(&self) -> Found {
        (0..self.nodes.len()).find_map(|k| self.places(k).or_else(|| self.node(k)).map(|found| (k, found)))
    }

    /// Buffers that are not there, or too short.
    fn places(&self, k: usize) -> Option<String> {
        let at = self.nodes[k].at;
        if self.x.lengths.len() < 2 * at + 2 || self.x.places.len() < 9 * at + 9 {
            return Some("a table is too short for it".into());
        }
        let (ty, (length, offset)) = (self.ty(k), self.rows(k)?);
        let (kind, w, slots) = (ty.kind(), ty.width() as u128, (length + offset) as u128);
        let validity = self.place(k, 0) != 0;
        if validity && matches!(kind, Kind::Sparse | Kind::Dense | Kind::Runs) {
            return Some("a validity buffer, and unions and run-end columns have none".into());
        }
        let mut due = vec![];
        if validity {
            due.push((0, slots.div_ceil(8)));
        }
        match kind {
            Kind::Fixed | Kind::Dictionary => due.push((1, slots * w)),
            Kind::Strings if length == 0 && self.place(k, 4) == 0 => due.extend([(1, 0), (2, 0)]),
            Kind::Strings => due.extend([(1, (slots + 1) * w), (2, 0)]),
            Kind::List if length == 0 && self.place(k, 4) == 0 => due.push((1, 0)),
            Kind::List => due.push((1, (slots + 1) * w)),
            Kind::Views => due.push((1, 16 * slots)),
            Kind::ListView => due.extend([(1, slots * w), (2, slots * w)]),
            Kind::Sparse => due.push((1, slots)),
            Kind::Dense => due.extend([(1, slots), (2, 4 * slots)]),
            Kind::Runs | Kind::Other => {}
        }
        for (j, bytes) in due {
            let name = if j == 0 { "the validity".to_string() } else { format!("buffer {j}") };
            let (start, len) = (self.place(k, 1 + 2 * j), self.place(k, 2 + 2 * j));
            if self.buffer(k, j).is_none() {
                return Some(format!("{name} is {len} bytes from {start} on, and the body has {}", self.x.body.len()));
            }
            if (len as u128) < bytes {
                return Some(format!("{name} has {len} bytes, and {slots} slots need {bytes}"));
            }
        }
        let (first, views) = if kind == Kind::Views { (self.place(k, 7), self.place(k, 8)) } else { (0, 0) };
        let named = self.x.buffers.len() as u64 / 2;
        let last = first as u128 + views as u128;
        if (named as u128) < last {
            return Some(format!("data buffers {first}..{last}, and {named} are named"));
        }
        (0..views).find(|b| self.data(k, *b).is_none()).map(|b| format!("data buffer {b} is not in the body"))
    }

    /// Whether a slot's bit is 1.
    pub(crate) fn valid(&self, k: usize, slot: u64) -> bool {
        self.place(k, 0) == 0 || self.buffer(k, 0).is_some_and(|bits| bits.get((slot / 8) as usize).is_some_and(|b| b >> (slot % 8) & 1 == 1))
    }

    /// A row that leads outside.
    fn node(&self, k: usize) -> Option<String> {
        let (ty, (length, offset)) = (self.ty(k), self.rows(k)?);
        let w = ty.width();
        let (one, two) = (self.buffer(k, 1).unwrap_or(&[]), self.buffer(k, 2).unwrap_or(&[]));
        let below = |j: usize| self.nodes[k].below.get(j).copied();
        let rows = |j: Option<usize>| j.and_then(|j| self.rows(j)).map_or(0, |r| r.0 as i128);
        let mut slots = offset..offset + length;
        match ty.kind() {
            Kind::Fixed | Kind::Other => None,
            Kind::Strings | Kind::List if length == 0 && one.is_empty() => None,
            kind @ (Kind::Strings | Kind::List) => {
                let first = signed(one, offset, w);
                if first < 0 {
                    return Some(format!("the first offset is {first}, which is negative"));
                }
                if let Some(slot) = slots.find(|s| signed(one, s + 1, w) < signed(one, *s, w)) {
                    return Some(format!("row {} begins at {} and ends at {}", slot - offset, signed(one, slot, w), signed(one, slot + 1, w)));
                }
                let last = signed(one, offset + length, w);
                if kind == Kind::List {
                    let most = rows(below(0));
                    return (most < last).then(|| format!("the last offset is {last}, and the child has {most} rows"));
                }
                ((two.len() as i128) < last).then(|| format!("the last offset is {last}, and there are {} bytes", two.len()))
            }
            Kind::Views => slots.find_map(|slot| self.view(k, one, slot).map(|found| format!("row {}: {found}", slot - offset))),
            Kind::ListView => slots.find_map(|slot| {
                let (start, size, most) = (signed(one, slot, w), signed(two, slot, w), rows(below(0)));
                let found = format!("row {} has offset {start} and size {size}, and the child has {most} rows", slot - offset);
                (start < 0 || size < 0 || most < start + size).then_some(found)
            }),
            Kind::Sparse => {
                let short = self.nodes[k].below.iter().find(|c| rows(Some(**c)) < (offset + length) as i128);
                let child = short.map(|c| format!("the child at node {c} has {} rows, and {} slots are due", rows(Some(*c)), offset + length));
                child.or_else(|| slots.find_map(|slot| self.id(&ty, one, slot, offset)))
            }
            Kind::Dense => slots.find_map(|slot| {
                self.id(&ty, one, slot, offset).or_else(|| {
                    let c = ty.ids().iter().position(|id| *id as i128 == entry(one, slot, 1)).and_then(below);
                    let position = signed(two, slot, 4);
                    let found = format!("row {} has position {position}, and its child has {} rows", slot - offset, rows(c));
                    (position < 0 || rows(c) <= position).then_some(found)
                })
            }),
            Kind::Runs => self.runs(below(0)?, rows(below(1)), offset + length),
            Kind::Dictionary => slots.filter(|s| self.valid(k, *s)).find_map(|slot| {
                let key = if "csil".contains(&ty.format) { signed(one, slot, w) } else { entry(one, slot, w) };
                (key < 0 || rows(below(0)) <= key).then(|| format!("row {} has key {key}, and there are {} entries", slot - offset, rows(below(0))))
            }),
        }
    }

    fn id(&self, ty: &Type, ids: &[u8], slot: u64, offset: u64) -> Option<String> {
        let id = entry(ids, slot, 1);
        (!ty.ids().iter().any(|d| *d as i128 == id)).then(|| format!("row {} has id {id}, which `{}` does not declare", slot - offset, ty.format))
    }

    fn view(&self, k: usize, views: &[u8], slot: u64) -> Option<String> {
        let [len, prefix, buffer, start] = [0, 1, 2, 3].map(|j| entry(views, 4 * slot + j, 4));
        if !self.valid(k, slot) || len <= 12 {
            return None;
        }
        if i32::MAX as i128 * 2 + 1 < 2 * len {
            return Some(format!("a view of {len} bytes"));
        }
        if self.place(k, 8) as i128 <= buffer {
            return Some(format!("a view of data buffer {buffer}, and there are {}", self.place(k, 8)));
        }
        let data = self.data(k, buffer as u64)?;
        if (data.len() as i128) < start + len {
            return Some(format!("a view of {len} bytes from {start} on, and data buffer {buffer} has {}", data.len()));
        }
        let found = format!("a view whose prefix is not the first bytes of data buffer {buffer} from {start} on");
        (entry(&data[start as usize..], 0, 4) != prefix).then_some(found)
    }

    fn runs(&self, ends: usize, values: i128, slots: u64) -> Option<String> {
        let (count, offset) = self.rows(ends)?;
        let (w, one) = (self.ty(ends).width(), self.buffer(ends, 1).unwrap_or(&[]));
        if values != count as i128 {
            return Some(format!("{count} run ends and {values} values"));
        }
        if let Some(null) = (offset..offset + count).find(|s| !self.valid(ends, *s)) {
            return Some(format!("run end {} is null", null - offset));
        }
        let mut last = 0;
        for k in 0..count {
            let end = signed(one, offset + k, w);
            if end <= last {
                return Some(format!("run {k} ends at {end}, and the run before it at {last}"));
            }
            last = end;
        }
        (last < slots as i128).then(|| format!("the last run ends at {last}, and {slots} slots are due"))
    }
}
