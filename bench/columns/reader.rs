// Reading in plain Rust: the tree with its buffers as slices.

use crate::plain::{Check, Kind};

pub enum Array<'a> {
    Int { offset: usize, valid: Option<&'a [u8]>, values: &'a [i32] },
    Long { offset: usize, valid: Option<&'a [u8]>, values: &'a [i64] },
    Dense { offset: usize, types: &'a [u8], positions: &'a [i32], child: [u8; 128], children: Vec<Array<'a>> },
    Runs { offset: usize, ends: &'a [i32], values: Box<Array<'a>> },
}

// A buffer as numbers; the drivers' buffers are aligned.
pub fn words<T>(s: &[u8]) -> &[T] {
    let (head, words, _) = unsafe { s.align_to() };
    assert!(head.is_empty());
    words
}

pub fn array<'a>(check: &Check<'a>, i: usize) -> Array<'a> {
    let offset = check.slots(i).unwrap().start;
    let valid = if check.lent.places[9 * i] == 0 { None } else { check.place(i, 1) };
    let node = check.typed(i, &mut vec![]).unwrap();
    match node.kind {
        Kind::Fixed(4) => Array::Int { offset, valid, values: words(check.place(i, 3).unwrap()) },
        Kind::Fixed(8) => Array::Long { offset, valid, values: words(check.place(i, 3).unwrap()) },
        Kind::Runs => Array::Runs { offset, ends: words(check.place(i + 1, 3).unwrap()), values: Box::new(array(check, i + 2)) },
        Kind::Union { dense: true, .. } => {
            let (mut children, mut child, mut c) = (vec![], [0; 128], i + 1);
            while c < check.ends[i] {
                let id = (0..128).find(|id| node.child[*id] as usize == c).unwrap();
                child[id] = children.len() as u8;
                children.push(array(check, c));
                c = check.ends[c];
            }
            let positions = words(check.place(i, 5).unwrap());
            Array::Dense { offset, types: check.place(i, 3).unwrap(), positions, child, children }
        }
        _ => unimplemented!(),
    }
}

impl Array<'_> {
    // The row's kind and its first number, as lafkuno_read_row; 16 and ground 12 where a buffer does not hold it.
    #[inline(never)]
    pub fn row(&self, row: usize) -> (u8, u64) {
        self.read(row).unwrap_or((16 + 12, 0))
    }

    pub fn read(&self, row: usize) -> Option<(u8, u64)> {
        match self {
            Array::Int { offset, valid, values } if held(valid, offset + row)? => Some((1, *values.get(offset + row)? as u64)),
            Array::Long { offset, valid, values } if held(valid, offset + row)? => Some((1, *values.get(offset + row)? as u64)),
            Array::Int { .. } | Array::Long { .. } => Some((0, 0)),
            Array::Dense { offset, types, positions, child, children } => {
                let id = *types.get(offset + row)?;
                let at = *positions.get(offset + row)?;
                children.get(*child.get(id as usize)? as usize)?.read(at as usize)
            }
            Array::Runs { offset, ends, values } => {
                let run = ends.partition_point(|e| *e as usize <= offset + row);
                values.read(run)
            }
        }
    }
}

pub fn held(valid: &Option<&[u8]>, k: usize) -> Option<bool> {
    match valid {
        None => Some(true),
        Some(s) => Some(s.get(k / 8)? >> (k % 8) & 1 == 1),
    }
}
