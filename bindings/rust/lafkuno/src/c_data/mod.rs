//! The Arrow C Data Interface: columns from ArrowSchema and ArrowArray, and back with a release callback.

mod export;
mod import;

pub use export::{export_array, export_schema, Exported};
pub use import::Import;
use std::ffi::{c_char, c_void};

/// The published struct.
#[repr(C)]
#[derive(Debug)]
pub struct ArrowSchema {
    /// The format string.
    pub format: *const c_char,
    /// The field's name, or null.
    pub name: *const c_char,
    /// Keys and values, or null.
    pub metadata: *const c_char,
    /// The flags below.
    pub flags: i64,
    /// How many children there are.
    pub n_children: i64,
    /// Pointers to them.
    pub children: *mut *mut ArrowSchema,
    /// The type of a dictionary's values, or null.
    pub dictionary: *mut ArrowSchema,
    /// Frees it; None where it is released.
    pub release: Option<unsafe extern "C" fn(*mut ArrowSchema)>,
    /// The producer's own.
    pub private_data: *mut c_void,
}

/// The published struct.
#[repr(C)]
#[derive(Debug)]
pub struct ArrowArray {
    /// Its rows.
    pub length: i64,
    /// Its nulls, or -1 where nobody counted.
    pub null_count: i64,
    /// Slots before its first row.
    pub offset: i64,
    /// How many buffers there are.
    pub n_buffers: i64,
    /// How many children there are.
    pub n_children: i64,
    /// Pointers to the buffers.
    pub buffers: *mut *const c_void,
    /// Pointers to the children.
    pub children: *mut *mut ArrowArray,
    /// A dictionary's values, or null.
    pub dictionary: *mut ArrowArray,
    /// Frees it; None where it is released.
    pub release: Option<unsafe extern "C" fn(*mut ArrowArray)>,
    /// The producer's own.
    pub private_data: *mut c_void,
}

/// The flag of a dictionary whose order has a meaning.
pub const FLAG_DICTIONARY_ORDERED: i64 = 1;
/// The flag of a field that may hold nulls.
pub const FLAG_NULLABLE: i64 = 2;
/// The flag of a map whose keys are sorted.
pub const FLAG_MAP_KEYS_SORTED: i64 = 4;

#[cfg(test)]
mod tests {
    use super::*;
    use crate::{text, Column, Field, Join, Type};

    fn column(ty: &str, rows: &str) -> Column {
        let ty: Type = ty.parse().unwrap();
        Column::build(&ty, &text::rows(&ty, rows).unwrap()).unwrap()
    }

    #[test]
    fn every_kind_passes_out_and_in() {
        for (ty, rows) in [
            ("i?", "1, null, -5"),
            ("g", "1.5"),
            ("u?", "\"a\", null, \"\""),
            ("U", ""),
            ("vu", "\"short\", \"a longer text than twelve bytes\""),
            ("+l?(u?)", "[\"a\", null], null, [], [\"b\"]"),
            ("+vl?(u?)", "[\"a\", null], null, []"),
            ("+us:5,7(i?, u)", "5:null, 7:\"x\", 5:3"),
            ("+ud:5,7(i?, u)", "5:null, 7:\"x\", 5:3"),
            ("+r(s, u?)", "\"A\", \"A\", null"),
            ("C?[u]", "\"x\", null, \"y\", \"x\""),
            ("+L(+r(i, C?[U]))", "[\"a\", \"a\"], [], [null]"),
            ("+vL(+r(i, C?[U]))", "[\"a\", \"a\"], [], [null]"),
        ] {
            let whole = column(ty, rows);
            let slice = whole.slice(whole.length / 2, whole.length - whole.length / 2).unwrap();
            for column in [&slice, &whole] {
                let out = Exported::new(column).unwrap();
                let back = unsafe { Import::new().column(&out.schema, &out.array) }.unwrap();
                assert_eq!(back.ty(), column.ty());
                assert_eq!(back.rows(), column.rows(), "{ty}");
                let mut join = Join::open(&[&back], false).unwrap();
                join.copy(0, 0..back.length).unwrap();
                let joined = Exported::new(&join.finish().unwrap().column).unwrap();
                assert_eq!(joined.array.offset, 0);
                let again = unsafe { Import::new().column(&joined.schema, &joined.array) }.unwrap();
                assert_eq!(again.rows(), column.rows(), "{ty}");
            }
        }
    }

    #[test]
    fn a_shared_dictionary_stays_shared() {
        let one = column("C[u]", "\"x\", \"y\", \"x\"");
        let two = Column { length: 1, ..one.clone() };
        let (a, b) = (Exported::new(&one).unwrap(), Exported::new(&two).unwrap());
        let mut import = Import::new();
        let columns = unsafe { [import.column(&a.schema, &a.array).unwrap(), import.column(&b.schema, &b.array).unwrap()] };
        let mut join = Join::open(&[&columns[0], &columns[1]], false).unwrap();
        join.copy(1, 0..1).unwrap();
        let joined = join.finish().unwrap().column;
        assert_eq!(joined.dictionary.unwrap().length, 2);
    }

    #[test]
    fn what_is_released_is_refused() {
        let mut out = Exported::new(&column("i", "1")).unwrap();
        unsafe { out.array.release.unwrap()(&mut out.array) };
        assert!(unsafe { Import::new().column(&out.schema, &out.array) }.is_err());
    }

    #[test]
    fn a_moved_child_is_not_released_twice() {
        let out = Exported::new(&column("+vl(i)", "[1, 2]")).unwrap();
        let child = unsafe { &mut **out.array.children };
        let mut moved = std::mem::replace(child, ArrowArray { release: None, ..unsafe { std::ptr::read(child) } });
        drop(out);
        unsafe { moved.release.unwrap()(&mut moved) };
        assert!(moved.release.is_none());
    }

    /// A number column of n rows.
    fn longs(n: i64) -> Column {
        let bytes: Vec<u8> = (0..n).flat_map(i64::to_le_bytes).collect();
        Column { format: "l".into(), length: n as u64, buffers: vec![bytes.into()], ..Column::default() }
    }

    #[test]
    fn slices_of_one_batch_take_what_they_reach() {
        let batch = longs(100_000);
        let outs: Vec<Exported> = (0..16).map(|k| Exported::new(&batch.slice(6000 * k, 1).unwrap()).unwrap()).collect();
        let mut import = Import::new();
        let columns: Vec<Column> = outs.iter().map(|o| unsafe { import.lend(&o.schema, &o.array) }.unwrap()).collect();
        let lent = crate::Lent::lay(&columns.iter().collect::<Vec<_>>()).unwrap();
        assert!(lent.body.len() < 16 * 128, "{} bytes for 16 rows", lent.body.len());
        // whole columns of the same memory are laid once
        let whole = Exported::new(&batch).unwrap();
        let columns = [unsafe { import.lend(&whole.schema, &whole.array) }.unwrap(), columns[3].clone()];
        let lent = crate::Lent::lay(&[&columns[0], &columns[1], &columns[0]]).unwrap();
        assert_eq!(lent.body.len(), 800_000);
        let mut join = Join::open(&[&columns[0], &columns[1]], false).unwrap();
        join.copy(1, 0..1).unwrap();
        assert_eq!(join.finish().unwrap().column.rows(), Some(vec![crate::Row::Whole(18_000)]));
    }

    #[test]
    fn one_allocation_is_lent_as_it_is() {
        let mut join = Join::open(&[&longs(1000)], false).unwrap();
        join.copy(0, 0..1000).unwrap();
        let joined = join.finish().unwrap().column;
        let lent = crate::Lent::lay(&[&joined, &joined.slice(500, 20).unwrap()]).unwrap();
        assert_eq!(lent.body.as_ptr(), joined.buffers[0].as_ptr());
    }

    #[test]
    fn the_schema_is_carried_through() {
        let field = |name: &str| Field { name: name.into(), metadata: vec![(b"unit".to_vec(), b"ml".to_vec())], ..Field::default() };
        let mut union = column("+ud:5,7(i?, C?[u])", "5:null, 7:\"x\", 5:3");
        union.field = field("event");
        union.children[0].field = field("counter");
        union.children[0].format = "tdD".into();
        union.children[1].field = Field { ordered: true, ..field("town") };
        let out = Exported::new(&union).unwrap();
        let taken = unsafe { Import::new().lend(&out.schema, &out.array) }.unwrap();
        let mut join = Join::open(&[&taken], false).unwrap();
        join.copy(0, 1..3).unwrap();
        let joined = join.finish().unwrap().column;
        assert_eq!((&joined.format, &joined.field), (&union.format, &union.field));
        for k in 0..2 {
            assert_eq!((&joined.children[k].format, &joined.children[k].field), (&union.children[k].format, &union.children[k].field));
        }
        let out = Exported::new(&joined).unwrap();
        assert_eq!(unsafe { (**out.schema.children.add(1)).flags } & FLAG_DICTIONARY_ORDERED, 1);
    }

    #[test]
    fn a_taken_array_is_released_by_the_last_buffer() {
        let bytes = std::sync::Arc::new(vec![7; 64]);
        let buffers = vec![crate::Buffer::part(bytes.clone(), 0, 64)];
        let out = Exported::new(&Column { format: "l".into(), length: 8, buffers, ..Column::default() }).unwrap();
        let out = std::mem::ManuallyDrop::new(out);
        let column = unsafe { Import::new().take(&out.schema, std::ptr::read(&out.array)) }.unwrap();
        let slice = column.slice(3, 2).unwrap().trimmed();
        drop(column);
        assert_eq!(std::sync::Arc::strong_count(&bytes), 2);
        drop(slice);
        assert_eq!(std::sync::Arc::strong_count(&bytes), 1);
        let mut schema = std::mem::ManuallyDrop::into_inner(out);
        schema.array.release = None;
    }
}
