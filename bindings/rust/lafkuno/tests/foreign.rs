//! ArrowSchema and ArrowArray as other producers may hand them over: without buffers where there are no rows, with a run of any length, with children
//! that are missing; and each is released once.

use lafkuno::c_data::{ArrowArray, ArrowSchema, Exported, Import};
use lafkuno::{text, Column, Join, Type};
use std::ffi::CString;
use std::ptr::{null, null_mut};
use std::sync::atomic::{AtomicUsize, Ordering};

static RELEASED: AtomicUsize = AtomicUsize::new(0);

unsafe extern "C" fn release_schema(schema: *mut ArrowSchema) {
    unsafe { (*schema).release = None };
}

unsafe extern "C" fn release_array(array: *mut ArrowArray) {
    RELEASED.fetch_add(1, Ordering::SeqCst);
    unsafe { (*array).release = None };
}

fn schema(format: &CString) -> ArrowSchema {
    ArrowSchema {
        format: format.as_ptr(),
        name: null(),
        metadata: null(),
        flags: 0,
        n_children: 0,
        children: null_mut(),
        dictionary: null_mut(),
        release: Some(release_schema),
        private_data: null_mut(),
    }
}

fn array(length: i64, offset: i64, buffers: &mut Vec<*const std::ffi::c_void>) -> ArrowArray {
    ArrowArray {
        length,
        null_count: -1,
        offset,
        n_buffers: buffers.len() as i64,
        n_children: 0,
        buffers: buffers.as_mut_ptr(),
        children: null_mut(),
        dictionary: null_mut(),
        release: Some(release_array),
        private_data: null_mut(),
    }
}

#[test]
fn no_rows_need_no_buffers() {
    for (format, count) in [("i", 2), ("u", 3), ("Z", 3), ("vu", 3)] {
        let format = CString::new(format).unwrap();
        let column = unsafe { Import::new().lend(&schema(&format), &array(0, 5, &mut vec![null(); count])) }.unwrap();
        let mut join = Join::open(&[&column], true).unwrap();
        join.copy(0, 0..0).unwrap();
        join.nulls(1).unwrap();
        assert_eq!(join.finish().unwrap().column.length, 1);
    }
    let format = CString::new("i").unwrap();
    let told = unsafe { Import::new().lend(&schema(&format), &array(1, 5, &mut vec![null(); 2])) }.unwrap_err();
    assert!(told.to_string().ends_with("a buffer is null, and 24 bytes are asked of it"), "{told}");
}

#[test]
fn children_that_are_missing() {
    let format = CString::new("+l").unwrap();
    let offsets = [0i32, 0];
    let mut buffers = vec![null(), offsets.as_ptr().cast()];
    let (mut ty, mut rows) = (schema(&format), array(1, 0, &mut buffers));
    (ty.n_children, rows.n_children) = (1, 1);
    let told = unsafe { Import::new().lend(&ty, &rows) }.unwrap_err();
    assert!(told.to_string().ends_with("+l: 1 children, or they are missing"), "{told}");
}

#[test]
fn a_run_of_any_length() {
    let ty: Type = "+r(l, C)".parse().unwrap();
    let mut column = Column::build(&ty, &text::rows(&ty, "7").unwrap()).unwrap();
    column.children[0].buffers = vec![(1i64 << 60).to_le_bytes().to_vec().into()];
    column.length = 1 << 60;
    let out = Exported::new(&column).unwrap();
    let taken = unsafe { Import::new().lend(&out.schema, &out.array) }.unwrap();
    let mut join = Join::open(&[&taken], false).unwrap();
    join.copy(0, 1 << 59..(1 << 59) + 3).unwrap();
    assert_eq!(join.finish().unwrap().column.rows().unwrap().len(), 3);
}

#[test]
fn each_is_released_once() {
    let format = CString::new("i").unwrap();
    let values = [3i32, 4, 5];
    let mut buffers = vec![null(), values.as_ptr().cast()];
    let before = RELEASED.load(Ordering::SeqCst);
    let column = unsafe { Import::new().take(&schema(&format), array(3, 0, &mut buffers)) }.unwrap();
    let slice = column.slice(1, 2).unwrap();
    drop(column);
    assert_eq!((RELEASED.load(Ordering::SeqCst), slice.rows().unwrap().len()), (before, 2));
    drop(slice);
    assert_eq!(RELEASED.load(Ordering::SeqCst), before + 1);
    // a refused one at once
    assert!(unsafe { Import::new().take(&schema(&CString::new("q").unwrap()), array(3, 0, &mut buffers)) }.is_err());
    assert_eq!(RELEASED.load(Ordering::SeqCst), before + 2);
}
