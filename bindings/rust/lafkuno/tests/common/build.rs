//! Columns from texts and numbers.

use lafkuno::{Buffer, Column, Row, Type};

pub fn numbers<const N: usize>(w: usize, list: [u64; N]) -> Buffer {
    list.iter().flat_map(|n| n.to_le_bytes()[..w].to_vec()).collect::<Vec<u8>>().into()
}

pub fn ty(text: &str) -> Type {
    text.parse().unwrap()
}

pub fn build(text: &str, rows: &[Row]) -> Column {
    Column::build(&ty(text), rows).unwrap()
}
