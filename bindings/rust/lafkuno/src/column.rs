//! Owned columns.

use crate::{Buffer, Error, Type};

/// Keys and values that somebody attached to a field or a schema.
pub type Metadata = Vec<(Vec<u8>, Vec<u8>)>;

/// What a schema says of a field beside its type. A join carries source 0's to the result as they are.
#[derive(Clone, Debug, Default, PartialEq, Eq)]
pub struct Field {
    /// The field's name; a union's child has the name of the union's field.
    pub name: String,
    /// Keys and values that somebody attached to the field.
    pub metadata: Metadata,
    /// Whether the order of the dictionary's entries has a meaning.
    pub ordered: bool,
    /// Whether a map's keys are sorted.
    pub keys_sorted: bool,
}

/// A column as the Arrow C Data Interface has it. Nothing is checked before a join is opened over it: whatever the fields hold, the
/// opening refuses what is not a column.
#[derive(Clone, Debug, Default, PartialEq)]
pub struct Column {
    /// The format string of the Arrow C Data Interface.
    pub format: String,
    /// Whether the field may hold nulls.
    pub nullable: bool,
    /// Its rows.
    pub length: u64,
    /// How many slots of its buffers stand before its first row.
    pub offset: u64,
    /// A bit a slot, 1 where the row is valid.
    pub validity: Option<Buffer>,
    /// The buffers of the format without validity and data buffers, at most two (docs/FORMAT.md).
    pub buffers: Vec<Buffer>,
    /// The data buffers of views.
    pub data: Vec<Buffer>,
    /// The children in the format's order.
    pub children: Vec<Column>,
    /// A dictionary's values, where the column holds keys.
    pub dictionary: Option<Box<Column>>,
    /// Its name, and what else its schema says.
    pub field: Field,
}

impl Column {
    /// Its type.
    pub fn ty(&self) -> Type {
        Type {
            format: self.format.clone(),
            nullable: self.nullable,
            children: self.children.iter().map(Column::ty).collect(),
            dictionary: self.dictionary.as_ref().map(|d| Box::new(d.ty())),
        }
    }

    /// The rows `start .. start + length`, over the same buffers and children.
    pub fn slice(&self, start: u64, length: u64) -> Result<Column, Error> {
        if start.checked_add(length).is_none_or(|end| self.length < end) {
            return Err(Error::Column(format!("a slice of {length} rows from row {start} on is not in a column of {} rows", self.length)));
        }
        Ok(Column { offset: self.offset + start, length, ..self.clone() })
    }

    /// Whether slot i of the buffers is valid; None where the validity has no such bit.
    pub(crate) fn valid(&self, slot: u64) -> Option<bool> {
        match &self.validity {
            None => Some(true),
            Some(bits) => Some(bits.get(usize::try_from(slot / 8).ok()?)? >> (slot % 8) & 1 == 1),
        }
    }

    /// The zero bits among its rows; bits that are not there count as ones.
    pub fn null_count(&self) -> u64 {
        let Some(bits) = &self.validity else { return 0 };
        let there = 8 * bits.len() as u64;
        let (start, end) = (self.offset.min(there), self.offset.saturating_add(self.length).min(there));
        let zeros = |slots: std::ops::Range<u64>| slots.filter(|k| bits[(k / 8) as usize] >> (k % 8) & 1 == 0).count() as u64;
        let (whole, past) = (start.next_multiple_of(8), end & !7);
        if past <= whole {
            return zeros(start..end);
        }
        let middle = bits[(whole / 8) as usize..(past / 8) as usize].iter().map(|b| b.count_zeros() as u64).sum::<u64>();
        zeros(start..whole) + middle + zeros(past..end)
    }

    /// How many nodes it has.
    pub fn nodes(&self) -> usize {
        1 + self.dictionary.iter().map(|d| d.nodes()).sum::<usize>() + self.children.iter().map(Column::nodes).sum::<usize>()
    }
}
