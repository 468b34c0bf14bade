//! Why a call is refused, and other errors.

use std::fmt;

/// Who caused a refusal.
#[derive(Clone, Copy, Debug, PartialEq, Eq)]
pub enum Cause {
    /// Whoever gives orders.
    Orders,
    /// Whoever has too much data.
    Data,
    /// Whoever prepares sources.
    Sources,
    /// Whoever lends room.
    Room,
}

impl fmt::Display for Cause {
    fn fmt(&self, f: &mut fmt::Formatter) -> fmt::Result {
        f.write_str(match self {
            Cause::Orders => "whoever gives orders",
            Cause::Data => "whoever has too much data",
            Cause::Sources => "whoever prepares sources",
            Cause::Room => "whoever lends room",
        })
    }
}

/// A ground of refusal: document 01's number, its meaning and who caused it.
#[derive(Clone, Copy, Debug, PartialEq, Eq, Hash)]
#[repr(u8)]
pub enum Ground {
    /// The source's number is not below the count of sources.
    NoSuchSource = 1,
    /// The end is before the start, or beyond the source's length.
    NoSuchRows = 2,
    /// An order of nulls where no nulls are kept.
    KeepsNoNulls = 3,
    /// Nulls for a union without fields.
    UnionWithoutFields = 4,
    /// Nulls for a union none of whose fields is nullable.
    UnionWithoutNullableField = 5,
    /// An offset or a dense union's position does not fit its type.
    OffsetTooLarge = 6,
    /// A run end does not fit its type.
    RunEndTooLarge = 7,
    /// The dictionary has more entries than its keys can name.
    TooManyEntries = 8,
    /// No source, or a ceiling is passed.
    CeilingPassed = 9,
    /// A type that is not taken.
    UnknownType = 10,
    /// The sources are not of one type.
    TypesDiffer = 11,
    /// A source breaks the rules of its type.
    BadSource = 12,
    /// A part of the room can't hold its bytes.
    RoomTooSmall = 13,
    /// Parts or tables that are not of the right number or size.
    BadParts = 14,
    /// An exact sum is outside -2^63 to 2^63 - 1.
    SumTooLarge = 15,
    /// The denominator is zero.
    ZeroDenominator = 16,
    /// No row of the range counts.
    NothingCounted = 17,
}

impl Ground {
    /// All of them, by number.
    pub const ALL: &[Ground] = &[
        Ground::NoSuchSource,
        Ground::NoSuchRows,
        Ground::KeepsNoNulls,
        Ground::UnionWithoutFields,
        Ground::UnionWithoutNullableField,
        Ground::OffsetTooLarge,
        Ground::RunEndTooLarge,
        Ground::TooManyEntries,
        Ground::CeilingPassed,
        Ground::UnknownType,
        Ground::TypesDiffer,
        Ground::BadSource,
        Ground::RoomTooSmall,
        Ground::BadParts,
        Ground::SumTooLarge,
        Ground::ZeroDenominator,
        Ground::NothingCounted,
    ];

    /// The ground of a number.
    pub fn from_number(number: u8) -> Option<Ground> {
        Ground::ALL.iter().copied().find(|g| g.number() == number)
    }

    /// Its number.
    pub fn number(self) -> u8 {
        self as u8
    }

    /// What it means, in a sentence.
    pub fn meaning(self) -> &'static str {
        match self {
            Ground::NoSuchSource => "the source's number is not below the count of sources",
            Ground::NoSuchRows => "the end is before the start, or beyond the source's length",
            Ground::KeepsNoNulls => "an order of nulls where no nulls are kept: no source has one, and the opening did not ask for them",
            Ground::UnionWithoutFields => "nulls for a union without fields",
            Ground::UnionWithoutNullableField => "nulls for a union none of whose fields is nullable",
            Ground::OffsetTooLarge => "an offset or a dense union's position does not fit its type: store it wider, or join fewer rows",
            Ground::RunEndTooLarge => "a run end does not fit its type: store run ends wider, or join fewer rows",
            Ground::TooManyEntries => "the joined dictionary has more entries than its keys can name: store keys wider, or share one dictionary",
            Ground::CeilingPassed => {
                "no source, or a ceiling is passed: 16 sources, 32 nodes, depth 8, 16 union fields, 32 data buffers a view node, \
                 2^63-1 bytes a body, 256 orders a list; or a length or offset is negative"
            }
            Ground::UnknownType => "a type that is not taken: a format, a wrong number of children, or a union's ids",
            Ground::TypesDiffer => "the sources are not of one type: a format or a nullable flag below the root differs",
            Ground::BadSource => "a source breaks the rules of its type: a buffer too short or outside the body, or an offset, id, position, run end, key or view that leads outside",
            Ground::RoomTooSmall => "a part of the room is too small for its bytes",
            Ground::BadParts => "a wrong number of parts, a part outside the room, two that overlap, or a table that is not of a join's size",
            Ground::SumTooLarge => "an exact sum is outside -2^63 to 2^63-1: ask for fewer rows at a time",
            Ground::ZeroDenominator => "a zero denominator: no row counts, or the second column's total is 0",
            Ground::NothingCounted => "no row of the range counts: each has a null or a NaN in one of the two columns",
        }
    }

    /// Whether a refused order of this ground has a node at which it stopped.
    pub(crate) fn names_node(self) -> bool {
        matches!(self.number(), 4..=7 | 13)
    }

    /// Whether it has the number that is needed and the largest that is allowed.
    pub(crate) fn has_numbers(self) -> bool {
        matches!(self.number(), 6 | 7 | 13)
    }

    /// Who caused it.
    pub fn cause(self) -> Cause {
        match self.number() {
            1..=5 | 17 => Cause::Orders,
            6..=8 => Cause::Data,
            9..=12 => Cause::Sources,
            13..=14 => Cause::Room,
            15 => Cause::Data,
            _ => Cause::Orders,
        }
    }
}

impl fmt::Display for Ground {
    fn fmt(&self, f: &mut fmt::Formatter) -> fmt::Result {
        write!(f, "ground {}: {} (caused by {})", self.number(), self.meaning(), self.cause())
    }
}

/// Where a refusal was met: what is known of it.
#[derive(Clone, Debug, Default, PartialEq, Eq)]
pub struct Place {
    /// The column of a batch, by its name.
    pub column: Option<String>,
    /// The source, counted from 0.
    pub source: Option<usize>,
    /// The node of the source in depth-first order, the root being 0.
    pub node: Option<usize>,
    /// The way to the node at which an order stopped, by the names of the fields.
    pub path: Option<String>,
    /// The row at which an order stopped, within the range that the node was handed.
    pub row: Option<u64>,
    /// Of a number that does not fit: the number that is needed.
    pub needed: Option<u64>,
    /// .. and the largest that is allowed.
    pub allowed: Option<u64>,
    /// The order, counted from 1, refused ones included; a list of orders counts as one.
    pub order: Option<usize>,
    /// Where it stands in the list that it was given in, counted from 0.
    pub place: Option<usize>,
    /// What was found, and what is allowed.
    pub found: String,
}

impl fmt::Display for Place {
    fn fmt(&self, f: &mut fmt::Formatter) -> fmt::Result {
        let mut words = vec![];
        words.extend(self.column.as_ref().map(|name| format!("column `{name}`")));
        words.extend(self.source.map(|s| format!("source {s}")));
        let path = self.path.as_ref().map_or(String::new(), |path| format!(" (`{path}`)"));
        words.extend(self.node.map(|k| format!("node {k}{path}")));
        words.extend(self.row.map(|r| format!("row {r}")));
        words.extend(self.order.map(|k| format!("order {k}")));
        words.extend(self.place.map(|k| format!("place {k}")));
        f.write_str(&words.join(", "))?;
        f.write_str(if words.is_empty() || self.found.is_empty() { "" } else { ": " })?;
        f.write_str(&self.found)?;
        match (self.needed, self.allowed) {
            (Some(needed), Some(allowed)) => write!(f, "; {needed} is needed there, and {allowed} is the largest allowed"),
            _ => Ok(()),
        }
    }
}

/// Why something was not done.
#[derive(Clone, Debug, PartialEq, Eq)]
#[non_exhaustive]
pub enum Error {
    /// The call was refused, and changed nothing.
    Refused(Ground),
    /// The same, where the place is known.
    RefusedAt(Ground, Box<Place>),
    /// An order that could take very long: more rows than the limit may be walked at a node.
    TooMuchWork {
        /// The node, in depth-first order.
        node: usize,
        /// So many rows at most, for all orders so far and this one.
        bound: u64,
        /// The limit.
        limit: u64,
    },
    /// The body or the joined column would have more bytes than the machine can lend.
    TooLarge {
        /// So many bytes.
        bytes: u64,
    },
    /// A file can't be read or written, or is not what it says.
    File(String),
    /// The column's own description can't be laid, imported or built.
    Column(String),
    /// Two answers of the library do not fit together. This is a mistake of the library or of this binding.
    Inconsistent(String),
}

impl Error {
    pub(crate) fn check(answer: u8) -> Result<(), Error> {
        match (answer, Ground::from_number(answer)) {
            (0, _) => Ok(()),
            (_, Some(ground)) => Err(Error::Refused(ground)),
            _ => Err(Error::Inconsistent(format!("a call answered {answer}, which is no ground"))),
        }
    }

    /// The ground, where the library refused.
    pub fn ground(&self) -> Option<Ground> {
        match self {
            Error::Refused(ground) | Error::RefusedAt(ground, _) => Some(*ground),
            _ => None,
        }
    }

    /// Where it was refused, as far as that is known.
    pub fn place(&self) -> Option<&Place> {
        match self {
            Error::RefusedAt(_, place) => Some(place),
            _ => None,
        }
    }

    /// The same error with more of its place.
    pub(crate) fn at(self, more: impl FnOnce(&mut Place)) -> Error {
        match self {
            Error::Refused(ground) => Error::RefusedAt(ground, Box::default()).at(more),
            Error::RefusedAt(ground, mut place) => {
                more(&mut place);
                Error::RefusedAt(ground, place)
            }
            other => other,
        }
    }
}

impl fmt::Display for Error {
    fn fmt(&self, f: &mut fmt::Formatter) -> fmt::Result {
        match self {
            Error::Refused(ground) => write!(f, "refused, {ground}"),
            Error::RefusedAt(ground, place) => write!(f, "refused, {ground}; {place}"),
            Error::TooMuchWork { node, bound, limit } => {
                write!(f, "up to {bound} rows would be walked at node {node}, and the limit is {limit}: join fewer rows, or set a higher limit")
            }
            Error::TooLarge { bytes } => write!(f, "{bytes} bytes are needed, and the machine can't lend them: join fewer rows at a time"),
            Error::Column(why) | Error::File(why) => f.write_str(why),
            Error::Inconsistent(why) => write!(f, "a mistake of the library: {why}"),
        }
    }
}

impl std::error::Error for Error {}
