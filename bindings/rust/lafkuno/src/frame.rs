//! The box around a trip's stops.

use crate::{calls, Column, Error, Lent};
use std::fmt;
use std::ops::Range;

/// Smallest and largest latitude and longitude of the rows of a range.
#[derive(Clone, Copy, Debug, PartialEq)]
pub struct Frame {
    /// The smallest latitude.
    pub south: f64,
    /// The largest latitude.
    pub north: f64,
    /// The smallest longitude.
    pub west: f64,
    /// The largest longitude.
    pub east: f64,
}

/// The frame of a range of rows of two columns of format `g`. Rows where either is null or not a number don't count; of equal values the
/// first stays. Refused with 2 for a range outside either column, 10 for a column of another format, 17 where no row counts.
pub fn frame(latitude: &Column, longitude: &Column, rows: Range<u64>) -> Result<Frame, Error> {
    let lent = Lent::lay(&[latitude, longitude])?;
    let [a, n, b, m] = lent.sources[..] else {
        return Err(Error::Inconsistent("two columns were not laid as two".into()));
    };
    let mut sides = [0.0; 4];
    Error::check(calls::frame(&lent.tables(), [a, n], [b, m], rows.start, rows.end, &mut sides))?;
    Ok(Frame::from(sides))
}

impl Frame {
    /// The frame of two ranges from the frames of both; of equal sides this one's stays.
    pub fn join(self, right: Frame) -> Frame {
        let mut sides = [0.0; 4];
        let answer = calls::join_frames(&<[f64; 4]>::from(self), &<[f64; 4]>::from(right), &mut sides);
        debug_assert_eq!(answer, 0);
        Frame::from(sides)
    }
}

impl From<[f64; 4]> for Frame {
    fn from([south, north, west, east]: [f64; 4]) -> Frame {
        Frame { south, north, west, east }
    }
}

impl From<Frame> for [f64; 4] {
    fn from(f: Frame) -> [f64; 4] {
        [f.south, f.north, f.west, f.east]
    }
}

impl fmt::Display for Frame {
    fn fmt(&self, f: &mut fmt::Formatter) -> fmt::Result {
        write!(f, "latitude {:?} to {:?}, longitude {:?} to {:?}", self.south, self.north, self.west, self.east)
    }
}
