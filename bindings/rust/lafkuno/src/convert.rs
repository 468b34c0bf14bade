//! A column's rows in another type: a list as a list-view and back, and other widths of offsets, sizes, run ends and keys.

use crate::buffer::zeros;
use crate::calls::{self, FinishedTables, Into, Position, Tables, Target, COUNTERS, PLAN};
use crate::types::Kind;
use crate::work::Work;
use crate::{anew, unfit, Buffer, Column, Error, Field, Ground, Lent, Type};

/// A column without rows of a type; its names, and what else a schema says, are those of `like`. A root and a dictionary's values may hold nulls
/// where either says so; the flags of other nodes are the type's.
fn empty(to: &Type, like: Option<&Column>, free: bool) -> Column {
    let children = to.children.iter().enumerate().map(|(k, c)| empty(c, like.and_then(|l| l.children.get(k)), false)).collect();
    let values = |d| Box::new(empty(d, like.and_then(|l| l.dictionary.as_deref()), true));
    Column {
        format: to.format.clone(),
        nullable: to.nullable || free && like.is_some_and(|l| l.nullable),
        children,
        dictionary: to.dictionary.as_deref().map(values),
        field: like.map_or_else(Field::default, |l| l.field.clone()),
        ..Column::default()
    }
}

/// A column that is kept, with the validity of its nodes where the places name one; `node` counts them.
fn kept(column: &Column, places: &[Position], node: &mut usize) -> Column {
    let named = places.get(9 * *node).is_some_and(|has| *has != 0);
    *node += 1;
    let dictionary = column.dictionary.as_deref().map(|d| Box::new(kept(d, places, node)));
    let children = column.children.iter().map(|c| kept(c, places, node)).collect();
    Column { validity: column.validity.clone().filter(|_| named), children, dictionary, ..column.clone() }
}

/// A column that is laid before the type that it is to become, and what was written of it.
struct Written {
    lent: Lent,
    plan: [u64; PLAN],
    counters: [u64; COUNTERS],
    parts: Vec<Position>,
    room: Vec<u8>,
}

/// The tables with the column as the only source.
fn alone(lent: &Lent) -> Tables<'_> {
    Tables { sources: &lent.sources[..2], ..lent.tables() }
}

/// Asks, lends what is needed, and writes.
fn written(column: &Column, to: &Type, into: Into, lay: fn(&[&Column]) -> Result<Lent, Error>) -> Result<Written, Error> {
    let lent = lay(&[column, &empty(to, Some(column), true)])?;
    let x = alone(&lent);
    let t = Target { first: lent.sources[0], n: lent.sources[1], target: lent.sources[2], target_n: lent.sources[3] };
    let tell = |error: Error| error.ground().map_or(error, |ground| unfit::converting(&lent, (column, to), into, ground));
    if into == Into::List && calls::column_ground(&x, t.first, t.n) == 0 {
        // rows of list-views may overlap, and nested ones multiply
        Work::new(&lent).add(&lent, std::iter::empty(), 0, &(0..column.length))?;
    }
    let (mut plan, mut counters) = ([0; PLAN], [0; COUNTERS]);
    let answer = calls::plan_convert(into, &x, t, &mut plan, &mut counters);
    // logical types are not in the tables
    if matches!(answer, 0 | 6 | 7 | 8) && unfit::is_other_type(column, to, into) {
        return Err(tell(Error::Refused(Ground::UnknownType)));
    }
    Error::check(answer).map_err(tell)?;
    let (parts, bytes) = anew::parts(&plan, &counters)?;
    let mut room = zeros(bytes).ok_or(Error::TooLarge { bytes })?;
    Error::check(calls::convert(into, &x, t, &parts, &mut plan, &mut counters, &mut room)).map_err(tell)?;
    Ok(Written { plan, counters, parts, room, lent })
}

/// The format of the other kind of list, of the same width; None where it is no list.
fn other_kind(format: &str) -> Option<&'static str> {
    Some(match format {
        "+l" => "+vl",
        "+L" => "+vL",
        "+vl" => "+l",
        "+vL" => "+L",
        _ => return None,
    })
}

impl Column {
    /// A list-view column as a list of the same width: its child is laid out anew by one copy for each valid row, in row order, and a null row is
    /// an empty stretch. Rows read as before. Refused with 10 for any other column, then row by row with 6 for an offset that does not fit, and
    /// with 6 or 7 for what the child's copy meets.
    pub fn to_list(&self) -> Result<Column, Error> {
        self.as_list(&self.other_list())
    }

    /// A list column as a list-view of the same width over the same child, each row's offset and size kept, null rows' too. Rows read as before.
    /// Refused with 10 for any other column.
    pub fn to_list_view(&self) -> Result<Column, Error> {
        self.as_list_view(&self.other_list())
    }

    /// The column's rows in another type. That is one of its own widths otherwise: byte strings, lists and list-views with offsets of 32 or 64 bits,
    /// run ends of 16, 32 or 64, keys of any integer format; or the other kind of list at the root, of the same width ([`Column::to_list`],
    /// [`Column::to_list_view`]). Rows read as before.
    ///
    /// In other widths the result is laid out as by one copy of the rows, save that a list-view or dense union keeps its children's rows, offsets,
    /// sizes and positions; keys under nulls become 0, and all entries are copied. Refused with 10 for a type that differs in more than the widths,
    /// then, in tree order, with 6, 7 or 8 where in the result an offset or size, a run end, or the entry count less one does not fit.
    pub fn convert(&self, to: &Type) -> Result<Column, Error> {
        match other_kind(&self.format) {
            Some(format) if format == to.format && format.starts_with("+v") => self.as_list_view(to),
            Some(format) if format == to.format => self.as_list(to),
            _ => self.in_widths(to),
        }
    }

    /// Its type with the other kind of list at the root; its own type where it is no list.
    fn other_list(&self) -> Type {
        let ty = self.ty();
        Type { format: other_kind(&ty.format).map_or(ty.format, String::from), ..ty }
    }

    fn as_list(&self, to: &Type) -> Result<Column, Error> {
        let Written { lent, plan, counters, parts, room } = written(self, to, Into::List, Lent::lay)?;
        anew::raised(&lent, alone(&lent), (lent.sources[2], lent.sources[3]), &plan, &parts, &counters, room)
    }

    fn in_widths(&self, to: &Type) -> Result<Column, Error> {
        // trimming changes which rows a list-view or a union has below, and the bytes of views
        let flat = matches!(self.ty().kind(), Kind::Fixed | Kind::Strings | Kind::Dictionary);
        let Written { lent, plan, counters, parts, room } = written(self, to, Into::Widths, if flat { Lent::lay } else { Lent::lay_whole })?;
        anew::raised(&lent, alone(&lent), (lent.sources[2], lent.sources[3]), &plan, &parts, &counters, room)
    }

    fn as_list_view(&self, to: &Type) -> Result<Column, Error> {
        // nothing is trimmed: the offsets are those of the child as it is
        let Written { lent, plan, counters, parts, room } = written(self, to, Into::ListView, Lent::lay_whole)?;
        let x = alone(&lent);
        let n = x.sources[1] as usize;
        let root = anew::finished(x, 1, &plan, &parts, &counters, &room, 0)?;
        let (mut lengths, mut nulls, mut places) = (root.lengths, vec![0; n], root.places);
        lengths.resize(2 * n, 0);
        places.resize(9 * n, 0);
        let mut out = FinishedTables { lengths: &mut lengths, nulls: &mut nulls, places: &mut places, buffers: &mut [] };
        Error::check(calls::list_view_child(&x, x.sources[0], x.sources[1], &mut out))?;
        let room = Buffer::from(room);
        let buffer = |j: usize| {
            let found = room.slice(places[j] as usize, places[j + 1] as usize);
            found.ok_or_else(|| Error::Inconsistent("the finished tables name bytes that are not there".into()))
        };
        let mut node = 1;
        Ok(Column {
            length: lengths[0],
            validity: if places[0] == 0 { None } else { Some(buffer(1)?) },
            buffers: vec![buffer(3)?, buffer(5)?],
            children: self.children.iter().map(|c| kept(c, &places, &mut node)).collect(),
            ..empty(to, Some(self), true)
        })
    }
}
