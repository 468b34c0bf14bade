//! What stopped an order, in words.

use super::{number, Join, Order};
use crate::calls::{self, Why, COUNTERS};
use crate::explain::Source;
use crate::types::Kind;
use crate::{Error, Ground, Lent, Place};

/// What a node without a name is to the node above it.
fn role(source: &Source, above: usize, child: usize) -> String {
    let ty = source.ty(above);
    match ty.kind() {
        Kind::Dictionary => "dictionary".into(),
        Kind::List | Kind::ListView => "item".into(),
        Kind::Runs => ["run ends", "values"].get(child).map_or(String::new(), |word| word.to_string()),
        Kind::Sparse | Kind::Dense => ty.ids().get(child).map_or(String::new(), |id| format!("field {id}")),
        _ => String::new(),
    }
}

/// The way from the column to a node: the names of the fields, and of one without a name what it is to the node above it.
fn path(lent: &Lent, source: &Source, node: usize) -> String {
    let name = |k: usize| lent.fields.get(source.nodes[k].at).map_or("", |(_, field)| &field.name);
    let mut words = vec![];
    let mut at = node;
    loop {
        let above = (0..at).find_map(|k| Some((k, source.nodes[k].below.iter().position(|b| *b == at)?)));
        let word = match above {
            _ if !name(at).is_empty() => name(at).to_string(),
            Some((k, child)) => role(source, k, child),
            None => "column".into(),
        };
        words.push(word);
        match above {
            Some((k, _)) => at = k,
            None => break,
        }
    }
    words.reverse();
    words.join(" > ")
}

/// Adds to a refused order's place the node, its way, its row and the two numbers.
fn tell(lent: &Lent, why: Why, place: &mut Place) {
    let (Some(ground), Some(&first), Some(&count)) = (Ground::from_number(why.ground), lent.sources.first(), lent.sources.get(1)) else { return };
    if !ground.names_node() {
        return;
    }
    let source = Source::new(lent.tables(), first as usize, count as usize);
    if why.node < source.nodes.len() {
        (place.node, place.path) = (Some(why.node), Some(path(lent, &source, why.node)));
        place.row = Some(why.row);
    }
    if ground.has_numbers() {
        (place.needed, place.allowed) = (Some(why.needed), Some(why.allowed));
    }
}

impl Join {
    /// What stops an order, for a caller who wants it without giving the order: zeros where nothing does. The room is lent later, so that it is
    /// never too small.
    pub fn why(&self, order: Order) -> Why {
        self.why_from(order, &self.counters)
    }

    fn why_from(&self, order: Order, counters: &[u64; COUNTERS]) -> Why {
        let x = self.lent.tables();
        let why = match order {
            Order::Copy { source, start, end } => calls::why_copy(&self.plan, &[], &x, counters, 0, number(source), start, end),
            Order::Nulls(n) => calls::why_nulls(&self.plan, &[], counters, 0, n),
        };
        // no parts are lent, which is asked behind the walk
        match Ground::from_number(why.ground) {
            Some(Ground::BadParts) => Why::default(),
            _ => why,
        }
    }

    /// A refused order with its number, its place in a list, what it asked for behind the rows of the counters, and what stopped it.
    pub(super) fn told(&self, order: Order, list: Option<usize>, counters: &[u64; COUNTERS], error: Error) -> Error {
        let (number, behind) = (self.given, counters[0]);
        error.at(|place| {
            (place.order, place.place) = (Some(number), list);
            tell(&self.lent, self.why_from(order, counters), place);
            place.found = match order {
                Order::Nulls(n) => format!("{n} nulls behind {behind} rows"),
                Order::Copy { source, start, end } => match self.lent.sources.get(source.saturating_mul(2)) {
                    None => format!("rows {start}..{end} of source {source}, and there are {} sources", self.lent.sources.len() / 2),
                    Some(first) => {
                        let rows = self.lent.lengths.get(2 * *first as usize).copied().unwrap_or(0);
                        format!("rows {start}..{end} of source {source}, which has {rows}, behind {behind} rows")
                    }
                },
            };
        })
    }
}
