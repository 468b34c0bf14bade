//! Lists of orders, all or none.

use super::{Join, Order};
use crate::calls::{self, COUNTERS, MOST_ORDERS, ORDER};
use crate::Error;

impl Order {
    /// The numbers of an order in a list.
    fn words(self) -> [u64; ORDER] {
        match self {
            Order::Copy { source, start, end } => [0, source as u64, start, end],
            Order::Nulls(n) => [1, n, 0, 0],
        }
    }
}

pub(super) fn words(orders: &[Order]) -> Vec<u64> {
    orders.iter().flat_map(|o| o.words()).collect()
}

impl Join {
    /// Gives a list of up to 256 orders as one: all are carried out, or none is. A refusal is that of the first order which is refused when they
    /// are given one after the other, and tells its place in the list.
    ///
    /// ```
    /// # use lafkuno::{Column, Join, Order, Row};
    /// # let stops = Column::build(&"i".parse()?, &[1, 2, 3].map(|n| Row::Whole(n)))?;
    /// let mut join = Join::open(&[&stops], false)?;
    /// let stop = |start, end| Order::Copy { source: 0, start, end };
    /// let refused = join.orders(&[stop(0, 2), stop(2, 4)]).unwrap_err();
    /// assert_eq!((refused.ground().unwrap().number(), refused.place().unwrap().place), (2, Some(1)));
    /// assert!(join.is_empty());
    /// join.orders(&[stop(0, 2), stop(2, 3)])?;
    /// assert_eq!(join.len(), 3);
    /// # Ok::<(), lafkuno::Error>(())
    /// ```
    pub fn orders(&mut self, orders: &[Order]) -> Result<(), Error> {
        self.given += 1;
        let (count, work) = (self.orders.len(), self.work.so_far());
        let made = self.carry(orders);
        if made.is_err() {
            self.orders.truncate(count);
            self.work.back(work);
        }
        made
    }

    /// The orders of a list, measured as one; where one is too much work, those before it are asked first.
    fn carry(&mut self, orders: &[Order]) -> Result<(), Error> {
        let mut too_much = Ok(());
        let mut asked = orders;
        if orders.len() <= MOST_ORDERS {
            for (k, order) in orders.iter().enumerate() {
                match self.bounded(*order) {
                    Ok(true) => self.work.accept(),
                    Ok(false) => {}
                    Err(e) => {
                        (too_much, asked) = (Err(e), &orders[..k]);
                        break;
                    }
                }
                self.orders.push(*order);
            }
        }
        let counters = self.measured(asked)?;
        too_much?;
        self.room = self.room_for(&counters)?;
        self.counters = counters;
        Ok(())
    }

    /// The counters after a list of orders.
    fn measured(&self, orders: &[Order]) -> Result<[u64; COUNTERS], Error> {
        let mut counters = self.counters;
        let ended = calls::measure_orders(&self.plan, &self.lent.tables(), &mut counters, &words(orders));
        let refused = |error: Error| {
            if MOST_ORDERS < orders.len() {
                return error.at(|place| {
                    (place.order, place.place) = (Some(self.given), Some(0));
                    place.found = format!("{} orders in a list, which takes {MOST_ORDERS}", orders.len());
                });
            }
            let before = self.measured(&orders[..ended.place]).unwrap_or(self.counters);
            self.told(orders[ended.place], Some(ended.place), &before, error)
        };
        Error::check(ended.ground).map_err(refused)?;
        Ok(counters)
    }
}
