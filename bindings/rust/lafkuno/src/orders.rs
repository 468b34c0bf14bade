//! Orders over Arrow files as text (docs/USING.md).

use crate::text::{range, utf8, without_comment, Mistake, Order, What};
use crate::Choices;

/// One join of a list: where its rows go, and its orders.
#[derive(Clone, Debug, PartialEq, Eq)]
pub struct Trip {
    /// The line that it begins with.
    pub line: usize,
    /// The file that its rows go to, where the orders say.
    pub out: Option<String>,
    /// Its orders.
    pub orders: Vec<Order>,
}

/// What a file of orders says.
#[derive(Clone, Debug, PartialEq, Eq)]
pub struct Orders {
    /// What is chosen at the openings.
    pub choices: Choices,
    /// The joins: one, or as many as `out FILE` begins.
    pub trips: Vec<Trip>,
}

/// A source by its number, by its path as it was given, or by the name or the stem of its file where only one has it.
fn source(name: &str, files: &[&str]) -> Option<usize> {
    let path = |f: &&str| std::path::PathBuf::from(f);
    let is = |f: &&str| path(f).file_name().is_some_and(|n| n == name) || path(f).file_stem().is_some_and(|n| n == name);
    let found: Vec<usize> = files.iter().enumerate().filter(|(_, f)| is(f)).map(|(k, _)| k).collect();
    let only = || if let [k] = found[..] { Some(k) } else { None };
    files.iter().position(|f| *f == name).or_else(only).or_else(|| name.parse().ok())
}

impl Orders {
    fn line(&mut self, number: usize, line: &str, files: &[&str]) -> Result<(), String> {
        let (word, rest) = line.split_once(char::is_whitespace).unwrap_or((line, ""));
        let rest = rest.trim();
        let what = match word {
            "keep" if rest == "nulls" => {
                self.choices.keep_nulls = true;
                return Ok(());
            }
            "one" if rest == "run for gaps" => {
                self.choices.one_run_for_gaps = true;
                return Ok(());
            }
            "out" if rest.is_empty() => return Err("a file is due: out FILE".into()),
            "out" if self.trips.iter().any(|t| t.out.as_deref() == Some(rest)) => return Err(format!("{rest} is written by another join already")),
            "out" => {
                self.trips.push(Trip { line: number, out: Some(rest.into()), orders: vec![] });
                return Ok(());
            }
            "copy" => {
                let due = "a copy is: copy FILE START..END";
                let (name, rows) = rest.rsplit_once(char::is_whitespace).ok_or(due)?;
                let (start, end) = range(rows).ok_or(due)?;
                let source = source(name.trim(), files).ok_or_else(|| format!("there is no file `{}`, or there are several", name.trim()))?;
                What::Copy { source, start, end }
            }
            "nulls" => What::Nulls(rest.parse().map_err(|_| "a count is due: nulls N".to_string())?),
            _ => return Err(format!("`{line}`: keep nulls, one run for gaps, out, copy or nulls is due")),
        };
        if self.trips.is_empty() {
            self.trips.push(Trip { line: number, out: None, orders: vec![] });
        }
        if let Some(trip) = self.trips.last_mut() {
            trip.orders.push(Order { line: number, text: line.into(), what, trip: None });
        }
        Ok(())
    }
}

/// Reads a file of orders over these Arrow files.
pub fn read_orders(bytes: &[u8], files: &[&str]) -> Result<Orders, Mistake> {
    let mut orders = Orders { choices: Choices::default(), trips: vec![] };
    let mut last = 1;
    for (k, line) in utf8(bytes)?.lines().enumerate() {
        let line = without_comment(line).trim();
        last = k + 1;
        if !line.is_empty() {
            orders.line(last, line, files).map_err(|what| Mistake { line: last, what })?;
        }
    }
    if orders.trips.is_empty() {
        return Err(Mistake { line: last, what: "no order is given: copy FILE START..END, or nulls N".into() });
    }
    Ok(orders)
}

#[cfg(test)]
mod tests {
    use super::*;

    #[test]
    fn orders_name_their_files() {
        let files = ["in/a.arrow", "in/b.arrow", "out/b.arrow"];
        let orders = read_orders(b"keep nulls\nout t1\ncopy a 1..2\ncopy a.arrow 3..4 # more\ncopy 2 0..1\n\nout t 2\nnulls 3", &files).unwrap();
        assert_eq!(orders.choices, Choices { keep_nulls: true, one_run_for_gaps: false });
        let both = read_orders(b"one run for gaps\nnulls 3\nkeep nulls", &files).unwrap();
        assert_eq!(both.choices, Choices { keep_nulls: true, one_run_for_gaps: true });
        let sources = |t: &Trip| t.orders.iter().map(|o| o.what).collect::<Vec<_>>();
        assert_eq!(sources(&orders.trips[1]), [What::Nulls(3)]);
        let copy = |source, start| What::Copy { source, start, end: start + 1 };
        assert_eq!(sources(&orders.trips[0]), [copy(0, 1), copy(0, 3), copy(2, 0)]);
        for (text, line) in [
            ("copy b 0..1", 1),
            ("\nnulls x", 2),
            ("out t\nout t", 2),
            ("keep nulls\n", 1),
            ("copy c 0..1", 1),
            ("type i", 1),
            ("one run\nnulls 1", 1),
        ] {
            assert_eq!(read_orders(text.as_bytes(), &files).unwrap_err().line, line, "{text}");
        }
    }
}
