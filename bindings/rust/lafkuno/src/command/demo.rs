//! `lafkuno demo`: one van, one stop, two kilometres; then an old box's plain ignition column joined with a new box's runs.

use super::{mistake, print, Command};
use lafkuno::{text, Column, Error, Join, Row, RunEnds};

pub const COMMAND: Command = Command { word: "demo", usage: "lafkuno demo                              one van, one stop, two kilometres", run };

/// A minute of the box: what the van did, metres, millilitres.
type Minute = (&'static str, i128, i128);
/// A column of the batch: its type, and a minute's row.
type Part = (&'static str, fn(&Minute) -> Row);

const BATCH: [Minute; 8] = [
    ("idling in the yard", 0, 310),
    ("idling in the yard", 0, 305),
    ("idling in the yard", 0, 300),
    ("idling in the yard", 0, 298),
    ("driving", 700, 95),
    ("driving", 800, 102),
    ("at the stop", 0, 12),
    ("driving", 500, 61),
];
const YARD: u64 = 4;

fn run(words: &[&str]) -> u8 {
    if let Some(word) = words.first() {
        return mistake(format_args!("demo: {word} is not asked for"));
    }
    match story().and_then(|trip| Ok(trip + &ignition()?)) {
        Ok(text) => print(&text),
        Err(error) => mistake(error),
    }
}

/// The ignition a minute: on, off, or the box was silent.
const OLD_BOX: [Option<i128>; 10] = [Some(0), Some(0), Some(0), Some(1), Some(1), Some(1), None, None, Some(0), Some(0)];
const NEW_BOX: [Option<i128>; 6] = [Some(0), Some(0), Some(1), Some(1), Some(1), Some(0)];

/// A plain column of an old box into runs, so that it is of a new box's type, and both joined.
fn ignition() -> Result<String, Error> {
    let column = |ty: &str, minutes: &[Option<i128>]| {
        Column::build(&ty.parse()?, &minutes.iter().map(|m| m.map_or(Row::Null, Row::Whole)).collect::<Vec<_>>())
    };
    let rows = |c: &Column| (0..c.length).filter_map(|i| Some(text::show(&c.ty(), &c.row(i)?))).collect::<Vec<_>>().join(" ");
    let old = column("C?", &OLD_BOX)?.slice(3, 7)?;
    let new = column("+r(s, C?)", &NEW_BOX)?.slice(1, 5)?;
    let runs = old.encode(0..old.length, RunEnds::I16)?;
    let mut join = Join::open(&[&runs, &new], false)?;
    join.copy(0, 0..runs.length)?;
    join.copy(1, 0..new.length)?;
    let joined = join.finish()?.column;
    Ok(format!(
        "\nAn old box sends the ignition as a plain column, a new one as runs, both sliced:\n\n  old box     {}\n  as runs     {}, in {} runs\n  new box     {}\n  joined      {}, in {} runs\n",
        rows(&old),
        rows(&runs),
        runs.children[0].length,
        rows(&new),
        rows(&joined),
        joined.children[0].length,
    ))
}

fn story() -> Result<String, Error> {
    let kinds: [Part; 3] = [("+r(i, u?)", |m| Row::Bytes(m.0.into())), ("i?", |m| Row::Whole(m.1)), ("i?", |m| Row::Whole(m.2))];
    let mut joined = vec![];
    for (ty, part) in kinds {
        let batch = Column::build(&ty.parse()?, &BATCH.iter().map(part).collect::<Vec<_>>())?;
        let trip = batch.slice(YARD, BATCH.len() as u64 - YARD)?;
        let mut join = Join::open(&[&trip], true)?;
        join.copy(0, 0..3)?;
        join.nulls(1)?;
        join.copy(0, 3..4)?;
        joined.push(join.finish()?.column);
    }
    let mut out = String::from(
        "One van, one stop, two kilometres.\n\nThe batch, a row a minute since the box was powered up; its slice begins at the arrow:\n\n",
    );
    for (k, (what, metres, millilitres)) in BATCH.iter().enumerate() {
        let mark = if k as u64 == YARD { "->" } else { "" };
        out += &format!("{mark:>4} {what:20} {metres:>5} m {millilitres:>5} ml\n");
    }
    out += "\nThe orders, on each column of the slice:\n\n  copy rows 0..3\n  1 null: the box was silent for a minute\n  copy rows 3..4\n\nThe joined rows:\n\n";
    let cell = |c: &Column, i: u64| match c.row(i) {
        Some(Row::Bytes(b)) => String::from_utf8_lossy(&b).into_owned(),
        Some(Row::Whole(n)) => n.to_string(),
        _ => "null".into(),
    };
    let sum = |c: &Column| (0..c.length).map(|i| if let Some(Row::Whole(n)) = c.row(i) { n } else { 0 }).sum::<i128>();
    for i in 0..joined[0].length {
        out += &format!("{i:>4} {:20} {:>5} m {:>5} ml\n", cell(&joined[0], i), cell(&joined[1], i), cell(&joined[2], i));
    }
    let (metres, burnt) = (sum(&joined[1]), sum(&joined[2]));
    let forgotten: i128 = BATCH[..4].iter().map(|m| m.2).sum();
    out += &format!("\nBooked on the trip: {metres} m, {burnt} ml.\n");
    out += &format!(
        "Had the slice's offset been forgotten, rows 0 to 3 of the batch had been copied:\n{forgotten} ml of idling in the yard booked on the {} kilometres, and a good van taken off short rounds.\n",
        metres / 1000
    );
    Ok(out)
}
