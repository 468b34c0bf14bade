// How the time of a join grows with its rows and with its depth: an opening with its checks and one order of all rows, on memory that is lent.
// Prints a table, and writes the plot of it to the file that is named. Run by bench/run; built by cargo with bindings/rust.

use lafkuno::calls::{self, COUNTERS, PLAN};
use lafkuno::{text, Column, Lent, Row, Type};
use std::fmt::Write;
use std::hint::black_box;
use std::time::{Duration, Instant};

const ROWS: [u64; 4] = [64, 512, 4096, 32768];
const DEPTHS: [u64; 8] = [1, 2, 3, 4, 5, 6, 7, 8];
const ROWS_OF_DEPTHS: u64 = 4096;

// ---- columns

fn column(ty: &str, rows: &[Row], n: u64) -> Column {
    let rows: Vec<Row> = (0..n as usize).map(|k| rows[k % rows.len()].clone()).collect();
    Column::build(&ty.parse().unwrap(), &rows).unwrap()
}

fn wide(ty: &str, examples: &str, n: u64) -> Column {
    let parsed: Type = ty.parse().unwrap();
    column(ty, &text::rows(&parsed, examples).unwrap(), n)
}

// i32 so many levels down, each row with one row of the level below it.
fn deep(format: &str, depth: u64, n: u64) -> Column {
    let (mut ty, mut row) = ("i".to_string(), Row::Whole(7));
    for _ in 1..depth {
        ty = format!("{format}({ty})");
        row = if format.starts_with("+u") { Row::Union(0, Box::new(row)) } else { Row::List(vec![row]) };
    }
    column(&ty, &[row], n)
}

// ---- timing

// Nanoseconds of an opening and an order of all rows, the best of many rounds.
fn time(column: &Column) -> f64 {
    let lent = Lent::lay(&[column]).unwrap();
    let x = lent.tables();
    let (mut plan, mut counters) = ([0; PLAN], [0; COUNTERS]);
    assert_eq!(calls::plan_parts(&x, false, false, &mut plan), 0);
    assert_eq!(calls::measure_open(&plan, &x, &mut counters), 0);
    assert_eq!(calls::measure_copy(&plan, &x, &mut counters, 0, 0, column.length), 0);
    let (mut parts, mut end) = (vec![], 0);
    for p in 0..calls::part_count(&plan) as u32 {
        let size = calls::needed_bytes(&plan, &counters, p);
        parts.extend([end, size]);
        end = (end + size).next_multiple_of(64);
    }
    let mut room = vec![0; end as usize];
    let mut best = f64::MAX;
    let start = Instant::now();
    let mut rounds = 0;
    while rounds < 20 || start.elapsed() < Duration::from_millis(300) {
        let start = Instant::now();
        assert_eq!(calls::open(&x, false, false, &parts, &mut plan, &mut counters, black_box(&mut room)), 0);
        assert_eq!(calls::copy(&plan, &parts, &x, &mut counters, black_box(&mut room), 0, 0, column.length), 0);
        best = best.min(start.elapsed().as_nanos() as f64);
        rounds += 1;
    }
    best
}

// A name, and the time at each place of the axis.
type Line = (&'static str, Vec<f64>);

fn print_table(head: &str, places: &[u64], lines: &[Line]) {
    print!("| {head} |");
    places.iter().for_each(|x| print!(" {x} |"));
    println!("\n|---|{}", "---|".repeat(places.len()));
    for (name, times) in lines {
        print!("| {name} |");
        times.iter().for_each(|t| print!(" {t:.0} |"));
        println!();
    }
    println!();
}

// ---- the plot

const COLORS: [&str; 8] = ["#1b6ca8", "#d1495b", "#3d8c40", "#8e5ea2", "#c77d0a", "#008b8b", "#6b4423", "#555555"];
const WIDTH: f64 = 360.0;
const HEIGHT: f64 = 300.0;
const TOP: f64 = 40.0;

// One field: where a place and a time lie in it, the marks of its axes, and its lines with their names.
struct Plot<'a> {
    left: f64,
    title: &'a str,
    below: &'a str,
    x: &'a dyn Fn(f64) -> f64,
    y: &'a dyn Fn(f64) -> f64,
    marks: &'a [f64],
    places: &'a [u64],
    lines: &'a [Line],
}

impl Plot<'_> {
    fn draw(&self, svg: &mut String) {
        let (x, y) = (|p: f64| self.left + WIDTH * (self.x)(p), |t: f64| TOP + HEIGHT * (1.0 - (self.y)(t)));
        let (left, right, bottom) = (self.left, self.left + WIDTH, TOP + HEIGHT);
        writeln!(svg, "<text x='{left}' y='20' font-weight='bold'>{}</text>", self.title).unwrap();
        for mark in self.marks {
            let at = y(*mark);
            writeln!(
                svg,
                "<path d='M{left} {at:.1}H{right}' stroke='#ddd'/><text x='{}' y='{:.1}' text-anchor='end'>{}</text>",
                left - 6.0,
                at + 4.0,
                span(*mark)
            )
            .unwrap();
        }
        for place in self.places {
            let at = x(*place as f64);
            writeln!(svg, "<path d='M{at:.1} {bottom}v4' stroke='#333'/><text x='{at:.1}' y='{}' text-anchor='middle'>{place}</text>", bottom + 18.0)
                .unwrap();
        }
        writeln!(svg, "<text x='{}' y='{}' text-anchor='middle'>{}</text>", left + WIDTH / 2.0, bottom + 36.0, self.below).unwrap();
        writeln!(svg, "<path d='M{left} {TOP}V{bottom}H{right}' fill='none' stroke='#333'/>").unwrap();
        for (k, (name, times)) in self.lines.iter().enumerate() {
            let points: Vec<String> = self.places.iter().zip(times).map(|(p, t)| format!("{:.1},{:.1}", x(*p as f64), y(*t))).collect();
            writeln!(svg, "<polyline points='{}' fill='none' stroke='{}' stroke-width='1.6'/>", points.join(" "), COLORS[k]).unwrap();
            for point in &points {
                let (a, b) = point.split_once(',').unwrap();
                writeln!(svg, "<circle cx='{a}' cy='{b}' r='2.6' fill='{}'/>", COLORS[k]).unwrap();
            }
            writeln!(svg, "<text x='{}' y='{}' fill='{}'>{name}</text>", left + 10.0, TOP + 14.0 * (k as f64 + 1.0), COLORS[k]).unwrap();
        }
    }
}

fn span(nanoseconds: f64) -> String {
    match nanoseconds {
        t if t < 1e3 => format!("{t} ns"),
        t if t < 1e6 => format!("{} us", t / 1e3),
        t => format!("{} ms", t / 1e6),
    }
}

// By rows with both axes in powers, so that straight growth is a line of one slope, drawn grey.
fn draw_rows(svg: &mut String, lines: &[Line]) {
    let marks = [100.0, 1e3, 1e4, 1e5, 1e6, 1e7];
    let (x, y) = (|p: f64| (p / 64.0).log2() / 9.0, |t: f64| (t / 100.0).log10() / 5.0);
    let (left, height) = (80.0, |t: f64| TOP + HEIGHT * (1.0 - y(t)));
    for mark in [100.0, 1e3, 1e4] {
        let (low, right, high) = (height(mark), left + WIDTH, height(512.0 * mark));
        writeln!(svg, "<path d='M{left} {low:.1}L{right} {high:.1}' stroke='#bbb' stroke-dasharray='4 3'/>").unwrap();
    }
    let title = "By rows (dashed: as many times longer as there are rows)";
    Plot { left, title, below: "rows", x: &x, y: &y, marks: &marks, places: &ROWS, lines }.draw(svg);
}

// By depth with both axes plain.
fn draw_depths(svg: &mut String, left: f64, lines: &[Line]) {
    let most = lines.iter().flat_map(|(_, times)| times).fold(0.0, |a: f64, b| a.max(*b));
    let step = [1e3, 2e3, 5e3, 1e4, 2e4, 5e4, 1e5, 2e5, 5e5].into_iter().find(|s| most / s <= 8.0).unwrap_or(1e6);
    let marks: Vec<f64> = (0..=(most / step) as usize).map(|k| k as f64 * step).collect();
    let (x, y) = (|d: f64| d / 8.0, |t: f64| t / most);
    let title = format!("By depth, {ROWS_OF_DEPTHS} rows at every level");
    Plot { left, title: &title, below: "depth", x: &x, y: &y, marks: &marks, places: &DEPTHS, lines }.draw(svg);
}

fn plot(rows: &[Line], depths: &[Line]) -> String {
    let size = "width='1340' height='390'";
    let mut svg = format!("<svg xmlns='http://www.w3.org/2000/svg' {size} font-family='sans-serif' font-size='11'>\n<rect {size} fill='white'/>\n");
    draw_rows(&mut svg, rows);
    draw_depths(&mut svg, 520.0, &depths[..2]);
    draw_depths(&mut svg, 960.0, &depths[2..]);
    svg + "</svg>\n"
}

fn main() {
    let kinds = [
        ("i32 with validity", "i?", "1 2 null 4"),
        ("byte strings", "u", "\"Leith\" \"Granton\" \"\" \"Newhaven\""),
        ("views", "vu", "\"short\" \"a text of more than twelve bytes\""),
        ("list of i32", "+l(i)", "[1, 2] [] [3]"),
        ("list-view of i32", "+vl(i)", "[1, 2] [] [3]"),
        ("dense union", "+ud:0,1(i, l)", "0:1 1:2 0:3"),
        ("run ends", "+r(i, u)", "5*\"driving\" 3*\"idle\""),
        ("dictionary", "S[u]", "\"x\" \"y\" \"z\""),
    ];
    let rows: Vec<Line> = kinds.iter().map(|(name, ty, examples)| (*name, ROWS.iter().map(|n| time(&wide(ty, examples, *n))).collect())).collect();
    let nested = [("list", "+l"), ("sparse union", "+us:0"), ("list-view", "+vl"), ("dense union", "+ud:0")];
    let depths: Vec<Line> =
        nested.iter().map(|(name, format)| (*name, DEPTHS.iter().map(|d| time(&deep(format, *d, ROWS_OF_DEPTHS))).collect())).collect();
    print_table("ns, by rows", &ROWS, &rows);
    print_table("ns, by depth", &DEPTHS, &depths);
    if let Some(file) = std::env::args().nth(1) {
        std::fs::write(file, plot(&rows, &depths)).unwrap();
    }
}
