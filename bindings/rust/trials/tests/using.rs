//! The lines of docs/USING.md that call the command, run in the order in which they stand.

use lafkuno::{ipc, text, Batch, Column, Field, Type};
use std::path::PathBuf;
use std::process::{Command, Output};

const USING: &str = include_str!("../../../../docs/USING.md");

fn blocks(language: &str) -> Vec<&'static str> {
    USING.split(&format!("```{language}\n")).skip(1).map(|b| b.split("```").next().unwrap()).collect()
}

fn column(name: &str, ty: &str, rows: &str) -> Column {
    let ty: Type = ty.parse().unwrap();
    Column { field: Field { name: name.into(), ..Field::default() }, ..Column::build(&ty, &text::rows(&ty, rows).unwrap()).unwrap() }
}

fn place() -> PathBuf {
    let place = PathBuf::from(env!("CARGO_TARGET_TMPDIR")).join("using");
    let _ = std::fs::remove_dir_all(&place);
    std::fs::create_dir_all(&place).unwrap();
    let examples = concat!(env!("CARGO_MANIFEST_DIR"), "/../../../examples");
    std::fs::create_dir(place.join("examples")).unwrap();
    for file in std::fs::read_dir(examples).unwrap().map(|file| file.unwrap().path()) {
        std::fs::copy(&file, place.join("examples").join(file.file_name().unwrap())).unwrap();
    }
    for (name, fuel, town) in
        [("a.arrow", "310 305 95 102", r#""Leith" "Leith" null "Granton""#), ("b.arrow", "12 null 61", r#""Yard" "Leith" "Leith""#)]
    {
        let columns = vec![column("fuel", "i?", fuel), column("town", "C?[u]", town)];
        ipc::write_file(place.join(name).to_str().unwrap(), &Batch { rows: columns[0].length, columns, metadata: vec![] }).unwrap();
    }
    for (name, orders) in ["trip.orders", "trips.orders"].iter().zip(blocks("orders")) {
        std::fs::write(place.join(name), orders).unwrap();
    }
    place
}

fn run(place: &PathBuf, line: &str) -> Output {
    let here = std::env::current_exe().unwrap();
    let command = here.parent().unwrap().parent().unwrap().join("lafkuno");
    Command::new(command).current_dir(place).args(line.split_whitespace().skip(1).map(|word| word.trim_matches('\''))).output().unwrap()
}

#[test]
fn documented_lines_run() {
    let place = place();
    let lines: Vec<&str> = blocks("sh").iter().flat_map(|b| b.lines()).filter(|l| l.starts_with("lafkuno ")).collect();
    assert!(5 <= lines.len());
    for line in lines {
        let output = run(&place, line);
        assert!(output.status.success(), "{line}: {}", String::from_utf8_lossy(&output.stderr));
    }
    let shown = run(&place, "lafkuno show c.arrow").stdout;
    assert_eq!(
        String::from_utf8(shown).unwrap(),
        "# fuel: i?\n# town: C?[u?]\n95\tnull\n102\t\"Granton\"\nnull\tnull\n12\t\"Yard\"\nnull\t\"Leith\"\n"
    );
    assert_eq!(String::from_utf8(run(&place, "lafkuno show --rows 2..3 mill.arrow").stdout).unwrap().lines().last(), Some("61\t\"Leith\""));
}
