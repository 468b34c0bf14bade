//! include/lafkuno.h and src/calls declare the calls that crates/lafkuno has, and the header's grounds are the binding's.

use lafkuno::calls::{Position, COUNTERS, MOST_ORDERS, ORDER, PLAN, TREE, WHY};
use lafkuno::Ground;
use std::collections::BTreeMap;

const HEADER: &str = include_str!("../../../../include/lafkuno.h");
const RUST: &str = concat!(
    include_str!("../../lafkuno/src/calls.rs"),
    include_str!("../../lafkuno/src/calls/beside.rs"),
    include_str!("../../lafkuno/src/calls/codings.rs"),
    include_str!("../../lafkuno/src/calls/measuring.rs"),
    include_str!("../../lafkuno/src/calls/trips.rs"),
    include_str!("../../lafkuno/src/calls/why.rs"),
    include_str!("../../lafkuno/src/calls/reclaiming.rs"),
    include_str!("../../lafkuno/src/calls/converting.rs")
);
const RATTLE: &str = concat!(
    include_str!("../../../../crates/lafkuno/src/lib.rt"),
    include_str!("../../../../crates/lafkuno/src/beside.rt"),
    include_str!("../../../../crates/lafkuno/src/means.rt"),
    include_str!("../../../../crates/lafkuno/src/reading.rt"),
    include_str!("../../../../crates/lafkuno/src/same.rt"),
    include_str!("../../../../crates/lafkuno/src/trips.rt"),
    include_str!("../../../../crates/lafkuno_why/src/lib.rt"),
    include_str!("../../../../crates/lafkuno_anew/src/codings.rt"),
    include_str!("../../../../crates/lafkuno_anew/src/lists.rt"),
    include_str!("../../../../crates/lafkuno_anew/src/converting.rt"),
    include_str!("../../../../crates/lafkuno_anew/src/reclaiming.rt")
);

/// Name, parameters as (type, name), answer.
type Calls = BTreeMap<String, (Vec<(String, String)>, String)>;

fn without_comments(text: &str) -> String {
    let mut out = String::new();
    let mut rest = text;
    while let Some((before, after)) = rest.split_once("/*") {
        out += before;
        rest = after.split_once("*/").unwrap().1;
    }
    out + rest
}

fn c_type(words: &str) -> String {
    let words = words.replace("const ", "const_").replace("uint8_t", "u8").replace("uint32_t", "u32").replace("uint64_t", "u64");
    words.replace("size_t", "usize").replace("double", "f64").replace(' ', "")
}

fn header() -> Calls {
    let text: String = without_comments(HEADER).lines().filter(|l| !l.starts_with('#')).map(|l| l.to_string() + "\n").collect();
    let declared = text.split(';').filter_map(|d| {
        let (head, parameters) = d.trim().split_once('(')?;
        let head = head.lines().last()?;
        let (answer, name) = head.rsplit_once(' ')?;
        if !name.starts_with("lafkuno_") {
            return None;
        }
        let parameters = parameters.trim_end_matches(')').split(',').map(|p| {
            let (ty, name) = p.trim().rsplit_once(' ').unwrap();
            let stars = name.len() - name.trim_start_matches('*').len();
            (c_type(ty) + &"*".repeat(stars), name.trim_start_matches('*').to_string())
        });
        Some((name.to_string(), (parameters.collect(), c_type(answer))))
    });
    declared.collect()
}

fn library() -> Calls {
    let blocks = RUST.split("extern \"C\" {").skip(1).flat_map(|b| b.split("\n}").next().unwrap().lines());
    let lines: String = blocks.filter(|l| !l.trim().starts_with("//")).collect();
    let declared = lines.split(';').filter_map(|d| {
        let (head, rest) = d.trim().strip_prefix("fn ")?.split_once('(')?;
        let (parameters, answer) = rest.split_once(')')?;
        let parameters = parameters.split(',').map(str::trim).filter(|p| !p.is_empty()).map(|p| {
            let (name, ty) = p.split_once(':').unwrap();
            let ty = ty.trim().replace("Position", "u64");
            let ty = match (ty.strip_prefix("*const "), ty.strip_prefix("*mut ")) {
                (Some(t), _) => format!("const_{t}*"),
                (_, Some(t)) => format!("{t}*"),
                _ => ty.to_string(),
            };
            (ty, name.to_string())
        });
        Some((head.to_string(), (parameters.collect(), answer.trim().trim_start_matches("->").trim().to_string())))
    });
    declared.collect()
}

/// A slice passes as pointer and length.
fn rattle() -> BTreeMap<String, (Vec<String>, String)> {
    let declared = RATTLE.split("pub extern \"C\" fn ").skip(1).map(|d| {
        let (name, rest) = d.split_once('(').unwrap();
        let (parameters, rest) = rest.split_once(')').unwrap();
        let parameters = parameters.split(',').map(str::trim).filter(|p| !p.is_empty()).flat_map(|p| {
            let ty = p.split_once(':').unwrap().1.trim();
            match (ty.strip_prefix("&mut ["), ty.strip_prefix("&[")) {
                (Some(t), _) => vec![format!("{}*", t.trim_end_matches(']')), "usize".to_string()],
                (_, Some(t)) => vec![format!("const_{}*", t.trim_end_matches(']')), "usize".to_string()],
                _ => vec![ty.to_string()],
            }
        });
        let answer = rest.trim_start().strip_prefix("->").unwrap().split_whitespace().next().unwrap();
        (name.to_string(), (parameters.collect(), answer.to_string()))
    });
    declared.collect()
}

#[test]
fn the_same_calls() {
    let _: u64 = Position::MAX;
    let (header, library) = (header(), library());
    assert_eq!(header.len(), 42);
    assert_eq!(header, library);
    let types = header.into_iter().map(|(name, (parameters, answer))| (name, (parameters.into_iter().map(|(ty, _)| ty).collect(), answer)));
    assert_eq!(types.collect::<BTreeMap<_, _>>(), rattle());
}

#[test]
fn the_same_grounds() {
    let text = without_comments(HEADER);
    let block = text.split("enum lafkuno_ground {").nth(1).unwrap().split('}').next().unwrap();
    let numbers: Vec<u8> = block.split(',').map(|line| line.split_once(" = ").unwrap().1.trim().parse().unwrap()).collect();
    let grounds: Vec<u8> = Ground::ALL.iter().map(|g| g.number()).collect();
    assert_eq!(numbers[0], 0);
    assert_eq!(numbers[1..], grounds);
    for (name, value) in [("PLAN", PLAN), ("COUNTERS", COUNTERS), ("TREE", TREE), ("ORDER", ORDER), ("MOST_ORDERS", MOST_ORDERS), ("WHY", WHY)] {
        assert!(HEADER.contains(&format!("#define LAFKUNO_{name} {value}\n")));
    }
}
