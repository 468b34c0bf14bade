//! Descriptions with one number near 2^64 or 2^63, with canaries round every lent slice: a sum that leaves the body is 12 and one that leaves the
//! room 14, wherever it would come to when it wraps.

use crate::compare::same;
use crate::damage::{prepare, Answers, Prepared};
use crate::guard::Guard;
use crate::memory::Call;
use crate::random::Random;
use lafkuno::calls::{Position, MOST_BYTES};
use lafkuno::Lent;

/// How many numbers of each join are changed, one at a time.
const CHANGES: u64 = 10;

/// A number that is past every body and room; some of them end in the body when `old`, or the number beside it, is added.
fn far(r: &mut Random, old: Position, beside: Position, size: u64) -> Position {
    let near = [u64::MAX, 1 << 63, MOST_BYTES, (1 << 63) + (1 << 32)];
    match r.below(5) {
        0 => u64::MAX - r.below(70),
        1 => 0u64.wrapping_sub(beside).wrapping_add(r.below(size + 1)),
        2 => old.wrapping_sub(size + 1 + r.below(9)),
        3 => r.pick(&near) - r.below(3),
        _ => 1 << 63 | r.number(),
    }
    .max(1 << 32)
}

/// Whether number `at` of the places is looked at, and the ground that one past every body is.
fn looked_at(lent: &Lent, at: usize) -> u8 {
    let [start, len] = [0, 1].map(|k| lent.schema[5 * (at / 9) + k] as usize);
    let format = &lent.formats[start..start + len];
    let views = format[0] == b'v';
    let buffers = match format {
        b"+r" => 0,
        b"z" | b"u" | b"Z" | b"U" | b"+vl" | b"+vL" => 2,
        _ if format.starts_with(b"+ud:") => 2,
        _ => 1,
    };
    match at % 9 {
        1 | 2 if lent.places[at - at % 9] != 0 => 12,
        3 | 4 if 0 < buffers => 12,
        5 | 6 if 1 < buffers => 12,
        7 if views => 12,
        8 if views => 9,
        _ => 0,
    }
}

/// A change of one number, and the grounds of the opening and of finishing then; None where a number may be looked at or not.
struct Change {
    what: String,
    places: Vec<Position>,
    buffers: Vec<Position>,
    parts: Vec<Position>,
    base: Position,
    due: Option<[u8; 2]>,
}

fn change(r: &mut Random, lent: &Lent, parts: &[Position], room: u64) -> Change {
    let body = lent.body.len() as u64;
    let (places, buffers, parts) = (lent.places.clone(), lent.buffers.clone(), parts.to_vec());
    let mut c = Change { what: String::new(), places, buffers, parts, base: body, due: None };
    match r.below(8) {
        0 | 1 if !c.parts.is_empty() => {
            let at = r.size(c.parts.len());
            c.parts[at] = far(r, c.parts[at], c.parts[at ^ 1], room);
            (c.what, c.due) = (format!("number {at} of the parts is {}", c.parts[at]), Some([14, 14]));
        }
        2 | 3 if !c.buffers.is_empty() => {
            let at = r.size(c.buffers.len());
            c.buffers[at] = far(r, c.buffers[at], c.buffers[at ^ 1], body);
            (c.what, c.due) = (format!("number {at} of the data buffers is {}", c.buffers[at]), Some([12, 0]));
        }
        4 => {
            c.base = far(r, 0, 0, room);
            (c.what, c.due) = (format!("the base is {}", c.base), Some([0, if c.base <= MOST_BYTES { 0 } else { 9 }]));
        }
        _ => {
            let at = r.size(c.places.len());
            let beside = if at % 9 % 2 == 1 { at + 1 } else { at.max(1) - 1 };
            c.places[at] = far(r, c.places[at], c.places[beside], body);
            c.what = format!("number {at} of the places is {}", c.places[at]);
            // a flag that says validity is there makes other numbers looked at
            c.due = (at % 9 != 0).then(|| [looked_at(lent, at), 0]);
        }
    }
    c
}

/// One join by its seed, whose numbers are changed one at a time, before the opening or behind it; how many were.
pub fn far_numbers(seed: u64, answers: &mut Answers) -> Result<u64, String> {
    let mut random = Random::new(seed);
    let r = &mut random;
    let Prepared { ty, rows, lent, keep, gaps, mut memory } = prepare(r)?;
    let (fresh, parts) = (memory.picture(), memory.parts.get().to_vec());
    let (first, n) = (lent.sources[0], lent.sources[1]);
    for _ in 0..CHANGES {
        let Change { what, places, buffers, parts: changed, base, due } = change(r, &lent, &parts, fresh.room.len() as u64);
        let describe = |e: String| format!("seed {seed}, type {ty}, {what}: {e}");
        let late = r.chance(50);
        memory.restore(&fresh);
        if late {
            (memory.places, memory.buffers, memory.parts) = (Guard::new(&lent.places), Guard::new(&lent.buffers), Guard::new(&parts));
            if memory.check(Call::Open(keep, gaps), answers).map_err(describe)? != 0 {
                continue;
            }
        }
        (memory.places, memory.buffers, memory.parts) = (Guard::new(&places), Guard::new(&buffers), Guard::new(&changed));
        for call in [Call::Ground(first, n), Call::OpenColumn(first, n), Call::Plan(keep, gaps)] {
            let answer = memory.check(call, answers).map_err(describe)?;
            if let (Call::Plan(..), Some([ground, _])) = (call, due) {
                same("the ground of the sources", answer, if ground == 14 { 0 } else { ground }).map_err(describe)?;
            }
        }
        if !late {
            let answer = memory.check(Call::Open(keep, gaps), answers).map_err(describe)?;
            if let Some([ground, _]) = due {
                let fits = answer == ground || ground == 0 && [6, 8].contains(&answer);
                same("the ground of the opening", fits, true).map_err(describe)?;
            }
            if answer != 0 {
                continue;
            }
        }
        for (s, n) in rows.iter().enumerate() {
            let answer = memory.check(Call::Copy(s as u32, 0, *n), answers).map_err(describe)?;
            same("an order over parts outside the room", answer == 0 && due == Some([14, 14]), false).map_err(describe)?;
        }
        let answer = memory.check(Call::Finish(base), answers).map_err(describe)?;
        if let Some([0 | 14, ground]) = due {
            same("the ground of finishing", answer, ground).map_err(describe)?;
        }
    }
    Ok(CHANGES)
}
