//! Damaged columns that are written in another type, with canaries round every lent slice: as [`crate::damage`] holds the calls of a join.

use crate::compare::same;
use crate::damage::Answers;
use crate::generate::Generate;
use crate::memory::{Call, Memory};
use crate::random::Random;
use crate::widths::otherwise;
use lafkuno::calls::{self, Into, Target, COUNTERS, PLAN};
use lafkuno::{Column, Lent, Type};

/// A column of a type without rows and buffers: what describes a target.
fn described(ty: &Type) -> Column {
    Column {
        format: ty.format.clone(),
        nullable: ty.nullable,
        children: ty.children.iter().map(described).collect(),
        dictionary: ty.dictionary.as_deref().map(|d| Box::new(described(d))),
        ..Column::default()
    }
}

/// The call of a seed, the column's type and the result's.
fn types(generate: &mut Generate) -> (Into, Type, Type) {
    if generate.random.chance(50) {
        let ty = generate.ty();
        let target = otherwise(&ty, &mut |formats| generate.random.pick(formats).to_string());
        return (Into::Widths, ty, target);
    }
    let wide = generate.random.chance(50);
    let [list, view] = if wide { ["+L", "+vL"] } else { ["+l", "+vl"] };
    let (into, from, to) = if generate.random.chance(50) { (Into::List, view, list) } else { (Into::ListView, list, view) };
    let ty = generate.list(from);
    let target = Type { format: to.into(), ..ty.clone() };
    (into, ty, target)
}

/// A random column that is laid as the only source, before the type that it is to become.
pub struct Laid {
    pub into: Into,
    pub ty: Type,
    pub to: Type,
    pub lent: Lent,
    pub target: Target,
}

pub fn laid(random: &mut Random) -> Result<Laid, String> {
    let (rows, align) = (random.pick(&[0, 1, 7, 9, 30]), random.pick(&[1, 8]));
    let mut generate = Generate::new(random);
    let (into, ty, to) = types(&mut generate);
    let column = generate.column(&ty, rows);
    let mut lent = Lent::lay_aligned(&[&column, &described(&to)], align).map_err(|e| e.to_string())?;
    let target = Target { first: lent.sources[0], n: lent.sources[1], target: lent.sources[2], target_n: lent.sources[3] };
    lent.sources.truncate(2);
    Ok(Laid { into, ty, to, lent, target })
}

/// One damaged column by its seed, or one that is left as it is.
pub fn damaged_conversion(seed: u64, answers: &mut Answers) -> Result<(), String> {
    let mut random = Random::new(seed);
    let r = &mut random;
    let Laid { into, ty, to, lent, target: t } = laid(r)?;
    let describe = |what: String| format!("seed {seed}, {into:?}, type {ty}: {what}");

    let (mut plan, mut counters) = ([0; PLAN], [0; COUNTERS]);
    let asked = calls::plan_convert(into, &lent.tables(), t, &mut plan, &mut counters);
    same("whether a good column is asked in vain", [0, 6, 7, 8].contains(&asked), true).map_err(describe)?;
    let (mut parts, mut end) = (vec![], 0);
    for p in 0..calls::part_count(&plan) as u32 {
        let size = calls::needed_bytes(&plan, &counters, p) + r.pick(&[0, 0, 40]);
        parts.extend([end, size]);
        end += size;
    }
    let named = calls::buffer_total(&plan, &lent.places, &lent.sources);
    let mut memory = Memory::new(&lent, &parts, &r.bytes(end as usize), t.target_n as usize, named);
    let hurt = r.chance(85);
    if hurt {
        memory.hurt(r, 80);
    }
    let before = memory.picture();
    let planned = memory.check(Call::PlanConvert(into, t), answers).map_err(describe)?;
    memory.restore(&before);
    let answer = memory.check(Call::Convert(into, t), answers).map_err(describe)?;
    if !hurt {
        same("the answers to a good column", (planned, answer), (asked, asked)).map_err(describe)?;
    }
    if answer == 0 {
        // of a list-view the root alone is finished, and the nodes below it are named
        let last = if into == Into::ListView { Call::NameChild(t.first, t.n) } else { Call::Finish(lent.body.len() as u64) };
        let finished = memory.check(last, answers).map_err(describe)?;
        same("finishing", finished == 0 || hurt, true).map_err(describe)?;
        // the sources are no part of these calls
        let lent = Lent { sources: vec![t.first, t.n], ..memory.lent() };
        reads_as_before(&lent, &to).map_err(|e| describe(format!("accepted: {e}")))?;
    }
    Ok(())
}

/// What was accepted is a column, and its result reads the same.
fn reads_as_before(lent: &Lent, to: &Type) -> Result<(), String> {
    let column = lent.source(0).ok_or("an accepted column can't be described")?;
    // a format or a flag may be hurt on both sides
    let Ok(new) = column.convert(&Type { nullable: column.nullable, ..to.clone() }) else { return Ok(()) };
    let end = column.length.min(20);
    same("the length", new.length, column.length)?;
    (0..end).try_for_each(|i| same("a row", new.row(i), column.row(i)))
}
