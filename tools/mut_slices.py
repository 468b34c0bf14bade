#!/usr/bin/env python3
"""A slice that is lent to be changed is another type than one that is only read: `was x` and `left x` of it become x.old and x.new in clauses,
and `began x` and `left x` over MutSlice in specs/. Run once, at the top, after respell.py."""
import glob
import re

# the definitions of specs/ over slices, with the parameters that are lent to be changed
CHANGED = {
    "Makes": "plan counters room", "MakesDraft": "plan counters room", "OnlyCounts": "counters", "Stays": "room", "Writes": "room",
    "Begins": "counters room", "Named": "lengths nulls places", "Steps": "counters room", "Walks": "counters room", "Settled": "counters",
    "Settles": "counters room", "Copies": "counters room", "CopiesAny": "counters room", "CopiesAt": "counters room",
    "Finishes": "lengths nulls places buffers", "SettlesFields": "ranges", "SettlesChildren": "ranges", "Stand": "room", "Renumbers": "room",
}
FN = re.compile(r"fn (\w+)(?:<[^>]*>)?\(([^)]*)\)([^{]*?)((?:\s*(?:requires|ensures)\s*\w*\s*\{(?:[^{}]|\{[^{}]*\})*\})+)")


def clauses(m):
    changed = [p.split(":")[0].strip() for p in m[2].split(",") if re.search(r":\s*&(?:'\w+ )?mut\b", p)]
    text = m[4]
    for x in changed:
        for word, new in (("was", "old"), ("left", "new")):
            text = re.sub(rf"\({word} {x}\)", f"{x}.{new}", text)
            text = re.sub(rf"(?<![\w.]){word} {x}(?![\w.])", f"{x}.{new}", text)
    return m[0][: -len(m[4])] + text


def definition(text, name, changed):
    m = re.search(rf"(?m)^( *)abbrev pub {name} : .*\n(?:\1{name} .*\n(?:\1 +.*\n)*)+", text)
    if not m or "Slice" not in m[0]:
        return text
    head, _, body = m[0].partition("\n")
    def typed(g):
        names = g[1].split()
        shared = [x for x in names if x not in changed]
        groups = []
        for x in names:
            kind = "MutSlice" if x in changed else "Slice"
            if groups and groups[-1][1] == kind:
                groups[-1][0].append(x)
            else:
                groups.append(([x], kind))
        return " ".join(f"({' '.join(xs)} : {kind})" for xs, kind in groups)
    head = re.sub(r"\(([\w ]+) : Slice\)", typed, head)
    for x in changed:
        body = re.sub(rf"(?<![\w.])was {x}(?![\w.])", f"began {x}", body)
    return text[: m.start()] + head + "\n" + body + text[m.end():]


for path in sorted(glob.glob("crates/*/src/**/*.rt", recursive=True)):
    old = open(path, encoding="utf-8").read()
    new = FN.sub(clauses, old) if "Slices.{" in old else old
    if new != old:
        open(path, "w", encoding="utf-8").write(new)
for path in sorted(glob.glob("crates/*/specs/**/*.antt", recursive=True)):
    old = new = open(path, encoding="utf-8").read()
    if "Slices.{" not in old:
        continue
    for name, changed in CHANGED.items():
        new = definition(new, name, changed.split())
    m = re.search(r"use Rattle\.clauses\.specs\.Slices\.\{([^}]*)\}", new)
    have = [it.strip() for it in m[1].split(",")]
    rest = new[: m.start()] + new[m.end():]
    want = [it for it in ("was", "began", "left", "Slice", "MutSlice") if re.search(rf"(?<![\w.]){it}(?![\w])", re.sub(r"--[^\n]*", "", rest))]
    new = new[: m.start()] + "use Rattle.clauses.specs.Slices.{" + ", ".join(want) + "}" + new[m.end():]
    if new != old:
        open(path, "w", encoding="utf-8").write(new)
