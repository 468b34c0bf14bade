#!/usr/bin/env python3
"""Spells the names that specs/ and proofs/ declare in snake case, and facts in camel case: copyWalk -> copy_walk, put-halves -> put_halves.

usage: respell.py [--check] [--table FILE]      at the top of the repository, once, after port.py

A name of the source, of a library and of what Rattle makes keeps its spelling. Names that would fall together get the spelling that CLASHES
gives them. Texts of specs/ and proofs/, the clauses and ghost items of src/, the lines of must-fail edits and the code spans of pages turn.
--check writes nothing and prints what would fall together; --table writes each old name with its new one.
"""
import collections
import glob
import os
import re
import sys

WORD = r"[^\s(){}.;,@\"«»]+"
HEAD = re.compile(
    r"(?m)^( *)((?:(?:pub|abbrev|unfoldable|record|data|open|ruleset)\s+)*)(" + WORD + r")((?: \{[^{}\n]*\}| \([^()\n]*\))*) :(?= |$)([^=]*?)(?=\n\S|\n *\n|\Z|\n *(?:(?:pub|abbrev|unfoldable) )*" + WORD + r"[^\n]*(?: :| =))"
)
BINDING = re.compile(r"(?<![^\s({])(" + WORD + r")(?= :(?: |$))")
USE = re.compile(r"\buse ([^\s;{]+)\.\{([^}]*)\}")
# a path of modules keeps its names
TOKEN = re.compile(r"--[^\n]*|\"(?:[^\"\\]|\\.)*\"|\buse [^\s;{]+|\bRattle\.(?:[^\s(){}.;,]+\.)+|" + WORD)
GHOST = re.compile(r"ghost\s+use\b[^;]*;")
CLAUSE = re.compile(r"\b(?:requires|ensures)\*?\s*(?:\w+\s*)?\{|\bghost\s*(?:\w+\s*(?::\s*|=\s*))?\{")
RUST_COMMENT = re.compile(r"//[^\n]*")
SPAN = re.compile(r"`[^`\n]+`")
CAMEL = re.compile(r"[a-z0-9][A-Z]")
# an old name and the spelling that keeps it apart from another
CLASHES = {"batchWalk": "batch_walk_of", "leafRow": "leaf_row_of", "openWalk": "open_walk_of", "reclaimWalk": "reclaim_walk_of", "rowPlan": "row_plan_of", "nullCount": "null_count_of", "same-list": "same_list_lem", "is-nan": "is_nan_lem"}

# names that are declared within a module, over several lines or in a file of lemmas called Answers, which the search below does not see
MORE = """
    all-counted all-good all-within-as answered-is columns-ground dense-data dense-over drop-none end-held examples-are fine-zeros
    gap-one its-cell k1-one k1-runs k1-search kept-start lists-are lists-body marks-used mean-answer mean-ground mean-none mean-
    outside mean-range mean-type more-in no-numbers no-numbers-a no-numbers-b no-row-a no-row-b none-range none-small none-some not-
    all-obey not-all-same not-all-typed not-all-within not-few not-obeying not-small not-stop not-two numbers-a numbers-b one-fits
    one-flat one-good over-held positions-same root-counters root-shows run-clash run-flat same-range sources-rules step-to string-
    clash told-by valid-next view-is wide-one within-as wrote-two
""".split()
# words that are tactics, and may be no name in a clause or in specs/
TACTICS = {"ground": "refusal"}


def read(path):
    with open(path, encoding="utf-8") as it:
        return it.read()


def snake(name):
    name = re.sub(r"(?<=[a-z0-9'])([A-Z])", lambda m: "_" + m[0].lower(), name)
    return re.sub(r"(?<=[^-])-(?=[^-])", "_", name)


def camel(name):
    parts = re.split(r"[-_]", name)
    return "".join(p[:1].upper() + p[1:] for p in parts)


def own_texts():
    return sorted(glob.glob("crates/*/specs/**/*.antt", recursive=True) + glob.glob("crates/*/proofs/**/*.antt", recursive=True))


def is_proof(path):
    return os.path.basename(path) in ("Proof.antt", "Answers.antt", "Invariants.antt")


def declared():
    names, facts, functions = set(MORE), set(), set(MORE)
    for path in own_texts():
        text = re.sub(r"--[^\n]*", "", read(path))
        if is_proof(path):
            for m in re.finditer(r"(?m)^((?:(?:pub|abbrev|unfoldable)\s+)*)(" + WORD + r") : (.*)", text):
                if not m[3].startswith(("tie.", "read-at-lts", "{M : Type 1}")) and not re.search(r"lts|Lts", m[3]):
                    names.add(m[2])
            continue
        for m in HEAD.finditer(text):
            names.add(m[3])
            if re.search(r"(→|^|\s) *Type \d\s*$", m[5].rstrip()) or "record" in m[2] or "data" in m[2]:
                facts.add(m[3])
            else:
                functions.add(m[3])
    return names, facts, functions


def table():
    names, facts, functions = declared()
    out = {}
    for it in names:
        bare = it.replace("◌", "")
        if bare != it or not re.match(r"[A-Za-z]", it):
            continue
        if it in facts and it not in functions and "-" not in it:
            new = camel(it)
        elif it[0].islower():
            new = snake(it)
        else:
            new = it
        new = CLASHES.get(it, new)
        if new != it:
            out[it] = new
    # a lemma that would have the name of its definition
    rust = set()
    for path in glob.glob("crates/*/src/**/*.rt", recursive=True):
        rust.update(re.findall(r"\b(\w+)\s*:(?!:)|\blet (?:mut )?(\w+)", GHOST.sub(" ", RUST_COMMENT.sub(" ", read(path)))))
    camels = {out[it]: it for it in out if CAMEL.search(it) and "-" not in it}
    for it in sorted(names):
        if it in camels and it not in out:
            if any(it in two for two in rust):
                out[camels[it]] += "_of"
            else:
                out[it] = it + "_lem"
    taken = {out[it] for it in out if "-" not in it} | {it for it in names if it not in out}
    for it in out:
        if "-" in it and out[it] in taken and it not in CLASHES:
            out[it] += "_lem"
    out.update(TACTICS)
    return out


class Turner:
    def __init__(self, names):
        self.names = names
        self.clashes = collections.defaultdict(list)

    def lent(self, text):
        """The names that the text brings in from a library."""
        out = set()
        for path, items in USE.findall(text):
            steps = path.split(".")
            if steps[0] == "Rattle" and os.path.isdir("crates/" + steps[1]):
                continue
            for item in items.split(","):
                out.update(item.split(" as ")[-1:] and [item.split(" as ")[0].strip(), item.split(" as ")[-1].strip()])
        return out

    def code(self, text, where, whole=None):
        lent = self.lent(whole or text)
        seen, turned = set(), {}

        def one(m):
            it = m[0]
            if it.startswith(('"', "use ", "Rattle.")):
                return it
            if it.startswith("--") and (len(it) == 2 or it[2] in " -"):
                return self.prose(it)
            new = self.names.get(it)
            if new is None or it in lent:
                seen.add(it)
                return it
            turned[it] = new
            return new

        out = TOKEN.sub(one, text)
        paths = set()
        for path in re.findall(r"\buse ([^\s;{]+)", text):
            paths.update(path.strip(".").split("."))
        news = collections.Counter(turned.values())
        for old, new in turned.items():
            if new in seen and new not in paths or news[new] > 1:
                self.clashes[(old, new)].append(where)
        return out

    def prose(self, text):
        if not text.strip():
            return text
        text = SPAN.sub(lambda m: TOKEN.sub(lambda w: self.names.get(w[0], w[0]), m[0]) if "\n" not in m[0] else m[0], text)
        # outside code spans only what reads as no plain word
        return re.sub(r"(?<![\w./`-])([a-z]\w*[a-z0-9][A-Z]\w*)(?![\w./-])", lambda m: self.names.get(m[1], m[1]), text)

    def rt(self, text, where):
        parts, at = [], 0
        spans = []
        for m in GHOST.finditer(text):
            spans.append((m.start(), m.end()))
        for m in CLAUSE.finditer(text):
            depth, i = 1, m.end()
            while depth and i < len(text):
                depth += {"{": 1, "}": -1}.get(text[i], 0)
                i += 1
            spans.append((m.start(), i))
        ghost = " ".join(text[a:b] for a, b in spans)
        inside = lambda i: any(a <= i < b for a, b in spans)
        for m in RUST_COMMENT.finditer(text):
            if not inside(m.start()):
                spans.append((m.start(), m.end()))
        spans.sort()
        keep, end = [], 0
        for a, b in spans:
            if a >= end:
                keep.append((a, b))
                end = b
        whole = text
        lent = self.lent(ghost)
        params = set(re.findall(r"(?<![\w.])([a-z_]\w*)\s*:", re.sub(r"\{[^{}]*\}", "", whole)))
        turned = {}
        for a, b in keep:
            parts.append(text[at:a])
            piece = text[a:b]
            if piece.startswith("//"):
                parts.append(self.prose(piece))
            else:
                for w in re.findall(WORD, piece):
                    if w in self.names and w not in lent:
                        turned[w] = self.names[w]
                parts.append(TOKEN.sub(lambda m: m[0] if m[0] in lent else self.names.get(m[0], m[0]), piece))
            at = b
        parts.append(text[at:])
        parts = [self.tactics(it) for it in parts]
        words = set(re.findall(WORD, ghost))
        for old, new in turned.items():
            if new in words or new in params:
                self.clashes[(old, new)].append(where)
        return "".join(parts)

    def tactics(self, text):
        """A field or a parameter of the source that a clause would call by a tactic's word."""
        return re.sub(r"//[^\n]*|\b(" + "|".join(TACTICS) + r")\b", lambda m: TACTICS[m[1]] if m[1] else m[0], text)

    def edit(self, text):
        out = []
        for line in text.split("\n"):
            head, sep, rest = line.partition(": ")
            if sep and head in ("old", "new"):
                rest = re.sub(WORD, lambda m: self.names.get(m[0], m[0]) if "-" in m[0] or CAMEL.search(m[0]) or m[0] in TACTICS else m[0], rest)
            out.append(head + sep + rest)
        return "\n".join(out)


def main(argv):
    check = "--check" in argv
    names = table()
    if "--table" in argv:
        with open(argv[argv.index("--table") + 1], "w", encoding="utf-8") as it:
            it.writelines(f"{a}\t{b}\n" for a, b in sorted(names.items()))
    turner = Turner(names)
    todo = []
    for path in own_texts():
        todo.append((path, lambda t, p=path: turner.code(t, p)))
    for path in sorted(glob.glob("crates/*/src/**/*.rt", recursive=True)):
        todo.append((path, lambda t, p=path: turner.rt(t, p)))
    for path in sorted(glob.glob("crates/*/must-fail/*.edit") + glob.glob("tests/edits/*/*.edit")):
        todo.append((path, turner.edit))
    for path in sorted(glob.glob("*.md") + glob.glob("docs/**/*.md", recursive=True)):
        todo.append((path, turner.prose))
    changed = 0
    for path, how in todo:
        old = read(path)
        new = how(old)
        if new != old:
            changed += 1
            if not check:
                with open(path, "w", encoding="utf-8") as it:
                    it.write(new)
    for (old, new), where in sorted(turner.clashes.items()):
        print(f"clash: {old} -> {new}: {len(where)}: {' '.join(where[:3])}")
    print(f"{len(names)} names, {changed} files, {len(turner.clashes)} clashes")


if __name__ == "__main__":
    main(sys.argv[1:])
