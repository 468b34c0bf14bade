"""Runs the C and Python snippets of docs/USING.md and bindings/python/README.md: a C program is compiled and run, other C text must stand in
an example as it is, or (~~~c) compile at its end, Python runs."""

import os
import re
import subprocess
import sys
import tempfile
from pathlib import Path

root = Path(__file__).resolve().parents[3]
lines = lambda text: [line.strip() for line in text.splitlines() if line.strip()]
examples = ["\n".join(lines(path.read_text())) for path in sorted((root / "examples").glob("*.c"))]


def run_c(text, folder):
    source, program = folder / "snippet.c", folder / "snippet"
    source.write_text(text)
    strict = ["-std=c11", "-Wall", "-Wextra", "-Werror", "-pedantic", f"-I{root}/include"]
    subprocess.run(["cc", *strict, str(source), str(root / "target/c/liblafkuno.a"), "-o", str(program)], check=True)
    subprocess.run([str(program)], check=True, stdout=subprocess.DEVNULL)


def inside_the_example(text, folder):
    """Lines that go on where examples/van.c is about to finish: compiled there."""
    van = (root / "examples/van.c").read_text()
    place = van.index("    /* the finished array")
    source = folder / "inside.c"
    source.write_text(van[:place] + "{\n" + text + "\n}\n" + van[place:])
    flags = ["-std=c11", "-Wall", "-Wextra", "-Werror", "-pedantic", "-Wno-unused-variable", "-Wno-unused-but-set-variable"]
    subprocess.run(["cc", *flags, f"-I{root}/include", "-fsyntax-only", str(source)], check=True)


def check(language, text, folder):
    if language == "python":
        subprocess.run([sys.executable, "-c", text], check=True, stdout=subprocess.DEVNULL, env=os.environ)
    elif "int main(" in text:
        run_c(text, folder)
    else:
        assert any("\n".join(lines(text)) in example for example in examples), "in no example:\n" + text


count = 0
with tempfile.TemporaryDirectory() as folder:
    for document in ("docs/USING.md", "bindings/python/README.md"):
        for language, text in re.findall(r"^```(c|python)\n(.*?)^```$", (root / document).read_text(), re.S | re.M):
            check(language, text, Path(folder))
            count += 1
        trips = re.findall(r"^~~~c\n(.*?)^~~~$", (root / document).read_text(), re.S | re.M)
        if trips:
            inside_the_example("\n".join(trips), Path(folder))
            count += len(trips)
assert count >= 6, count
print(f"{count} snippets in C and Python compiled and run")
