"""Files of other Arrow implementations: those of the Apache Arrow project's testing data, whose directory ARROW_TEST_DATA names as it does there.
Of the golden files each is joined, all of its rows, and read as pyarrow reads it, or refused by name; damaged ones of its fuzzers must be told
as such. `golden_files.py`"""

import os
import subprocess
import sys
import tempfile
from pathlib import Path

DATA = os.environ.get("ARROW_TEST_DATA", "/usr/share/apache/arrow-testing")
COMMAND = os.environ.get("LAFKUNO_COMMAND", str(Path(__file__).resolve().parents[3] / "bindings/rust/target/release/lafkuno"))
NAMED = ("compressed", "big-endian", "metadata of version", "before Arrow 0.15", "types that are not taken", "differing dictionaries", "delta")

try:
    import pyarrow as pa
except ImportError:
    print("pyarrow is missing: no golden file was compared with it")
    sys.exit(0)
if not Path(DATA).is_dir() or not Path(COMMAND).exists():
    print("the Arrow project's testing data (ARROW_TEST_DATA) or the command is missing: no golden file was joined")
    sys.exit(0)


def command(*arguments):
    done = subprocess.run([COMMAND, *map(str, arguments)], capture_output=True, text=True, errors="replace", timeout=60)
    assert done.returncode in (0, 1, 2) and "panicked" not in done.stderr, (arguments, done.returncode, done.stderr)
    return done


def table_of(path):
    try:
        return pa.ipc.open_file(str(path)).read_all()
    except pa.ArrowInvalid:
        return pa.ipc.open_stream(str(path)).read_all()


def same(one, other):
    """By pyarrow's comparison; dictionaries may hold their entries in another order, so then by the rows."""
    return one.equals(other) or one.to_pylist() == other.to_pylist()


def golden(path, folder):
    """Whether the file was joined."""
    table = table_of(path)
    (folder / "orders").write_text(f"copy 0 0..{table.num_rows}\n")
    done = command("join", path, "--orders", folder / "orders", "--out", folder / "joined.arrow")
    if done.returncode:
        assert any(name in done.stderr for name in NAMED), (path, done.stderr)
        return False
    joined = table_of(folder / "joined.arrow")
    joined.validate()
    assert joined.schema.equals(table.schema, check_metadata=True) and same(joined, table), path
    return True


def main():
    joined = refused = damaged = 0
    with tempfile.TemporaryDirectory() as folder:
        for path in sorted(p for p in Path(DATA).rglob("*") if p.is_file()):
            if path.suffix in (".arrow_file", ".stream"):
                told = golden(path, Path(folder))
                joined, refused = joined + told, refused + (not told)
            elif "arrow-ipc" in str(path.parent) and path.suffix not in (".gz", ".md"):
                command("show", path)
                damaged += 1
    print(f"{joined} golden files read as pyarrow {pa.__version__} reads them, {refused} refused by name; {damaged} damaged ones told")


main()
