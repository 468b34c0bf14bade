"""Times joins of pyarrow's arrays through the Python binding against pyarrow's own concatenation, and prints a table. Processor time, best of many rounds.
PYTHONPATH=bindings/python python3 bench/from_pyarrow.py"""

import resource
import time

import pyarrow as pa

import lafkuno

ROWS, CUT, FEW = 5_000_000, 4_900_000, 10


def best(rounds, work):
    times = []
    for _ in range(rounds):
        start = time.process_time()
        work()
        times.append(time.process_time() - start)
    return 1e6 * min(times)


def columns():
    numbers = pa.array(range(ROWS), pa.int64())
    yield "int64", numbers
    yield "int64 with nulls", pa.array([None if k % 7 == 0 else k for k in range(ROWS)], pa.int64())
    yield "strings", numbers.cast(pa.string())
    yield "string views", numbers.cast(pa.string()).cast(pa.string_view())
    yield "lists of two", pa.ListArray.from_arrays(pa.array(range(0, ROWS + 1, 2), pa.int32()), numbers)
    yield "dictionary of 7", pa.array([k % 7 for k in range(ROWS)], pa.int32()).dictionary_encode()


def peak():
    return resource.getrusage(resource.RUSAGE_SELF).ru_maxrss / 1024


print("| from pyarrow | join, us | pyarrow, us |")
print("|---|---|---|")
for name, array in columns():
    if name.startswith("int64"):
        whole = [(0, 0, ROWS), (1, 0, ROWS)]
        ours, theirs = best(9, lambda: lafkuno.join([array, array], whole)), best(9, lambda: pa.concat_arrays([array, array]))
        print(f"| 2 x 5 million {name} | {ours:.0f} | {theirs:.0f} |")
    middle = array.slice(min(CUT, len(array) - FEW), FEW)
    ours, theirs = best(500, lambda: lafkuno.join([middle], [(0, 0, FEW)])), best(500, lambda: pa.concat_arrays([middle, middle.slice(0, 0)]))
    print(f"| 10 rows near the end of 5 million {name} | {ours:.0f} | {theirs:.0f} |")
batch = pa.record_batch({f"column {k}": pa.array(range(4_000_000), pa.int64()) for k in range(9)})
trips = [batch.slice(250_000 * k, 1) for k in range(16)]
orders = [(k, 0, 1) for k in range(16)]
before = peak()
ours = best(100, lambda: lafkuno.join(trips, orders))
grown = peak() - before
assert pa.record_batch(lafkuno.join(trips, orders)).to_pylist() == [row for trip in trips for row in trip.to_pylist()]
print(f"| 16 trips of one row of a batch of {batch.nbytes / 1e6:.0f} MB, nine columns | {ours:.0f} | |")
print(f"\nThe process's peak of memory grew by {grown:.1f} MiB with the trips.")
