"""The functions of docs/SCALING.md on pyarrow's batches, where it can be had: a partition's batches as Spark's mapInArrow hands them over, a table as
Ray Data does, and a Flight service on this machine. The engines themselves are not needed."""

import sys

try:
    import pyarrow as pa
except ImportError:
    print("pyarrow is missing: the functions for engines were not run")
    sys.exit(0)

import lafkuno


def van(first, rows):
    return pa.record_batch({"minute": pa.array(range(first, first + rows), pa.int32()), "fuel": pa.array([300 + first] * rows, pa.int64())})


def orders_for(batches):
    """The trip: all but the first row of each batch, and a gap between two."""
    orders = []
    for k, batch in enumerate(batches):
        orders += [lafkuno.gap(1)] * (k > 0) + [lafkuno.rows(k, 1, batch.num_rows)]
    return orders


def trip(batches):
    return pa.record_batch(lafkuno.join(batches, orders_for(batches), keep_nulls=True))


def wanted(batches):
    rows = []
    for k, batch in enumerate(batches):
        rows += [{"minute": None, "fuel": None}] * (k > 0) + batch.slice(1).to_pylist()
    return rows


def by_partition(batches):
    """As for mapInArrow: an iterator of batches in, one out."""
    batches = list(batches)
    yield trip(batches)


def by_table(table):
    """As for map_groups with Arrow tables."""
    return pa.Table.from_batches([trip(table.to_batches())])


def by_flight(vans):
    """A service whose tickets name vans; a refusal is an error of its call alone, and has its place in words."""
    try:
        import pyarrow.flight as flight
    except ImportError:
        return "pyarrow.flight is missing: no Flight service was tried"

    class Depot(flight.FlightServerBase):
        def do_get(self, context, ticket):
            name = ticket.ticket.decode()
            try:
                joined = trip(vans[name])
            except lafkuno.Error as error:
                raise flight.FlightServerError(str(error))
            return flight.RecordBatchStream(pa.Table.from_batches([joined]))

    with Depot("grpc://127.0.0.1:0") as depot, flight.connect(("127.0.0.1", depot.port)) as client:
        for name in ("7", "8"):
            assert client.do_get(flight.Ticket(name)).read_all().to_pylist() == wanted(vans[name])
        try:
            client.do_get(flight.Ticket("mixed")).read_all()
        except flight.FlightServerError as error:
            assert "column 1 'fuel', source 1, node 0 'fuel' (u): the format is 'u', and 'l' in source 0 (ground 11)" in str(error), error
        else:
            raise AssertionError("sources of two types were joined")
        assert client.do_get(flight.Ticket("7")).read_all().num_rows == len(wanted(vans["7"]))
    return "a Flight service answered"


vans = {"7": [van(0, 5), van(60, 4).slice(1)], "8": [van(10, 3)] * 16}
vans["mixed"] = [van(0, 2), pa.record_batch({"minute": pa.array([1, 2], pa.int32()), "fuel": pa.array(["a", "b"])})]
for batches in (vans["7"], vans["8"]):
    (made,) = by_partition(iter(batches))
    assert made.to_pylist() == wanted(batches)
    table = pa.Table.from_batches(batches)
    assert by_table(table).to_pylist() == wanted(batches)
print(f"partitions and tables of pyarrow {pa.__version__} are joined; {by_flight(vans)}")
