"""Random types, and random arrays of them: sliced at every level, with nulls, with garbage where no row looks."""

import struct

from columns import WIDTHS, Column, Type, metadata_bytes, storage

FIXED = list(WIDTHS) + ["e", "tdD", "tdm", "ttu", "tsn:UTC", "tDs"]


def random_type(r, depth=1, nodes=None, dictionary=False):
    nodes = nodes if nodes is not None else [0]
    nodes[0] += 1
    leaf = dictionary or depth >= 5 or nodes[0] > 12
    kind = r.choice(["fixed", "fixed", "string"] if leaf else ["fixed", "string", "view", "list", "list-view", "sparse", "dense", "runs", "keys"])
    name = r.choice(["", "fuel", "stop", "\u00e4"])
    metadata = metadata_bytes([("k", "v" * r.randrange(5))]) if r.random() < 0.2 else None
    make = lambda format, **more: Type(format, r.random() < 0.6, name=name, metadata=metadata, **more)
    child = lambda: random_type(r, depth + 1, nodes)
    if kind == "fixed":
        return make(r.choice(FIXED))
    if kind == "string":
        return make(r.choice("zuZU"))
    if kind == "view":
        return make(r.choice(["vz", "vu"]))
    if kind == "list":
        return make(r.choice(["+l", "+L"]), children=[child()])
    if kind == "list-view":
        return make(r.choice(["+vl", "+vL"]), children=[child()])
    if kind == "runs":
        nodes[0] += 1
        return make("+r", children=[Type(r.choice("sil"), name="run_ends"), child()])
    if kind == "keys":
        return make(r.choice("cCsSiIlL"), dictionary=random_type(r, depth + 1, nodes, True), ordered=r.random() < 0.5)
    children = [child() for _ in range(r.randrange(1, 4))]
    ids = r.sample(range(128), len(children))
    return make(("+us:" if kind == "sparse" else "+ud:") + ",".join(map(str, ids)), children=children)


def pack(bits):
    out = bytearray((len(bits) + 7) // 8)
    for k, bit in enumerate(bits):
        out[k // 8] |= bit << k % 8
    return bytes(out)


def text(r, most=12):
    return bytes(r.choice(b"abc") for _ in range(r.randrange(most + 1)))


def fill(r, type, length):
    """A column of `length` rows behind a random offset."""
    offset = r.choice([0, 0, r.randrange(30)])
    slots = offset + length
    format = storage(type.format)
    bits, null_count = None, 0
    if type.nullable and not format.startswith("+u") and format != "+r" and r.random() < 0.8:
        bits = [r.random() < 0.7 for _ in range(slots)]
        null_count = r.choice([-1, length - sum(bits[offset:])])
    made = FILLERS[kind_of(type)](r, type, length, offset, bits)
    buffers, below = made[0], made[1:]
    if not format.startswith("+u") and format != "+r":
        buffers = [None if bits is None else pack(bits)] + buffers
    children, dictionary = below[0] if below else [], below[1] if len(below) > 1 else None
    return Column(type, length, offset, buffers, children, dictionary, null_count)


def kind_of(type):
    format = storage(type.format)
    if type.dictionary:
        return "keys"
    if format in WIDTHS:
        return "fixed"
    return {"z": "string", "u": "string", "Z": "string", "U": "string", "vz": "view", "vu": "view", "+r": "runs"}.get(format, format[:3])


def fill_fixed(r, type, length, offset, bits):
    return ([r.randbytes((offset + length) * WIDTHS[storage(type.format)])],)


def fill_string(r, type, length, offset, bits):
    if not length and r.random() < 0.5:
        return ([b"", b""],)
    at, data = r.randrange(20), b""
    offsets = [at]
    for _ in range(offset + length):
        data += text(r)
        offsets.append(at + len(data))
    if r.random() < 0.5:
        offsets[:offset] = [r.randrange(-5, 2**31) for _ in range(offset)]
    return ([struct.pack("<%d%s" % (len(offsets), "i" if type.format in "zu" else "q"), *offsets), r.randbytes(at) + data],)


def fill_view(r, type, length, offset, bits):
    data = [bytearray() for _ in range(r.randrange(4))]
    views = b""
    for slot in range(offset + length):
        some = text(r, 30 if data else 12)
        if slot < offset or (bits and not bits[slot] and r.random() < 0.5):
            views += r.randbytes(16)
        elif len(some) <= 12:
            views += struct.pack("<I12s", len(some), some)
        else:
            buffer = r.randrange(len(data))
            data[buffer] += text(r, 3)
            views += struct.pack("<I4sII", len(some), some[:4], buffer, len(data[buffer]))
            data[buffer] += some
    sizes = struct.pack("<%dq" % len(data), *map(len, data))
    return ([views] + [bytes(d) for d in data] + [sizes if data or r.random() < 0.5 else None],)


def fill_list(r, type, length, offset, bits):
    if not length and r.random() < 0.5:
        return [b""], [fill(r, type.children[0], r.randrange(5))]
    at = r.randrange(20)
    offsets = [at]
    for _ in range(offset + length):
        at += r.randrange(4)
        offsets.append(at)
    if r.random() < 0.5:
        offsets[:offset] = [r.randrange(-5, 2**31) for _ in range(offset)]
    child = fill(r, type.children[0], at + r.randrange(3))
    return [struct.pack("<%d%s" % (len(offsets), "i" if type.format == "+l" else "q"), *offsets)], [child]


def fill_list_view(r, type, length, offset, bits):
    sequential = r.random() < 0.5
    child_rows = r.randrange(1 + 2 * length + 5)
    child = fill(r, type.children[0], child_rows)
    offsets, sizes, at = [], [], 0
    for slot in range(offset + length):
        if slot < offset:
            pair = (r.randrange(-5, 2**31), r.randrange(-5, 2**31))
        elif sequential:
            pair = (at, min(r.randrange(4), child_rows - at))
            at += pair[1]
        else:
            size = r.randrange(min(4, child_rows + 1))
            pair = (r.randrange(child_rows - size + 1), size)
        offsets.append(pair[0])
        sizes.append(pair[1])
    code = "<%d%s" % (len(offsets), "i" if type.format == "+vl" else "q")
    return [struct.pack(code, *offsets), struct.pack(code, *sizes)], [child]


def fill_sparse(r, type, length, offset, bits):
    ids = [r.choice(type.ids) for _ in range(offset + length)]
    return [struct.pack("%db" % len(ids), *ids)], [fill(r, c, offset + length + r.randrange(3)) for c in type.children]


def fill_dense(r, type, length, offset, bits):
    children = [fill(r, c, r.randrange(length + 2)) for c in type.children]
    usable = [k for k, c in enumerate(children) if c.length] or [0]
    if not children[usable[0]].length:
        children[0] = fill(r, type.children[0], 1)
    rising = r.random() < 0.5
    ids, positions, seen = [], [], [0] * len(children)
    for slot in range(offset + length):
        k = r.choice(usable)
        at = min(seen[k], children[k].length - 1) if rising else r.randrange(children[k].length)
        seen[k] += 1
        ids.append(type.ids[k] if slot >= offset else r.randrange(-128, 128))
        positions.append(at if slot >= offset else r.randrange(-5, 2**31))
    return [struct.pack("%db" % len(ids), *ids), struct.pack("<%di" % len(ids), *positions)], children


def fill_runs(r, type, length, offset, bits):
    ends, at = [], 0
    while at < offset + length:
        at += r.randrange(1, 8)
        ends.append(at)
    for _ in range(r.randrange(3)):
        at += r.randrange(1, 4)
        ends.append(at)
    before = r.randrange(4)
    code = "<%d%s" % (len(ends) + before, {"s": "h", "i": "i", "l": "q"}[type.children[0].format])
    table = Column(type.children[0], len(ends), before, [None, struct.pack(code, *([9] * before + ends))], null_count=0)
    return [], [table, fill(r, type.children[1], len(ends))]


def fill_keys(r, type, length, offset, bits):
    entries = r.randrange(1, 40)
    keys = []
    code = type.format.translate(str.maketrans("cCsSiIlL", "bBhHiIqQ"))
    for slot in range(offset + length):
        free = slot < offset or (bits and not bits[slot])
        keys.append(r.randrange(127) if free else r.randrange(entries))
    return [struct.pack("<%d%s" % (len(keys), code), *keys)], [], fill(r, type.dictionary, entries)


FILLERS = {
    "fixed": fill_fixed,
    "string": fill_string,
    "view": fill_view,
    "+l": fill_list,
    "+L": fill_list,
    "+vl": fill_list_view,
    "+vL": fill_list_view,
    "+us": fill_sparse,
    "+ud": fill_dense,
    "runs": fill_runs,
    "keys": fill_keys,
}
