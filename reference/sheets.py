#!/usr/bin/env python3
"""sheets.py REFERENCE NAME: writes sheets made from document 01's text and the reference build's answers, not by the writer, to standard output.

NAME is `tetrahedron N` (the sheet of the tetrahedron T with N = 0 or 2 stations), `written` (sheets of both kinds, each after its length), `flips` (two sheets
to flip bits in, likewise), `plates` (sheets over square plates, each after its length, and the number and the place of its refusal, 0 where it is accepted), or `damaged` (sheets that the
checker refuses, likewise; those of 2 are long, and the program makes them itself). Lengths, numbers and places are little-endian in 4 bytes. Seeds are fixed, so a list is the same each time.
"""
import random
import struct
import subprocess
import sys

from lists import CUBE, OCTAHEDRON, TETRAHEDRON, bits, body_text, closed_mesh, flat, hexes, of_bits, plates


def order_list(faces):
    """All edge uses by from, to, use number."""
    uses = [(f[j], f[(j + 1) % 3], 3 * k + j) for k, f in enumerate(faces) for j in range(3)]
    return [u for _, _, u in sorted(uses)]


def mates(faces):
    """For each edge use the use that is its reverse."""
    edge = {(f[j], f[(j + 1) % 3]): 3 * k + j for k, f in enumerate(faces) for j in range(3)}
    return [edge[f[(j + 1) % 3], f[j]] for f in faces for j in range(3)]


class Reference:
    def __init__(self, program):
        self.program = program

    def ask(self, lines):
        return subprocess.run([self.program], input="".join(line + "\n" for line in lines), capture_output=True, text=True, check=True).stdout.splitlines()

    def rows(self, kind, verts, faces, magnetisation, ambient, stations, prism="prism_last"):
        """The rows as 64-bit patterns; a refusal ends the program. A prism's are by the published choice among equal longest sides, or as `prism` says."""
        body = "polyhedron %%s %s" % body_text(flat(verts), flat(faces)) if kind == 1 else "%s %%s %s" % (prism, hexes(flat(verts)))
        ask = [body % hexes(p) for p in stations]
        fields = [line.split() for line in self.ask(ask)]
        assert all(f[0] == "ok" for f in fields), fields
        anomalies = [line.split() for line in self.ask("inner body %s %s" % (" ".join(f[5:14]), hexes(magnetisation)) for f in fields)]
        totals = [line.split() for line in self.ask("inner total_field %s %s" % (hexes(ambient), " ".join(a[1:])) for a in anomalies)]
        rows = [f[1:5] + a[1:] + t[1:] for f, a, t in zip(fields, anomalies, totals)]
        assert all(len(row) == 8 and "nan" not in row for row in rows)
        return [[int(w, 16) for w in row] for row in rows]

    def volume(self, kind, verts, faces):
        if kind == 2:
            (a, b, c), (d, e, f) = verts
            return bits((float(d) - float(a)) * (float(e) - float(b)) * (float(f) - float(c)))
        answer = self.ask(["check_mesh " + body_text(flat(verts), flat(faces))])[0].split()
        assert answer[0] == "ok", answer
        return int(answer[1], 16)


def sheet(kind, verts, faces, magnetisation, ambient, stations, rows, volume, order=None, mate=None):
    """The sheet's bytes, part after part."""
    doubles = lambda vs: b"".join(struct.pack("<d", float(x)) for v in vs for x in v)
    u32s = lambda xs: b"".join(struct.pack("<I", x) for x in xs)
    order = order_list(faces) if order is None else order
    mate = mates(faces) if mate is None else mate
    out = doubles(verts) + u32s(i for f in faces for i in f) + u32s(order) + u32s(mate) + doubles(stations)
    out += b"".join(struct.pack("<Q", w) for row in rows for w in row)
    return out + u32s([kind, len(verts), len(faces), len(stations)]) + doubles([magnetisation, ambient]) + struct.pack("<QQ", volume, len(out))


def whole(ref, kind, verts, faces, magnetisation, ambient, stations):
    rows = ref.rows(kind, verts, faces, magnetisation, ambient, stations)
    return sheet(kind, verts, faces, magnetisation, ambient, stations, rows, ref.volume(kind, verts, faces))


def tetrahedron(ref, n):
    return whole(ref, 1, *TETRAHEDRON, (1, 2, -2), (20000, 0, 45000), [(2, 0.25, 0.25), (9, -3, 4)][:n])


def no_zeros(ref):
    """T at another place and scale, so that none of its numbers is zero, from near stations."""
    verts = [[q + 1.1 * x for q, x in zip((0.3, 0.4, 0.7), v)] for v in TETRAHEDRON[0]]
    return whole(ref, 1, verts, TETRAHEDRON[1], (1.1, 2.3, -2.7), (20000.3, 1234.7, 45000.9), [(1.7, 0.9, 0.8), (-0.6, 1.3, 2.1)])


def written(ref):
    r = random.Random(20000)
    yield tetrahedron(ref, 0)
    yield tetrahedron(ref, 2)
    for k in range(60):
        kind = 1 + k % 2
        if kind == 1:
            verts, faces = r.choice((TETRAHEDRON, OCTAHEDRON, CUBE)) if k < 10 else closed_mesh(r)
            if any(abs(x) > 1e6 for v in verts for x in v):
                continue
        else:
            lo = [r.uniform(-5, 5) for _ in range(3)]
            verts, faces = [lo, [x + r.choice((0.5, 1.0, 1.0, 40.0)) for x in lo]], []
        centre = [sum(v[i] for v in verts) / len(verts) for i in range(3)]
        size = max(abs(v[i] - centre[i]) for v in verts for i in range(3))
        stations = [[c + size * r.choice((0.3, 1.7, 4.0, 30.0)) * r.uniform(-1, 1) for c in centre] for _ in range(r.choice((0, 1, 3, 8)))]
        vector = lambda: [r.choice((0.0, -0.0, 1.0, r.uniform(-5, 5), 5e4)) for _ in range(3)]
        if ref_closed(ref, kind, verts, faces):
            yield whole(ref, kind, verts, faces, vector(), vector(), stations)


def over_plates(ref):
    """(number, place, sheet): sheets of kind 2 over the prisms of lists.py's `plates`, each with two stations, the plate's own the second. By the published choice among equal longest
    sides a sheet is accepted, or refused by 10; by the other, where the row differs, it is refused by 20."""
    m, b = (1, 2, -2), (20000, 0, 45000)
    for case in plates(ref.program):
        p, lo, hi = ([of_bits(w) for w in case[i:i + 3]] for i in (0, 3, 6))
        body, stations = [lo, hi], [[x + 1e5 for x in hi], p]
        made = lambda rows: sheet(2, body, [], m, b, stations, rows, ref.volume(2, body, []))
        first, last = (ref.ask(["%s %s" % (name, hexes(p + lo + hi))])[0].split()[0] == "ok" for name in ("prism", "prism_last"))
        published = ref.rows(2, body, [], m, b, stations) if last else None
        other = ref.rows(2, body, [], m, b, stations, "prism") if first else None
        if last:
            yield 0, 0, made(published)
        if first and other != published:
            yield 20 if last else 10, 1, made(other)


def ref_closed(ref, kind, verts, faces):
    """The mesh is accepted (a closed mesh that was shaken may be inverted)."""
    if kind == 2:
        return True
    return ref.ask(["check_mesh " + body_text(flat(verts), flat(faces))])[0].startswith("ok")


def bipyramid(n):
    """n corners about the z axis and two tips: each tip has n edges."""
    from math import cos, pi, sin
    verts = [(cos(2 * pi * k / n), sin(2 * pi * k / n), 0.0) for k in range(n)] + [(0.0, 0.0, 1.0), (0.0, 0.0, -1.0)]
    faces = [f for k in range(n) for f in ((k, (k + 1) % n, n), ((k + 1) % n, k, n + 1))]
    return verts, faces


def damaged(ref):
    """(number, place, sheet): each refusal of the checker at least once; where a sheet has two causes, the first counts."""
    v, f = TETRAHEDRON
    m, b = (1, 2, -2), (20000, 0, 45000)
    stations = [(2, 0.25, 0.25), (9, -3, 4), (-1, -1, -1)]
    rows, volume = ref.rows(1, v, f, m, b, stations), ref.volume(1, v, f)
    good = whole(ref, 1, v, f, m, b, stations)
    end = len(good) - 80

    def at(place, data, base=good):
        return base[:place] + data + base[place + len(data):]

    u32 = lambda x: struct.pack("<I", x)
    double = lambda x: struct.pack("<d", x)
    prism = whole(ref, 2, [(0, 0, 0), (1, 2, 3)], [], m, b, stations)
    tail = len(prism) - 80
    # 16
    for bad in (b"", good[:79], good[1:], good + b"\0", good[:-1], at(end + 72, b"\1"), at(end + 4, u32(5)), at(end + 8, u32(3)), at(end + 12, u32(2)), at(end + 4, u32(2**32 - 1))):
        yield 16, 0, bad
    # 1, also of counts that are too many
    for kind in (0, 2, 3, 4, 257, 2**32 - 1):
        yield 1, 0, at(end, u32(kind))
    yield 1, 0, at(tail, u32(3), prism)
    # 3: vertices, magnetisation, ambient field, stations
    for place in (0, 88, end + 16, end + 40, end + 56, 24 * 4 + 36 * 4 + 24 * 2 + 16):
        for x in (float("nan"), float("inf"), -float("inf"), 1000000000.0000001, -1000000000.0000001):
            yield 3, 0, at(place, double(x))
    # 4
    yield 4, 0, at(96, u32(4))
    yield 4, 3, at(96 + 4 * 11, u32(2**32 - 1))
    # 17: an entry of no use; two exchanged; one twice; edges that occur twice
    order = 96 + 48
    yield 17, 0, at(order, u32(12))
    yield 17, 0, at(order + 44, u32(2**32 - 1))
    yield 17, 0, at(order, u32(0) + u32(3))
    yield 17, 0, at(order, u32(3) + u32(3))
    twice = [f[0], f[1], f[2], (1, 3, 2)]
    yield 17, 0, sheet(1, v, twice, m, b, [], [], volume, order_list(twice), [0] * 12)
    # two copies of T over one vertex list: every mate is a reverse, but edges are not single
    double_faces = f + f
    reverse_use = {(g[j], g[(j + 1) % 3]): 3 * k + j for k, g in enumerate(double_faces) for j in range(3)}
    yield 17, 0, sheet(1, v, double_faces, m, b, [], [], volume, order_list(double_faces), [reverse_use[g[(j + 1) % 3], g[j]] for g in double_faces for j in range(3)])
    # 18: no use; the use itself; an open edge
    mate = order + 48
    yield 18, 0, at(mate, u32(12))
    yield 18, 0, at(mate + 20, u32(5))
    opened = f[:3]
    yield 18, 0, sheet(1, v, opened, m, b, [], [], volume, order_list(opened), [0] * 9)
    # 7: a flat body of two faces; the second of two bodies
    line = [(0, 0, 0), (1, 1, 1), (2, 2, 2)]
    yield 7, 0, sheet(1, line, [(0, 1, 2), (0, 2, 1)], m, b, [], [], 0)
    both = f + [(4, 5, 6), (4, 6, 5)]
    yield 7, 4, sheet(1, v + [(8, 8, 8), (9, 9, 9), (10, 10, 10)], both, m, b, [], [], volume)
    # 8: corners two and three of each face exchanged; no faces
    turned = [(a, c, d) for a, d, c in f]
    yield 8, 0, sheet(1, v, turned, m, b, [], [], volume)
    yield 8, 0, sheet(1, v, [], m, b, [], [], volume)
    # 9
    for k in range(3):
        hi = [1, 2, 3]
        hi[k] = 0.9999999e-6
        yield 9, 0, sheet(2, [(0, 0, 0), hi], [], m, b, [], [], 0)
    # 19
    yield 19, 0, at(end + 64, bytes([good[end + 64] ^ 1]))
    yield 19, 0, at(tail + 71, bytes([prism[tail + 71] ^ 128]), prism)
    # 10 and 11, at the second station
    fan, fan_faces = bipyramid(65)
    near = [(0.25, 0.25, 0.5), fan[65]]
    yield 11, 1, sheet(1, fan, fan_faces, m, b, near, ref.rows(1, fan, fan_faces, m, b, near[:1]) + [[0] * 8], ref.volume(1, fan, fan_faces))
    plate = [(0, 0, -0.001), (1e5, 1e5, 0)]
    yield 10, 0, sheet(2, plate, [], m, b, [(1e5 / 3, 1e5 / 3, 0.01)], [[0] * 8], ref.volume(2, plate, []))
    # 13: a station at a vertex; the stored row does not matter
    yield 13, 1, sheet(1, v, f, m, b, [stations[0], v[1]], [rows[0], [0] * 8], volume)
    # 20: a bit of a row, the rows of two stations exchanged, the first row at each station, a row of zeros
    first = 24 * 4 + 36 * 4 + 24 * 3
    for i in range(3):
        for j in range(8):
            place = first + 64 * i + 8 * j + (i + j) % 8
            yield 20, i, at(place, bytes([good[place] ^ 1]))
    yield 20, 0, sheet(1, v, f, m, b, stations, [rows[1], rows[0], rows[2]], volume)
    yield 20, 1, sheet(1, v, f, m, b, stations, [rows[0]] * 3, volume)
    yield 20, 2, sheet(1, v, f, m, b, stations, rows[:2] + [[0] * 8], volume)
    yield 20, 0, sheet(1, v, f, m, (20000, 0, 45001), stations, rows, volume)


if __name__ == "__main__":
    reference, name = Reference(sys.argv[1]), sys.argv[2]
    out = sys.stdout.buffer
    if name == "tetrahedron":
        out.write(tetrahedron(reference, int(sys.argv[3])))
    elif name in ("written", "flips"):
        for s in written(reference) if name == "written" else [tetrahedron(reference, 2), no_zeros(reference)]:
            out.write(struct.pack("<I", len(s)) + s)
    else:
        for number, place, s in over_plates(reference) if name == "plates" else damaged(reference):
            out.write(struct.pack("<III", len(s), number, place) + s)
