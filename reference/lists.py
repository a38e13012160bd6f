#!/usr/bin/env python3
"""lists.py REFERENCE NAME: writes the list NAME of the reference build's answers to standard output.

REFERENCE is the program that build.sh makes. A list is text: on each line the arguments and the answer, each number as its 64 bits in 16 hexadecimal
digits, with one byte after it. A NaN is 7ff8000000000000, and an answer `refused N` is 7ff0000000000000 + N, which no answer has otherwise.
The requests are made from fixed seeds, so a list is the same each time.
"""
import math
import random
import struct
import subprocess
import sys

TOP = 1 << 63
INFINITY = 0x7FF0000000000000


def bits(x):
    return struct.unpack("<Q", struct.pack("<d", x))[0]


def of_bits(b):
    return struct.unpack("<d", struct.pack("<Q", b))[0]


def near(b):
    """A pattern and its neighbours."""
    return [b - 1, b, b + 1]


# zeros, the smallest and largest of each kind, infinities, NaNs of either sign
SPECIAL = [0, 1, 2, 3, (1 << 52) - 1, 1 << 52, (1 << 52) + 1, INFINITY - 1, INFINITY, INFINITY + 1, 0x7FF8000000000000, TOP - 1]
SPECIAL += [TOP | b for b in SPECIAL]


def roots():
    r = random.Random(754)
    asked = list(SPECIAL)
    # powers of two, where the format is finer below: every exponent, subnormals included
    for k in range(52):
        asked += near(1 << k)
    for e in range(1, 2047):
        asked += near(e << 52) if e % 16 < 2 else [e << 52]
    # exact squares and their neighbours
    for n in list(range(1, 61)) + [r.getrandbits(26) | 1 << 25 for _ in range(60)] + [(1 << 26) - 1, 94906265, 94906266]:
        asked += near(bits(float(n) * float(n)))
    # squares of numbers of 27 digits, scaled
    for _ in range(60):
        asked.append(bits(float(r.getrandbits(26) | 1 << 25) ** 2 * 4.0 ** r.randrange(-480, 480)))
    # subnormals of every length, other patterns, numbers below zero
    asked += [r.getrandbits(r.randrange(1, 53)) for _ in range(150)]
    asked += [r.getrandbits(64) for _ in range(200)]
    asked += [bits(r.uniform(0.0, 10.0 ** r.randrange(-3, 10))) for _ in range(150)]
    asked += [TOP | r.randrange(INFINITY) for _ in range(30)]
    return [("sqrt", [b]) for b in asked]


def log_uniform(r, low, high):
    """A number above zero whose logarithm is spread evenly."""
    return bits(2.0 ** r.uniform(low, high))


# what the special cases of ln, atan and atan2 turn on, and magnitudes far from each other
CORNERS = [0, 1, 1 << 52, INFINITY - 1, INFINITY, 0x7FF8000000000000] + [bits(x) for x in (1e-300, 1e-8, 0.5, 0.75, 1.0, 1.5, 2.0, 4.0, 1e8, 1e154, 1e300)]
CORNERS += near(bits(1.0))[::2] + near(bits(0.75))[::2]
SIGNED = CORNERS + [TOP | b for b in CORNERS if b != 0x7FF8000000000000]


def carlson():
    """R_C, ln, atan and atan2: the call's number, two arguments (the second 0 where there is none), the answer."""
    r = random.Random(1995)
    rc = [(x, y) for x in SIGNED for y in SIGNED]
    rc += [(log_uniform(r, -40, 40), log_uniform(r, -40, 40)) for _ in range(400)]
    rc += [(log_uniform(r, -1022, 1023), log_uniform(r, -1022, 1023)) for _ in range(200)]
    rc += [(x, x + r.randrange(-4, 5)) for x in (log_uniform(r, -20, 20) for _ in range(150))]
    rc += [(log_uniform(r, -40, 40), TOP | log_uniform(r, -40, 40)) for _ in range(200)]
    # the limit of rounds
    rc += [(0, b) for b in range(1, 40)] + [(bits(x), bits(y)) for x, y in ((1.0, 1e308), (1e308, 1e-308), (1e300, 1e308), (0.0, 1e-300), (1e-308, 1e308), (1e308, 1e308))]
    ln = list(SPECIAL)
    for k in range(-1073, 1024):
        border = bits(0.75 * 2.0 ** k)
        ln += near(border) if k % 8 == 0 or abs(k) < 60 else [border]
    ln += [r.getrandbits(r.randrange(1, 53)) for _ in range(150)] + [log_uniform(r, -1022, 1023) for _ in range(150)] + [log_uniform(r, -2, 2) for _ in range(150)]
    atan = list(SPECIAL) + SIGNED
    for b in range(200):
        atan += [bits(1.0) + b - 100, TOP | (bits(1.0) + b - 100)]
    atan += [log_uniform(r, -60, 60) | TOP * r.randrange(2) for _ in range(1200)] + [log_uniform(r, -1022, 1023) | TOP * r.randrange(2) for _ in range(400)]
    atan2 = [(s, c) for s in SIGNED for c in SIGNED]
    atan2 += [(log_uniform(r, -20, 20) | TOP * r.randrange(2), log_uniform(r, -20, 20) | TOP * r.randrange(2)) for _ in range(800)]
    return (
        [("rc", a) for a in rc] + [("ln", (a,)) for a in ln] + [("atan", (a,)) for a in atan] + [("atan2", a) for a in atan2])


def special():
    """R_F, R_D, R_J, complete_elliptic, cel and ring: the call's number, four arguments (0 where there are fewer), three numbers of the answer (0 likewise)."""
    r = random.Random(1969)
    f = lambda *xs: tuple(bits(x) for x in xs)
    some = [0, TOP, 1, bits(1e-300), bits(1e-8), bits(0.5), bits(1.0), bits(2.0), bits(1e8), bits(1e300), INFINITY, 0x7FF8000000000000, bits(-1.0)]
    any3 = [(x, y, z) for x in some[:9] for y in some[:9] for z in some[:9]]
    odd3 = [tuple(r.choice(some) for _ in range(3)) for _ in range(200)]
    near3 = [tuple(log_uniform(r, -20, 20) for _ in range(3)) for _ in range(300)]
    far3 = [tuple(log_uniform(r, -1022, 1023) for _ in range(3)) for _ in range(100)]
    three = any3 + odd3 + near3 + far3
    rj = [(*t, p) for t in odd3 + near3[:150] for p in (r.choice(some), log_uniform(r, -20, 20), TOP | log_uniform(r, -20, 20))] + [(*t, log_uniform(r, -1022, 1023)) for t in far3]
    m = some + near(bits(1.0)) + [bits(r.random()) for _ in range(700)] + [bits(1.0 - 2.0 ** -r.uniform(1, 53)) for _ in range(200)] + [log_uniform(r, -1022, 0) for _ in range(150)]
    cel = [tuple(r.choice(some) for _ in range(4)) for _ in range(300)] + [f(r.uniform(-2, 2), r.uniform(-0.2, 3), r.uniform(-2, 2), r.uniform(-2, 2)) for _ in range(600)]
    cel += [(log_uniform(r, -60, 60), log_uniform(r, -60, 60), log_uniform(r, -60, 60), log_uniform(r, -60, 60)) for _ in range(200)]
    ring = [f(r.uniform(0.1, 3), r.uniform(0, 3), r.uniform(-3, 3)) for _ in range(500)] + [f(1.0, 2.0 ** -r.uniform(1, 60), r.uniform(-2, 2)) for _ in range(200)]
    ring += [f(1.0, 1.0 + k * 2.0 ** -r.uniform(1, 52), r.choice((0.0, 1e-3, -0.5))) for _ in range(100) for k in (-1, 1)] + [f(r.choice((1.0, 0.0, -1.0, 1e9, 2e9)), r.choice((0.0, 1.0, -1.0)), r.choice((0.0, -0.0, 1.0, 1e9))) for _ in range(80)]
    ring += [tuple(r.choice(some) for _ in range(3)) for _ in range(150)]
    calls = [("rf", three), ("rd", three), ("rj", rj), ("complete_elliptic", [(b,) for b in m]), ("cel", cel), ("ring", ring)]
    return [(name, a) for name, args in calls for a in args]


def anomalies():
    """body, total_field, sphere, cylinder, ellipsoid_factors, magnetisation and koenigsberger: the call's number, sixteen arguments (0 where there are fewer), three numbers of the
    answer (0 likewise)."""
    r = random.Random(1826)
    limit = bits(1e9)
    within = [0, TOP, 1, TOP | 1] + [bits(x) for x in (1e-300, 1e-162, 1e-8, 0.5, 1.0, -1.0, 2.0, 3.0, -1e8)] + [limit, TOP | limit]
    beyond = [limit + 1, TOP | limit + 1, INFINITY, TOP | INFINITY, 0x7FF8000000000000]

    def plain(n):
        return [bits(r.uniform(-3, 3) * r.choice((1.0, 1.0, 100.0))) for _ in range(n)]

    def spread(n):
        return [log_uniform(r, -30, 29) | TOP * r.randrange(2) for _ in range(n)]

    def whole(n):
        return [bits(float(r.randrange(-3, 4))) | TOP * (r.randrange(8) == 0) for _ in range(n)]

    def odd(n):
        return [r.choice(within) for _ in range(n)]

    def refused(n, lengths=()):
        """Every place with a number beyond the limits; the numbers at `lengths` are above zero otherwise."""
        for k in range(n):
            for b in beyond:
                a = [x & TOP - 1 if i in lengths else x for i, x in enumerate(plain(n))]
                a[k] = b
                yield a

    def common(n, lengths=()):
        asked = list(refused(n, lengths)) + [kind(n) for kind in (plain, spread, whole, odd) for _ in range(110)]
        for a in asked:
            for i in lengths:
                if r.randrange(6):
                    a[i] &= TOP - 1
        return asked

    body = common(12)
    # traceless outside, of trace -4π inside
    for _ in range(200):
        xx, yy, xy, xz, yz = (r.uniform(-1, 1) * 10.0 ** r.uniform(-8, 2) for _ in range(5))
        zz = r.choice((0.0, -12.566370614359172)) - xx - yy
        body.append([bits(x) for x in (xx, xy, xz, xy, yy, yz, xz, yz, zz)] + plain(3))
    # sums of zeros of either sign
    body += [[TOP * r.randrange(2) for _ in range(9)] + [r.choice((0, TOP, bits(1.0), bits(-1.0))) for _ in range(3)] for _ in range(60)]
    total = common(6)
    total += [[bits(x) for x in f] + [bits(r.gauss(0, 1) * 10.0 ** r.uniform(-12, -5)) for _ in range(3)] for f in ((0.0, 0.0, 5e-5), (2e-5, -1e-6, 4.5e-5)) for _ in range(100)]
    total += [[0, 0, 0, bits(3.0), bits(4.0), 0], [TOP, 0, 0, 0, TOP, 0]]
    sphere = common(10, (6,))
    # on the surface and beside it, inside and outside
    for d in ((3.0, 4.0, 0.0), (2.0, 3.0, 6.0), (0.0, 0.0, 5.0), (0.0, 0.0, 0.0)):
        a = sum(x * x for x in d) ** 0.5
        sphere += [[bits(x) for x in d] + [0, 0, 0, b] + plain(3) for b in near(bits(a or 1.0)) for _ in range(3)]
    sphere += [plain(6) + [bits(2.0 ** r.uniform(-3, 6))] + plain(3) for _ in range(200)]
    cylinder = common(13, (9,))
    # axes whose computed length is zero, or just not
    for u in ((0, 0, 0), (TOP, TOP, TOP), (1, 0, 1), (bits(1e-162), 0, 0), (bits(1e-161), 0, 0), (0, bits(-1.5e-162), 0), (bits(1e9), bits(1e9), bits(-1e9))):
        cylinder += [plain(6) + list(u) + [bits(1.5)] + plain(3) for _ in range(8)]
    # on the surface and beside it, inside, and on the axis
    for p in ((3.0, 4.0, 7.0), (0.0, 5.0, -2.0), (0.0, 0.0, 9.0), (1.0, 1.0, 0.0)):
        cylinder += [[bits(x) for x in p] + [0, 0, 0, 0, 0, bits(r.choice((1.0, -2.0)))] + [b] + plain(3) for b in near(bits(5.0)) for _ in range(3)]
    cylinder += [plain(9) + [bits(2.0 ** r.uniform(-3, 6))] + plain(3) for _ in range(200)]
    factors = common(3, (0, 1, 2))
    factors += [[bits(r.uniform(0.1, 10.0)) for _ in range(3)] for _ in range(250)] + [[log_uniform(r, -29, 29) for _ in range(3)] for _ in range(150)]
    factors += [[log_uniform(r, -1074, 29) for _ in range(3)] for _ in range(150)]
    for a in (1.0, 2.0, 100.0, 1e9, 1e-5, 1e-150, 1e-160, 1e-170):
        factors += [[bits(x) for x in t] for t in ((a, 1.0, 1.0), (a, a, 1.0), (a, a, a), (1.0, a, 1.0), (1.0, a, a))]
    magnetisation = common(16)
    unit = [bits(1.0), 0, 0, 0, bits(1.0), 0, 0, 0, bits(1.0)]
    # factors on the diagonal, equal pivots, systems without a solution (a NaN becomes a pivot)
    magnetisation += [[bits(r.uniform(0, 10))] + plain(6) + [bits(r.random()) if i % 4 == 0 else 0 for i in range(9)] for _ in range(100)]
    magnetisation += [[bits(-1.0)] + plain(6) + unit for _ in range(10)]
    magnetisation += [[bits(1.0)] + whole(6) + [bits(float(r.randrange(-2, 2))) for _ in range(9)] for _ in range(300)]
    koenigsberger = common(7)
    koenigsberger += [plain(3) + [bits(r.uniform(0, 0.1))] + plain(3) for _ in range(100)]
    calls = [("body", body), ("total_field", total), ("sphere", sphere), ("cylinder", cylinder), ("ellipsoid_factors", factors), ("magnetisation", magnetisation), ("koenigsberger", koenigsberger)]
    return [(name, tuple(a)) for name, asked in calls for a in asked]


# ---- meshes: a list of vertices, a list of faces, the length of work

TETRAHEDRON = ([(0, 0, 0), (1, 0, 0), (0, 1, 0), (0, 0, 1)], [(0, 2, 1), (0, 1, 3), (0, 3, 2), (1, 2, 3)])
OCTAHEDRON = ([(1, 0, 0), (-1, 0, 0), (0, 1, 0), (0, -1, 0), (0, 0, 1), (0, 0, -1)],
              [(0, 2, 4), (2, 1, 4), (1, 3, 4), (3, 0, 4), (2, 0, 5), (1, 2, 5), (3, 1, 5), (0, 3, 5)])
CUBE = ([(x, y, z) for x in (0, 1) for y in (0, 1) for z in (0, 1)],
        [(0, 1, 3), (0, 3, 2), (4, 6, 7), (4, 7, 5), (0, 4, 5), (0, 5, 1), (2, 3, 7), (2, 7, 6), (0, 2, 6), (0, 6, 4), (1, 5, 7), (1, 7, 3)])


def closed_mesh(r):
    """A closed mesh: a face is split at its middle some times, the vertices are moved, scaled and numbered anew."""
    verts, faces = (list(a) for a in r.choice((TETRAHEDRON, OCTAHEDRON, CUBE)))
    for _ in range(r.randrange(6)):
        a, b, c = faces.pop(r.randrange(len(faces)))
        n = len(verts)
        verts.append(tuple((verts[a][i] + verts[b][i] + verts[c][i]) / 3 for i in range(3)))
        faces += [(a, b, n), (b, c, n), (c, a, n)]
    scale, move = 10.0 ** r.randrange(-6, 8), [r.choice((0.0, 1.0, 0.1, -3e3)) for _ in range(3)]
    shake = r.choice((0.0, 0.0, 1e-3, 0.1))
    verts = [tuple(scale * (v[i] + shake * r.uniform(-1, 1)) + move[i] for i in range(3)) for v in verts]
    # vertices that no face uses
    for _ in range(r.choice((0, 0, 1, 3))):
        verts.append(tuple(r.uniform(-9, 9) for _ in range(3)))
    order = list(range(len(verts)))
    r.shuffle(order)
    place = {old: new for new, old in enumerate(order)}
    faces = [tuple(place[i] for i in f) for f in faces]
    faces = [f[k:] + f[:k] for f in faces for k in [r.randrange(3)]]
    r.shuffle(faces)
    return [verts[i] for i in order], faces


def damaged(r, verts, faces):
    """The same mesh with one fault, or none."""
    verts, faces = [list(v) for v in verts], [list(f) for f in faces]
    k, i = r.randrange(len(faces)), r.randrange(len(verts))
    kind = r.randrange(15)
    if kind == 1:
        del faces[k]
    elif kind == 2:
        faces[k][1:] = faces[k][:0:-1]
    elif kind == 3:
        faces.insert(r.randrange(len(faces)), list(faces[k]))
    elif kind == 4:
        faces = [[a, c, b] for a, b, c in faces]
    elif kind == 5:
        faces[k][r.randrange(3)] = r.randrange(len(verts))
    elif kind == 6:
        faces[k][r.randrange(3)] = r.choice((len(verts), len(verts) + 1, 2**32 - 1))
    elif kind == 7:
        verts[i] = list(verts[r.randrange(len(verts))])
    elif kind == 8:
        verts = [[v[0], v[1], verts[0][2]] for v in verts]
    elif kind == 9:
        verts[i][r.randrange(3)] = r.choice((float("nan"), float("inf"), -float("inf"), 1e9, -1e9, 1000000000.0000001, -1000000000.0000001))
    elif kind == 10:
        faces.append([k % len(verts)] * 2 + [i])
    elif kind == 11:
        n = len(verts)  # a copy beside it that shares an edge: four faces meet there
        a, b = faces[k][:2]
        verts += [[v[0] + 100.0, v[1], v[2]] for v in verts]
        faces += [[j if j in (a, b) else j + n for j in f] for f in faces]
    elif kind == 12:
        faces = faces[:r.randrange(2)]
    elif kind == 13:
        faces += [list(faces[k]), [faces[k][0], faces[k][2], faces[k][1]]]
    return verts, faces


def flat(rows):
    return [x for row in rows for x in row]


def hexes(xs):
    return " ".join("%016x" % bits(float(x)) for x in xs)


def body_text(v, f):
    """A body in a request: the counts, the vertices' numbers, the faces' indices."""
    return "%d %d %s %s" % (len(v) // 3, len(f) // 3, hexes(v), " ".join(map(str, f)))


# work holds this and the entry's number before a call
WORK = 0xABCD0000


def mesh_answers(reference, call, cases):
    """For each case, the call's own numbers, the vertices' numbers, the faces' indices and the length of work: the refusal's number or 0, the words of the answer or
    the values of the refusal, and work afterwards. The reference build takes whole vertices and faces and has no work, so 1 and 12 are judged here."""
    asked, early = [], {}
    for k, (p, v, f, n) in enumerate(cases):
        if len(v) % 3 or len(f) % 3:
            early[k] = 1
        elif n < len(f):
            early[k] = 12
        else:
            asked += [" ".join([call] + [hexes(p)] * bool(p) + [body_text(v, f)]), "order_list " + body_text(v, f)]
    out = iter(subprocess.run([reference], input="\n".join(asked) + "\n", capture_output=True, text=True, check=True).stdout.splitlines())
    for k, (_, _, f, n) in enumerate(cases):
        number, words, work = early.get(k, 0), [], [WORK + i for i in range(n)]
        if k not in early:
            kind, *words = next(out).split()
            order = next(out).split()[1:]
            if kind == "refused":
                number, *words = [int(w) for w in words]
            else:
                assert kind == "ok", words
                words = [0x7FF8000000000000 if w == "nan" else int(w, 16) for w in words]
            if number in (0, 5, 6, 7, 8, 11):
                work[:len(f)] = [int(w) for w in order]
        yield number, words, work


def meshes(reference):
    """Each mesh: the lengths of the three lists; the vertices' numbers; the faces' indices; the answer, its number (0 for a volume) and two values; work afterwards."""
    r = random.Random(1797)
    cases = [(flat(v), flat(f), len(f) * 3) for v, f in (TETRAHEDRON, OCTAHEDRON, CUBE)]
    v, f = TETRAHEDRON
    cases += [(flat(v), flat((a, c, b) for a, b, c in f), 12), (flat(v), flat(f[:3]), 12), (flat(v), flat(f[:3] + [(1, 3, 2)]), 12), (flat(v), [0, 0, 1], 12), (flat(v), [], 0), ([], [], 0), ([], [0, 0, 0], 3)]
    while len(cases) < 420:
        v, f = damaged(r, *closed_mesh(r))
        v, f = flat(v), flat(f)
        n = len(f) + r.choice((0, 0, 0, 1, 5, -1 if f else 0))
        lengths = r.randrange(40)
        if lengths == 0:
            v = v[:-r.randrange(1, 3)]
        elif lengths == 1:
            f = f[:-r.randrange(1, 3)]
        cases.append((v, f, n))
    cases = [([], v, f, n) for v, f, n in cases]
    for (_, v, f, n), (number, words, work) in zip(cases, mesh_answers(reference, "check_mesh", cases)):
        answer = ([number] + words + [0, 0])[:3]
        yield ["%016x" % w for w in [len(v), len(f), n] + [bits(float(x)) for x in v] + list(f) + answer + work]


# ---- prisms: the station, min and max; the answer's thirteen numbers


def orders_met(reference, r):
    """Prisms with each order of the cubature up to 16, with 512 points, and with a few more than 512: chosen from many by the reference's own orders."""
    tried = []
    while len(tried) < 20000:
        side = [2.0 ** r.uniform(0, 5) for _ in range(3)]
        p = [r.uniform(-0.5, 1.5) * a for a in side]
        p[r.randrange(3)] = -(2.0 ** r.uniform(-3, 5))
        tried.append([bits(x) for x in (*p, 0.0, 0.0, 0.0, *side)])
    text = "".join("orders " + " ".join("%016x" % b for b in c) + "\n" for c in tried)
    out = subprocess.run([reference], input=text, capture_output=True, text=True, check=True).stdout.splitlines()
    met, chosen = {}, []
    for c, line in zip(tried, out):
        distance, *n = line.split()[1:]
        n = [int(x) for x in n]
        product = n[0] * n[1] * n[2]
        kinds = [("order", x) for x in n] if max(n) <= 16 and product <= 512 else []
        kinds += [("product", product)] if 505 <= product <= 520 else []
        if int(distance, 16) and any(met.get(k, 0) < 4 for k in kinds):
            chosen.append(c)
            for k in kinds:
                met[k] = met.get(k, 0) + 1
    assert all(met.get(("order", x), 0) for x in range(8, 17)) and met.get(("product", 512)) and any(met.get(("product", x)) for x in range(513, 521))
    return chosen


def prisms(reference):
    r = random.Random(2000)
    cases = []

    def add(p, lo, hi):
        cases.append([bits(float(x)) for x in (*p, *lo, *hi)])

    def moved(p, lo, hi):
        """The same at another place and scale."""
        t, s = [r.choice((0.0, 1.0, -37.5, 1e4)) for _ in range(3)], r.choice((1.0, 1.0, 0.37, 1e3))
        add(*([s * x + y for x, y in zip(v, t)] for v in (p, lo, hi)))

    unit = ((0, 0, 0), (1, 1, 1))
    # inside, on faces, edges and corners, on their extensions, and beside each
    for _ in range(120):
        side = [r.choice((1.0, 1.0, 0.5, 3.0)) for _ in range(3)]
        moved([a * r.choice((-1.0, -0.25, 0.0, 0.25, 0.5, 0.7, 1.0, 1.25, 2.0)) for a in side], (0, 0, 0), side)
    for a in (-1, 0, 0.5, 1, 2):
        for b in (-1, 0, 1, 2):
            for c in (0, 1):
                add((a, b, c), *unit)
    # at every distance: each order of the cubature, a product of orders of 512 and just over
    for _ in range(160):
        side = [r.uniform(0.5, 2.0) for _ in range(3)]
        d = 2.0 ** r.uniform(-3, 12)
        u = [r.gauss(0, 1) for _ in range(3)]
        n = sum(x * x for x in u) ** 0.5
        moved([x / n * d + a / 2 for x, a in zip(u, side)], (0, 0, 0), side)
    for k in range(100):
        add((0.5, 0.5, 1.0 + 0.02 * (k + 1)), *unit)
    # near a long side: bisections at many depths
    for _ in range(120):
        long = 10.0 ** r.uniform(1, 4)
        side = r.choice(([1.0, 1.0, long], [long, 1.0, 1.0], [1.0, long, 1.0], [long, long, 1.0], [1.0, long, long]))
        p = [r.uniform(-0.2, 1.2) * a for a in side]
        k = r.randrange(3)
        p[k] = -(10.0 ** r.uniform(-3, 1))
        moved(p, (0, 0, 0), side)
    # equal longest sides, and thin plates: 33 bisections
    for h in (0.1, 0.01, 1.0):
        for w in (1e3, 1e4, 1e5):
            add((w / 3, w / 3, h), (0, 0, -0.001), (w, w, 0))
    # sides at the limit, coordinates at theirs
    for d in (1e-6, 0.9999999e-6, 1.0000001e-6, 0.0, -1.0):
        for k in range(3):
            hi = [1.0, 1.0, 1.0]
            hi[k] = d
            add((2, 2, 2), (0, 0, 0), hi)
            add((0.5, 0.5, 0.5), (0, 0, 0), hi)
    for x in (1e9, -1e9, 1000000000.0000001, -1000000000.0000001, float("inf"), float("nan")):
        add((x, 0, 0), *unit)
        add((0, 0, x), (-1, -1, -1), (1, 1, 1))
        add((0, 0, 0), (-1e9, -1e9, -1e9), (1e9, 1e9, abs(x)))
        add((1, 2, 3), (x, 0, 0), (1e9, 1, 1))
    return [("prism", c) for c in cases + orders_met(reference, r) + plates(reference)]


def prism_answers(reference, name, cases):
    """The words of the answer to each of the prisms."""
    text = "".join(name + " " + " ".join("%016x" % b for b in c) + "\n" for c in cases)
    return [line.split() for line in subprocess.run([reference], input=text, capture_output=True, text=True, check=True).stdout.splitlines()]


def plate(axis, place, up, lo, hi, thick=0.001, least=0.0):
    """A plate from lo to hi across the axis and `thick` along it, from `least` on, seen from `up` thicknesses above the place; places have the two coordinates across the axis."""
    out = [list(place), list(lo), list(hi)]
    for v, x in zip(out, (least + thick + up * thick, least, least + thick)):
        v.insert(axis, x)
    return [bits(float(x)) for v in out for x in v]


HEIGHTS = (0.02, 0.1, 0.5, 1.0, 3.0, 8.0, 20.0)


def square_plates(r):
    """Plates whose longest sides are equal, as rounded, across each axis and seen from each height."""
    for axis in range(3):
        for up in HEIGHTS:
            # 1 x 1 x 1/1000, scaled and shifted, from over a corner, over a side, and beside the plate: few bisections
            for place in ((0.0, 0.0), (0.5, 0.0), (1.25, 1 / 3)):
                wide = r.choice((1.0, 1.0, 0.37, 1e3))
                at, least = r.choice((0.0, 0.0, 1.0, -37.5, 1e3)) * wide, r.choice((0.0, 0.0, 1.0, -37.5)) * wide
                yield plate(axis, [x * wide + at for x in place], up, (at, at), (wide + at, wide + at), 0.001 * wide, least)
            # 10 x 10 x 1/1000 and wider: many
            wide = 10.0 ** r.choice((1, 2, 3, 3.7))
            yield plate(axis, (r.uniform(0, 1) * wide, r.uniform(0, 1) * wide), up, (0.0, 0.0), (wide, wide))
            # a corner that is a unit of the last place off, and sides that are equal all the same
            yield plate(axis, (-30.0, 0.3), up, (-100.0, -100.0), (1.0, math.nextafter(1.0, 2.0)))


def refused_once(reference, r):
    """Four plates that 10 refuses where the first of equal sides is halved and not where the last is, and four the other way about."""
    tried = []
    for _ in range(400):
        axis, wide = r.randrange(3), 10.0 ** r.uniform(3.7, 4.5)
        tried.append(plate(axis, (r.uniform(0, 1) * wide, r.uniform(0, 1) * wide), 10.0 ** r.uniform(-1.5, 1.0), (0.0, 0.0), (wide, wide)))
    first, last = (prism_answers(reference, name, tried) for name in ("prism", "prism_last"))
    once = lambda one, other: [c for c, a, b in zip(tried, one, other) if a[0] == "refused" and b[0] == "ok"][:4]
    assert len(once(first, last)) == len(once(last, first)) == 4
    return once(first, last) + once(last, first)


def longer_plates(to):
    """Plates of 10 x 10 with one of these sides made longer."""
    return [plate(axis, (3.0, 4.0), up, (0.0, 0.0), hi) for axis in range(3) for up in HEIGHTS for hi in ((to, 10.0), (10.0, to))]


def plates(reference):
    """Plates that are bisected, few times and many: with equal longest sides; with one side a unit of the last place longer, which may have pieces with equal sides, since middles
    are rounded; and with one a 64th longer, which have none."""
    r = random.Random(2024)
    depth = lambda name, cases: [int(a[-1]) if a[0] == "ok" else None for a in prism_answers(reference, "depth " + name, cases)]
    differ = lambda cases: sum(a != b for a, b in zip(prism_answers(reference, "prism", cases), prism_answers(reference, "prism_last", cases)))
    tied = list(square_plates(r))
    tied = [c for c, n in zip(tied, depth("prism", tied)) if n] + refused_once(reference, r)
    unit, longer = longer_plates(math.nextafter(10.0, 11.0)), longer_plates(10.0 + 10.0 / 64)
    depths = [n for n in depth("prism_last", tied) if n is not None]
    told = (len(tied), min(depths), max(depths), differ(tied), len(unit), differ(unit), len(longer), differ(longer))
    print("%d plates with equal longest sides, %d to %d bisections deep: %d answers differ by the rule; one side a unit longer, %d: %d; a 64th longer, %d: %d" % told, file=sys.stderr)
    half_widths = lambda c: sorted(0.5 * (of_bits(c[6 + i]) - of_bits(c[3 + i])) for i in range(3))
    assert all(h[1] == h[2] for h in map(half_widths, tied))
    assert len(tied) >= 100 and differ(tied) >= 50 and min(depths) <= 4 and max(depths) >= 28
    assert all(depth("prism", unit + longer)) and differ(longer) == 0
    return tied + unit + longer


# ---- polyhedra: a station, a list of vertices, a list of faces, the length of work


def fan(n, tilt=0.0):
    """A pyramid over a regular polygon of n sides whose base is a fan about its middle, so that n edges meet there, all in one plane unless tilted; vertex 0 is the middle."""
    verts = [(0.0, 0.0, -tilt)] + [(math.cos(2 * math.pi * i / n), math.sin(2 * math.pi * i / n), 0.0) for i in range(n)] + [(0.1, 0.2, 1.5)]
    ring = [(1 + i, 1 + (i + 1) % n) for i in range(n)]
    return verts, [(0, b, a) for a, b in ring] + [(a, b, n + 1) for a, b in ring]


def shuffled(r, verts, faces, unused=0):
    """The same body with vertices and faces in another order, corners turned, and vertices that no face uses."""
    verts = list(verts) + [tuple(r.uniform(-1e3, 1e3) for _ in range(3)) for _ in range(unused)]
    order = list(range(len(verts)))
    r.shuffle(order)
    place = {old: new for new, old in enumerate(order)}
    faces = [tuple(place[i] for i in f[k:] + f[:k]) for f in faces for k in [r.randrange(3)]]
    r.shuffle(faces)
    return [verts[i] for i in order], faces


def at(verts, face, weights):
    return tuple(sum(w * verts[i][k] for i, w in zip(face, weights)) for k in range(3))


def mean_and_radius(verts, faces):
    """Of the used vertices, up to roundings."""
    used = sorted({i for f in faces for i in f})
    c = [sum(verts[i][k] for i in used) / len(used) for k in range(3)]
    return c, max(math.dist(verts[i], c) for i in used)


def stations(r, verts, faces):
    """Where a station can lie: inside and outside, on faces and in their planes, on edges and their lines, at vertices, and about five radii from the centroid."""
    c, radius = mean_and_radius(verts, faces)
    f = lambda: r.choice(faces)
    u = [r.gauss(0, 1) for _ in range(3)]
    n = math.hypot(*u)
    beyond = lambda d: tuple(a + x / n * d * radius for a, x in zip(c, u))
    return [
        tuple(c),
        tuple(a + r.uniform(-0.4, 0.4) * radius for a in c),
        tuple(a + r.uniform(-2, 2) * radius for a in c),
        at(verts, f(), (0.25, 0.25, 0.5)),
        at(verts, f(), (0.5, 0.5, 0.0)),
        at(verts, f(), (1.5, -0.5, 0.0)),
        at(verts, f(), (1.5, 0.25, -0.75)),
        verts[f()[0]],
        beyond(r.uniform(4.9, 5.1)),
        beyond(5.0 * (1 + r.choice((-1, 1)) * 2.0 ** -r.randrange(40, 53))),
        beyond(2.0 ** r.uniform(2.4, 12)),
    ]


def hand_over(reference):
    """T from (4, ¼, ¼) has the edge and face sums, from (5, ¼, ¼) the tetrahedra; in each case the other differs."""
    body = body_text(*map(flat, TETRAHEDRON))
    asked = []
    for x in (4.0, 5.0):
        p = hexes((x, 0.25, 0.25))
        asked += ["polyhedron %s %s" % (p, body), "edge_face_sums %s %s" % (p, body), "tetrahedra %s %s %s" % (p, body, hexes([0.25] * 3))]
    out = subprocess.run([reference], input="\n".join(asked) + "\n", capture_output=True, text=True, check=True).stdout.splitlines()
    assert out[0] == out[1] != out[2] and out[3] == out[5] != out[4]


def polyhedra(reference):
    """Each line: the lengths of the vertex list, the face list and work; the station; the two lists; thirteen numbers, or a refusal with its two values; work afterwards."""
    r = random.Random(1997)
    hand_over(reference)
    cases = [((x, 0.25, 0.25), *TETRAHEDRON, 0) for x in (4.0, 5.0)]
    # closed bodies, with every kind of station; those with faces of a cube have inner diagonals
    for k in range(24):
        body = (TETRAHEDRON, OCTAHEDRON, CUBE)[k % 3] if k < 12 else closed_mesh(r)
        body = shuffled(r, *body, unused=r.choice((0, 0, 1, 3)))
        cases += [(p, *body, r.choice((0, 0, 2))) for p in stations(r, *body)]
    for p in ((0.5, 0.5, 0.0), (0.25, 0.75, 1.0), (0.5, 0.5, 1.0), (1.0, 0.5, 0.5), (0.0, 0.0, 0.5), (1.0, 1.0, 1.0), (2.0, 0.5, 0.0), (2.0, 2.0, 2.0)):
        cases.append((p, *CUBE, 0))
    # so many edges through the station: at the middle of a flat fan, at that of a tilted one, and at the top
    for n in (24, 25, 64, 65):
        for tilt in (0.0, 0.25):
            v, f = fan(n, tilt)
            cases += [((0.0, 0.0, -tilt), v, f, 0), ((0.1, 0.2, 1.5), v, f, 0)]
        v, f = shuffled(r, *fan(n), unused=1)
        cases += [((0.0, 0.0, 0.0), v, f, 1), ((0.1, 0.05, 0.0), v, f, 0)]
    # every refusal: of the station, of a damaged mesh, and both at once
    bad = (1000000000.0000001, -1000000000.0000001, float("inf"), -float("inf"), float("nan"))
    for k, x in enumerate(bad + (1e9, -1e9)):
        p = [0.25, 0.5, 2.0]
        p[k % 3] = x
        cases += [(tuple(p), *CUBE, 0), (tuple(p), CUBE[0], CUBE[1][1:], 0), (tuple(p), CUBE[0], [(0, 1, 99)], 0), (tuple(p), *CUBE, -1)]
    v, f = TETRAHEDRON
    cases += [((1, 1, 1), v, g, n) for g, n in (([(a, c, b) for a, b, c in f], 0), (f[:3], 0), (f[:3] + [(1, 3, 2)], 1), ([(0, 0, 1)], 0), ([], 0), ([], 3))]
    while len(cases) < 460:
        body = damaged(r, *closed_mesh(r))
        cases.append((tuple(r.uniform(-3, 3) for _ in range(3)) if r.randrange(8) else (0.0, 2e9, 0.0), *body, r.choice((0, 0, 0, 1, 5, -1 if body[1] else 0))))
    cases = [(p, flat(v), flat(f), len(f) * 3 + more) for p, v, f, more in cases]
    cases += [(p, v[:len(v) - a], f[:len(f) - b], n) for p, v, f, n in cases[:3] for a, b in ((1, 0), (2, 0), (0, 1), (0, 2), (1, 1))]
    met = set()
    for (p, v, f, n), (number, words, work) in zip(cases, mesh_answers(reference, "polyhedron", cases)):
        met.add(number)
        answer = words if number == 0 else ([INFINITY + number] + words + [0] * 13)[:13]
        yield ["%016x" % w for w in [len(v), len(f), n] + [bits(float(x)) for x in [*p, *v]] + list(f) + answer + work]
    assert met == {0, 1, 3, 4, 5, 6, 7, 8, 11, 12}


# ---- profiles: bodies, each with a table of stations, and profiles of stations from the table

# how many places of stations the line of a profile has
PLACES = 17


def station_answers(reference, v, f, table):
    """Of each station of the table the field's thirteen words, or the number of its refusal."""
    asked = ["polyhedron %s %s" % (hexes(p), body_text(v, f)) for p in table]
    for line in subprocess.run([reference], input="\n".join(asked) + "\n", capture_output=True, text=True, check=True).stdout.splitlines():
        kind, *words = line.split()
        yield int(words[0]) if kind == "refused" else [0x7FF8000000000000 if w == "nan" else int(w, 16) for w in words]


def profile_lines(reference, v, f, table, asked):
    """The lines of one body. `asked` are profiles: the places of their stations in the table, and by how much the list of stations, work and fields are longer than they must be. The
    causes come in document 01's order; the reference build gives those of the mesh, then those of each station."""
    mesh_number, values, order = next(mesh_answers(reference, "check_mesh", [([], v, f, len(f))]))
    answers = [mesh_number] * len(table) if mesh_number else list(station_answers(reference, v, f, table))
    body = [bits(float(x)) for x in v] + list(f) + order
    for p, answer in zip(table, answers):
        body += [bits(float(x)) for x in p] + (answer if isinstance(answer, list) else [0] * 13)
    yield [len(v), len(f), len(body), len(asked)]
    yield body
    for places, s_more, w_more, o_more in asked:
        asked_answers = [answers[k] for k in places]
        number, at = mesh_number, values if mesh_number else []
        if mesh_number == 1 or s_more % 3:
            number, at = 1, []
        elif w_more < 0 or o_more < 0:
            number, at = 12, []
        elif mesh_number == 3 or any(not abs(x) <= 1e9 for k in places for x in table[k]):
            number, at = 3, []
        elif mesh_number == 0 and 11 in asked_answers:
            number, at = 11, [asked_answers.index(11)]
        filled = {0: len(places), 11: (at + [0])[0]}.get(number, 0)
        sorted_uses = int(number in (0, 5, 6, 7, 8, 11))
        lengths = [3 * len(places) + s_more, len(f) + w_more, 13 * len(places) + o_more]
        yield lengths + [number] + (at + [0, 0])[:2] + [filled, sorted_uses] + (places + [0] * PLACES)[:PLACES]


def profiles(reference):
    """For each body a line with the lengths of its vertex list, its face list and its second line, and how many profiles it has; a line with the two lists, the order list and a table
    of stations, each with its thirteen numbers; and a line for each profile: the lengths of stations, work and fields; the refusal's number, 0 for none, and its two values; how many
    records are filled, and whether work is the order list; the places of its stations in the table."""
    r = random.Random(2019)
    hand_over(reference)
    met = set()

    def add(body, table, asked):
        asked = [(list(places), *more, *[0] * (3 - len(more))) for places, *more in asked]
        for k, line in enumerate(profile_lines(reference, flat(body[0]), flat(body[1]), table, asked)):
            if k > 1:
                met.add(("refused", line[3]))
                met.add(("stations", line[0] / 3))
            yield ["%016x" % w for w in line]

    def some(places, s):
        return [r.choice(places) for _ in range(s)]

    # T from both sides of the hand-over: every mixture of a block, then other lengths
    mixtures = [[k >> i & 1 for i in range(8)] for k in range(256)]
    yield from add(TETRAHEDRON, [(x, 0.25, 0.25) for x in (4.0, 5.0)], [(m,) for m in mixtures + [some((0, 1), s) for s in (0, 1, 1, 7, 7, 9, 9, 16, 17, 17)]])
    # closed bodies with every kind of station: near alone, far alone, mixed; fields longer than they must be, of lengths that are no multiple of 13
    for body in [TETRAHEDRON, OCTAHEDRON, CUBE] * 2 + [closed_mesh(r) for _ in range(8)] + [fan(n, 0.25) for n in (10, 21, 31)]:
        body = shuffled(r, *body, unused=r.choice((0, 0, 1, 3)))
        table = stations(r, *body)
        table += [tuple(a + d for a, d in zip(table[10], u)) for u in ((1.0, 0.0, 0.0), (0.0, 2.0, 0.0), (0.0, -3.0, 1.0))]
        kinds = [range(8), range(10, 14), range(14)]
        yield from add(body, table, [(range(14),)] + [(some(places, s), 0, r.choice((0, 0, 2)), r.choice((0, 0, 1, 12, 13, 40))) for s in (0, 1, 7, 8, 9, 17) for places in kinds])
    # 64 and 65 edges through a station, at the middle of a fan and at its top, at each place of a block and of the block after it; where several are refused, the first counts
    for n in (64, 65):
        for tilt in (0.0, 0.25):
            body = shuffled(r, *fan(n, tilt), unused=1)
            table = [(0.0, 0.0, -tilt), (0.1, 0.2, 1.5), (0.1, 0.05, -0.3), (0.2, 0.1, 0.5), (30.0, 2.0, 1.0), (-8.0, 40.0, 3.0), (0.5, 0.5, 0.0)]
            through = [some(range(2, 7), at) + some((0, 1), 1) + some(range(2, 7), (7 if at < 8 else 16) - at) for at in range(17)]
            yield from add(body, table, [(places, 0, 0, r.choice((0, 5))) for places in through + [some(range(7), s) for s in (7, 8, 9, 17)] + [[0] * 8]])
    # the other refusals, two at once among them: a station that 3 refuses after one that 11 would, lists too short
    table = [(0.0, 0.0, 0.0), (2.0, 1.0, 0.0), (1000000000.0000001, 0.0, 0.0), (0.0, float("nan"), 0.0), (0.0, 0.0, -float("inf")), (1e9, -1e9, 1e9)]
    yield from add(fan(65), table, [([1, 5, 1],), ([0, 2],), ([1, 3, 0],), ([1] * 8 + [4],), ([0, 1, 2], 0, -1), ([0, 1, 2], 0, 0, -1), ([1, 2], -1, -1, -1), ([1, 2], -2), ([1, 0], 1), ([], 0, -1), ([1], 0, 0, -13), ([1] * 9, 0, 0, -1)])
    v, f = TETRAHEDRON
    faulty = [(v, [(a, c, b) for a, b, c in f]), (v, f[:3]), (v, f[:3] + [(1, 3, 2)]), (v, [(0, 0, 1)]), (v, []), (v[:3] + [(0.0, 2e9, 0.0)], f), (v, f[:3] + [(1, 2, 4)]), (v + [(1.0,)], f), (v, f + [(0,)])]
    for body in faulty + [damaged(r, *closed_mesh(r)) for _ in range(30)]:
        yield from add(body, table[:4], [([],), ([1, 1],), ([2],), ([1] * 8, 0, 3, 7), ([1], -1), ([0, 1], 0, -1 if body[1] else 0), ([0, 1], 0, 0, -1)])
    assert met >= {("refused", n) for n in (0, 1, 3, 4, 5, 6, 7, 8, 11, 12)} | {("stations", s) for s in (0, 1, 7, 8, 9, 17)}


LISTS = {"roots": roots, "carlson": carlson, "special": special, "anomalies": anomalies}
# for a list of several calls: each call's number, and how many arguments a line has
CALLS = {
    "carlson": ({"rc": 1, "ln": 2, "atan": 3, "atan2": 4}, 2),
    "special": ({"rf": 1, "rd": 2, "rj": 3, "complete_elliptic": 4, "cel": 5, "ring": 6}, 4),
    "anomalies": ({"body": 1, "total_field": 2, "sphere": 3, "cylinder": 4, "ellipsoid_factors": 5, "magnetisation": 6, "koenigsberger": 7}, 16),
}

# how many numbers an answer has on its line, where more than one
ANSWERS = {"prism": 13} | {name: 3 for name in CALLS["special"][0]} | {name: 3 for name in CALLS["anomalies"][0]}


def answers(reference, requests, calls, width):
    text = "".join(" ".join([name] + ["%016x" % b for b in args]) + "\n" for name, args in requests)
    out = subprocess.run([reference], input=text, capture_output=True, text=True, check=True).stdout.splitlines()
    assert len(out) == len(requests)
    for (name, args), line in zip(requests, out):
        kind, *words = line.split()
        if kind == "refused":
            words = ["%016x" % (INFINITY + int(words[0]))] + ["%016x" % 0] * (ANSWERS.get(name, 1) - 1)
        else:
            assert kind == "ok", line
            words += ["%016x" % 0] * (ANSWERS.get(name, 1) - len(words))
        head = ["%016x" % calls[name]] if calls else []
        pad = ["%016x" % 0] * (width - len(args)) if calls else []
        yield head + ["%016x" % b for b in args] + pad + [w if w != "nan" else "7ff8000000000000" for w in words]


if __name__ == "__main__":
    reference, name = sys.argv[1:]
    if name == "meshes":
        lines = meshes(reference)
    elif name == "polyhedra":
        lines = polyhedra(reference)
    elif name == "profiles":
        lines = profiles(reference)
    elif name == "prisms":
        lines = answers(reference, prisms(reference), {}, 0)
    else:
        lines = answers(reference, LISTS[name](), *CALLS.get(name, ({}, 0)))
    for words in lines:
        print(" ".join(words))
