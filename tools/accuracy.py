#!/usr/bin/env python3
"""accuracy.py LIBRARY: prints the tables of docs/ACCURACY.md, and the inputs of docs/DIFFERENCES.md's section on the Rust's comments.

Fields of the library against closed forms at 100 digits. It needs Python 3 with mpmath and about a minute of one core. LIBRARY is the shared object
that `sh examples/build.sh` makes after `sh tools/library.sh`: target/examples/libphysica.so
"""
import ctypes
import os
import random
import sys
from itertools import product
from statistics import median

from mpmath import atan, atan2, cos, ellipe, ellipk, elliprj, log, mp, mpf, pi, quad, sin, sqrt

mp.dps = 100
STATIONS = 20            # to a line of a table
STATIONS_OF_SPHERE = 4   # of 1,280 faces, whose reference takes longest
MAGNETISATION = (1.0, 2.0, -2.0)
AMBIENT = (2e-5, 0.0, 4.5e-5)
DOUBLE = ctypes.c_double
WORD = ctypes.c_uint32
POWERS = {1e-9: "10⁻⁹", 1e-6: "10⁻⁶", 1e6: "10⁶"}


def dot(a, b):
    return a[0] * b[0] + a[1] * b[1] + a[2] * b[2]


def cross(a, b):
    return [a[1] * b[2] - a[2] * b[1], a[2] * b[0] - a[0] * b[2], a[0] * b[1] - a[1] * b[0]]


def minus(a, b):
    return [x - y for x, y in zip(a, b)]


def norm(a):
    return sqrt(sum(mpf(x) * x for x in a))


def exact(a):
    return [mpf(x) for x in a]


# ---- the library: a field is a list of 13 numbers, the potential, its gradient, its Hessian row by row

class Library:
    def __init__(self, path):
        self.calls = ctypes.CDLL(os.path.abspath(path))

    def prism(self, p, lo, hi):
        out = (DOUBLE * 13)()
        number = self.calls.physica_prism(numbers(p), numbers(lo), numbers(hi), out, (WORD * 2)())
        return answer("prism", number, out)

    def polyhedron(self, p, mesh):
        out, verts, faces = (DOUBLE * 13)(), mesh.flat_verts, mesh.flat_faces
        number = self.calls.physica_polyhedron(numbers(p), verts, length(verts), faces, length(faces), (WORD * len(faces))(), length(faces), out,
                                               (WORD * 2)())
        return answer("polyhedron", number, out)

    def magnetic(self, field):
        """The magnetic field and the total-field anomaly of a row, from the field of its station."""
        b, anomaly = (DOUBLE * 3)(), DOUBLE()
        answer("body", self.calls.physica_body(numbers(field[4:]), numbers(MAGNETISATION), b), b)
        answer("total_field", self.calls.physica_total_field(numbers(AMBIENT), b, ctypes.byref(anomaly)), b)
        return list(b), anomaly.value

    def carlson_rj(self, *arguments):
        out = (DOUBLE * 1)()
        return answer("carlson_rj", self.calls.physica_carlson_rj(*map(DOUBLE, arguments), out), out)

    def cel(self, *arguments):
        out = (DOUBLE * 1)()
        return answer("cel", self.calls.physica_cel(*map(DOUBLE, arguments), out), out)

    def ring(self, *arguments):
        out = (DOUBLE * 3)()
        return answer("ring", self.calls.physica_ring(*map(DOUBLE, arguments), out), out)

    def rule(self, order):
        nodes, weights = (DOUBLE * 16)(), (DOUBLE * 16)()
        answer("gauss_legendre", self.calls.physica_gauss_legendre(order, nodes, weights), nodes)
        return list(zip(nodes, weights))[:order]


def numbers(a):
    return (DOUBLE * len(a))(*a)


def length(a):
    return ctypes.c_size_t(len(a))


def answer(call, number, out):
    if number != 0:
        sys.exit("%s: refused %d" % (call, number))
    return list(out)


# ---- bodies

class Mesh:
    """Vertices and faces; for the reference the corners and each face's normal at 100 digits."""

    def __init__(self, verts, faces):
        self.verts, self.faces = verts, faces
        self.flat_verts = numbers([x for v in verts for x in v])
        self.flat_faces = (WORD * (3 * len(faces)))(*(i for f in faces for i in f))
        self.corners = [exact(v) for v in verts]
        self.centre = [float(sum(column) / len(verts)) for column in zip(*self.corners)]
        self.radius = float(max(norm(minus(v, exact(self.centre))) for v in self.corners))
        self.normals = [self.normal(f) for f in faces]

    def normal(self, face):
        a, b, c = (self.corners[i] for i in face)
        n = cross(minus(b, a), minus(c, a))
        return [x / norm(n) for x in n]

    def call(self, library, p):
        return library.polyhedron(p, self)

    def reference(self, p):
        return polyhedron(p, self)


class Box:
    def __init__(self, lo, hi):
        self.lo, self.hi = lo, hi
        self.centre = [(a + b) / 2 for a, b in zip(lo, hi)]
        self.radius = float(norm(minus(hi, lo)) / 2)

    def call(self, library, p):
        return library.prism(p, self.lo, self.hi)

    def reference(self, p):
        return prism(p, self.lo, self.hi)


class Parts:
    """Bodies whose fields are added: by hand, as the library has no call for it."""

    def __init__(self, bodies):
        self.bodies = bodies

    def call(self, library, p):
        return [sum(column) for column in zip(*(body.call(library, p) for body in self.bodies))]


def box_parts(box, count):
    """The box as that many meshes of 12 faces, cut across z."""
    step = (box.hi[2] - box.lo[2]) / count
    ends = [box.lo[2] + step * k for k in range(count + 1)]
    return Parts([box_mesh(Box(box.lo[:2] + (a,), box.hi[:2] + (b,)), 1) for a, b in zip(ends, ends[1:])])


def box_mesh(box, layers):
    """The box as a mesh, cut across z into layers; 4 vertices to a cut, 8 faces to a layer and 4 for the ends."""
    (x0, y0, z0), (x1, y1, z1) = box.lo, box.hi
    cuts = [z0 + (z1 - z0) * k / layers for k in range(layers + 1)]
    verts = [(x, y, z) for z in cuts for x, y in ((x0, y0), (x1, y0), (x1, y1), (x0, y1))]
    sides = [f for k, j in product(range(layers), range(4)) for f in side(4 * k, j)]
    top = 4 * layers
    return Mesh(verts, [(0, 2, 1), (0, 3, 2)] + sides + [(top, top + 1, top + 2), (top, top + 2, top + 3)])


def side(base, j):
    a, b = base + j, base + (j + 1) % 4
    return [(a, b, b + 4), (a, b + 4, a + 4)]


def icosphere(cuts):
    """An icosahedron with each face cut into four that many times, its vertices moved to the unit sphere."""
    g = (1 + 5 ** 0.5) / 2
    verts = [on_sphere(v) for s, t in product((1, -1), repeat=2) for v in ((s, t * g, 0), (0, s, t * g), (t * g, 0, s))]
    least = min(distance(a, b) for a in verts for b in verts if a != b)
    near = [[j for j, b in enumerate(verts) if 0 < distance(a, b) < 1.1 * least] for a in verts]
    faces = [outward(verts, (i, j, k)) for i in range(12) for j in near[i] for k in near[i] if i < j < k and k in near[j]]
    for _ in range(cuts):
        faces = cut_in_four(verts, faces)
    return Mesh(verts, faces)


def on_sphere(v):
    return tuple(x / dot(v, v) ** 0.5 for x in v)


def distance(a, b):
    return dot(minus(a, b), minus(a, b)) ** 0.5


def outward(verts, face):
    a, b, c = (verts[i] for i in face)
    return face if dot(a, cross(b, c)) > 0 else (face[0], face[2], face[1])


def cut_in_four(verts, faces):
    middles = {}
    return [part for f in faces for part in parts(f, [middle(verts, middles, f[k], f[(k + 1) % 3]) for k in range(3)])]


def parts(face, mids):
    (a, b, c), (ab, bc, ca) = face, mids
    return [(a, ab, ca), (ab, b, bc), (ca, bc, c), (ab, bc, ca)]


def middle(verts, middles, i, j):
    key = (min(i, j), max(i, j))
    if key not in middles:
        middles[key] = len(verts)
        verts.append(on_sphere([x + y for x, y in zip(verts[i], verts[j])]))
    return middles[key]


# ---- references, at 100 digits

def prism(p, lo, hi):
    """Nagy, Papp & Benedek's corner sums, for a station in no face's plane."""
    field = [mpf(0)] * 13
    ends = [minus(exact(end), exact(p)) for end in (lo, hi)]
    for corner in product((0, 1), repeat=3):
        sign = 1 if sum(corner) % 2 == 1 else -1
        field = [a + sign * b for a, b in zip(field, corner_terms([ends[k][a] for a, k in enumerate(corner)]))]
    return field


def corner_terms(x):
    r = norm(x)
    axes = [(a, (a + 1) % 3, (a + 2) % 3) for a in range(3)]
    logs = [log(x[a] + r) for a in range(3)]
    angles = [atan(x[b] * x[c] / (x[a] * r)) for a, b, c in axes]
    v = sum(x[b] * x[c] * logs[a] - x[a] * x[a] * angles[a] / 2 for a, b, c in axes)
    g = [x[a] * angles[a] - x[b] * logs[c] - x[c] * logs[b] for a, b, c in axes]
    t = [-angles[a] if a == b else logs[3 - a - b] for a, b in product(range(3), repeat=2)]
    return [v] + g + t


def polyhedron(p, mesh):
    """Werner & Scheeres' edge and face sums, with Van Oosterom & Strackee's solid angle."""
    r = [minus(c, exact(p)) for c in mesh.corners]
    lengths = [norm(x) for x in r]
    field, logs = [mpf(0)] * 13, {}
    for face, n in zip(mesh.faces, mesh.normals):
        field = [a + b for a, b in zip(field, face_terms(face, n, r, lengths, logs))]
    return field


def face_terms(face, n, r, lengths, logs):
    height = dot(n, r[face[0]])
    omega = solid_angle([r[i] for i in face], [lengths[i] for i in face])
    v, w = -height * height * omega / 2, [-omega * x for x in n]
    g = height * omega
    for i, j in zip(face, face[1:] + face[:1]):
        across, logarithm = edge(r, lengths, n, i, j, logs)
        offset = dot(across, r[i])
        v += height * offset * logarithm / 2
        g -= offset * logarithm
        w = [a + b * logarithm for a, b in zip(w, across)]
    return [v] + [g * x for x in n] + [a * b for a in n for b in w]


def edge(r, lengths, n, i, j, logs):
    """The outward normal of a side within its face, and ln((a + b + e)/(a + b - e)), kept for the face on the other side."""
    along = minus(r[j], r[i])
    e, key = norm(along), (min(i, j), max(i, j))
    if key not in logs:
        far = lengths[i] + lengths[j]
        logs[key] = log((far + e) / (far - e))
    return [x / e for x in cross(along, n)], logs[key]


def solid_angle(r, l):
    triple = dot(r[0], cross(r[1], r[2]))
    return 2 * atan2(triple, l[0] * l[1] * l[2] + l[0] * dot(r[1], r[2]) + l[1] * dot(r[2], r[0]) + l[2] * dot(r[0], r[1]))


def cubature(p, box, order):
    """Gauss-Legendre cubature of the mass points of a box: neither closed form."""
    half = [(mpf(b) - a) / 2 for a, b in zip(box.lo, box.hi)]
    rule = gauss_legendre(order)
    field = [mpf(0)] * 13
    for point in product(rule, repeat=3):
        d = [mpf(c) + h * x - q for c, h, (x, _), q in zip(box.centre, half, point, p)]
        weight = half[0] * half[1] * half[2] * point[0][1] * point[1][1] * point[2][1]
        field = [a + weight * b for a, b in zip(field, mass_point(d))]
    return field


def mass_point(d):
    r2 = dot(d, d)
    r = sqrt(r2)
    hessian = [(3 * d[a] * d[b] - (r2 if a == b else 0)) / (r2 * r2 * r) for a, b in product(range(3), repeat=2)]
    return [1 / r] + [x / (r2 * r) for x in d] + hessian


def gauss_legendre(order):
    return [node_and_weight(order, cos(pi * (k + mpf(3) / 4) / (order + mpf(1) / 2))) for k in range(order)]


def node_and_weight(order, x):
    for _ in range(9):
        value, slope = legendre(order, x)
        x -= value / slope
    return x, 2 / ((1 - x * x) * legendre(order, x)[1] ** 2)


def legendre(order, x):
    """The Legendre polynomial of that order and its derivative."""
    last, value = mpf(1), x
    for k in range(2, order + 1):
        last, value = value, ((2 * k - 1) * x * value - (k - 1) * last) / k
    return value, order * (last - x * value) / (1 - x * x)


# ---- errors

def errors(field, reference):
    """Of the potential, the gradient and the Hessian: the norm of the difference over the norm of the reference."""
    return [relative(field[a:b], reference[a:b]) for a, b in ((0, 1), (1, 4), (4, 13))]


def relative(a, b):
    return norm(minus(exact(a), b)) / norm(b)


def magnetic_errors(library, field, reference):
    """Of the magnetic field and of the total-field anomaly, both over the magnetic field's norm."""
    b, anomaly = library.magnetic(field)
    rows = [reference[4:7], reference[7:10], reference[10:13]]
    trace = rows[0][0] + rows[1][1] + rows[2][2]
    true = [(dot(row, MAGNETISATION) - trace * m) / 10 ** 7 for row, m in zip(rows, MAGNETISATION)]
    total = norm([f + x for f, x in zip(exact(AMBIENT), true)]) - norm(AMBIENT)
    return [relative(b, true), abs(anomaly - total) / norm(true)]


def all_errors(library, body, p, reference):
    field = body.call(library, p)
    return errors(field, reference) + magnetic_errors(library, field, reference)


# ---- stations

def inside(rng, box):
    return [rng.uniform(a, b) for a, b in zip(box.lo, box.hi)]


def off(height, axes):
    """Outside by that height on one axis, so off a face, or on two, so off an edge."""
    def station(rng, box):
        p = inside(rng, box)
        for axis in rng.sample(range(3), axes):
            p[axis] = box.hi[axis] + height if rng.random() < 0.5 else box.lo[axis] - height
        return p
    return station


def at_radii(radii):
    def station(rng, body):
        d = on_sphere([rng.gauss(0, 1) for _ in range(3)])
        return [c + radii * body.radius * x for c, x in zip(body.centre, d)]
    return station


def written(x):
    return POWERS.get(x, "%g" % x)


def places(edges, heights, radii):
    """Pairs of a line's name and its maker of stations."""
    return ([(written(h) + " off an edge", off(h, 2)) for h in edges] + [(written(h) + " off a face", off(h, 1)) for h in heights]
            + [(written(r) + " radii", at_radii(r)) for r in radii])


# ---- tables

class Quotients:
    """The largest quotients, over all lines, of the worst errors of B and of the anomaly to that of the Hessian."""

    def __init__(self):
        self.field = self.anomaly = 0

    def add(self, worst):
        self.field = max(self.field, worst[3] / worst[2])
        self.anomaly = max(self.anomaly, worst[4] / worst[2])


def table(library, quotients, title, box, bodies, lines):
    """Errors of bodies that all are the box, by its closed form."""
    heads = " | ".join("%s: V | gradient | Hessian" % name for name in bodies)
    print("\n**%s, %d stations to a line**\n\n| station | %s |" % (title, STATIONS, heads))
    print("|---" * (1 + 3 * len(bodies)) + "|")
    rng = random.Random(title)
    for name, station in lines:
        stations = [station(rng, box) for _ in range(STATIONS)]
        references = [box.reference(p) for p in stations]
        print_line(name, quotients, [stations_errors(library, body, stations, references) for body in bodies.values()])


def sphere_table(library, quotients, mesh, radii):
    title = "icosphere, a mesh of %s faces" % format(len(mesh.faces), ",")
    print("\n**%s, %d stations to a line**\n\n| station | V | gradient | Hessian |\n|---|---|---|---|" % (title, STATIONS_OF_SPHERE))
    rng = random.Random(title)
    for name, station in places([], [], radii):
        stations = [station(rng, mesh) for _ in range(STATIONS_OF_SPHERE)]
        print_line(name, quotients, [stations_errors(library, mesh, stations, [mesh.reference(p) for p in stations])])


def stations_errors(library, body, stations, references):
    """For each of the five errors those of all stations."""
    return list(zip(*(all_errors(library, body, p, r) for p, r in zip(stations, references))))


def print_line(name, quotients, groups):
    for group in groups:
        quotients.add([max(e) for e in group])
    print("| %s | %s |" % (name, " | ".join("%.1e (%.1e)" % (max(e), median(e)) for group in groups for e in group[:3])), flush=True)


CUBE = Box((-0.5, -0.5, -0.5), (0.5, 0.5, 0.5))
NEEDLE = Box((-0.5, -0.5, -50.0), (0.5, 0.5, 50.0))
PLATE = Box((-50.0, -50.0, -0.5), (50.0, 50.0, 0.5))
FAR_CUBE = Box((1000000.3, 700000.7, -400000.9), (1000001.3, 700001.7, -399999.9))


def check_references():
    p, q = (1.3, -0.4, 2.1), (1.5, 0.25, 260.0)
    cube, needle = CUBE.reference(p), NEEDLE.reference(q)
    print("The references, the worst of V, gradient and Hessian:")
    for name, a, b in (("cube at %s, closed form and the sums of its mesh" % (p,), cube, box_mesh(CUBE, 1).reference(p)),
                       ("the same, closed form and a cubature of 24 x 24 x 24 points", cube, cubature(p, CUBE, 24)),
                       ("needle at %s, closed form and the sums of its mesh of 12 faces" % (q,), needle, box_mesh(NEEDLE, 1).reference(q)),
                       ("the same, closed form and the sums of its mesh of 804 faces", needle, box_mesh(NEEDLE, 100).reference(q))):
        print("- %s: %.1e" % (name, max(errors(a, b))), flush=True)


def tables(library):
    quotients = Quotients()
    limit, far = [4.9999, 5.0001], [10, 100, 1e6]
    within, edges = [("inside", inside)], [1e-9, 1e-6, 0.001]
    of_needle = within + places(edges, [1e-9, 0.01, 1, 10], [1.1, 2, 4] + limit + [6, 8] + far)
    in_two_ways = {box: {"prism": box, "mesh of 12 faces": box_mesh(box, 1)} for box in (CUBE, NEEDLE, PLATE, FAR_CUBE)}
    other_ways = {"mesh of 804 faces": box_mesh(NEEDLE, 100), "ten meshes, added": box_parts(NEEDLE, 10)}
    for title, box, bodies, lines in (("cube", CUBE, in_two_ways[CUBE], within + places(edges, [1e-9, 0.01, 0.1], [1.1, 2, 3, 4] + limit + [6, 8] + far)),
                                      ("needle 1 : 1 : 100", NEEDLE, in_two_ways[NEEDLE], of_needle),
                                      ("the needle in compact faces, and in ten parts 1 : 1 : 10", NEEDLE, other_ways, of_needle),
                                      ("plate 100 : 100 : 1", PLATE, in_two_ways[PLATE], within + places(edges, [0.01, 0.1, 10], [2] + limit + [8] + far)),
                                      ("cube of side 1 near (10⁶, 7·10⁵, −4·10⁵)", FAR_CUBE, in_two_ways[FAR_CUBE],
                                       within + places([], [0.1], [1.5] + limit + far))):
        table(library, quotients, title, box, bodies, lines)
    sphere_table(library, quotients, icosphere(3), [0.3, 0.9, 1.01, 1.5, 3] + limit + far)
    print("\nWorst error of a line over that of its Hessian: B at most %.1f, the total-field anomaly at most %.1f." % (quotients.field, quotients.anomaly))


# ---- the Rust's comments

def ring(radius, rho, z):
    """The average of 1/r over a ring and its derivatives, by complete elliptic integrals."""
    radius, rho, z = exact((radius, rho, z))
    s, d = (radius + rho) ** 2 + z * z, (radius - rho) ** 2 + z * z
    m = 4 * radius * rho / s
    k, e = ellipk(m), ellipe(m)
    return [2 * k / (pi * sqrt(s)), ((radius ** 2 - rho ** 2 + z * z) * e / d - k) / (pi * rho * sqrt(s)), -2 * z * e / (pi * sqrt(s) * d)]


def cel(kc, p, a, b):
    """Bulirsch's integral as it is defined, by quadrature."""
    kc, p, a, b = exact((kc, p, a, b))

    def integrand(t):
        c, s = cos(t) ** 2, sin(t) ** 2
        return (a * c + b * s) / ((c + p * s) * sqrt(c + kc * kc * s))
    return quad(integrand, [0, pi / 4, pi / 2])


def claims(library):
    print("\nAt single inputs:\n")
    claims_on_fields(library)
    for a in ((1.0, 2.0, 3.0, 1e-4), (1.0, 2.0, 3.0, 1e-7), (1.0, 2.0, 3.0, 1e-10), (1.0, 2.0, 3.0, 1e-14)):
        print("- carlson_rj%s: %.1e" % (a, relative(library.carlson_rj(*a), [elliprj(*exact(a))])))
    a = (0.999, 0.998, 1.0, -0.999)
    print("- cel%s: %.1e" % (a, relative(library.cel(*a), [cel(*a)])))
    claims_on_rings(library)
    print("- volumes of tetrahedra by the cubature of order 6: %.2e too large" % volume_excess(library.rule(6)))


def claims_on_fields(library):
    for name, box, body, p in (("cube, mesh of 12 faces", CUBE, box_mesh(CUBE, 1), (0.0, 0.0, 4.35)),
                               ("cube, mesh of 12 faces", CUBE, box_mesh(CUBE, 1), (2.49, 2.49, 2.49)),
                               ("needle, prism", NEEDLE, NEEDLE, (7.0, 0.0, 14.0)),
                               ("needle, prism", NEEDLE, NEEDLE, (6.0, 0.1, -39.0)),
                               ("needle, mesh of 12 faces", NEEDLE, box_mesh(NEEDLE, 1), (0.0, 0.0, 250.1))):
        print("- %s, station %s: V %.1e, gradient %.1e, Hessian %.1e" % (name, p, *errors(body.call(library, p), box.reference(p))))


def claims_on_rings(library):
    for a in ((1.0, 2e-4, 0.5), (1.0, 3e-4, 0.5), (1.0, 4e-4, 0.5), (1.0, 0.01, 0.5), (1.0, 0.99, 0.001), (1.0, 1.000001, 0.5e-6)):
        print("- ring%s: average %.1e, by rho %.1e, by z %.1e" % (a, *(relative([x], [y]) for x, y in zip(library.ring(*a), ring(*a)))))


def volume_excess(rule):
    """Duffy's map gives the volume as 6 times the product of the rule's moments of u², v and 1 over [0, 1], which are 1/3, 1/2 and 1."""
    moments = [sum(mpf(w) / 2 * ((mpf(x) + 1) / 2) ** k for x, w in rule) for k in range(3)]
    return 6 * moments[0] * moments[1] * moments[2] - 1


def main(path):
    library = Library(path)
    check_references()
    tables(library)
    claims(library)


if __name__ == "__main__":
    if len(sys.argv) != 2:
        sys.exit(__doc__)
    main(sys.argv[1])
