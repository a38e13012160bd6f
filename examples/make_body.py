#!/usr/bin/env python3
"""make_body.py FOLDER: writes FOLDER/body.obj, a made-up asteroid of 488 vertices and 972 faces, and FOLDER/stations.obj, 98 stations around it.

Lines are `v x y z`, a point in whole or half metres, and `f a b c`, a triangle of the points with these numbers, counted from 1 and counter-clockwise seen
from outside. The body is a cube, each side a grid of N by N squares, whose points were moved onto a lumpy ellipsoid. Sums, products, quotients and roots
alone are used, so that every machine writes the same files.
"""
import os
import sys
from math import sqrt

N = 9
SEMI_AXES = (350, 260, 210)


def point(corner):
    """The point of the surface in the direction of a point of the cube, in whole metres."""
    size = sqrt(sum(x * x for x in corner))
    x, y, z = (c / size for c in corner)
    lumps = 1 + 0.25 * x * y + 0.2 * z * z * z - 0.15 * x * x * z
    return tuple(round(a * lumps * d) for a, d in zip(SEMI_AXES, (x, y, z)))


def squares(axis, side):
    """The corners of each square of a side of the cube from -N to N in steps of 2, counter-clockwise seen from outside."""
    def at(u, v):
        corner = [0, 0, 0]
        corner[axis], corner[(axis + 1) % 3], corner[(axis + 2) % 3] = side * N, u, side * v
        return tuple(corner)
    steps = range(-N, N, 2)
    return [(at(u, v), at(u + 2, v), at(u + 2, v + 2), at(u, v + 2)) for u in steps for v in steps]


def body():
    """The points, and the faces as three numbers of points each."""
    corners = [square for axis in range(3) for side in (1, -1) for square in squares(axis, side)]
    number = {}
    for corner in (corner for square in corners for corner in square):
        number.setdefault(corner, len(number) + 1)
    faces = [face for a, b, c, d in corners for face in ((number[a], number[b], number[c]), (number[a], number[c], number[d]))]
    return [point(corner) for corner in number], faces


def write(name, points, faces):
    with open(name, "w") as file:
        file.writelines("v %g %g %g\n" % p for p in points)
        file.writelines("f %d %d %d\n" % f for f in faces)


def main(folder):
    points, faces = body()
    write(os.path.join(folder, "body.obj"), points, faces)
    # every fifth vertex, half as far again from the centre
    write(os.path.join(folder, "stations.obj"), [tuple(1.5 * x for x in p) for p in points[::5]], [])


if __name__ == "__main__":
    if len(sys.argv) != 2:
        sys.exit(__doc__)
    main(sys.argv[1])
