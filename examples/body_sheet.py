#!/usr/bin/env python3
"""body_sheet.py BODY STATIONS SHEET: makes the sheet of a body of triangles.

BODY and STATIONS are text: lines `v x y z`, a point in metres, and `f a b c`, a triangle of the points with these numbers, counted from 1 and
counter-clockwise seen from outside. examples/make_body.py makes both files.
Build the library that it loads, at the repository's root, after `sh tools/library.sh`: sh examples/build.sh
Run: python3 examples/body_sheet.py BODY STATIONS SHEET
"""
import ctypes
import os
import sys

sys.dont_write_bytecode = True  # nothing is left beside the programs
from refusals import refusal_text

LIBRARY = os.path.join(os.path.dirname(os.path.abspath(__file__)), "../target/examples/libphysica.so")
MESH = 1
MAGNETISATION = (1, 2, -2)  # A/m
AMBIENT = (2e-5, 0, 4.5e-5)  # T


def load():
    """The three calls. Without argtypes a length would be passed as 32 bits."""
    library = ctypes.CDLL(LIBRARY)
    word, size = ctypes.c_uint32, ctypes.c_size_t
    words, doubles, byte = ctypes.POINTER(word), ctypes.POINTER(ctypes.c_double), ctypes.c_char_p
    length, write, trailer = library.physica_sheet_length, library.physica_write_sheet, library.physica_sheet_trailer
    length.argtypes, length.restype = [word, size, size, size], size
    write.argtypes = [word, doubles, size, words, size, doubles, doubles, doubles, size, words, size, byte, size, ctypes.POINTER(size), words]
    write.restype = word
    trailer.argtypes, trailer.restype = [byte, size, words, doubles], word
    return length, write, trailer


def corner_of(text):
    """A corner's number, from 0 as the library counts. ctypes would cut what has more than 32 bits, and makes of -1 a number that no vertex has."""
    corner = int(text) - 1
    if not -1 <= corner < 1 << 32:
        raise ValueError
    return corner


def add_line(line, points, corners):
    word, *rest = line.split() or "#"
    if word == "v" and len(rest) == 3:
        points += [float(x) for x in rest]
    elif word == "f" and len(rest) == 3:
        corners += [corner_of(x) for x in rest]
    elif not word.startswith("#"):
        raise ValueError


def read_shape(name):
    """Coordinates and corners, each as one flat list."""
    points, corners = [], []
    with open(name) as file:
        for number, line in enumerate(file, 1):
            try:
                add_line(line, points, corners)
            except ValueError:
                raise ValueError("%s, line %d: not `v x y z` or `f a b c`" % (name, number)) from None
    return points, corners


def doubles_of(numbers):
    return (ctypes.c_double * len(numbers))(*numbers)


def words_of(numbers):
    return (ctypes.c_uint32 * len(numbers))(*numbers)


def main(body, stations, name):
    length, write, trailer = load()
    verts, faces = read_shape(body)
    places, _ = read_shape(stations)
    # 0 where a count is over its limit; the writer then says so
    room = length(MESH, len(verts) // 3, len(faces) // 3, len(places) // 3)
    sheet, work, size, values = ctypes.create_string_buffer(room + 1), words_of([0] * len(faces)), ctypes.c_size_t(), words_of([0, 0])
    number = write(MESH, doubles_of(verts), len(verts), words_of(faces), len(faces), doubles_of(MAGNETISATION), doubles_of(AMBIENT),
                   doubles_of(places), len(places), work, len(work), sheet, room, size, values)
    if number != 0:
        print(refusal_text(number, values))
        return 1
    with open(name, "wb") as file:
        file.write(sheet.raw[:size.value])
    counts, numbers = words_of([0] * 4), doubles_of([0] * 7)
    trailer(sheet.raw, size.value, counts, numbers)
    print("%d vertices, %d faces, %d stations, volume %.16e m^3" % (*counts[1:], numbers[6]))
    return 0


if __name__ == "__main__":
    if len(sys.argv) != 4:
        sys.exit(__doc__)
    try:
        sys.exit(main(*sys.argv[1:]))
    except (OSError, ValueError) as error:
        print(error, file=sys.stderr)
        sys.exit(2)
