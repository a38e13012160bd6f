#!/usr/bin/env python3
"""obj_list.py: writes the list of texts and meshes with their answers that crate test_obj has as its standard input. At the repository's root:

    python3 reference/obj_list.py > crates/test_obj/stdin

The answers are made from document 02's order 2 by the short reader and writer below, and the numbers of the tables stand beside each text, so that the two check
each other. The bits of a decimal are those of C's own strtod. Seeds are fixed, so the list is the same each time.

An entry is eight words, each of 16 hexadecimal digits and one byte more: its kind (0: read, 1: write), the text's length, how many coordinates and how many vertex
numbers follow the text, the refusal's number (0: none), its value; and, for kind 0, the lengths of the lent lists of vertices and of faces, for kind 1 the length of
the lent text and the answer's size. Then the text as it is, and a newline. Then the coordinates' bits and the vertex numbers as words: what is read into the lists,
or what is written.
"""
import ctypes
import math
import random
import re
import struct
import sys

strtod = ctypes.CDLL(None).strtod
strtod.restype = ctypes.c_double
strtod.argtypes = [ctypes.c_char_p, ctypes.c_void_p]

NUMBER = re.compile(rb"-?[0-9]+(\.[0-9]+)?")
INDEX = re.compile(rb"[0-9]*[1-9][0-9]*")
LIMIT = 1e9
WRONG_LINE, TOO_MANY_DIGITS, TOO_SHORT, OUT_OF_LIMITS, NO_SUCH_VERTEX, MALFORMED = 21, 22, 12, 3, 4, 1


def bits(x):
    return struct.unpack("<Q", struct.pack("<d", x))[0]


def of_bits(b):
    return struct.unpack("<d", struct.pack("<Q", b))[0]


# ---- the answers


def line_cause(fields):
    if not fields or fields[0][:1] == b"#":
        return 0
    form = {b"v": NUMBER, b"f": INDEX}.get(fields[0])
    if form is None or len(fields) != 4 or not all(form.fullmatch(x) for x in fields[1:]):
        return WRONG_LINE
    return TOO_MANY_DIGITS if any(len(re.sub(rb"[^0-9]", b"", x)) > 15 for x in fields[1:]) else 0


def read(text, n, m):
    """(number, value, coordinates, vertex numbers)"""
    lines = [[x for x in line.split(b" ") if x] for line in text.split(b"\n")]
    cause = next((c for c in map(line_cause, lines) if c), 0)
    if cause:
        return cause, 0, [], []
    verts = [strtod(x, None) for fields in lines if fields[:1] == [b"v"] for x in fields[1:]]
    faces = [int(x) - 1 for fields in lines if fields[:1] == [b"f"] for x in fields[1:]]
    if n < len(verts) or m < len(faces):
        return TOO_SHORT, 0, [], []
    if any(abs(x) > LIMIT for x in verts):
        return OUT_OF_LIMITS, 0, [], []
    beyond = [k for k, x in enumerate(faces) if len(verts) // 3 <= x]
    return (NO_SUCH_VERTEX, beyond[0] // 3, [], []) if beyond else (0, 0, verts, faces)


def write(verts, faces, room):
    """(number, value, text)"""
    if len(verts) % 3 or len(faces) % 3:
        return MALFORMED, 0, b""
    if not all(math.isfinite(x) and x == math.floor(x) and abs(x) <= LIMIT for x in verts):
        return OUT_OF_LIMITS, 0, b""
    beyond = [k for k, x in enumerate(faces) if len(verts) // 3 <= x]
    if beyond:
        return NO_SUCH_VERTEX, beyond[0] // 3, b""
    fields = ["%.0f" % x for x in verts] + ["%d" % (x + 1) for x in faces]
    letters = "v" * (len(verts) // 3) + "f" * (len(faces) // 3)
    text = "".join("%s %s %s %s\n" % (c, *fields[3 * k : 3 * k + 3]) for k, c in enumerate(letters)).encode()
    return (TOO_SHORT, 0, b"") if room < len(text) else (0, 0, text)


# ---- the entries


def entry(kind, text, verts, faces, number, value, rooms):
    head = [kind, len(text), len(verts), len(faces), number, value, *rooms]
    words = [bits(x) for x in verts] + faces
    out = sys.stdout.buffer
    out.write(" ".join("%016x" % w for w in head).encode() + b"\n" + text + b"\n")
    if words:
        out.write(" ".join("%016x" % w for w in words).encode() + b"\n")


def reads(number, text, n=12, m=6, value=0):
    """One text with the number that it should have."""
    assert len(text) <= 4000 and max(n, m) <= 1000
    answer = read(text, n, m)
    assert answer[:2] == (number, value), (text, answer, number)
    entry(0, text, answer[2], answer[3], number, value, (n, m))


def writes(number, verts, faces, room=None, value=0):
    """One mesh; the text is lent exactly long enough where no length is given."""
    text = write(verts, faces, 4000)[2]
    room = len(text) if room is None else room
    assert max(len(verts), len(faces)) <= 1000 and room <= 4000
    answer = write(verts, faces, room)
    assert answer[:2] == (number, value), (verts, faces, answer)
    entry(1, answer[2], verts, faces, number, value, (room, len(answer[2])))


# ---- forms of lines

RIGHT = r"""|\n|\n\n| |   |# x|  #x|#v 1 2|#|##|#\t\r\0\x80\xff|# 1234567890123456|#x v 1 2 3|v  1 2   3 |   v 1 2 3|v 1 2 3 |v 00 -0 007|v -0.0 -00 0.0|v 1.5 -2.25 3.125
|v 0.00000000000001 -0.00000000000001 000000000000001|v 999999999.999999 -999999999.999999 0|v 1000000000.00000 -1000000000 1000000000|v 1 2 3|v 1 2 3\n|v 1 2 3\n\n
|v 1 2 3\n   |v 1 2 3\nv 4 5 6|f 1 1 1\nv 1 2 3|f 01 2 3\nv 1 2 3\nv 4 5 6\nv 7 8 9|v 1 2 3\nv 4 5 6\nv 7 8 9\nf 1 2 3|v 1 2 3\nf 000000000000001 1 1
|v 1 2 3\nf 1 1 1\nv 4 5 6\nf 2 2 2\n# c\n\nv 7 8 9\n| v 1 2 3 \n  f  1   1  1  |#\n#\nv 1 2 3\n#"""

WRONG = r"""v|f|v 1|v 1 2|v 1 2 3 4|v 1 2 3 # c|v 1 2 3 #|v 1 2 3#|v +1 2 3|v .5 2 3|v 5. 2 3|v -.5 2 3|v -5. 2 3|v - 2 3|v -. 2 3|v . 2 3|v 1e5 2 3|v 1E5 2 3|v --1 2 3|v 1- 2 3
|v -+1 2 3|v 1.2.3 2 3|v 1..2 2 3|v 1.-2 2 3|v 1,5 2 3|v 0x1 2 3|v nan 2 3|v inf 2 3|v 1_0 2 3|v - 1 2 3|V 1 2 3|F 1 1 1|v1 2 3|v1 1 2 3|vv 1 2 3|vn 1 2 3|vt 1 2 3|o x|g x|s off|s 1
|usemtl x|mtllib x.mtl|l 1 2|p 1|1 2 3|-|.|0|x|/# c|v# 1 2 3|\t|\r|\0|\tv 1 2 3|v\t1 2 3|v 1\t2 3|v 1 2 3\t|v 1 2 3 \t|\rv 1 2 3|v 1 2 3\r|v 1 2 3\r\nv 4 5 6\r\n|v 1\r2 3|v 1 2\r 3
|\r\n|v 1 2 3\n\r\n|\t# c|\r# c|\0# c|v 1 2 3\0|v 1\0 2 3|v\0 1 2 3|v 1\x0b2 3|v 1\x0c2 3|v 1\xa02 3|v 1 2 \xb2|v \xd9\xa1 2 3|\xef\xbb\xbfv 1 2 3|f 0 1 2|f 00 1 2|f 1 1|f 1 1 1 1|f 1 1 1 #
|f -1 2 3|f -0 1 1|f +1 1 1|f 1/1 2/2 3/3|f 1//1 1//1 1//1|f 1.0 2 3|f 1. 1 1|f 1e0 1 1|f 1 2 0000000000000000|f 0 1 1234567890123456|v 1234567890123456 0 x|v x 0 1234567890123456
|v 1234567890123456 0|v 1234567890123456 0 1 2|v 1234567890123456. 0 1|f 1234567890123456 1 0|f 1 x 1234567890123456|f1 1 1|f\t1 1 1|f 1 1 1\r|f 1 1 1\t|ff 1 1 1|fo 1 1 1"""

MANY_DIGITS = r"""v 0.000000000000001 0 0|v 0000000000000001 0 0|v 1.000000000000000 0 0|v -1.000000000000000 0 0|v 0 1234567890123456 0|v 0 0 -1234567890123456|v 0 0 0000000000000000
|v 0 0 0.0000000000000000000000000000000001|v 99999999999999999999999999999999999 0 0|v 1234567890123456 1234567890123456 0|f 1 2 0000000000000003|f 0000000000000001 1 1|f 1 1234567890123456 1
|f 18446744073709551617 1 1|f 18446744073709551616 1 1|  v   1.000000000000000   0  0  """

# the first bad line decides, and comes before 12, 3 and 4
FIRST = [
    (21, "v 1 2 x\nv 1234567890123456 0 0"),
    (22, "v 1234567890123456 0 0\nv 1 2 x"),
    (21, "f 1 1 0\nf 1 1 0000000000000001\n"),
    (22, "f 1 1 0000000000000001\nf 1 1 0\n"),
    (21, "v 1 2 3\n\t\nv 0 0 0.000000000000001"),
    (22, "v 1 2 3\n# c\n\nv 0 0 0.000000000000001\n\r\n"),
    (21, "v 9999999999 0 0\nv 1 2"),
    (22, "v 9999999999 0 0\nv 1 2 1234567890123456"),
    (21, "f 9 9 9\nv 1 2 3\nv"),
    (22, "f 9 9 9\nv 1 2 3\nf 1 1 0000000000000001"),
    (3, "f 9 9 9\nv 1 2 9999999999"),
    (3, "v 1 2 9999999999\nf 9 9 9"),
]


def rows(table):
    """The table's texts: | stands between them, and a backslash for a byte that is not printed."""
    return [text.encode().decode("unicode_escape").encode("latin-1") for text in table.replace("\n|", "|").split("|")]


def forms():
    for table, number in ((RIGHT, 0), (WRONG, WRONG_LINE), (MANY_DIGITS, TOO_MANY_DIGITS)):
        for text in rows(table):
            reads(number, text)
    for number, text in FIRST:
        reads(number, text.encode())
        if number > 20:
            reads(number, text.encode(), 0, 0)
        else:
            reads(TOO_SHORT, text.encode(), 2, 3)
    # the bad line is one among right ones, in front, in the middle, at the end
    good = [b"v 1 2 3", b"# c", b"", b"f 1 1 1"]
    for bad, number in ((b"v 1 2", WRONG_LINE), (b"\r", WRONG_LINE), (b"f 1 1 0", WRONG_LINE), (b"v 1.000000000000000 0 0", TOO_MANY_DIGITS)):
        for place in range(len(good) + 1):
            reads(number, b"\n".join(good[:place] + [bad] + good[place:]))


def each_byte():
    for b in range(256):
        c = bytes([b])
        reads(0 if c in b"\n #" else WRONG_LINE, b"v 1 2 3\n" + c + b"\nf 1 1 1\n")
        reads(0 if c in b".0123456789" else WRONG_LINE, b"v 1 2 4" + c + b"5\n")


def index_limits():
    three = b"v 1 2 3\nv 4 5 6\nv 7 8 9\n"
    for index in (b"4", b"0000004", b"4294967296", b"4294967297", b"4294967298", b"4294967299", b"8589934593", b"999999999999999", b"100000000000000", b"281474976710657"):
        for k in range(3):
            face = [b"1", b"2", b"3"]
            face[k] = index
            line = b"f " + b" ".join(face) + b"\n"
            reads(NO_SUCH_VERTEX, three + line)
            reads(NO_SUCH_VERTEX, b"f 3 2 1\n" + three + line, value=1)
    reads(0, three + b"f 3 3 3\nf 000000000000003 3 3")
    reads(0, b"f 3 2 1\n" + three)
    reads(NO_SUCH_VERTEX, b"f 1 1 1")
    reads(NO_SUCH_VERTEX, b"v 1 2 3\nf 1 1 1\nf 2 1 1\nf 9 9 9", m=9, value=1)
    reads(NO_SUCH_VERTEX, b"v 1 2 3\nf 2 2 2\nf 1 1 1", value=0)
    # an index is judged against all vertices, also those below it
    reads(0, b"v 1 2 3\nf 2 1 2\nv 4 5 6")
    reads(NO_SUCH_VERTEX, b"v 1 2 3\nf 3 1 2\nv 4 5 6")


def coordinate_limits():
    for x in (b"999999999999999", b"1000000000.00001", b"1000000001", b"1000000000.1", b"9999999999", b"100000000000000", b"1000000000.00000", b"1000000000", b"999999999.999999", b"00001000000000"):
        for sign in (b"", b"-"):
            over = abs(strtod(x, None)) > LIMIT
            for k in range(3):
                point = [b"0", b"0", b"0"]
                point[k] = sign + x
                reads(OUT_OF_LIMITS if over else 0, b"v " + b" ".join(point))


def lent_lists():
    text = b"v 1 2 3\nf 1 2 2\nv 4.5 -0 6\nf 2 2 1\nf 1 1 1\n"
    for n in range(9):
        for m in (0, 8, 9, 30):
            reads(0 if n >= 6 and m >= 9 else TOO_SHORT, text, n, m)
    reads(0, b"", 0, 0)
    reads(0, b"# c\n\n", 0, 0)
    reads(0, b"v 1 2 3", 3, 0)
    reads(TOO_SHORT, b"v 1 2 3", 2, 0)
    reads(TOO_SHORT, b"v 9999999999 2 3\nf 9 9 9", 2, 3)
    reads(TOO_SHORT, b"v 9999999999 2 3\nf 9 9 9", 3, 2)
    reads(OUT_OF_LIMITS, b"v 9999999999 2 3\nf 9 9 9", 3, 3)
    reads(0, text, 1000, 1000)


# ---- decimals


def numbers(fields):
    """Texts of the numbers, three to a line and at most thirty to a text."""
    for i in range(0, len(fields), 30):
        part = fields[i : i + 30]
        part += ["0"] * (-len(part) % 3)
        lines = ["v " + " ".join(part[j : j + 3]) for j in range(0, len(part), 3)]
        reads(0, "\n".join(lines).encode(), len(part), 0)


def with_point(digits, before):
    return digits[:before] + "." + digits[before:] if before < len(digits) else digits


def digit_counts(rng):
    """Every number of digits at every place of the point, with and without minus."""
    right = []
    for n in range(1, 17):
        for before in range(1, n + 1):
            for sign in ("", "-"):
                digits = "".join(rng.choice("123456789") for _ in range(n))
                field = sign + with_point(digits, before)
                line = ("v 1 %s 2" % field).encode()
                if n == 16:
                    reads(TOO_MANY_DIGITS, line)
                elif before > 9:
                    reads(OUT_OF_LIMITS, line)
                    right.append(sign + with_point("0" * (before - 9) + digits[: n - before + 9], before))
                else:
                    right.append(field)
        for sign in ("", "-"):
            reads(WRONG_LINE, ("v 1 %s.%s 2" % (sign, digits)).encode())
            reads(WRONG_LINE, ("v 1 %s%s. 2" % (sign, digits)).encode())
    numbers(right)


def random_decimals(rng, count):
    fields = []
    for _ in range(count):
        n = rng.choice((15, 15, 15, rng.randint(1, 15)))
        digits = "".join(rng.choice("0123456789") for _ in range(n))
        fields.append(rng.choice(("", "-")) + with_point(digits, rng.randint(1, min(n, 9))))
    return fields


def near_halfway(rng, k, e):
    """A decimal d / 10^k of at most 15 digits between 2^e and 2^(e + 1) as near as can be to the middle of two doubles, whose distance there is 2^(e - 52): with
    s = 52 - e >= k the quotient d * 2^s / 10^k has a fraction of (5^k ± 1) / 2 by 5^k."""
    p, shift = 5**k, 52 - e - k
    target = (p + rng.choice((-1, 1))) // 2
    d = target * pow(2, -shift, p) % p
    low, high = math.ceil(2.0**e * 10**k), min(math.floor(2.0 ** (e + 1) * 10**k), 10**15)
    first = d + -(-(low - d) // p) * p
    if first >= high:
        return None
    return first + rng.randrange((high - 1 - first) // p + 1) * p


def hard_decimals(rng):
    fields = []
    for k in range(1, 15):
        for e in range(-20, 30, 3):
            d = near_halfway(rng, k, e) if 52 - e >= k else None
            if d is None:
                continue
            digits = str(d).rjust(k + 1, "0")
            assert len(digits) <= 15
            fields.append(rng.choice(("", "-")) + digits[:-k] + "." + digits[-k:])
    return fields


# ---- a published shape model

# The first lines of the asteroid Ida as they are in a file made for this grammar from 243ida_MLfix.obj of Debian's package stellarium-data 0.22.2-1 (GPL-2+, Fabien
# Chereau et al.), as their comment says.
IDA = b"""# 243ida_MLfix.obj of Debian's stellarium-data 0.22.2-1 (GPL-2+), kilometres there, metres here; vt, vn and materials left out
v 0.000 1502.335 -8520.163
v 0.000 3765.300 -10345.076
v 0.000 5134.833 -11011.685
v 0.000 6709.250 -11620.762
v 0.000 8210.575 -11725.916
v 0.000 9465.305 -11280.311
v 0.000 10571.063 -10571.063
v 0.000 12080.728 -10136.934
v 0.000 14466.717 -10129.704
v 0.000 18690.741 -8715.635
v 0.000 22534.807 -6038.184
"""


def model():
    reads(0, IDA, 33, 0)
    reads(0, IDA, 40, 3)
    reads(TOO_SHORT, IDA, 32, 0)
    reads(0, IDA + b"f 1 2 3\nf 3 2 11\n", 33, 6)
    # with the carriage returns that such files come with
    reads(WRONG_LINE, IDA.replace(b"\n", b"\r\n"), 33, 0)


# ---- the writer


def vertices(*xs):
    return [float(x) for x in xs]


def written():
    writes(0, [], [])
    writes(0, [], [], 10)
    for n in range(1, 11):
        digits = [10 ** (n - 1), 10**n - 1 if n < 10 else 10**9, min(int("1234567891"[:n]), 10**9)]
        writes(0, vertices(*digits), [])
        writes(0, vertices(*(-d for d in digits)), [])
        writes(0, vertices(digits[0], -digits[1], digits[2]), [0, 0, 0])
    writes(0, vertices(1e9, -1e9, 1e9), [0, 0, 0])
    writes(0, vertices(-1e9, -1e9, -1e9), [])
    writes(0, [0.0, -0.0, 0.0, -0.0, 0.0, -0.0], [0, 1, 1])
    writes(0, vertices(999999999, -999999999, 1), [])
    twelve = vertices(*range(-18, 18))
    writes(0, twelve, [0, 1, 2, 9, 10, 11, 8, 9, 10])
    writes(0, twelve, [11, 11, 11], 4000)
    writes(0, vertices(*(-(10**9) for _ in range(36))), [9, 10, 11])
    hundred = vertices(*(7 * k for k in range(303)))
    writes(0, hundred, [98, 99, 100, 8, 9, 10])


def not_written():
    bad = [0.5, -0.5, 1.5, 999999999.5, -999999999.5, 1e-300, of_bits(1), -of_bits(1), of_bits(0x000FFFFFFFFFFFFF), of_bits(0x0010000000000000), 1000000000.5, 1000000001.0, -1000000001.0]
    bad += [of_bits(bits(1e9) + 1), of_bits(bits(-1e9) + 1), of_bits(bits(1.0) - 1), of_bits(bits(1.0) + 1), 4294967296.0, 1e15, 2.0**52, 2.0**53, 2.0**62, 2.0**63, 2.0**64, -(2.0**64), 1e300, 1.7976931348623157e308]
    bad += [math.inf, -math.inf, math.nan, of_bits(0x7FF0000000000001), of_bits(0xFFF8000000000000)]
    for i, x in enumerate(bad):
        verts = [1.0, 2.0, 3.0]
        verts[i % 3] = x
        writes(OUT_OF_LIMITS, verts, [], 100)
    for n, m in ((1, 0), (2, 0), (4, 0), (5, 3), (3, 1), (3, 2), (0, 1), (0, 2), (3, 4)):
        writes(MALFORMED, vertices(*range(n)), [0] * m, 100)
    six = vertices(1, 2, 3, 4, 5, 6)
    for index in (2, 3, 0x7FFFFFFF, 0xFFFFFFFE, 0xFFFFFFFF):
        for k in range(6):
            faces = [0, 1, 1, 1, 0, 0]
            faces[k] = index
            writes(NO_SUCH_VERTEX, six, faces, 100, k // 3)
    writes(NO_SUCH_VERTEX, [], [0, 0, 0], 100)


def lent_texts():
    six, faces = vertices(1, -2, 3, -0.0, 50, 600), [0, 1, 1]
    size = len(write(six, faces, 100)[2])
    for room in range(size + 3):
        writes(0 if room >= size else TOO_SHORT, six, faces, room)
    for verts, faces in ((vertices(1, 2, 3), []), (vertices(*[-1e9] * 30), [9, 9, 9]), (vertices(*range(12)), [0, 1, 2])):
        size = len(write(verts, faces, 4000)[2])
        writes(0, verts, faces, size)
        writes(TOO_SHORT, verts, faces, size - 1)
        writes(0, verts, faces, size + 1)


def two_causes():
    bad = [0.5, 1.0, 2.0]
    writes(MALFORMED, bad + [1.0], [7, 7, 7], 0)
    writes(MALFORMED, bad, [7, 7], 0)
    writes(MALFORMED, [math.nan], [7], 0)
    writes(OUT_OF_LIMITS, bad, [7, 7, 7], 0)
    writes(OUT_OF_LIMITS, bad, [0, 0, 0], 0)
    writes(OUT_OF_LIMITS, [1.0, 2.0, 3.0, 4.0, 5.0, math.inf], [0, 0, 9], 5)
    writes(NO_SUCH_VERTEX, vertices(1, 2, 3), [0, 0, 1], 0)
    writes(NO_SUCH_VERTEX, vertices(1, 2, 3), [0, 0, 0, 0, 1, 0, 5, 5, 5], 5, 1)
    writes(TOO_SHORT, vertices(1, 2, 3), [0, 0, 0], 0)


def random_meshes(rng):
    for _ in range(40):
        verts = [float(rng.choice((-1, 1)) * rng.randrange(10 ** rng.randint(0, 9) + 1)) for _ in range(3 * rng.randint(1, 12))]
        verts = [-0.0 if x == 0 and rng.random() < 0.5 else x for x in verts]
        faces = [rng.randrange(len(verts) // 3) for _ in range(3 * rng.randint(0, 12))]
        writes(0, verts, faces, len(write(verts, faces, 4000)[2]) + rng.choice((0, 0, 1, 50)))


def main():
    rng = random.Random(25)
    forms()
    each_byte()
    index_limits()
    coordinate_limits()
    lent_lists()
    digit_counts(rng)
    numbers(random_decimals(rng, 360))
    numbers(hard_decimals(rng))
    model()
    written()
    not_written()
    lent_texts()
    two_causes()
    random_meshes(rng)


main()
