#!/usr/bin/env python3
"""check_sheet.py FILE: checks a sheet, prints the line that `recheck` prints and, if it is accepted, each station with its row.

Build the library that it loads, at the repository's root, after `sh tools/library.sh`: sh examples/build.sh
Run: python3 examples/check_sheet.py FILE
"""
import ctypes
import os
import sys
import threading
from concurrent.futures import ThreadPoolExecutor

sys.dont_write_bytecode = True  # nothing is left beside the programs
from refusals import refusal_text

LIBRARY = os.path.join(os.path.dirname(os.path.abspath(__file__)), "../target/examples/libphysica.so")
STACK = 8 << 20  # the check takes up to 1.4 MB
# the potential V and its gradient g are at G rho = 1; B is the magnetic field, dF the total-field anomaly
NAMES = "station,x[m],y[m],z[m],V[m^2],gx[m],gy[m],gz[m],Bx[T],By[T],Bz[T],dF[T]"


def load():
    """The three calls. Without argtypes a length would be passed as 32 bits."""
    library = ctypes.CDLL(LIBRARY)
    words, doubles = ctypes.POINTER(ctypes.c_uint32), ctypes.POINTER(ctypes.c_double)
    check, station, row = library.physica_check_sheet, library.physica_sheet_station, library.physica_sheet_row
    check.argtypes, check.restype = [ctypes.c_char_p, ctypes.c_size_t, words, words], ctypes.c_uint32
    station.argtypes, station.restype = [ctypes.c_char_p, ctypes.c_size_t, ctypes.c_size_t, doubles], ctypes.c_size_t
    row.argtypes, row.restype = station.argtypes, ctypes.c_size_t
    return check, station, row


def in_own_thread(call, *arguments):
    """What the call returns, in a thread whose stack is large enough wherever this one's is not."""
    threading.stack_size(STACK)
    with ThreadPoolExecutor(1) as thread:
        return thread.submit(call, *arguments).result()


def main(name):
    check, station, row = load()
    with open(name, "rb") as file:
        sheet = file.read()
    found, values = (ctypes.c_uint32 * 2)(), (ctypes.c_uint32 * 2)()
    number = in_own_thread(check, sheet, len(sheet), found, values)
    if number != 0:
        print(refusal_text(number, values))
        return 1
    print("accepted %d %d" % (found[0], found[1]))
    print(NAMES)
    place, numbers = (ctypes.c_double * 3)(), (ctypes.c_double * 8)()
    for i in range(found[1]):
        station(sheet, len(sheet), i, place)
        row(sheet, len(sheet), i, numbers)
        print(i, *("%.16e" % x for x in (*place, *numbers)), sep=",")
    return 0


if __name__ == "__main__":
    if len(sys.argv) != 2:
        sys.exit(__doc__)
    try:
        sys.exit(main(sys.argv[1]))
    except OSError as error:
        print(error, file=sys.stderr)
        sys.exit(2)
