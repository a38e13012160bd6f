#!/bin/sh
# build.sh: builds the C programs, the shared library that the Python programs load, and the C++ program, into target/examples. After `sh tools/library.sh`.
set -e
cd "$(dirname "$0")/.."
library=target/staticlib/libphysica.a
out=target/examples
flags="-O2 -Wall -Wextra -pedantic -Iinclude"
if [ ! -e $library ]; then
    echo "$library is not there: run \`sh tools/library.sh\`" >&2
    exit 1
fi
mkdir -p $out
for name in check_sheet body_sheet make_sheets read_obj; do
    cc -std=c99 $flags -o $out/$name examples/$name.c $library
done
cc -shared -o $out/libphysica.so -Wl,--whole-archive $library -Wl,--no-whole-archive
c++ -std=c++11 $flags -o $out/version examples/version.cc $library
