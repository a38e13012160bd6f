#!/bin/sh
# library.sh: proves physica and builds the static library of its calls, target/staticlib/libphysica.a (x86-64 Linux). At the repository's root.
# What an earlier run built is taken away first, so that a library that does not prove leaves none.
set -e
built=crates/physica/out/libphysica.a
rm -f $built target/staticlib/libphysica.a
(cd crates/physica && rt lib) 2>&1 | grep -E '^logic=|error|not proved' || true
[ -e $built ] || { echo "physica was not proved, or not built: rt check in crates/physica says why" >&2; exit 1; }
mkdir -p target/staticlib
cp $built target/staticlib/libphysica.a
echo target/staticlib/libphysica.a
