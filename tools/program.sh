#!/bin/sh
# program.sh NAME: proves the program and what it rests on, and builds it: target/bin/NAME. At the repository's root.
# What an earlier run built is taken away first, so that a program that does not prove leaves none.
set -e
built=crates/$1/out/$1
rm -f "$built" "target/bin/$1"
(cd "crates/$1" && rt run < /dev/null) 2>&1 | grep -E '^logic=|error|not proved' || true
[ -e "$built" ] || { echo "$1 was not proved, or not built: rt check in crates/$1 says why" >&2; exit 1; }
mkdir -p target/bin
cp "$built" "target/bin/$1"
echo "target/bin/$1"
