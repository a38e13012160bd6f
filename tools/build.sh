#!/bin/sh
# build.sh OUT REFERENCE LIBRARY: builds OUT/compare and OUT/bench with rustc alone. REFERENCE is the folder that reference/build.sh filled, LIBRARY the
# folder with libphysica.a (target/staticlib after `sh tools/library.sh`).
set -e
here=$(cd "$(dirname "$0")" && pwd)
usage="usage: build.sh OUT REFERENCE LIBRARY"
out=${1:?$usage}
ref=${2:?$usage}/lib-release
lib=${3:?$usage}
mkdir -p "$out"
r="rustc --edition 2021 -C opt-level=3 -L $ref -L $out -L native=$lib --out-dir $out"
$r --crate-type rlib --crate-name physica "$here/../rust/src/lib.rs"
$r --crate-type rlib --crate-name both --extern physica="$out/libphysica.rlib" --extern standin="$ref/libstandin.rlib" \
    --extern geopotential="$ref/libgeopotential.rlib" --extern magnetics="$ref/libmagnetics.rlib" "$here/src/both.rs"
for name in compare bench; do
    $r --crate-type bin --crate-name $name --extern both="$out/libboth.rlib" --extern physica="$out/libphysica.rlib" --extern standin="$ref/libstandin.rlib" \
        --extern geopotential="$ref/libgeopotential.rlib" --extern magnetics="$ref/libmagnetics.rlib" "$here/src/$name.rs"
done
