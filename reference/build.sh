#!/bin/sh
# build.sh OUT SOURCE: builds the reference build with rustc alone into OUT: OUT/reference (optimised) and OUT/reference-debug (not).
# SOURCE is the folder with the published Rust, one file each as src--crates--CRATE--src--NAME.rs.txt.
set -e
here=$(cd "$(dirname "$0")" && pwd)
out=${1:?usage: build.sh OUT SOURCE}
source=${2:?usage: build.sh OUT SOURCE}
mkdir -p "$out"
python3 "$here/patch.py" "$source" "$out"
for mode in release debug; do
    [ $mode = debug ] && opt="-C opt-level=0 -C debug-assertions=on" || opt="-C opt-level=3"
    [ $mode = debug ] && name=reference-debug || name=reference
    lib=$out/lib-$mode
    mkdir -p "$lib"
    r="rustc --edition 2024 $opt -L $lib --out-dir $lib -A warnings"
    $r --crate-type rlib --crate-name standin "$here/standin/lib.rs"
    $r --crate-type rlib --crate-name geopotential --extern standin="$lib/libstandin.rlib" "$out/geopotential/lib.rs"
    $r --crate-type rlib --crate-name magnetics --extern standin="$lib/libstandin.rlib" --extern geopotential="$lib/libgeopotential.rlib" "$out/magnetics/lib.rs"
    $r --crate-type bin --crate-name reference --extern standin="$lib/libstandin.rlib" --extern geopotential="$lib/libgeopotential.rlib" --extern magnetics="$lib/libmagnetics.rlib" "$here/driver/main.rs"
    cp "$lib/reference" "$out/$name"
done
