#!/bin/sh
# run.sh OUT NAME [WORD..]: builds the driver NAME.rs over the static library of crate test_exports into OUT, and runs it. Run it at the repository's root.
set -e
here=$(cd "$(dirname "$0")" && pwd)
out=${1:?usage: run.sh OUT NAME [WORD..]}
name=${2:?usage: run.sh OUT NAME [WORD..]}
shift 2
mkdir -p "$out"
rt staticlib test_exports
rustc --edition 2024 -O -L target/staticlib -o "$out/$name" "$here/$name.rs"
"$out/$name" "$@"
