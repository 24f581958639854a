#!/usr/bin/env bash
# Builds the archive, target/staticlib/liboam.a. By itself it proves what has changed since the last time, by `rt lib`. With the word
# "proved" it builds over the libraries that `rt ci` has just left, and proves `oam_c` alone once more: only right after `rt ci`, in a
# clean copy, where they are those of the text. (`rt ci` proves `oam_c` and builds nothing of it, and `rt lib` would prove every
# library below it again.)
set -euo pipefail
cd "$(dirname "$0")/.."
. tests/kit.sh
log=$(mktemp)
trap 'rm -f "$log"' EXIT

build=(rt lib)
if [ "${1:-}" = proved ]; then
  mapfile -t words < <(words oam_c proved)
  build=("$kit/bin/rattle" build "${words[@]}" --links oam_c= --crate-type staticlib --jobs "$(nproc)" --toolchain "$kit/toolchain" --backend llvm -o out/liboam_c.a)
fi
cd crates/oam_c
mkdir -p out
rm -f out/liboam_c.a
"${build[@]}" > "$log" 2>&1 || { cat "$log"; echo "archive: crates/oam_c is not built"; exit 1; }
[ -s out/liboam_c.a ] || { cat "$log"; echo "archive: no out/liboam_c.a: is oam_c a static library in crates.txt?"; exit 1; }
mkdir -p ../../target/staticlib
cp out/liboam_c.a ../../target/staticlib/liboam.a
