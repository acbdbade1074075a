#!/usr/bin/env bash
# run [NAME..]: builds and runs the benchmarks bench/NAME.rattle, all of them where none is named. Each is a
# program over this repository's crates. It is built in a copy beside the repository (BENCH_HOME, or a folder
# below TMPDIR that is kept, so that a second run proves nothing anew), so the gate never reads it. What a
# proof of its function F needs beside it stands in bench/NAME.proofs/F/Invariants.
set -eu
top=$(cd "$(dirname "$0")/.." && pwd)
home=${BENCH_HOME:-${TMPDIR:-/tmp}/fuzzledge-bench}
mkdir -p "$home/crates"
cd "$top/bench"
if [ $# = 0 ]; then set -- *.rattle; set -- "${@%.rattle}"; fi
crates=$(sed -e 's/#.*//' -e 's/:.*//' -e '/^[[:space:]]*$/d' "$top/crates.txt")
for crate in $crates; do
  mkdir -p "$home/crates/$crate"
  (cd "$top/crates/$crate" && tar -cf - --exclude=must-fail .) | (cd "$home/crates/$crate" && tar -xf -)
done
{
  sed -e 's/#.*//' -e '/^[[:space:]]*$/d' "$top/crates.txt"
  for name in *.rattle; do sed -n 's/^\/\/ stands on: *//p' "$name" | sed "s/^/bench_${name%.rattle}: /"; done
} >"$home/crates.txt"
cp "$top/HANDLES" "$home/HANDLES"
[ -d "$home/.git" ] || git init -q "$home"
for name in *.rattle; do
  crate=$home/crates/bench_${name%.rattle}
  mkdir -p "$crate/src"
  cp "$name" "$crate/src/main.rt"
  if [ -d "${name%.rattle}.proofs" ]; then
    for function in "${name%.rattle}.proofs"/*; do
      mkdir -p "$crate/proofs/${function##*/}"
      cp "$function/Invariants" "$crate/proofs/${function##*/}/Invariants.antt"
    done
  fi
done
for name in "$@"; do
  echo "== $name"
  (cd "$home/crates/bench_$name" && "${RT:-rt}" run)
done
