#!/usr/bin/env bash
# Compares the proved library with the unchanged Rust: whole runs, with draws and by a seed; the statistics, the intake check and the counts of
# draws. Runs it on a small stack; times both sides (`time-seeds` alone the runs by a seed, which `time` has last); counts their instructions;
# records runs of the Rust; compares the cases of `test_examples` with the Rust; and compares what the grouping program prints.
#   SOURCES=dir bash harness/grouping/run.sh runs [SEED] [BOOKS]
#   SOURCES=dir bash harness/grouping/run.sh statistics [SEED] [CALLS]
#   SOURCES=dir bash harness/grouping/run.sh stack [KIB]
#   SOURCES=dir bash harness/grouping/run.sh time [RUNS]
#   SOURCES=dir bash harness/grouping/run.sh time-seeds [RUNS]
#   SOURCES=dir bash harness/grouping/run.sh count [NAMES]
#   SOURCES=dir bash harness/grouping/run.sh record > crates/test_runs/stdin
#   SOURCES=dir bash harness/grouping/run.sh record-kinds > crates/test_runs/kinds.txt
#   SOURCES=dir bash harness/grouping/run.sh record-seeds > crates/test_seeds/stdin
#   SOURCES=dir bash harness/grouping/run.sh record-seed-kinds > crates/test_seeds/kinds.txt
#   SOURCES=dir bash harness/grouping/run.sh vectors
#   SOURCES=dir bash harness/grouping/run.sh texts [SEED] [TEXTS]
#   SOURCES=dir bash harness/grouping/run.sh record-texts > crates/test_texts/stdin
# SOURCES names the folder with the Rust's onc.rs; VENDOR a folder of vendored crates (harness/oracle/README.md).
# WORK is where all is built (target/harness); LIBRARIES the archives to link instead of those that `rt lib` writes of `exports`,
# `exports_statistics` and `harness_exports`; PROGRAM the grouping program to run instead of the one that `rt run` builds in crates/grouping.
# `count` takes valgrind.
set -euo pipefail
case ${1:-} in runs | statistics | stack | time | time-seeds | count | record | record-kinds | record-seeds | record-seed-kinds | vectors | texts | record-texts) ;; *) sed -n '2,21s/^# //p' "$0" && exit 2 ;; esac
cd "$(dirname "${BASH_SOURCE[0]}")/../.."
work=${WORK:-target/harness}
mkdir -p "$work"
work=$(cd "$work" && pwd)
rm -rf "$work/grouping/src"
cp -Rp harness/oracle harness/kmeans harness/grouping "$work"
export CARGO_TARGET_DIR=$work/build
"$work/oracle/build.sh" >&2
build() {
  (cd "$work/oracle" && cargo build -q --release --manifest-path "$work/grouping/Cargo.toml" --bin "$1" >&2)
}
case $1 in
  record | record-kinds | record-seeds | record-seed-kinds)
    build record
    exec "$work/build/release/record" ${1#record-}
    ;;
  vectors)
    build vectors
    exec "$work/build/release/vectors" < crates/test_examples/stdin
    ;;
  texts | record-texts)
    build texts
    if [ "$1" = texts ] && [ -z "${PROGRAM:-}" ]; then
      (cd crates/grouping && rt run <stdin >&2)
      PROGRAM=$PWD/crates/grouping/out/grouping
    fi
    export PROGRAM
    exec "$work/build/release/texts" "$@"
    ;;
esac
if [ -z "${LIBRARIES:-}" ]; then
  LIBRARIES=
  for crate in exports exports_statistics harness_exports; do
    (cd crates/$crate && rt lib >&2)
    LIBRARIES="$LIBRARIES $PWD/crates/$crate/out/lib$crate.a"
  done
fi
export LIBRARIES
build compare
if [ "$1" != count ]; then
  exec "$work/build/release/compare" "$@"
fi
# one side on one phase or a whole run: what runs inside the function `counted`
instructions() {
  valgrind -q --tool=callgrind --toggle-collect=counted --callgrind-out-file="$work/callgrind.$1" "$work/build/release/compare" count "$@"
  sed -n 's/^summary: *//p' "$work/callgrind.$1"
}
echo "| ${2:-50} names | Rust | library | ratio |"
echo "|---|---|---|---|"
for what in distances seeding Lloyd silhouettes "whole run"; do
  rust=$(instructions rust "$what" "${2:-50}")
  library=$(instructions library "$what" "${2:-50}")
  echo "| $what | $rust | $library | $(awk "BEGIN { printf \"%.1f\", $rust / $library }") |"
done
echo
echo "The library's functions in a whole run, each without those that it calls, under its callers:"
callgrind_annotate --tree=caller --threshold=98 "$work/callgrind.library" | sed -n 's/^ *\([0-9,]* ([ 0-9.]*%)  [<*]\) *[^: ]*:\(.*\) \[.*$/\1 \2/p'
