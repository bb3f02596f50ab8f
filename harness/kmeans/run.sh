#!/usr/bin/env bash
# Compares the proved k-means leaves with the unchanged Rust, times both, or records cases of the Rust.
#   SOURCES=dir bash harness/kmeans/run.sh calls [SEED] [CALLS]
#   SOURCES=dir bash harness/kmeans/run.sh time [RUNS]
#   SOURCES=dir bash harness/kmeans/run.sh record > crates/test_kmeans/stdin
# SOURCES names the folder with the Rust's onc.rs; VENDOR a folder of vendored crates (harness/oracle/README.md).
# WORK is where all is built (target/harness); LIBRARIES the archive to link instead of the one that `rt lib` writes in crates/harness_exports.
set -euo pipefail
case ${1:-} in calls | time | record) ;; *) sed -n '2,7s/^# //p' "$0" && exit 2 ;; esac
cd "$(dirname "${BASH_SOURCE[0]}")/../.."
work=${WORK:-target/harness}
mkdir -p "$work"
work=$(cd "$work" && pwd)
cp -Rp harness/oracle harness/kmeans "$work"
export CARGO_TARGET_DIR=$work/build
"$work/oracle/build.sh" >&2
build() {
  (cd "$work/oracle" && cargo build -q --release --manifest-path "$work/kmeans/Cargo.toml" --bin "$1" >&2)
}
if [ "${1:-}" = record ]; then
  build record
  exec "$work/build/release/record"
fi
if [ -z "${LIBRARIES:-}" ]; then
  (cd crates/harness_exports && rt lib >&2)
  LIBRARIES="$PWD/crates/harness_exports/out/libharness_exports.a"
fi
export LIBRARIES
build compare
exec "$work/build/release/compare" "$@"
