#!/usr/bin/env bash
# Builds the proved square root as a static library, compares it with C's sqrt and times it.
# Run from the repository's root: bash harness/roots/run.sh
set -euo pipefail
cd "$(dirname "${BASH_SOURCE[0]}")/../.."
(cd crates/harness_exports && rt lib)
work=$(mktemp -d)
trap 'rm -rf "$work"' EXIT
gcc -O2 -Wall -Wextra -o "$work/compare" harness/roots/compare.c crates/harness_exports/out/libharness_exports.a -lm
"$work/compare"
