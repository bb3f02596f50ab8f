#!/usr/bin/env bash
# Builds the library and tests it from C, Rust and Python, runs once what of the harness the gate does not test, and runs the commands of README.md
# and docs/CALLS.md; the last line says that all passed.
#   bash bindings/test.sh
# LIBRARY names an archive with all the functions, to use instead of the one that bindings/build.sh makes; CC the C compiler (cc); PYTHON the
# interpreter (python3).
set -euo pipefail
cd "$(dirname "${BASH_SOURCE[0]}")/.."
bash bindings/build.sh
archive=${LIBRARY:-target/lib/libonc.a}
archive=$(cd "$(dirname "$archive")" && pwd)/$(basename "$archive")
shared=$PWD/target/lib/libonc.so
work=$(mktemp -d)
trap 'rm -rf "$work"' EXIT

fail() {
  echo "test.sh: $1" >&2
  exit 1
}

# Runs a command, whose output must be what stands on standard input.
prints() {
  cat >"$work/expected"
  "$@" >"$work/printed" || fail "$1 ended with status $?"
  diff "$work/expected" "$work/printed" || fail "$1 printed something else"
}

echo "== the shared object"
declared=$(grep -o 'onc_[a-z_]*(' include/onc.h | tr -d '(' | sort -u)
shown=$(nm -D --defined-only "$shared" | awk '{ print $NF }' | sort)
[ "$declared" = "$shown" ] || fail "libonc.so shows other functions than include/onc.h declares: $shown"
echo "$shown"
# an add-in host gives four libraries together 16 KiB for read-only data
constants=$(size -A "$shared" | awk '$1 ~ /^\.(rodata|data\.rel\.ro)/ { bytes += $2 } END { print bytes + 0 }')
[ "$constants" -le 4096 ] || fail "libonc.so has $constants bytes of read-only data, over 4096"
echo "read-only data: $constants bytes"

# what a program that is linked without the C library has to supply
needed=$(nm -u "$archive" | awk '$1 == "U" { print $2 }' | sort -u)
others=$(echo "$needed" | grep -vx -e memcpy -e memset || true)
[ -z "$others" ] || fail "the archive takes other names from outside than memcpy and memset: $others"
echo "from outside:" $needed

echo "== C"
compile() {
  "${CC:-cc}" -std=c99 -pedantic -Wall -Wextra -Werror -Iinclude -o "$work/$(basename "$1" .c)" "$@"
}
compile bindings/c/example.c "$archive"
prints "$work/example" <<END
names 4 groups 2 draws 10
0 0 1 1
3fe5badbd0cf64da 3fe5badbd0cf64da 3fe5badbd0cf64da 3fe5badbd0cf64da
END
compile bindings/c/test.c "$archive"
"$work/test"
compile bindings/c/test.c "$shared"
LD_LIBRARY_PATH=$(dirname "$shared") "$work/test"

echo "== Rust"
export CARGO_TARGET_DIR=$PWD/target/bindings CARGO_NET_OFFLINE=true
cd bindings/rust
if ONC_LIBRARY=$work/none.a cargo build -q 2>"$work/printed"; then
  fail "the crate was built without an archive"
fi
grep -q "none.a is not there: run \`bash bindings/build.sh\`" "$work/printed" || fail "a missing archive is not told"
export ONC_LIBRARY=$archive
cargo test -q
prints cargo run -q --example grouping <<END
names 4 groups 2 draws 10
group 0: A 0.679, B 0.679
group 1: C 0.679, D 0.679
END
prints cargo run -q --example statistics <<END
mean Some(5.0)
variance Some(4.0)
standard deviation Some(2.0)
mean of nothing None
mean of 65,537 values: refused 4: over 256 rows, over 64 repeats, or an average of over 65,536 values
END
prints cargo run -q --example intake <<END
proper: proper
a slip: refused 23: the cell in row 0, column 1 is unlike its mirror
a percentage: refused 21: the cell in row 0, column 1 is outside -1,000,000 to 1,000,000
END
cd ../..

echo "== Python"
export ONC_LIBRARY=$shared
(cd bindings/python && "${PYTHON:-python3}" -m unittest)

echo "== the harness"
(cd crates/harness_exports && rt lib >&2)
exported=$(nm --defined-only crates/harness_exports/out/libharness_exports.a | awk '$2 == "T" && $3 ~ /^onc_/ { print $3 }' | sort)
called=$(sed -n '/^int main/,$p' harness/exports.c | sed 's/"[^"]*"//g' | grep -o 'onc_[a-z_]*(' | tr -d '(' | sort -u)
[ "$called" = "$exported" ] || fail "harness/exports.c calls other functions than harness_exports has: $exported"
compile harness/exports.c crates/harness_exports/out/libharness_exports.a -lm
"$work/exports"
(cd crates/text_written && rt check >&2)
"${PYTHON:-python3}" harness/modules.py text_written >"$work/printed" || fail "harness/modules.py ended with status $?"
# the loading, then a line for each module, then one for each function
awk '
  NR == 1 && /^ *[0-9]+\.[0-9][0-9]  loading/ { loading++ }
  /^by function$/ { by++ }
  /^ *[0-9]+\.[0-9][0-9]  (Rattle-text_written|text_written::)/ { if (by) functions++; else modules++ }
  END { exit !(loading && modules && by == 1 && functions) }
' "$work/printed" || { cat "$work/printed"; fail "harness/modules.py printed something else"; }
echo "harness/modules.py: $(wc -l <"$work/printed") lines on text_written"
cat >"$work/gate.log" <<END
== sqrt
fn sqrt::sqrt: proved
rt: sqrt proved
rt: lists is kept: an earlier run on this machine proved the same files over the same libraries
rt: sqrt: trying its must-fail edits (3)
rt: must-fail lists/above_the_limit.edit: refused, as it must be: ./proofs/first_from/Answers.antt:14:74: error: ..
rt: must-fail sqrt/cut_not_rounded.edit: refused, as it must be: ./proofs/rounded_by_digits/Answers.antt:6:13: error: ..
rt: must-fail sqrt/exact_test_not_strict.edit: refused, as it must be: ./proofs/settled/Answers.antt:18:5: error: ..
rt: must-fail sqrt/zero_for_a_negative.edit: BAD EDIT: an 'old:' text is in src/lib.rt 0 times, and not once
rt: test_limits NOT PROVED
rt: FAILED: test_limits
6 passed, 1 failed
END
gate_table() {
  "${PYTHON:-python3}" harness/gate.py <"$work/gate.log"
}
prints gate_table <<END
| Crate | Proof | Edits refused | Edits else |
|---|---|---|---|
| sqrt | proved | 2 | 1 |
| lists | kept | 1 | 0 |
| test_limits | NOT PROVED | 0 | 0 |
| all | 2 of 3 | 3 | 1 |
must-fail sqrt/zero_for_a_negative.edit: BAD EDIT: an 'old:' text is in src/lib.rt 0 times, and not once
test_limits NOT PROVED
FAILED: test_limits
6 passed, 1 failed
END
echo "harness/gate.py: the table is as expected"

echo "== the commands of README.md and docs/CALLS.md"
env -u ONC_LIBRARY -u LIBRARY "${PYTHON:-python3}" bindings/snippets.py README.md docs/CALLS.md

echo "C, Rust and Python: all passed"
