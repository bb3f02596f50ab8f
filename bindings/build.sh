#!/usr/bin/env bash
# Builds the library for C, Rust and Python: the two archives by `rt lib` in crates/exports_statistics and crates/exports, of both the
# static archive target/lib/libonc.a, and from it the shared object target/lib/libonc.so, which shows the onc_ functions alone. Prints
# where the last two are.
#   bash bindings/build.sh
# LIBRARY names an archive with all the functions, to use instead of the one made of what rt writes; CC the C compiler that links (cc); AR the
# archiver (ar).
set -euo pipefail
root=$(cd "$(dirname "${BASH_SOURCE[0]}")/.." && pwd)
mkdir -p "$root/target/lib"
archive=${LIBRARY:-}
if [ -n "$archive" ]; then
  [ -f "$archive" ] || { echo "build.sh: LIBRARY names $archive, which is no file" >&2; exit 2; }
  archive=$(cd "$(dirname "$archive")" && pwd)/$(basename "$archive")
else
  for crate in exports_statistics exports; do
    (cd "$root/crates/$crate" && rt lib >&2)
  done
  archive=$root/target/lib/libonc.a
  # each archive has one object, named for its crate
  work=$(mktemp -d)
  trap 'rm -rf "$work"' EXIT
  (cd "$work" && for crate in exports_statistics exports; do "${AR:-ar}" x "$root/crates/$crate/out/lib$crate.a" "$crate.o"; done)
  "${AR:-ar}" rcs "$work/libonc.a" "$work/exports_statistics.o" "$work/exports.o"
  mv "$work/libonc.a" "$archive"
fi
shared=$root/target/lib/libonc.so
# The archive is position independent. No symbol may be left open (-z defs), and none but onc_* be seen (onc.map).
"${CC:-cc}" -shared -o "$shared.new" -Wl,-soname,libonc.so -Wl,-z,defs -Wl,-z,noexecstack \
  -Wl,--version-script="$root/bindings/onc.map" -Wl,--whole-archive "$archive" -Wl,--no-whole-archive
mv "$shared.new" "$shared"
echo "static archive: $archive"
echo "shared object: $shared"
