#!/bin/sh
# Builds the unchanged Rust as the crate `openquant`, for a harness to depend on.
#   SOURCES=dir ./build.sh     dir holds onc.rs, util/stats.rs and util/exact_product.rs
#   VENDOR=dir                 a folder of vendored crates, used instead of cargo's registry
# The three files are copied byte for byte and compared, never edited.
set -eu
here=$(cd "$(dirname "$0")" && pwd)
: "${SOURCES:?SOURCES must name the folder with onc.rs and util/stats.rs}"
rm -rf "$here/.cargo"
if [ -n "${VENDOR:-}" ]; then
  mkdir "$here/.cargo"
  cat > "$here/.cargo/config.toml" <<END
[source.crates-io]
replace-with = "vendored"

[source.vendored]
directory = "$(cd "$VENDOR" && pwd)"
END
fi
for f in onc.rs util/stats.rs util/exact_product.rs; do
  cp "$SOURCES/$f" "$here/openquant/src/$f"
  cmp "$SOURCES/$f" "$here/openquant/src/$f"
done
cat "$here/openquant/src/onc.rs" "$here/openquant/leaf.rs.in" > "$here/openquant/src/onc_leaf.rs"
cd "$here" && cargo build --release
