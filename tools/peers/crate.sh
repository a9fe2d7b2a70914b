#!/usr/bin/env bash
# Builds OUT/crate, which asks the crate's own code (see driver.rs), and OUT/faults (see faults.rs).
#
# usage: tools/peers/crate.sh SRC OUT
#
# SRC is the directory src of zvariant_utils 4.2.0, with signature/{mod,child,fields,error}.rs and serialized.rs; a further
# ending .txt of the names is allowed. The files are compiled unchanged, with features gvariant and unix, against stand-ins
# of winnow and serde (standin/). Nothing is copied into the repository; OUT may be any directory outside of it.
set -eu
here=$(cd "$(dirname "$0")" && pwd)
src=$1
out=$2
mkdir -p "$out/src/signature"
for f in signature/mod.rs signature/child.rs signature/fields.rs signature/error.rs serialized.rs; do
    if [ -f "$src/$f" ]; then cp "$src/$f" "$out/src/$f"; else cp "$src/$f.txt" "$out/src/$f"; fi
done
printf 'pub mod serialized;\npub mod signature;\n' > "$out/src/lib.rs"
compile() { rustc --edition 2024 -O -A warnings --out-dir "$out" -L "$out" "$@"; }
compile --crate-type rlib --crate-name winnow "$here/standin/winnow.rs"
compile --crate-type rlib --crate-name serde "$here/standin/serde.rs"
compile --crate-type rlib --crate-name zvariant_utils --cfg 'feature="gvariant"' \
    --extern winnow --extern serde "$out/src/lib.rs"
compile --crate-name driver --extern zvariant_utils "$here/driver.rs"
compile --crate-name faults --extern zvariant_utils "$here/faults.rs"
mv "$out/driver" "$out/crate"
