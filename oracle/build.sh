#!/bin/sh
# build.sh SOURCE TARGET: lay the published Rust (SOURCE/prover/src) byte for byte beside the stand-ins, in TARGET, and
# build the oracle there: TARGET/target/release/oracle. box_patterns needs RUSTC_BOOTSTRAP=1 on a stable compiler.
set -eu
[ $# = 2 ] || { echo "usage: $0 SOURCE TARGET" >&2; exit 2; }
here=$(cd "$(dirname "$0")" && pwd)
source=$(cd "$1" && pwd)
mkdir -p "$2"
target=$(cd "$2" && pwd)
rm -rf "$target/src" "$target/crates"
cp -r "$here/Cargo.toml" "$here/Cargo.lock" "$here/src" "$here/crates" "$target/"
cd "$source/prover/src"
find . -name '*.rs' | while read -r f; do
    mkdir -p "$target/src/$(dirname "$f")"
    if [ -e "$target/src/$f" ]; then echo "a stand-in has the name of the published $f" >&2; exit 1; fi
    cp "$f" "$target/src/$f"
done
cd "$target"
RUSTC_BOOTSTRAP=1 cargo build --release --offline
