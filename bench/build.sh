#!/bin/sh
# build.sh SOURCE TARGET: build the oracle in TARGET (oracle/build.sh), then the benchmark beside it: TARGET/target/timed/bench.
# It links target/staticlib/libwozhnerk.a, or the library that LIBRARY names. Without overflow checks, as a release build of
# cargo is by default: the oracle keeps them.
set -eu
[ $# = 2 ] || { echo "usage: $0 SOURCE TARGET" >&2; exit 2; }
here=$(cd "$(dirname "$0")" && pwd)
"$here/../oracle/build.sh" "$1" "$2"
target=$(cd "$2" && pwd)
mkdir -p "$target/library"
cp "${LIBRARY:-$here/../target/staticlib/libwozhnerk.a}" "$target/library/libwozhnerk.a"
cp "$here/bench.rs" "$target/src/"
cat >> "$target/Cargo.toml" <<'END'

[[bin]]
name = "bench"
path = "src/bench.rs"

[profile.timed]
inherits = "release"
overflow-checks = false
END
cd "$target"
RUSTC_BOOTSTRAP=1 cargo rustc --profile timed --offline --bin bench -- -L "native=$target/library"
