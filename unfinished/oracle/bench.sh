#!/usr/bin/env bash
# Times the port against the crate, on the same pages in one run.
#
#     oracle/bench.sh OUT
#
# OUT is the folder that assemble.py wrote. Run it in the root of the repository. It proves the crate `timing` and writes
# it as a static library, builds the oracle as a library, and links both to oracle/bench.rs.
set -euo pipefail
out=$1
rt staticlib timing > "$out/staticlib.log"
cargo build --quiet --release --offline --manifest-path "$out/Cargo.toml"
rustc -O --edition 2021 oracle/bench.rs -o "$out/bench" --extern oracle="$out/target/release/liboracle.rlib" \
    -L target/staticlib -L "$(dirname "$(dirname "$(rt doc)")")/lib" -l static=timing -l static=rattle_c
"$out/bench"
