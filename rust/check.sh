#!/usr/bin/env bash
# Everything outside Rattle: makes the static library anew and the program picklist, then runs the
# tests of the Rust side and of the example in C against them. A tool that is missing, or a library
# or a program that was not made, fails.
set -euo pipefail
cd "$(dirname "$0")/.."

for tool in rt cargo cc; do
    command -v "$tool" > /dev/null || { echo "check.sh: $tool is missing" >&2; exit 1; }
done

# Only the library of this repository, made now, is to be linked.
unset WOODCROCK_LIBRARY
rm -f crates/woodcrock_c/out/libwoodcrock_c.a crates/picklist/out/picklist
(cd crates/woodcrock_c && rt lib)
(cd crates/picklist && rt run < /dev/null)

cd rust
cargo build --locked --offline --release --package differential
# Random cases beyond those of the tests, from a seed of their own; they take one core, and run beside
# the tests.
cargo run --locked --offline --release --package differential -- --seed 2 --cases 200000 &
random=$!
trap 'kill "$random" 2> /dev/null || true' EXIT
cargo test --locked --offline --workspace
wait "$random"
trap - EXIT
cargo run --locked --offline --release --package differential -- --seed 2 --picklist ../crates/picklist/out/picklist
