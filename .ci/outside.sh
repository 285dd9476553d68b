#!/usr/bin/env bash
# Compares the proved library with the independent implementation in outside/ on random calls, faults and damage, for
# a number of seconds (30 if none is given). Proves and builds the library first.
set -eu
cd "$(dirname "$0")/.."
seconds=${1:-30}
log=$(mktemp)
trap 'rm -f "$log"' EXIT
if ! (cd crates/boundary && rt lib) >"$log" 2>&1; then
    tail -n 20 "$log"
    echo "the library boundary is not proved"
    exit 1
fi
cd outside
cargo build --release --offline --quiet --features boundary
./target/release/compare --seconds "$seconds"
