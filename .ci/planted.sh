#!/usr/bin/env bash
# Tries the planted bugs of .ci/planted: each is an edit of one crate (file, old, new), and the prover must refuse the
# crate with it. Not part of the gate, which tries the edits under crates/*/must-fail. Takes the names of crates, or all.
set -u
cd "$(dirname "$0")/.."
work=$(mktemp -d)
trap 'rm -rf "$work"' EXIT
[ $# -gt 0 ] || set -- $(ls .ci/planted)

# a copy of the repository whose only must-fail edits are the planted ones
cp crates.txt "$work/"
cp -r crates "$work/crates"
rm -rf "$work"/crates/*/out "$work"/crates/*/must-fail
for name in "$@"; do
    cp -r ".ci/planted/$name" "$work/crates/$name/must-fail"
done
cd "$work"
for name in "$@"; do
    (cd "crates/$name" && rt check) >log 2>&1 || { tail -n 5 log; exit 1; }
done
rt must-fail "$@"
