#!/bin/sh
# test.sh OBJECT: builds the wrapper against the object, or the static library, that has the calls; runs its tests and its example.
set -eu
[ $# -eq 1 ] || { echo "usage: test.sh OBJECT (the object file or the static library that tools/library writes)" >&2; exit 2; }
case $1 in /*) object=$1 ;; *) object=$PWD/$1 ;; esac
cd "$(dirname "$0")"
room=$(mktemp -d)
trap 'rm -rf "$room"' EXIT
export BBQVEC_OBJECT="$object" CARGO_TARGET_DIR="${CARGO_TARGET_DIR:-$room/target}"
cargo test --offline --quiet
cargo run --offline --quiet --example worked >"$room/worked.out"
cmp "$room/worked.out" examples/worked.out
echo "rust: tests and example pass"
