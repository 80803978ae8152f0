#!/bin/sh
# Stores and the eviction heap at 1,024 places, beside plain Rust: what both compute must agree; the times are on standard error.
set -eu
cd "$(dirname "$0")/.."
rounds=${1:-100}
(cd crates/measure && rt run) >/dev/null 2>&1 || { echo "rt run failed in crates/measure" >&2; exit 1; }
scratch=$(mktemp -d)
trap 'rm -rf "$scratch"' EXIT
rustc -O bench/stores.rs -o "$scratch/stores" 2>/dev/null
echo "proved" >&2
crates/measure/out/measure "$rounds" > "$scratch/proved"
echo "plain Rust" >&2
"$scratch/stores" "$rounds" > "$scratch/plain"
cmp "$scratch/proved" "$scratch/plain" && echo "both computed the same"
