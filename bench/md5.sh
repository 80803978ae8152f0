#!/bin/sh
# The speed of the proved MD5 beside plain C (gcc -O3) and md5sum.
set -eu
cd "$(dirname "$0")/.."
(cd crates/digest_c && rt lib) >/dev/null 2>&1 || { echo "rt lib failed in crates/digest_c" >&2; exit 1; }
scratch=$(mktemp -d)
trap 'rm -rf "$scratch"' EXIT
cp crates/digest_c/out/libdigest_c.a "$scratch/libdigest.a"
gcc -std=c11 -Wall -Wextra -O3 bench/md5.c bench/plain_md5.c "$scratch/libdigest.a" -o "$scratch/md5"
"$scratch/md5" "$scratch/octets"
