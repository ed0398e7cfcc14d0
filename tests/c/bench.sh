#!/usr/bin/env bash
# Builds the measuring program against the library's archives and runs it. Not part of the gate.
set -euo pipefail
cd "$(dirname "$0")/../.."
work=$(mktemp -d)
trap 'rm -rf "$work"' EXIT

for crate in seal_c stream_c hash_c; do
    (cd "crates/$crate" && rt lib) > "$work/log" 2>&1 || { tail -n 20 "$work/log"; exit 1; }
done
gcc -std=c11 -Wall -Wextra -Wpedantic -Werror -O3 -Iinclude tests/c/bench.c tests/c/baseline_aes.c \
    crates/{seal_c/out/libseal_c,stream_c/out/libstream_c,hash_c/out/libhash_c}.a -o "$work/bench"
"$work/bench"
