#!/usr/bin/env bash
# Builds the tests in C against the library's archive and runs them, plain and under the sanitizers.
#   tests/c.sh [ARCHIVE [MORE TO LINK...]]
set -euo pipefail

archive=$(realpath -m "${1:-$(dirname "$0")/../crates/seal_c/out/libseal_c.a}")
more=("${@:2}")
made=$#
cd "$(dirname "$0")/.."
work=$(mktemp -d)
trap 'rm -rf "$work"' EXIT
if [ "$made" = 0 ] && ! (cd crates/seal_c && rt lib) > "$work/log" 2>&1; then
    tail -n 20 "$work/log"
    exit 1
fi

sources=(tests/c/main.c tests/c/{check,fenced,call,random,hex}.c tests/c/reference_{aes,hbs}.c tests/c/test_*.c)
flags=(-std=c11 -Wall -Wextra -Wpedantic -Werror -Iinclude)

# part NAME ROUNDS FLAGS...
part() {
    local name=$1 rounds=$2
    shift 2
    if ! gcc "${flags[@]}" "$@" "${sources[@]}" "$archive" "${more[@]}" -o "$work/$name"; then
        echo "c: $name: does not build"
        exit 1
    fi
    if ! timeout 300 "$work/$name" tests/vectors/hbs.txt "$rounds"; then
        echo "c: $name: failed"
        exit 1
    fi
    echo "c: $name: passed"
}

gcc "${flags[@]}" -fsyntax-only -x c include/yotskheni.h
echo "c: the header stands alone"
part plain 4000 -O2
part sanitized 1000 -O2 -g -fsanitize=address,undefined -fno-sanitize-recover=all
