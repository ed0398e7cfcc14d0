#!/usr/bin/env bash
# A program that lets a change order lapse, and one that spends it twice, must not compile. Each is made from a program
# that does, by one change of its text, and the compiler's own error is compared.
set -euo pipefail
cd "$(dirname "$0")/.."
work=$(mktemp -d)
trap 'rm -rf "$work"' EXIT

tar --exclude=out -cf - crates.txt crates | tar -xf - -C "$work"
mkdir -p "$work/crates/misuse/src"
echo 'misuse: block multiplier cipher mode seal telegram station' >> "$work/crates.txt"
program=$work/crates/misuse/src/lib.rt

# compiles NAME: what `rt check` says of the program as it stands
compiles() {
    (cd "$work/crates/misuse" && rt check) > "$work/$1.log" 2>&1
}

# refused NAME ERROR OLD NEW: with NEW for OLD the compiler gives that error, and no other
refused() {
    local text
    text=$(cat tests/misuse/declined.txt)
    [[ $text == *"$3"* ]] || { echo "misuse: $1: the program has no such text"; exit 1; }
    printf '%s\n' "${text/"$3"/"$4"}" > "$program"
    if compiles "$1"; then
        echo "misuse: $1: compiled"
        exit 1
    fi
    if [ "$(grep -o 'error\[[a-z0-9-]*\]' "$work/$1.log" | sort -u)" != "error[$2]" ]; then
        echo "misuse: $1: refused for another reason"
        head -n 20 "$work/$1.log"
        exit 1
    fi
    echo "misuse: $1: refused with error[$2]"
}

cp tests/misuse/declined.txt "$program"
if ! compiles declined || ! grep -q '^logic=proved' "$work/declined.log"; then
    echo "misuse: the program is not proved as it stands"
    tail -n 20 "$work/declined.log"
    exit 1
fi
echo "misuse: an order that is declined: proved"
refused 'an order that lapses' linear-value-let-go 'let spent = station.decline(order);' 'let spent = Ok(());'
refused 'an order that is spent twice' borrow-e0382 'let spent = station.decline(order);' \
    'let spent = match station.decline(order) { Ok(()) => station.decline(order), Err(back) => Err(back) };'
