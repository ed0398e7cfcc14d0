#!/usr/bin/env bash
# Runs linkbench over the vectors and over sample lines, and compares.
set -euo pipefail
cd "$(dirname "$0")/.."

linkbench=./linkbench
vectors=tests/vectors/hbs.txt
work=$(mktemp -d)
trap 'rm -rf "$work"' EXIT

# same WHAT EXPECTED: standard input is EXPECTED, and not empty.
same() {
    cat > "$work/answers"
    if [ ! -s "$work/answers" ] || ! diff "$2" "$work/answers" > "$work/diff"; then
        echo "linkbench: $1: expected (<) and answered (>)"
        cut -c1-200 "$work/diff"
        exit 1
    fi
    echo "linkbench: $1: $(wc -l < "$2") lines as expected"
}

# The messages of an independent sealer: ours seals to the same, opens theirs, and refuses them damaged.
for cipher in aes128 bench wide-xtea wide-speck64128; do
    grep "^$cipher " "$vectors" > "$work/lines"
    for multiplier in doubling table; do
        awk '{ print "accepted", $5, $6 }' "$work/lines" > "$work/expected"
        awk '{ print $2, $3, $4 }' "$work/lines" | "$linkbench" wrap "$cipher" "$multiplier" |
            same "wrap $cipher $multiplier" "$work/expected"
        awk '{ print "accepted", $4 }' "$work/lines" > "$work/expected"
        awk '{ print $2, $3, $5, $6 }' "$work/lines" | "$linkbench" unwrap "$cipher" "$multiplier" |
            same "unwrap $cipher $multiplier" "$work/expected"
        sed 's/.*/refused 14 seal: tag and text do not belong together under this key and header/' "$work/lines" > "$work/expected"
        awk '{ t = $5; d = substr(t, 1, 1); sub(/^./, d == "0" ? "1" : "0", t); print $2, $3, t, $6 }' "$work/lines" |
            "$linkbench" unwrap "$cipher" "$multiplier" | same "unwrap $cipher $multiplier, tags damaged" "$work/expected"
    done
done

# Lines that are refused or malformed, among others that are not.
for task in wrap unwrap; do
    "$linkbench" "$task" bench doubling < "tests/linkbench/$task.in" | same "$task, sample lines" "tests/linkbench/$task.out"
done

# Telegrams in words, the known one and others that are refused.
while read -r telegram; do
    "$linkbench" fields "$telegram"
done < tests/linkbench/fields.in | same "fields, sample telegrams" tests/linkbench/fields.out

# A name that is not known ends the program with an error.
if "$linkbench" wrap nothing doubling < /dev/null 2> "$work/error"; then
    echo "linkbench: took an unknown cipher"
    exit 1
fi
grep -q usage "$work/error"
