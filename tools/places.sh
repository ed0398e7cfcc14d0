#!/bin/bash
# Lists where src/ may still be written in an older way, point by point (docs/DESIGN-PASS.md), and counts the hits.
# A hit is a place to look at; the page says what became of it.
cd "$(dirname "$0")/.." || exit 1

hits() {
    local what=$1
    shift
    local found
    found=$("$@")
    [ -n "${VERBOSE:-}" ] && printf '%s\n' "$found"
    printf '%s: %s\n' "$what" "$(printf '%s' "$found" | grep -c '')"
}

lines() { grep -nE "$1" crates/*/src/*.rt | grep -vE '^[^:]*:[0-9]+: *//'; }

hits '1 enums' lines '\benum '
hits '1 numbers with a name' lines 'struct \w+\((pub )?u(8|16|32|64)\)'
hits '1 yes or no as an answer' lines '\-> (anyhow::Result<|Result<)?\(?(\w+, )?bool\b'
hits '1 flags' lines '^\s+(pub(\(crate\))? )?\w+: bool\b|[(,] ?\w+: bool\b'
hits '1 numbers as answers' lines '^\s+(return )?[0-9]+;?$|fn number\('
hits '2 twins' sh -c 'python3 tools/twins.py | head -n -1'
hits '3 loops' lines '^\s*(for|while|loop)\b.*\{$'
hits '4 impls of what can be derived or converted' lines '^impl.* (PartialEq|Eq|PartialOrd|Ord|Clone|Copy|From|Drop|Display|FromStr|TryFrom)(<.*>)? for |^impl.* fmt::Display for '
hits '4 conversions by a name' lines 'fn (from|to|into|as)_\w+|fn (named|words|number|read_\w+|parse)\b|fn (serial_of|length_of|length_bytes|halves|split|join|key_words|row_[0-3])\b'
hits '5 facts asked for' lines '\brequires\b'
hits '5 a cipher and a multiplier side by side' lines '^\s+multiplier: &(mut )?M,|multiplier: &mut M, key'
hits '5 a header as an option, spelled out' lines 'option_map \(λ x\. x\.now\)'
hits '5 the same watch, spelled out' lines 'ghost_name'
hits '6 lengths and counts beside bytes' lines '^\s+(pub(\(crate\))? )?(\w+_len|count|start|end): usize'
hits '6 arrays held' lines '^\s+(pub(\(crate\))? )?\w+: \[\w+; [0-9A-Z_]+\],'
hits '7 switches' lines 'match (call|self\.call|self\.multiplier|name) |\bkey: bool|\bdyn\b|impl Fn'
hits '8 files of answers and invariants' find crates -path '*/proofs/*' ! -path '*/out/*' \( -name Answers.antt -o -name Invariants.antt \)
hits '8 lines of them' sh -c "find crates -path '*/proofs/*' ! -path '*/out/*' \( -name Answers.antt -o -name Invariants.antt \) -exec cat {} +"
hits '8 lines of lemmas in proofs' sh -c "find crates -path '*/proofs/*' ! -path '*/out/*' -name '*.antt' ! -name Answers.antt ! -name Invariants.antt -exec cat {} +"
