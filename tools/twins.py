"""Lists the pairs of functions in src/ whose words are nearly the same: candidates for one generic function."""
import difflib
import glob
import itertools
import re

FUNCTION = re.compile(
    r'^( *)(?:pub(?:\([a-z]+\))? )?(?:extern "C" )?fn (\w+)[^\n]*(?:\n(?!\1\}).*)*\n\1\}', re.M
)
ALIKE = 0.8
FEWEST_WORDS = 24


def functions():
    for path in sorted(glob.glob("crates/*/src/*.rt")):
        with open(path, encoding="utf-8") as file:
            text = file.read()
        for match in FUNCTION.finditer(text):
            words = re.findall(r"\w+|[^\s\w]", re.sub(r"//.*", "", match.group(0)))
            if len(words) >= FEWEST_WORDS:
                yield path[len("crates/") :], match.group(2), words


def likeness(one, other):
    matcher = difflib.SequenceMatcher(None, one, other, autojunk=False)
    if matcher.real_quick_ratio() < ALIKE or matcher.quick_ratio() < ALIKE:
        return 0
    return matcher.ratio()


def main():
    pairs = []
    for (path, name, words), (other_path, other, more) in itertools.combinations(functions(), 2):
        alike = likeness(words, more)
        if alike >= ALIKE:
            pairs.append((alike, f"{path} {name} | {other_path} {other}"))
    for alike, pair in sorted(pairs, reverse=True):
        print(f"{alike:.2f} {pair}")
    print(f"{len(pairs)} pairs")


main()
