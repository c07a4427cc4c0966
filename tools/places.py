#!/usr/bin/env python3
"""Lists the places in src/ that docs/DESIGN-PASS.md counts, by point: `tools/places.py [FOLDER] [-v]`.

Each point has patterns of text. What a pattern finds is a place to look at, not a fault: the page says of each what became of it.
"""
import glob
import os
import re
import sys

# Of each point: a name for the pattern, and the pattern. A pattern may span lines; a place is where it begins.
POINTS = [
    ("1 own enums, flags and number codes", [
        ("enums", r"^ *(pub(\(crate\))? )?enum \w+"),
        ("numbers for refusals", r"refusal: u8|refusal: [0-9]|\bbare\([0-9]|fn refusal_name\(refusal: u8"),
        ("answers that say by a bool whether they did", r"-> (bool|Result<bool, AllocError>)\n( +ensures as_tables| +ensures step \{ MatchResult| +ensures wanted)"),
        ("an Option or a Result taken apart to hand the same on", r"else \{\n +return (None|Err\([^\n]*\));|None => (None|Err\(.*\)),|Err\(_\) => (None|Ok\(None\)),|Err\((\w+)\) => Err\(\4\),"),
    ]),
    ("2 twins", [
        ("bodies of a memory", r"impl.* Memory<.*> for"),
        ("cells at a place", r"fn (at|put)<M: Memory"),
        ("loops over all cells of a table", r"fn (all_placed|remap)\("),
        ("what a mark says", r"fn is_(vacant|removed|held)\("),
        ("records one or two", r"enum (Duplicates|Displaced)<"),
        ("kinds of key that are one number", r"impl Key for (Channel|Number|First|Second) "),
        ("a search for either key", r"fn (find|get|remove)[12]\("),
        ("sides", r"impl.* Side for"),
    ]),
    ("3 loops", [
        ("while and loop", r"^ *(while|loop)\b"),
        ("for over a range", r"^ *for \w+ in [^\n]*\.\."),
        ("counters kept by hand", r"(seen|same|named|number|tally\.\w+|counts\[place\]) (\+=|= .*saturating_add\(1\))"),
    ]),
    ("4 equality, conversion and printing by hand", [
        ("equality", r"fn (equals|is_alike|eq|same_record|same_pairs|alike|alike_crossed)\b"),
        ("texts built by hand", r"fn (\w*text|append|difference|refusal_name)\b"),
        ("a test by matches!", r"matches!\("),
    ]),
    ("5 facts and parameters that travel together", [
        ("premise Sound", r"^ *ensures [^\n]*Sound T\."),
        ("premise Ready", r"^ *ensures [^\n]*Ready M\.Memory"),
        ("premise ok", r"^ *ensures [^\n]*(\bok self\.|\.ok self\.)"),
        ("premise Searchable", r"^ *ensures [^\n]*Searchable "),
        ("the four parts as parameters", r"memory: M,\s+first: A,\s+second: B,\s+state: H"),
        ("lists of the kinds of the parts", r"M: Memory<ItemSlot<\w+>>( \+ Drop)?,\s+A: HashTable"),
    ]),
    ("6 buffers with a length beside", [
        ("cells and len", r"cells: &'a mut \[T\],\n +len: usize|pairs: \[HashedIndex; 64\],\n +len: usize"),
        ("numbered slots", r"pub struct ItemSet<"),
    ]),
    ("7 a switch on which step to run", [
        ("a bool that chooses", r"flat: bool"),
        ("judgements as values", r"trait Predicate|impl.* Predicate for"),
        ("calls as values", r"enum Call<"),
    ]),
]


def sources(root):
    return sorted(glob.glob(os.path.join(root, "crates", "*", "src", "*.rt")))


def main():
    words = [w for w in sys.argv[1:] if w != "-v"]
    verbose = "-v" in sys.argv[1:]
    root = words[0] if words else os.path.join(os.path.dirname(__file__), "..")
    texts = [(os.path.relpath(path, root), open(path, encoding="utf-8").read()) for path in sources(root)]
    for point, patterns in POINTS:
        print(point)
        for name, pattern in patterns:
            found = [(path, text.count("\n", 0, m.start()) + 1)
                     for path, text in texts for m in re.finditer(pattern, text, re.M)]
            print(f"  {len(found):3} {name}")
            if verbose:
                for path, line in found:
                    print(f"        {path}:{line}")


if __name__ == "__main__":
    main()
