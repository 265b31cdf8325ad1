#!/usr/bin/env python3
"""specs.py OLD NEW: the files of specs/ of two trees, line by line, where they differ once spelling is taken out. Lines of imports are left out."""
import difflib
import glob
import sys

from names import plain


def load(root):
    found = {}
    for path in sorted(glob.glob(root + "/crates/*/specs/**/*.antt", recursive=True)):
        with open(path, encoding="utf-8") as file:
            lines = [line for line in file.read().split("\n") if line.strip() and not line.startswith("use ")]
        found[path.split("/crates/")[1]] = lines
    return found


def main(old, new):
    before, after = load(old), load(new)
    print("gone:", sorted(set(before) - set(after)), "new:", sorted(set(after) - set(before)))
    differ = 0
    for name in sorted(set(before) & set(after)):
        first, second = [plain(line) for line in before[name]], [plain(line) for line in after[name]]
        if "".join(first) == "".join(second):
            continue
        differ += 1
        print("FILE", name)
        for tag, i, j, k, m in difflib.SequenceMatcher(None, first, second, autojunk=False).get_opcodes():
            if tag != "equal":
                print("\n".join(["   - " + line for line in before[name][i:j]] + ["   + " + line for line in after[name][k:m]]))
    print(differ, "of", len(before), "files differ")


main(*sys.argv[1:3])
