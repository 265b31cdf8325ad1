#!/usr/bin/env python3
"""statements.py OLD NEW: the statements in proofs/*.antt of two trees (not those of one function's proof), where they differ once spelling is taken out."""
import glob
import re
import sys

from names import plain

SIGNATURE = re.compile(r"^(\s*)((?:abbrev |pub |unfoldable )*)([^\s:(){}=λ]+(?: [^\s:(){}=λ]+)*) :(?= |$)(.*)$")


def load(root):
    found = {}
    for path in sorted(glob.glob(root + "/crates/*/proofs/*.antt")):
        name = path.split("/crates/")[1]
        if name.endswith("/Lib.antt"):
            continue
        with open(path, encoding="utf-8") as file:
            lines = file.read().split("\n")
        for i, line in enumerate(lines):
            if line.lstrip().startswith("module _"):
                found.setdefault((name, "module"), []).append(("module", line.strip()))
                continue
            signature = SIGNATURE.match(line)
            if not signature or line.lstrip().startswith(("use ", "--", "let ")):
                continue
            text, j = signature[4], i + 1
            while j < len(lines) and lines[j].strip() and len(lines[j]) - len(lines[j].lstrip()) > len(signature[1]):
                text += " " + lines[j].strip()
                j += 1
            for word in signature[3].split():
                found.setdefault((name, plain(word)), []).append((signature[2] + word, re.sub(r"\s+", " ", text).strip()))
    return found


def main(old, new):
    before, after = load(old), load(new)
    differ = 0
    for key in sorted(before):
        first, second = [plain(text) for _, text in before[key]], [plain(text) for _, text in after.get(key, [])]
        if first == second:
            continue
        differ += 1
        print(*key)
        for mark, these, those in (("-", before[key], second), ("+", after.get(key, []), first)):
            for word, text in these:
                if plain(text) not in those:
                    print("   " + mark, word, ":", text)
    print("new:", [key for key in sorted(after) if key not in before])
    print(differ, "of", len(before), "statements differ")


main(*sys.argv[1:3])
