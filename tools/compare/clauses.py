#!/usr/bin/env python3
"""clauses.py OLD NEW: the contracts of two trees, the older before the port, where they differ once spelling is taken out."""
import glob
import re
import sys

HEAD = re.compile(r'^\s*(?:pub )?(?:extern "C" )?fn (\w+)(?:<[^>]*>)?\(', re.M)
RESULT = re.compile(r"\s*(?:->\s*(?:[^{]*?(?=\n\s*(?:requires|ensures|ghost)\b)|[^{]*))?")
CLAUSE = re.compile(r"\s*(requires|ensures|ghost)(\*?)(?: (\w+))?:? \{")


def closed(text, at, opening, closing):
    """The place behind the bracket that closes the one before `at`."""
    depth = 1
    while depth:
        depth += {opening: 1, closing: -1}.get(text[at], 0)
        at += 1
    return at


def functions(root):
    """The signature and the clauses of each function."""
    found = {}
    for path in sorted(glob.glob(root + "/crates/*/src/*.rt")):
        crate = path.split("/crates/")[1].split("/")[0]
        with open(path, encoding="utf-8") as file:
            text = re.sub(r"//[^\n]*", "", file.read())
        for head in HEAD.finditer(text):
            end = RESULT.match(text, closed(text, head.end(), "(", ")")).end()
            signature, clauses = text[head.start() : end], []
            while clause := CLAUSE.match(text, end):
                end = closed(text, clause.end(), "{", "}")
                clauses.append((clause[1] + clause[2], text[clause.end() : end - 1].strip()))
            found[crate + "::" + head[1]] = (re.sub(r"\s+", " ", signature), clauses)
    return found


def plain(text, old):
    """A clause without its spelling. What a reference holds is told apart by its kind in the signature, so `.old` and `.now` are one."""
    if old:
        text = text.replace("′", "'").replace("″", "''")
        if result := re.match(r"\s*λ (\w+)\. (.*)$", text, re.S):
            text = result[2]
            if result[1] != "_":
                text = re.sub(r"(?<![\w'.·-])" + re.escape(result[1]) + r"(?![\w'-])", "result", text)
        text = text.replace("⌜", "").replace("⌝", "")
        text = re.sub(r"now \(([\w«»]+) \.entry\)", r"\1.old", text)
        text = re.sub(r"now \(([\w«»]+) \.exit\)", r"\1.new", text)
        text = re.sub(r"\bnow ([\w«»]+)", r"\1.now", text)
        for _ in range(4):
            text = re.sub(r"\(([\w.]+) \.(\w+)\)", r"\1.\2", text)
    text = re.sub(r"[_\s()·◌-]", "", text.lower())
    return text.replace("getd", "getor").replace(".old", ".now")


def joined(clauses, old):
    kinds = {}
    for kind, text in clauses:
        kinds.setdefault(kind, []).append(plain(text, old))
    return {kind: "×".join(texts) for kind, texts in kinds.items()}


def main(old, new):
    before, after = functions(old), functions(new)
    print(len(before), "functions before,", len(after), "after")
    print("gone:", sorted(set(before) - set(after)), "new:", sorted(set(after) - set(before)))
    differ = 0
    for name in sorted(set(before) & set(after)):
        (head, clauses), (head_after, clauses_after) = before[name], after[name]
        if re.sub(r"[\s,]", "", head) != re.sub(r"[\s,]", "", head_after):
            print("SIGNATURE", name, "\n   ", head, "\n   ", head_after)
        first, second = joined(clauses, True), joined(clauses_after, False)
        if first != second:
            differ += 1
            print("CLAUSES", name, "\n   ", first, "\n   ", second)
    print(differ, "contracts differ, of", sum(len(clauses) for _, clauses in before.values()), "clauses before and", sum(len(clauses) for _, clauses in after.values()), "after")


main(*sys.argv[1:3])
