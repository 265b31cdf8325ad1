#!/usr/bin/env python3
"""respell.py [--list] FOLDER: brings the repository's own definitions and lemmas to snake case, after the kit's port.py.

Run once, at the port to today's Rattle (docs/PORT.md). A name is turned if the repository declares it in an .antt file (a
definition, a lemma, a field, a constructor, a local definition, a named argument), it begins with a small letter and it has a capital
or a dash; a dash between two words that both begin with names of definitions stays (`concat_map-append`). Names of the library and names that
Rattle makes are left alone, and so are Rust's own, strings and file names. With --list it prints the names and changes nothing.
"""
import os
import re
import sys

IDENT = re.compile(r"[A-Za-z_\u0370-\u03ff\u2100-\u214f\u2200-\u22ff\u25cc\u25cb][\w'\u2080-\u2099\u2200-\u22ff\u25cc\u25cb-]*")
DECLARED = re.compile(r"^\s*(?:abbrev |unfoldable |pub |let )*([^\s:(){}]+(?: [^\s:(){}]+)*) : ", re.M)
BOUND = re.compile(r"[({]([^\s:(){}]+(?: [^\s:(){}]+)*) : ")
LET = re.compile(r"\blet ([^\s:(){}=]+) (?::|=) ")
USE = re.compile(r"^\s*(?:pub |ghost )*use ([^\s{;]+?)(?:\.\{([^}]*)\})?(?: as \S+)?;?\s*$", re.M)


def files(root):
    for folder, dirs, names in os.walk(os.path.join(root, "crates")):
        dirs[:] = sorted(d for d in dirs if d not in ("out", ".git"))
        for name in sorted(names):
            if name.endswith((".antt", ".rt")):
                yield os.path.join(folder, name)


def snake(name):
    # a capital inside a word begins a new word; runs of capitals are one word
    name = re.sub(r"(?<=[a-z0-9'])([A-Z])", r"_\1", name)
    name = re.sub(r"([A-Z])([A-Z][a-z])", r"\1_\2", name)
    return "".join(c.lower() if c.isascii() else c for c in name)


def main(argv):
    show = "--list" in argv
    root = [a for a in argv if not a.startswith("--")][0]
    own_modules = set(os.listdir(os.path.join(root, "crates")))
    declared, library = set(), set()
    texts = {}
    for path in files(root):
        with open(path, encoding="utf-8") as f:
            texts[path] = f.read()
    for path, text in texts.items():
        for m in USE.finditer(text):
            module, items = m.group(1), m.group(2) or ""
            parts = module.split(".")
            if not (parts[0] == "Rattle" and len(parts) > 1 and parts[1] in own_modules):
                for item in items.split(","):
                    for word in item.split(" as "):
                        library.add(word.strip())
        if not path.endswith(".antt"):
            continue
        generated = path.endswith("/Proof.antt")
        for m in DECLARED.finditer(text):
            for name in m.group(1).split():
                declared.add((name, generated))
        for m in BOUND.finditer(text):
            for name in m.group(1).split():
                declared.add((name, generated))
        for m in LET.finditer(text):
            declared.add((m.group(1), generated))
    # Names declared only in a file over generated goals are its own affair: most are the goals' names.
    names = {n for n, g in declared if not g}
    names = {n for n in names if IDENT.fullmatch(n) and re.match(r"[a-zα-ω]", n) and n not in library}
    turned = {n for n in names if re.search(r"[A-Z]", n) or "-" in n}
    bases = {snake(n) for n in names if "-" not in n} | {snake(n) for n in library if "-" not in n}
    defined = set()
    for path, text in texts.items():
        if "/specs/" in path:
            for m in DECLARED.finditer(text):
                for name in m.group(1).split():
                    if IDENT.fullmatch(name):
                        defined.add(snake(name))
    defined |= {"length", "take", "drop", "append", "map", "get_or", "set", "concat_map", "replicate", "sum", "filter", "max", "min", "less", "zip"}

    def respelled(name):
        parts = snake(name).split("-")
        out = parts[0]
        for before, part in zip(parts, parts[1:]):
            head = re.split(r"(?<=\w)-", out)[-1]
            out += ("-" if head in defined and part in defined else "_") + part
        return out

    new = {n: respelled(n) for n in turned}
    new = {n: r for n, r in new.items() if n != r}
    # names that fall together, with one another or with one that is there already: a definition has its name before a lemma,
    # whose own gets `_lem`; the library's stays
    def by_name():
        taken = {}
        for n in sorted(names | library):
            taken.setdefault(new.get(n, n), []).append(n)
        return {r: ns for r, ns in taken.items() if len(ns) > 1}

    first = by_name()
    for r, ns in first.items():
        camel = [n for n in ns if re.search(r"[A-Z]", n) and "-" not in n and n not in library]
        keeps = [n for n in ns if n in library] or camel or [n for n in ns if "-" not in n]
        for n in ns:
            if n not in keeps[:1]:
                new[n] = r + "_lem"
    new["countBy"] = "count_where"
    new["default-of-belongs"] = "default_of_belongs"
    new["defaultOf-belongs"] = "default_of-belongs"
    together = by_name()
    if show:
        for n in sorted(new):
            print(n, new[n])
        for r, ns in sorted(first.items()):
            print("first together:", r, ns, [new.get(n, n) for n in ns])
        for r, ns in sorted(together.items()):
            print("together:", r, ns)
        for path, text in texts.items():
            if path.endswith(".rt"):
                code = set(re.findall(r"\b(\w+): ", re.sub(r"ghost use [^;]*;", "", text)))
                used = {w for m in re.finditer(r"ghost use [^;]*;", text) for w in IDENT.findall(m.group(0))}
                for n in sorted(used):
                    if new.get(n, n) in code and n in names:
                        print("hidden:", os.path.relpath(path, root), n, new.get(n, n))
        functions = set()
        for path, text in texts.items():
            if path.endswith(".rt"):
                functions |= set(re.findall(r"\w+", text))
        print("in Rust:", sorted((n, new[n]) for n in new if n in functions and "-" not in n))
        print(len(new), "names", len(together), "fall together")
        return 0

    def turn(text, ghost):
        out, at = [], 0
        for m in IDENT.finditer(text):
            word = m.group(0)
            out.append(text[at:m.start()])
            before = text[max(0, m.start() - 4):m.start()]
            if before.endswith("tie."):
                out.append(word)
            else:
                out.append(new.get(word, word))
            at = m.end()
        out.append(text[at:])
        return "".join(out)

    changed = 0
    for path, text in texts.items():
        if path.endswith(".antt"):
            later = turn(text, True)
        else:
            later = turn_rust(text, lambda t: turn(t, True))
        if later != text:
            with open(path, "w", encoding="utf-8") as f:
                f.write(later)
            changed += 1
    print(f"{len(new)} names in {changed} files")
    return 0


def turn_rust(text, turn):
    """Only clauses and ghost lines of a Rust file: the braces after requires, ensures and ghost."""
    out, at = [], 0
    for m in re.finditer(r"^\s*(?:ghost use [^;]*;|(?:requires|ensures|ghost)\*?(?: \w+)?:? \{)", text, re.M):
        if m.start() < at:
            continue
        end = m.end()
        if text[end - 1] == "{":
            depth = 1
            while depth:
                depth += {"{": 1, "}": -1}.get(text[end], 0)
                end += 1
        out.append(text[at:m.start()])
        out.append(turn(text[m.start():end]))
        at = end
    out.append(text[at:])
    return "".join(out)


if __name__ == "__main__":
    sys.exit(main(sys.argv[1:]))
