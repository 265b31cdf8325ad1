#!/usr/bin/env python3
"""Old and new, side by side: each signature with its clauses, each type of src/ and each definition of specs/ that differs.

usage: python3 tools/compare/sides.py OLD_TREE NEW_TREE

Private functions are left out where they are in one tree alone; a function that is in one tree alone and public is shown with a dash.
"""
import re
import sys
from pathlib import Path


def crates(tree):
    order = []
    for line in (Path(tree) / "crates.txt").read_text().split("\n"):
        if ":" in line and not line.startswith("#"):
            order.append(line.split(":")[0].split()[0])
    return order


def plain(text):
    return re.sub(r" ?,? ?\) ->", ") ->", re.sub(r"\s+", " ", text)).replace("( ", "(").replace(", )", ")").strip()


def code(folder):
    found = {}
    for path in sorted(folder.glob("src/*.rt")):
        text = path.read_text()
        for match in re.finditer(r"^( *)((?:pub )?(?:extern \"C\" )?fn (\w+).*?)\n?(?:^\1\{| \{\n)", text, re.M | re.S):
            found[match.group(3)] = plain(match.group(2))
        for match in re.finditer(r"^((?:pub )?(?:struct|enum) (\w+).*?^\}|(?:pub )?struct (\w+)[^\n{]*;)", text, re.M | re.S):
            body = re.sub(r"//[^\n]*", "", match.group(1))
            found["type " + (match.group(2) or match.group(3))] = plain(body)
    return found


def definitions(folder):
    found = {}
    for path in sorted(folder.glob("specs/*.antt")):
        if path.stem == "Lib":
            continue
        name = None
        for line in path.read_text().split("\n"):
            start = re.match(r"^ *(?:abbrev |unfoldable )?pub (?:abbrev |unfoldable )?(?:record |data )?([^\s:(){}]+)", line)
            if start and not line.lstrip().startswith("pub use") and not (name and found.get(name, "").startswith("pub record") and line.startswith("  pub ")):
                name = path.stem + "." + start.group(1)
                found[name] = line.strip()
            elif name and (line.startswith("--") or line.startswith("use ") or line.startswith("module ")):
                name = None
            elif name and line.strip() and not line.lstrip().startswith("--"):
                found[name] += " " + line.strip()
    return found


def sides(old, new, shown):
    for name in list(dict.fromkeys(list(old) + list(new))):
        before, after = old.get(name), new.get(name)
        if before == after or not shown(before, after):
            continue
        yield name, before, after


def main():
    old, new = Path(sys.argv[1]), Path(sys.argv[2])
    for crate in dict.fromkeys(crates(old) + crates(new)):
        parts = []
        public = lambda before, after: (before and after) or (before or after).startswith("pub ")
        for name, before, after in sides(code(old / "crates" / crate), code(new / "crates" / crate), public):
            parts.append((before, after))
        for name, before, after in sides(definitions(old / "crates" / crate), definitions(new / "crates" / crate), lambda before, after: True):
            parts.append((before, after))
        if parts:
            print(f"#### {crate}\n")
            for before, after in parts:
                print(f"- before: {'`' + before + '`' if before else '-'}\n- now: {'`' + after + '`' if after else '-'}\n")


main()
