#!/usr/bin/env python3
"""Counts, in src/ of every crate, the places of the points of docs/DESIGN-PASS.md.

usage: python3 tools/places.py [TREE] [--list POINT]

TREE is a checkout (default: this one). Each place is a line `crate: what`; --list prints those of one point, as 1a.
"""
import re
import sys
from pathlib import Path


def sources(tree):
    for path in sorted(tree.glob("crates/*/src/*.rt")):
        yield path.parent.parent.name, path.read_text()


def without_comments(text):
    return "\n".join(line for line in text.split("\n") if not line.lstrip().startswith("//"))


def functions(text):
    """Name, head (up to the body) and body of each function that has one."""
    for match in re.finditer(r"^( *)(?:pub )?(?:extern \"C\" )?fn (\w+)", text, re.M):
        indent = match.group(1)
        end = text.find(f"\n{indent}}}", match.start())
        if end < 0:
            continue
        whole = text[match.start():end]
        opening = whole.find(f"\n{indent}{{")
        if opening < 0:
            opening = whole.find(" {\n")
        yield match.group(2), whole[:opening], whole[opening:]


def structs(text):
    for match in re.finditer(r"^(?:pub )?struct (\w+)(?:<[^>]*>)? \{\n(.*?)^\}", text, re.M | re.S):
        fields = re.findall(r"^    (?:pub )?(\w+): ([^,]+),", match.group(2), re.M)
        yield match.group(1), fields


def parameters(head):
    return re.findall(r"(\w+): ([^,()]+?)(?=[,)\n]|$)", head.split("->")[0].split("\n    requires")[0])


# ---- the points

def point_1a(crate, text):
    """1a: structs with a flag and what it guards: a refusal's number, or a bool that says whether the rest is there."""
    for name, fields in structs(text):
        for field, kind in fields:
            if (field, kind) == ("refused", "u32") or (field in ("fits", "found", "there") and kind == "bool"):
                yield name


def point_1b(crate, text):
    """1b: functions that answer a question's number, or a number in place of an outcome."""
    for name, head, body in functions(text):
        answers = re.search(r"-> (u8|u32|i64|usize)\b", head)
        if answers and re.search(r"question_of|types_question|summarize|add_line|^check|check_tables|pass_term|pass_singles|^advance|verdict_on|^ask$|^code_of|number_of", name):
            yield name


def point_1c(crate, text):
    """1c: functions whose number stands for none: one past the last (78, 30, 24, 96, 16, 255, `many`), or 0 for none."""
    for match in re.finditer(r"((?:^ *//[^\n]*\n)+)(?:^ *#\[[^\]]*\]\n)*^ *(?:pub )?fn (\w+)[^\n]*", text, re.M):
        comment = re.sub(r"\s*//\s*", " ", match.group(1))
        if re.search(r"; (?:\d+|`many`|the number of variants) if (?:there is none|it has none|there is no such)|; else `many`|, or `many`|255 where there is none|16 where there is none|0 if (?:it has none|the bytes end before|there is no such part)|; 0 if there is none", comment):
            yield match.group(2)


def point_1d(crate, text):
    """1d: functions that tell kinds apart by numbers."""
    for name, head, body in functions(text):
        if re.search(r"\b(?:e\.|d\.|c\.)?kinds?(?:\[[^\]]*\])? (?:==|!=|<|<=|>) \d|\d (?:==|<|<=) (?:\w+\.)?kind\b|columns::byte\(kinds, i\) (?:==|>) \d|match kind", body):
            yield name


def point_3(crate, text):
    """3: loops that count an index by hand."""
    for name, head, body in functions(text):
        for match in re.finditer(r"while ([^{]*)\{(.*?)\n    \}", body, re.S):
            if re.search(r"\b(\w+) (?:\+|-)= 1;", match.group(2)):
                yield name


def point_4a(crate, text):
    """4a: equality and order written by hand."""
    for name, head, body in functions(text):
        if re.search(r"^(same_columns|same_types|is_row|lower|higher|at_most|minus|less|less_word)$", name):
            yield name


def point_4b(crate, text):
    """4b: conversions written by hand."""
    for name, head, body in functions(text):
        if re.search(r"^(wide|word|flag|two_bytes|four_bytes|fold|unfold|fold_signed|signed_word|unsigned_word|words_of|value_of|code_of|plain_byte|own_names|tally_of)$", name) and crate != "leb128":
            yield name


def point_4c(crate, text):
    """4c: tests for one variant written as a match."""
    for name, head, body in functions(text):
        if re.search(r"^is_(open|closed|unsat)$", name) and "match " in body:
            yield name


def point_4d(crate, text):
    """4d: printing by hand."""
    for name, head, body in functions(text):
        if re.search(r"io::(write_all|print_decimal|decimal)\(|writing::put_", body):
            yield name


GROUPS = [
    ("classes, labels", ("classes", "labels")),
    ("shapes, reads, sorts, full, fieldless, constants: two or more of them", None),
    ("kinds, terms, others (literals)", ("kinds", "terms", "others")),
    ("labelled, count", ("labelled", "count")),
    ("many, variants, first, arities, sorts (types): two or more of them", None),
    ("rows, drawn, many (rows drawn)", ("rows", "many")),
    ("out, at", ("out", "at")),
    ("bytes, at", ("bytes", "at")),
]


def point_5a(crate, text):
    """5a: functions with parameters that always travel together."""
    for name, head, body in functions(text):
        names = {n for n, _ in parameters(head)}
        if {"classes", "labels"} <= names or {"labelled", "count"} <= names or {"kinds", "terms", "others"} <= names:
            yield name
        elif len(names & {"shapes", "reads", "sorts", "full", "fieldless", "constants"}) >= 2:
            yield name
        elif len(names & {"variants", "first", "arities", "sorts", "counts", "kinds", "types", "parts"}) >= 3:
            yield name


def point_5b(crate, text):
    """5b: clauses that state a fact of a value which three or more contracts state."""
    for fact in ("Held classes", "ShapesFit shapes", "ReadsFit reads", "SortsFit sorts", "Covers (", "EachBelow ", "LinesFit ", "InRange many", "TypesInRange ",
                 "FormsFit forms", "Store (types_in", "Room (\\w|rows)", "LeafFits leaf", "at ≤ length (out|bytes)", "4 \\* many \\+ 4 ≤ length rows", "GuardsTables tables",
                 "problem ≡ problem_by", "LiteralsFit", "StateFit", "ArraysFit"):
        for match in re.finditer(r"^    requires [^\n]*" + (fact if "(" in fact and "\\" in fact or "\\" in fact else re.escape(fact)), text, re.M):
            yield fact


def point_6a(crate, text):
    """6a: structs of a length and columns, or of parallel columns."""
    for name, fields in structs(text):
        if sum(kind.startswith("[") for _, kind in fields) >= 2 or (any(f == "many" for f, _ in fields) and any(k.startswith("[") for _, k in fields)):
            yield name


def point_6b(crate, text):
    """6b: functions with a buffer and how much of it is in use."""
    for name, head, body in functions(text):
        names = {n for n, _ in parameters(head)}
        if {"labelled", "count"} <= names or {"rows", "many"} <= names or {"out", "at"} <= names or {"others", "many"} <= names:
            yield name


def point_7(crate, text):
    """7: functions that a flag or a number tells which of several steps to run."""
    for name, head, body in functions(text):
        names = {n for n, _ in parameters(head)}
        if names & {"stop", "anew"} or len(re.findall(r"if (?:kind|j|e\.kind) (?:==|<) \d+ \{\n        return \w+(?:::\w+)?\(", body)) >= 2:
            yield name


POINTS = {
    "1a": point_1a, "1b": point_1b, "1c": point_1c, "1d": point_1d, "3": point_3, "4a": point_4a, "4b": point_4b, "4c": point_4c, "4d": point_4d,
    "5a": point_5a, "5b": point_5b, "6a": point_6a, "6b": point_6b, "7": point_7,
}


def main():
    arguments = sys.argv[1:]
    wanted = None
    if "--list" in arguments:
        i = arguments.index("--list")
        wanted = arguments[i + 1]
        del arguments[i:i + 2]
    tree = Path(arguments[0]) if arguments else Path(__file__).resolve().parent.parent
    files = [(crate, text) for crate, text in sources(tree)]
    for key, point in POINTS.items():
        places = [(crate, name) for crate, text in files for name in point(crate, without_comments(text) if key != "1c" else text)]
        if wanted is None:
            print(f"{len(places):4} in {len({c for c, _ in places}):3} crates  {point.__doc__}")
        elif wanted == key:
            for crate, name in places:
                print(f"{crate}: {name}")


main()
