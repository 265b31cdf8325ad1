"""The guards that are measured. Each has a name, a file, and the answer where it is known."""

import itertools
import math
import re
import typing

from programs import ROOT

BUDGET = 1_000_000
# A short guard has at most so many nodes.
SHORT = 50
SEARCHES = [
    "walk-late-pigeons-17-spent",
    "walk-late-pigeons-15",
    "walk-colours-8-7",
    "walk-colours-7-6",
    "walk-read-colours-6-5",
    "walk-siblings-6-5",
    "walk-pairs-unsat-1",
    "full-rows",
    "full-siblings",
]
# What cvc5 1.0.3 answers sat though it isn't (docs/VECTORS.md).
WRONG = {"cvc5": ["cycle-through-a-box-some", "random-types-054", "boxed"]}


class Guard(typing.NamedTuple):
    """A guard file with its name, and its answer if it is known."""

    name: str
    file: bytes
    answer: str | None

    def nodes(self):
        return int(self.answer.split()[1])

    def line_one(self):
        """The verdict and the node count, without the splits."""
        return " ".join(self.answer.split()[:2])


def pack(guards, budget=BUDGET):
    """The guards as the programs read them."""
    files = (guard.file for guard in guards)
    each = (len(file).to_bytes(2, "little") + file + budget.to_bytes(4, "little") for file in files)
    return b"".join(each) + b"\xff\xff"


def vectors():
    """The vectors with the usual budget."""
    for line in (ROOT / "vectors" / "vectors.txt").read_text().splitlines():
        if not line.startswith("#"):
            name, budget, text, answer = line.split("\t")
            if budget == str(BUDGET) and text != "-":
                yield Guard(name, bytes.fromhex(text), answer)


def samples():
    """The samples with the usual budget."""
    for path in sorted((ROOT / "samples").glob("*.hex")):
        if not path.with_suffix(".args").exists():
            line = path.with_suffix(".out").read_text().splitlines()[0]
            # "no splits" has no counts.
            nodes, first, second = (re.findall(r"\d+", line) + ["0", "0"])[:3]
            answer = f"{line.split(',')[0]} {nodes} splits {first} {second}"
            yield Guard(path.stem, bytes.fromhex(path.read_text()), answer)


def searches():
    """All guards that a search can be asked for, by name."""
    known = {guard.name: guard for guard in vectors()}
    for line in (ROOT / "bench" / "guards.txt").read_text().splitlines():
        name, text = line.split("\t")
        known[name] = Guard(name, bytes.fromhex(text), None)
    return known


def short(guards):
    """Those that are decided in a few nodes, each file once."""
    files = {guard.file: guard for guard in guards if guard.answer.split()[0] in ("SAT", "UNSAT")}
    return [guard for guard in files.values() if guard.nodes() <= SHORT]


def number(value):
    """A number of a guard file."""
    groups = []
    while value >= 128:
        groups.append(value % 128 + 128)
        value //= 128
    return bytes(groups + [value])


def filled(many, variants):
    """So many types with so many variants in all, each of three numbers."""
    types = b""
    for _ in range(many):
        here = min(variants, 16)
        variants -= here
        types += number(here) + here * b"\x03\x00\x00\x00"
    return types


def unequal(terms, size):
    """Lines that say of pairs of terms that they differ."""
    pairs = itertools.islice(itertools.combinations(terms, 2), 32 * size // 24)
    lines = [b"\x01" + number(a) + number(b) for a, b in pairs]
    return number(len(lines)) + b"".join(lines)


def constants(size):
    """A guard of one node whose types, rows and lines grow with the size, up to 24: constants that
    differ. The largest is as long as a guard can be."""
    many = math.ceil(5 * size / 24)
    types = number(1 + many) + b"\x00" + filled(many, 2 * size)
    # The values take ten bytes.
    rows = [b"\x01\x00" + number(2**63 + 2 * i) for i in range(size)]
    return types + number(size) + b"".join(rows) + unequal(range(size), size)


def lists(size):
    """The same with lists, each but the first built from the one before."""
    many = math.ceil(4 * size / 24)
    types = number(2 + many) + b"\x00\x02\x00\x02\x00\x01" + filled(many, 2 * size - 2)
    built = [b"\x02\x01\x01\x00" + number(i - 1) for i in range(2, size)]
    rows = [b"\x00\x00", b"\x00\x01", *built]
    return types + number(size) + b"".join(rows) + unequal(range(1, size), size)


SERIES = {"constants": constants, "lists": lists}
SIZES = range(2, 25, 2)


def series(name):
    """The guards of a series, by growing length."""
    return [Guard(f"{name}-{size}", SERIES[name](size), "SAT 1 splits 0 0") for size in SIZES]
