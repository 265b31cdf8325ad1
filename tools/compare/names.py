"""Texts of definitions and statements without their spelling, for specs.py and statements.py."""
import re


def plain(text):
    for prime, marks in (("′", "'"), ("″", "''"), ("‴", "'''")):
        text = text.replace(prime, marks)
    for _ in range(5):
        text = re.sub(r"\(([\w.'\u2080-\u2089]+) \.(\w+)\)", r"\1.\2", text)
    text = re.sub(r"(?<=[\w)'\u2080-\u2089]) \.(?=\w)", ".", text)
    text = re.sub(r"Rattle[·.]\w+\.specs\.\w+\.", "", text)
    text = re.sub(r"_lem\b", "", re.sub(r"\b(List|Bool)·", "", text))
    text = re.sub(r"[_\s()·◌-]", "", text.lower())
    for before, after in (("getd", "getor"), ("countby", "countwhere"), (".old", ".now")):
        text = text.replace(before, after)
    return text
