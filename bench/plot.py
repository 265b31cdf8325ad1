"""The plot of docs/BENCHMARKS.md, as SVG: short guards on the left, growth with the file on the right."""

import math
from html import escape

WIDTH, HEIGHT = 980, 400
NAMES = {"rattle": "guard desk (Rattle)", "rust": "the same in Rust", "z3": "z3", "cvc5": "cvc5"}
COLOURS = {"rattle": "#1560a8", "rust": "#d9730d", "z3": "#6b6b6b", "cvc5": "#a3a3a3"}
DASHES = {"constants": "", "lists": "6 4"}


def text(x, y, words, anchor="middle", size=13, **more):
    """A line of text."""
    extra = "".join(f' {key.replace("_", "-")}="{value}"' for key, value in more.items())
    start = f'<text x="{x:.1f}" y="{y:.1f}" text-anchor="{anchor}" font-size="{size}"{extra}>'
    return f"{start}{escape(words)}</text>"


def title(x, y, words):
    """The title of a half."""
    return text(x, y, words, size=15, font_weight="bold")


def stroke(x1, y1, x2, y2, colour="#000", width=1.0, dash=""):
    """A straight line."""
    ends = f'x1="{x1:.1f}" y1="{y1:.1f}" x2="{x2:.1f}" y2="{y2:.1f}"'
    return f"<line {ends} {pen(colour, width, dash)}/>"


def pen(colour, width, dash):
    """What a line is drawn with."""
    dashes = f' stroke-dasharray="{dash}"' if dash else ""
    return f'stroke="{colour}" stroke-width="{width}"{dashes}'


def bar(x, y, width, height, colour):
    """A filled rectangle."""
    place = f'x="{x:.1f}" y="{y:.1f}" width="{width:.1f}" height="{height:.1f}"'
    return f'<rect {place} fill="{colour}"/>'


def bars(times, left, top, width, height):
    """A bar for each time in microseconds, on a logarithmic scale from 1 on."""
    decades = math.ceil(math.log10(max(times.values())) + 0.1)

    def place(value):
        return left + width * max(0, math.log10(value)) / decades

    parts = [title(left + width / 2, top - 16, "Short guards in one process: time a guard")]
    for decade in range(decades + 1):
        x = place(10**decade)
        parts.append(stroke(x, top, x, top + height, "#d8d8d8"))
        parts.append(text(x, top + height + 18, f"{10**decade:,} µs"))
    parts.append(text(left + width / 2, top + height + 40, "microseconds, logarithmic"))
    step = height / len(times)
    for i, (name, value) in enumerate(times.items()):
        y = top + i * step + step * 0.2
        middle = y + step * 0.3 + 4
        value_text = f"{value:,.1f} µs" if value < 100 else f"{value:,.0f} µs"
        parts.append(bar(left, y, place(value) - left, step * 0.6, COLOURS[name]))
        parts.append(text(left - 8, middle, NAMES[name], "end"))
        parts.append(text(place(value) + 6, middle, value_text, "start", font_weight="bold"))
    parts.append(stroke(left, top, left, top + height))
    return parts


def steps(most):
    """Round numbers from 0 to the first past the most."""
    size = 10 ** math.floor(math.log10(most))
    step = next(size * part for part in (0.2, 0.5, 1, 2) if most / (size * part) <= 6)
    return [step * i for i in range(math.ceil(most / step) + 1)]


def curves(series, left, top, width, height):
    """Time against length, a curve for each series and desk."""
    across = steps(max(x for points in series.values() for x, _ in points))
    # Room for the names of the curves.
    up = steps(1.3 * max(y for points in series.values() for _, y in points))

    def place(x, y):
        return left + width * x / across[-1], top + height - height * y / up[-1]

    parts = [title(left + width / 2, top - 16, "Searches of one node: time against length")]
    for y in up:
        parts.append(stroke(*place(0, y), *place(across[-1], y), "#d8d8d8"))
        parts.append(text(left - 8, place(0, y)[1] + 4, f"{y:g}", "end"))
    for x in across:
        parts.append(text(place(x, 0)[0], top + height + 18, f"{x:g}"))
    parts.append(text(left + width / 2, top + height + 40, "bytes of the guard file"))
    middle = top + height / 2
    turned = f"rotate(-90 {left - 40} {middle})"
    parts.append(text(left - 40, middle, "microseconds a guard", transform=turned))
    parts += [stroke(left, top, left, top + height), stroke(left, top + height, left + width, top + height)]
    for (name, desk), points in series.items():
        places = " ".join(f"{x:.1f},{y:.1f}" for x, y in (place(*point) for point in points))
        parts.append(f'<polyline points="{places}" fill="none" {pen(COLOURS[desk], 2, DASHES[name])}/>')
    for i, (name, desk) in enumerate(series):
        y = top + 12 + 18 * i
        parts.append(stroke(left + 14, y, left + 44, y, COLOURS[desk], 2, DASHES[name]))
        parts.append(text(left + 52, y + 4, f"{NAMES[desk]}, {name}", "start"))
    return parts


def draw(path, times, series):
    """Writes the plot."""
    parts = [
        f'<svg xmlns="http://www.w3.org/2000/svg" viewBox="0 0 {WIDTH} {HEIGHT}" '
        f'width="{WIDTH}" height="{HEIGHT}" font-family="DejaVu Sans, Verdana, sans-serif">',
        bar(0, 0, WIDTH, HEIGHT, "#fff"),
        *bars(times, 150, 50, 310, 280),
        *curves(series, 560, 50, 390, 280),
        "</svg>",
    ]
    path.write_text("\n".join(parts) + "\n")
