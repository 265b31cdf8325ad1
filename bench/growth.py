"""How the time of a call grows with the file, for searches of one node."""

import statistics

import guards
import programs
import short
import table


def line(points):
    """The straight line nearest to points: its value at 0, its slope, and the largest part that a point is off."""
    xs, ys = zip(*points)
    slope, start = statistics.linear_regression(xs, ys)
    off = max(abs(start + slope * x - y) / y for x, y in points)
    return start, slope, off


def measured(built, series, options):
    """The runs of each guard and desk, microseconds a call. A run takes all guards, so that a busy minute spoils no point."""
    found = [{desk: [] for desk in short.DESKS} for _ in series]
    for _ in range(options.runs):
        for guard, desks in zip(series, found):
            data = guards.pack([guard])
            for desk, runs in desks.items():
                runs.append(1e6 * short.called(built, desk, data, options.calls))
    return found


def times(built, options):
    """Prints the table of each series; gives its points for each desk."""
    curves = {}
    for name in guards.SERIES:
        series = guards.series(name)
        short.check(built, series)
        rows = []
        for guard, found in zip(series, measured(built, series, options)):
            ratio = programs.ratio(found["rattle"], found["rust"])
            medians = {desk: statistics.median(runs) for desk, runs in found.items()}
            rows.append([len(guard.file), *(f"{median:.2f}" for median in medians.values()), f"{ratio:.2f}"])
            for desk, median in medians.items():
                curves.setdefault((name, desk), []).append((len(guard.file), median))
        table.show([f"bytes, {name}", "Rattle, µs", "Rust, µs", "ratio"], rows)
        for desk in short.DESKS:
            start, slope, off = line(curves[name, desk])
            fitted = f"{start:.1f} µs and {1000 * slope:.1f} ns a byte, at most {100 * off:.0f} per cent off"
            print(f"{name}, {desk}: {fitted}.\n")
    return curves
