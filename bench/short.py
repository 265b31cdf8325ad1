"""Short guards, whole calls: all in one process, and one process for each guard."""

import os
import statistics
import sys
import tempfile
import time

import guards
import programs
import table

DESKS = ("rattle", "rust")
# A set of guards is asked so often in one process that a run has about so many calls.
CALLS_A_RUN = 20_000
# Solvers get each guard of a small set so often that there are about so many.
QUESTIONS = 500
# So many guards are measured one process each, spread over the whole set.
PROCESSES = 12


def sets():
    """The sets of short guards by name."""
    found = {"samples": guards.short(guards.samples())}
    vectors = guards.short(guards.vectors())
    for verdict in ("SAT", "UNSAT"):
        found[f"vectors, {verdict}"] = [guard for guard in vectors if guard.answer.split()[0] == verdict]
    return found


def check(built, some):
    """Stops unless both desks give each answer that is expected, with the same numbers in all buffers."""
    found = programs.printed([built["calls"], "answers"], guards.pack(some)).splitlines()
    for guard, answer in zip(some, found, strict=True):
        if answer != guard.answer:
            sys.exit(f"{guard.name}: {answer}, expected {guard.answer}")


def called(built, desk, data, times):
    """Processor seconds of a pass over the guards, without the start of the process."""
    _, start = programs.timed([built["calls"], desk, "0"], data)
    _, all_seconds = programs.timed([built["calls"], desk, str(times)], data)
    return (all_seconds - start) / times


def judge(solver, some, verdicts):
    """Stops if a solver's verdict isn't the desk's, but where it is known to be wrong."""
    for guard, said in zip(some, verdicts, strict=True):
        wrong = guard.name in guards.WRONG.get(solver, [])
        if (said == guard.answer.split()[0].lower()) == wrong:
            sys.exit(f"{guard.name}: {solver} says {said}, {guard.answer} was expected")


def solved(built, solver, some, timeout):
    """Processor seconds of a solver for the guards, without the start of the process."""
    repeated = max(1, QUESTIONS // len(some)) * some
    script = programs.printed([built["calls"], "smt"], guards.pack(repeated)).encode()
    command = programs.solver(solver, script, timeout)
    said, seconds = programs.timed(command, script)
    judge(solver, repeated, said.split())
    _, start = programs.timed(command, b"(set-logic ALL)\n")
    return (seconds - start) * len(some) / len(repeated)


def measured(built, some, options):
    """Microseconds a guard of each desk and each solver, a number for each run."""
    check(built, some)
    times = max(1, options.calls // len(some))
    data = guards.pack(some)
    found = {name: [] for name in (*DESKS, *programs.SOLVERS)}
    for _ in range(options.runs):
        for name, seconds in found.items():
            if name in DESKS:
                taken = called(built, name, data, times)
            else:
                taken = solved(built, name, some, options.timeout)
            seconds.append(1e6 * taken / len(some))
    return found


def together(parts):
    """The runs of several sets as those of one. A part is guards, and what was measured of them."""
    counts = [len(some) for some, _ in parts]

    def mean(run):
        return sum(count * time for count, time in zip(counts, run)) / sum(counts)

    def runs(name):
        return zip(*(found[name] for _, found in parts))

    return {name: [mean(run) for run in runs(name)] for name in (*DESKS, *programs.SOLVERS)}


def one_process(built, options):
    """Prints the table of whole calls; gives the medians of all short guards."""
    parts = {name: (some, measured(built, some, options)) for name, some in sets().items()}
    every = [guard for some, _ in parts.values() for guard in some]
    parts["all"] = (every, together(list(parts.values())))

    def row(name):
        some, found = parts[name]
        nodes = statistics.mean(guard.nodes() for guard in some)
        length = statistics.mean(len(guard.file) for guard in some)
        medians = {key: statistics.median(runs) for key, runs in found.items()}
        best = min(programs.SOLVERS, key=medians.get)
        cells = [name, len(some), f"{nodes:.1f}", f"{length:.0f}"]
        cells += [f"{medians[desk]:.1f}" for desk in DESKS]
        cells += [f"{programs.ratio(found['rattle'], found['rust']):.2f}"]
        cells += [f"{medians[solver]:.0f}" for solver in programs.SOLVERS]
        return cells + [f"{programs.ratio(found[best], found['rattle']):.0f} × {best}"]

    titles = ["guards", "number", "nodes", "bytes", "Rattle, µs", "Rust, µs", "ratio"]
    titles += [f"{solver}, µs" for solver in programs.SOLVERS]
    table.show([*titles, "faster than the better"], map(row, parts))
    return {name: statistics.median(runs) for name, runs in parts["all"][1].items()}


def instructions(built):
    """Prints the instructions of a call: what two passes take more than one."""

    def counted(desk, data):
        one, two = (programs.instructions([built["calls"], desk, times], data) for times in ("1", "2"))
        return two - one

    def row(name, some):
        ours, theirs = (counted(desk, guards.pack(some)) / len(some) for desk in DESKS)
        return [name, f"{ours:,.0f}", f"{theirs:,.0f}", f"{ours / theirs:.2f}"]

    table.show(["guards", "Rattle, a call", "Rust, a call", "ratio"], (row(*item) for item in sets().items()))


def wall(command, data):
    """What a program printed, and its seconds by the clock from start to end."""
    with tempfile.TemporaryFile() as stdin, tempfile.TemporaryFile() as stdout:
        stdin.write(data)
        stdin.seek(0)
        actions = [(os.POSIX_SPAWN_DUP2, stdin.fileno(), 0), (os.POSIX_SPAWN_DUP2, stdout.fileno(), 1)]
        start = time.perf_counter()
        child = os.posix_spawnp(command[0], command, os.environ, file_actions=actions)
        os.waitpid(child, 0)
        seconds = time.perf_counter() - start
        stdout.seek(0)
        return stdout.read().decode(errors="replace"), seconds


def spread(some, many):
    """So many of the guards, evenly over all."""
    return [some[i * len(some) // many] for i in range(many)]


def processes(built, options):
    """Prints the table of one process for each guard."""
    some = spread([guard for part in sets().values() for guard in part], PROCESSES)
    commands = {"true": ["true"], "guarddesk": [built["guarddesk"]], "Rust": [built["desk"]]}
    found = {name: [] for name in (*commands, *programs.SOLVERS)}
    for guard in some:
        script = programs.printed([built["calls"], "smt"], guards.pack([guard])).encode()
        solvers = {name: programs.solver(name, script, options.timeout) for name in programs.SOLVERS}
        for _ in range(options.runs):
            for name, command in commands.items():
                said, seconds = wall(command, guard.file)
                found[name].append(1000 * seconds)
                if name != "true" and said.splitlines()[0] != guard.line_one():
                    sys.exit(f"{guard.name}: {name} says {said.splitlines()[0]}, {guard.line_one()} was expected")
            for name, command in solvers.items():
                said, seconds = wall(command, script)
                found[name].append(1000 * seconds)
                judge(name, [guard], said.split())
    row = [f"{statistics.median(all_ms):.2f}" for all_ms in found.values()]
    table.show([f"{name}, ms" for name in found], [row])
