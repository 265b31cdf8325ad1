"""The search alone, per node: the program `searchvectors` against the same search in Rust, and the solvers."""

import statistics
import sys

import guards
import programs
import table

# A run searches a guard so often that it visits about so many nodes.
NODES_A_RUN = 1_000_000
# callgrind looks at so many nodes of a long search, after as many that it doesn't count.
NODES_COUNTED = 10_000


def answered(command, guard, times, budget=guards.BUDGET):
    """The answer to a guard that is searched so many times, and the processor seconds."""
    printed, seconds = programs.timed([command], guards.pack(times * [guard], budget))
    lines = printed.splitlines()
    if len(lines) != times or len(set(lines)) != 1:
        sys.exit(f"{command}: {times} equal answers were expected, found {lines[:3]}")
    if lines[0] != (guard.answer or lines[0]):
        sys.exit(f"{guard.name}: {command} says {lines[0]}, {guard.answer} was expected")
    return lines[0], seconds


def known(built, guard):
    """The guard with its answer."""
    return guard._replace(answer=answered(built["search"], guard, 1)[0])


def compared(built, guard, runs):
    """Nanoseconds for each node of both programs, run in turn."""
    times = max(1, NODES_A_RUN // guard.nodes())
    found = {"searchvectors": [], "search": []}
    for _ in range(runs):
        for program, all_seconds in found.items():
            _, seconds = answered(built[program], guard, times)
            all_seconds.append(1e9 * seconds / times / guard.nodes())
    return found.values()


def solved(solver, script, timeout):
    """What a solver says and the median of its milliseconds; one run is enough if it is slow."""
    seconds = []
    while len(seconds) < 5:
        said, time = programs.timed(programs.solver(solver, script, timeout), script)
        seconds.append(time)
        verdict = said.split()[0] if said.split() else "?"
        if verdict not in ("sat", "unsat"):
            return f"none in {timeout} s"
        if time > 2:
            break
    return f"{verdict} {1000 * statistics.median(seconds):.0f}"


def agrees(guard, said):
    """Whether a solver's verdict is that of the guard, where both have one."""
    ours, theirs = guard.answer.split()[0].lower(), said.split()[0]
    return theirs == ours or ours == "spent" or theirs == "none"


def row(built, guard, options, ratios):
    """A line of the table."""
    ours, theirs = compared(built, guard, options.runs)
    ratios.append(programs.ratio(ours, theirs))
    ours, theirs = statistics.median(ours), statistics.median(theirs)
    script = programs.printed([built["calls"], "smt"], guards.pack([guard])).encode()
    said = {solver: solved(solver, script, options.timeout) for solver in programs.SOLVERS}
    for solver, verdict in said.items():
        if not agrees(guard, verdict):
            sys.exit(f"{guard.name}: {solver} says {verdict}, {guard.answer} was expected")
    times = [f"{ours:.0f}", f"{theirs:.0f}", f"{ratios[-1]:.2f}", f"{ours * guard.nodes() / 1e6:.1f}"]
    return [guard.name, guard.line_one(), *times, *said.values()]


def times(built, options):
    """Prints the table of times."""
    titles = ["guard", "answer", "Rattle, ns a node", "Rust, ns a node", "ratio", "Rattle, ms"]
    titles += [f"{solver}, ms" for solver in programs.SOLVERS]
    wanted = (known(built, guard) for guard in options.guards)
    ratios = []
    table.show(titles, (row(built, guard, options, ratios) for guard in wanted))
    print(f"Median of the ratios {statistics.median(ratios):.2f}, largest {max(ratios):.2f}.\n")


def counted(program, guard):
    """Instructions for each node: what a longer run takes more than a shorter one."""
    if guard.nodes() > 2 * NODES_COUNTED:
        runs = [guards.pack([guard], many * NODES_COUNTED) for many in (1, 2)]
        nodes = NODES_COUNTED
    else:
        runs = [guards.pack(many * [guard]) for many in (1, 2)]
        nodes = guard.nodes()
    fewer, more = (programs.instructions([program], data) for data in runs)
    return (more - fewer) / nodes


def instructions(built, options):
    """Prints the table of instructions."""

    def one(guard):
        ours, theirs = (counted(built[program], guard) for program in ("searchvectors", "search"))
        return [guard.name, f"{ours:,.0f}", f"{theirs:,.0f}", f"{ours / theirs:.2f}"]

    wanted = (known(built, guard) for guard in options.guards)
    table.show(["guard", "Rattle, a node", "Rust, a node", "ratio"], map(one, wanted))
