"""The programs that are measured: building them, and running them with the time that they take."""

import os
import pathlib
import re
import shutil
import statistics
import subprocess
import sys
import tempfile

ROOT = pathlib.Path(__file__).resolve().parent.parent
SOLVERS = ("z3", "cvc5")
# callgrind counts each byte of a `rep stos` or `rep movs` as an instruction: glibc is to clear and copy by vectors.
BY_VECTORS = "glibc.cpu.x86_rep_stosb_threshold=100000000:glibc.cpu.x86_rep_movsb_threshold=100000000"


def cargo(package, *names):
    """Builds a package; gives its programs of these names."""
    subprocess.run(["cargo", "build", "--release", "--quiet"], cwd=ROOT / package, check=True)
    target = ROOT / package / os.environ.get("CARGO_TARGET_DIR", "target") / "release"
    return [str(target / name) for name in names]


def build():
    """Builds everything; gives the path of each program by its name."""
    crates = ROOT / "crates"
    subprocess.run(["rt", "lib"], cwd=crates / "desklink", check=True, stdout=subprocess.DEVNULL)
    programs = {}
    for name in ("searchvectors", "guarddesk"):
        # It runs the program too, once.
        with open(crates / name / "stdin", "rb") as stdin:
            subprocess.run(["rt", "run"], cwd=crates / name, check=True, stdin=stdin, stdout=subprocess.DEVNULL)
        programs[name] = str(crates / name / "out" / name)
    programs["search"], programs["desk"] = cargo("bench/twin", "search", "desk")
    (programs["calls"],) = cargo("bench/calls", "calls")
    return programs


def install(*names):
    """Installs what is missing from Debian's packages; stops if it can't."""
    for name in names:
        if shutil.which(name) is None:
            get = ["apt-get", "install", "-y", "--no-install-recommends", name]
            quiet = {"stdout": subprocess.DEVNULL, "stderr": subprocess.DEVNULL}
            if subprocess.run(get, **quiet).returncode != 0:
                subprocess.run(["apt-get", "update"], **quiet)
                subprocess.run(get, **quiet)
        if shutil.which(name) is None:
            sys.exit(f"{name} is missing and can't be installed")


def solver(name, script, seconds):
    """The command that gives a script to a solver, within a time."""
    if name == "z3":
        return ["z3", "-in", f"-T:{seconds}"]
    # cvc5 takes several guards in this mode only, and is slower in it.
    mode = ["--incremental"] if b"(push 1)" in script else []
    return ["cvc5", "--lang=smt2", *mode, f"--tlimit={1000 * seconds}", "-"]


def version(command):
    """The first version number that a program tells of itself."""
    said = subprocess.run([command, "--version"], capture_output=True, text=True, check=True).stdout
    return re.search(r"\d+(\.\d+)+", said)[0]


def timed(command, data):
    """What the program printed, and its processor seconds."""
    with tempfile.TemporaryFile() as stdin:
        stdin.write(data)
        stdin.seek(0)
        child = subprocess.Popen(command, stdin=stdin, stdout=subprocess.PIPE, stderr=subprocess.DEVNULL)
        printed = child.stdout.read().decode(errors="replace")
        child.stdout.close()
        _, status, usage = os.wait4(child.pid, 0)
        child.returncode = os.waitstatus_to_exitcode(status)
    return printed, usage.ru_utime + usage.ru_stime


def printed(command, data):
    """What the program prints; stops if it fails."""
    done = subprocess.run(command, input=data, capture_output=True, check=False)
    if done.returncode != 0:
        sys.exit(f"{' '.join(command)}: {done.stderr.decode()}")
    return done.stdout.decode()


def instructions(command, data):
    """The instructions that a program takes, by callgrind."""
    valgrind = ["valgrind", "--tool=callgrind", "--callgrind-out-file=/dev/null", *command]
    environment = dict(os.environ, GLIBC_TUNABLES=BY_VECTORS)
    done = subprocess.run(valgrind, input=data, capture_output=True, env=environment, check=True)
    return int(re.search(rb"Collected : (\d+)", done.stderr)[1])


def ratio(ours, theirs):
    """The median of the ratios of runs that were made in turn."""
    return statistics.median(a / b for a, b in zip(ours, theirs))
