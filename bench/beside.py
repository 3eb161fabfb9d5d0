#!/usr/bin/env python3
"""Times calls of crates of this repository, and prints nanoseconds a call beside those of a twin in plain Rust. It is no test.

usage: bench/beside.py [NAME ..]      a NAME is a folder beside this script (pools, lists, books, lanes, disks, scrubs, locks, pieces, joins, cores, steps, desks, held_desks);
                                      each of them if left out

It needs `rt`, which proves and builds each measured program in a throw-away repository, and `rustc`. That takes a few minutes a program. Libraries that
are built (`rt check`, `rt lib`) are taken along.
A folder has the program in main.rt.txt and the twin in twin.rs, perhaps others in twin_*.rs, and of the program's proof the invariants of a
function F in F.antt.txt, or what else there is in proofs/, specs/ or src/, each file with .txt behind its name. Each program gets a number of calls as its argument, and
writes a line for each row: its name, the nanoseconds that all calls took, and how many of the calls were served.

The programs of cores, steps, desks and held_desks read the text of a run. There the rows are texts, with the name of the line where there are several, a call is
an event, and both go on to the end of the run in which the number is reached.
"""
import os
import re
import shutil
import statistics
import subprocess
import sys
import tempfile

BENCH = os.path.dirname(os.path.abspath(__file__))
TOP = os.path.dirname(BENCH)
sys.path.insert(0, BENCH)
import run  # noqa: E402

ROUNDS = 9
CALLS = 1000000
# in place of that number; of disks and scrubs a call is a sector: each disk has as many as a disk may have, each member of a mirror 65,536
CALLS_OF = {"disks": 4 * 262144, "scrubs": 16 * 65536, "steps": 10000000, "desks": 2000000, "held_desks": 2000000}

TEXTS = {
    "single": run.writes(131072),
    "limit": run.limited("", 64),
    "none": run.limited("memory none\n", 64),
    "mirror": run.mirrored("memory none\n", 16384),
}


def names():
    """The folders with a program to measure."""
    return sorted(name for name in os.listdir(BENCH) if os.path.exists(os.path.join(BENCH, name, "main.rt.txt")))


def kept(sources):
    """The files of the measured program, each by its place in its crate: they have other names in the repository, where each .rt and .antt
    file belongs to a crate."""
    files = {}
    for folder, _, found in os.walk(sources):
        for name in found:
            path = os.path.join(folder, name)
            at = os.path.relpath(path, sources).removesuffix(".txt")
            if at == "main.rt":
                files["src/main.rt"] = path
            elif name.endswith(".antt.txt") and folder == sources:
                files[f"proofs/{name.removesuffix('.antt.txt')}/Invariants.antt"] = path
            elif name.endswith(".txt"):
                files[at] = path
    return files


def declared():
    """What each crate of the repository stands on."""
    needs = {}
    with open(os.path.join(TOP, "crates.txt")) as file:
        for line in file:
            head, colon, rest = line.partition("#")[0].partition(":")
            if colon:
                needs[head.split()[0]] = rest.split()
    return needs


def named(files, needs):
    """The crates that these files name."""
    known = set(needs).union(*needs.values())
    words = set()
    for path in files:
        with open(path) as file:
            text = file.read()
        words.update(re.findall(r"\buse (\w+)::", text), re.findall(r"\bRattle\.(\w+)\.", text))
    return sorted(words & known)


def with_below(crates, needs):
    """These crates of the repository, and those below them."""
    found = []
    for name in crates:
        if name in needs and name not in found:
            found += [below for below in with_below(needs[name], needs) if below not in found] + [name]
    return found


def left_out(folder, inside):
    """What is not copied of a crate: its wrong bodies, and of what rt has made all but the library."""
    if os.path.basename(folder) == "out":
        return [name for name in inside if name != "rlib"]
    return [name for name in inside if name == "must-fail"]


def build_measured(name, folder):
    """Builds the measured program in a repository of its own, and answers its path."""
    files, needs = kept(os.path.join(BENCH, name)), declared()
    crates, measure = os.path.join(folder, "crates"), os.path.join(folder, "crates", "measure")
    stands_on = named(files.values(), needs)
    copied = with_below(stands_on, needs)
    of_kit = [crate for crate in stands_on if crate not in needs]
    for crate in copied:
        shutil.copytree(os.path.join(TOP, "crates", crate), os.path.join(crates, crate), ignore=left_out)
    for at, path in files.items():
        place = os.path.join(measure, at)
        os.makedirs(os.path.dirname(place), exist_ok=True)
        shutil.copyfile(path, place)
    with open(os.path.join(folder, "crates.txt"), "w") as file:
        for crate in copied:
            file.write(f"{crate}: {' '.join(needs[crate])}\n")
        file.write(f"measure: {' '.join(copied + of_kit)}\n")
    # the measured program may use the handles that this repository may
    shutil.copyfile(os.path.join(TOP, "HANDLES"), os.path.join(folder, "HANDLES"))
    run = subprocess.run(["rt", "run", "--", "0"], cwd=measure, stdin=subprocess.DEVNULL, stdout=subprocess.DEVNULL, stderr=subprocess.PIPE, text=True)
    if run.returncode != 0:
        sys.exit(run.stderr)
    return os.path.join(measure, "out", "measure")


def build_twins(name, folder):
    """Builds each twin for the processor that the measured program is built for, and answers their paths, by their files."""
    twins = {}
    for file in sorted(os.listdir(os.path.join(BENCH, name))):
        if file.startswith("twin") and file.endswith(".rs"):
            twins[file] = os.path.join(folder, file.removesuffix(".rs"))
            words = ["--edition", "2024", "-C", "opt-level=3", "-C", "target-cpu=x86-64-v2", "-o", twins[file]]
            subprocess.run(["rustc", *words, os.path.join(BENCH, name, file)], check=True)
    return twins


def build_machine(folder):
    """Builds the twin of the whole program, and answers its path."""
    path = os.path.join(folder, "machine")
    subprocess.run(["rustc", "--edition", "2024", "-C", "opt-level=3", "-A", "warnings", "-o", path, os.path.join(BENCH, "runs", "twin.rs")], check=True)
    return path


def with_events(text, program):
    """The text, and the lines of the events of its run."""
    trace = subprocess.run([program, "run", "--trace"], input=text, stdout=subprocess.PIPE, text=True).stdout
    return text + "# events\n" + "".join(line for line in trace.splitlines(True) if line.startswith("event "))


def inputs(name, folder):
    """What the programs of a folder read, by rows, if they read anything."""
    if name in ("steps", "desks", "held_desks"):
        return TEXTS
    if name == "cores":
        program = build_machine(folder)
        return {row: with_events(text, program) for row, text in TEXTS.items()}
    return {}


def once(program, calls, text=None):
    """Runs the program once: nanoseconds a call, by row."""
    output = subprocess.run([program, str(calls)], input=text, check=True, stdout=subprocess.PIPE, text=True).stdout
    rows = {}
    for line in output.splitlines():
        name, nanoseconds, served = line.split()
        if int(served) < calls or text is None and int(served) > calls:
            sys.exit(f"{program}: {served} of {calls} calls were served at {name}")
        rows[name] = int(nanoseconds) / int(served)
    return rows


def all_rows(program, calls, texts):
    """The same, with a row for each text, if there are any."""
    if not texts:
        return once(program, calls)
    rows = {}
    for row, text in texts.items():
        lines = once(program, calls, text)
        rows.update({f"{row} {line}" if len(lines) > 1 else row: took for line, took in lines.items()})
    return rows


def measure(name):
    """Prints the tables of one folder, one for each twin, under its name: the least of the runs, and the middle one, which tells more where
    threads meet."""
    calls = CALLS_OF.get(name, CALLS)
    with tempfile.TemporaryDirectory() as folder:
        measured, twins = build_measured(name, folder), build_twins(name, folder)
        texts = inputs(name, folder)
        # in turn, so that what else the machine does falls on each
        programs = {"": measured, **twins}
        runs = [{file: all_rows(program, calls, texts) for file, program in programs.items()} for _ in range(ROUNDS)]
    for file in twins:
        print(f"{name:14} {'Rattle ns':>10} {'Rust ns':>10} {'ratio':>6} {'Rattle mid':>10} {'Rust mid':>10} {'ratio':>6} {file}")
        for row in runs[0][""]:
            words = [f"{row:14}"]
            for pick in (min, statistics.median):
                ours = pick(run[""][row] for run in runs)
                theirs = pick(run[file][row] for run in runs)
                words.append(f"{ours:10.2f} {theirs:10.2f} {ours / theirs:6.2f}")
            print(" ".join(words), flush=True)


def main():
    there = names()
    for name in sys.argv[1:]:
        if name not in there:
            sys.exit(f"no {name}: there are {', '.join(there)}")
    for name in sys.argv[1:] or there:
        measure(name)


if __name__ == "__main__":
    main()
