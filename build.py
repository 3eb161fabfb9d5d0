#!/usr/bin/env python3
"""Proves and builds the program. `biostack prove` calls it; it takes no words.

`rt ci` does it, in a copy of the crates that the program stands on, without tests and without the wrong bodies that the
prover must refuse: so each crate is proved once, over what those below it state, and side by side with others. The copy
is a folder of its own, outside this repository, and gone at the end. Only the program is taken out of it, and what rt said
is crates/biostack/out/log. A kit that keeps what it has proved proves only what changed since, and all above it.
"""
import fcntl
import os
import re
import resource
import shutil
import signal
import subprocess
import sys
import tempfile
import time

TOP = os.path.dirname(os.path.realpath(__file__))
LAST = "biostack"
# of the kit that this was proved with; another kit of the same logic will do
LOGIC = "logic dac8208d650f15bf"
OUT = f"{TOP}/crates/{LAST}/out"
LOG = f"{OUT}/log"
START, BEGAN = time.monotonic(), time.time()


def say(text):
    print(f"biostack: {text}", file=sys.stderr, flush=True)


def minutes():
    return f"{(time.monotonic() - START) / 60:.1f} min"


def read_crates():
    """Returns the lines of crates.txt that the program stands on, by their crates, lowest first."""
    lines, named = {}, {}
    with open(f"{TOP}/crates.txt", encoding="utf-8") as it:
        for line in (it.partition("#")[0].strip() for it in it):
            if line:
                head, _, below = line.partition(":")
                lines[head.split()[0]], named[head.split()[0]] = line, below.split()
    found = {}

    def add(name):
        for it in named[name]:
            if it in lines:
                add(it)
        found.setdefault(name, lines[name])

    add(LAST)
    return found


def copy(crates, to):
    """Copies what rt ci reads of these crates."""
    for name in crates:
        shutil.copytree(f"{TOP}/crates/{name}", f"{to}/crates/{name}", ignore=shutil.ignore_patterns("out", "must-fail"))
    with open(f"{to}/crates.txt", "w", encoding="utf-8") as file:
        file.writelines(f"{line}\n" for line in crates.values())
    shutil.copyfile(f"{TOP}/HANDLES", f"{to}/HANDLES")


def prove(crates, work):
    """Has rt prove and build all, says how far it is, and returns its status."""
    done = 0
    with open(LOG, "w", encoding="utf-8") as log:
        how = {"stdin": subprocess.DEVNULL, "stdout": subprocess.PIPE, "stderr": subprocess.STDOUT}
        ran = subprocess.Popen(["rt", "ci"], cwd=work, **how, encoding="utf-8", errors="replace")
        try:
            for line in ran.stdout:
                log.write(line)
                said = re.match(r"rt: (\w+) (proved|is kept)\b", line)
                if said and said[1] in crates:
                    done += 1
                    say(f"{done} of {len(crates)} crates, {minutes()}: {said[1]}")
        finally:
            ran.terminate()
            status = ran.wait()
    return status


def lock():
    """Waits until no other build works here, and returns what keeps others out."""
    held = os.open(f"{TOP}/crates/{LAST}", os.O_RDONLY)
    try:
        fcntl.flock(held, fcntl.LOCK_EX | fcntl.LOCK_NB)
    except BlockingIOError:
        say("another build, or an rt, works here: waiting for its end")
        fcntl.flock(held, fcntl.LOCK_EX)
    except OSError:
        # some file systems have no locks
        pass
    return held


def main():
    held, crates = lock(), read_crates()
    os.makedirs(OUT, exist_ok=True)
    kit = subprocess.run(["rt", "version"], stdout=subprocess.PIPE, universal_newlines=True).stdout.strip()
    say(f"proving and building {len(crates)} crates with {kit}; what it says is in crates/{LAST}/out/log")
    if not kit.endswith(LOGIC):
        say(f"this was proved with {LOGIC}, so some proof may fail here")
    with tempfile.TemporaryDirectory(prefix="biostack-") as work:
        copy(crates, work)
        status, made = prove(crates, work), f"{work}/crates/{LAST}/out/{LAST}"
        if status or not os.access(made, os.X_OK):
            with open(LOG, encoding="utf-8") as log:
                sys.stderr.writelines(log.readlines()[-20:])
            say(f"the program was not built: rt ended with status {status} after {minutes()}")
            return 1
        # in one step, so that no run meets half of it
        shutil.copyfile(made, f"{OUT}/{LAST}.new")
    os.chmod(f"{OUT}/{LAST}.new", 0o755)
    # What is edited during the build is newer.
    os.utime(f"{OUT}/{LAST}.new", (BEGAN, BEGAN))
    os.replace(f"{OUT}/{LAST}.new", f"{OUT}/{LAST}")
    used = resource.getrusage(resource.RUSAGE_CHILDREN)
    say(f"built in {minutes()}, with {(used.ru_utime + used.ru_stime) / 60:.1f} processor minutes")
    os.close(held)
    return 0


if __name__ == "__main__":
    signal.signal(signal.SIGTERM, signal.default_int_handler)
    try:
        sys.exit(main())
    except KeyboardInterrupt:
        say(f"stopped after {minutes()}")
        sys.exit(1)
