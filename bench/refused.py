#!/usr/bin/env python3
"""Runs the program while allocations are refused, one after the other, up to the end of the opening and beyond. It is no test.

usage: bench/refused.py [PROGRAM]      PROGRAM is crates/biostack/out/biostack if left out

Each order runs each text with one number refused, and then with that number and all behind it. What may be seen of such a run:

- up to the end of the opening: status 6, its line on errors and nothing written. Of one number alone it may be the run's own end too: a list that grows asks
  for more than it needs first, and then for what it needs;
- behind it, without a trace: what the run ends with that has all memory, with the same statuses, disks and written runs. What was refused was an ordinary
  element, in whose place a spare one served, or a thread, whose tasks the caller stepped. By two workers the order of allocations varies, so a number is not
  the same allocation each time; what may be seen is the same;
- behind it, with a trace of workers: the same, with a trace that replays to its end without a bad line; or status 6, its line on errors and nothing written,
  where a task could not note an event.

It needs `cc`, for a `malloc` that counts, and does nothing where there is none.
"""
import os
import shutil
import subprocess
import sys
import tempfile

HERE = os.path.dirname(os.path.abspath(__file__))
sys.path.insert(0, HERE)
from workers import replayed  # noqa: E402

TOP = os.path.dirname(HERE)
# so many numbers behind the opening are refused where there is no trace; where there is one, all that a run has
BEYOND = 200
WANT = (6, "", "biostack: want of memory\n")

# It refuses the number REFUSED, or with ALSO each from that on. The count stands in the file COUNT, since the program leaves without a word to libraries.
SHIM = r"""
#define _GNU_SOURCE
#include <dlfcn.h>
#include <errno.h>
#include <fcntl.h>
#include <stdatomic.h>
#include <stdlib.h>
#include <sys/mman.h>

static atomic_ulong before, *made = &before;
static unsigned long refused;
static int also;
static void *(*real)(size_t);

__attribute__((constructor)) static void begin(void) {
    char *word = getenv("REFUSED"), *path = getenv("COUNT");
    int file = path ? open(path, O_RDWR) : -1;
    void *page = mmap(0, sizeof *made, PROT_READ | PROT_WRITE, MAP_SHARED, file, 0);
    if (!word || page == MAP_FAILED) {
        abort();
    }
    real = (void *(*)(size_t))dlsym(RTLD_NEXT, "malloc");
    made = page;
    also = getenv("ALSO") != 0;
    refused = strtoul(word, 0, 10);
}

void *malloc(size_t size) {
    if (!real) {
        real = (void *(*)(size_t))dlsym(RTLD_NEXT, "malloc");
    }
    unsigned long number = ++*made;
    if (refused && (also ? number >= refused : number == refused)) {
        errno = ENOMEM;
        return 0;
    }
    return real(size);
}
"""


def raid10():
    """200 writes of many sizes to a mirror of two stripes over limits, on four disks."""
    disks = "".join(f"disk d{k} 32768\n" for k in range(4)) + "".join(f"limit l{k} max=256 d{k}\n" for k in range(4))
    lines = disks + "stripe s0 chunk=128 l0 l1\nstripe s1 chunk=128 l2 l3\nmirror m s0 s1\n"
    place = 0
    for number in range(200):
        count = (8, 16, 32, 64, 128, 256, 24, 40, 512, 2048)[number % 10]
        lines += f"write {number % 4} m {place} {count} {64 * place}\n"
        place += count
    return lines


TEXTS = [
    ("a write to a disk", "disk a 64\nwrite 0 a 0 1 0\n"),
    ("a mirror without memory", "disk a 8\ndisk b 8\nmirror m a b reserve=1 records=1\nmemory none\nwrite 0 m 0 1 0\n"),
    ("200 writes to RAID 10", raid10()),
]


ORDERS = [
    ["run"],
    ["run", "--workers", "1"],
    ["run", "--workers", "2"],
    ["run", "--workers", "1", "--trace"],
    ["run", "--workers", "2", "--trace"],
]


class Trial:
    """An order, a text, and what its run comes to with all memory."""

    def __init__(self, program, shim, words, text):
        self.program, self.shim, self.words, self.text = program, shim, words, text
        self.count = shim + ".count"
        self.whole = self.ran(0, False)
        with open(self.count, "rb") as file:
            self.made = int.from_bytes(file.read(), sys.byteorder)

    def ran(self, refused, also):
        """The status, the output and the errors of a run whose allocation of this number is refused, and also all behind it."""
        with open(self.count, "wb") as file:
            file.write(bytes(8))
        environment = {"LD_PRELOAD": self.shim, "REFUSED": str(refused), "COUNT": self.count, **({"ALSO": "1"} if also else {})}
        done = subprocess.run([self.program, *self.words], input=self.text.encode(), capture_output=True, env=environment)
        return done.returncode, done.stdout.decode(), done.stderr.decode()

    def is_whole(self, run):
        """Whether a run came to its end as with all memory, with a trace of all of its events where there is to be one."""
        status, output, errors = run
        same = status == self.whole[0] and kept(output) == kept(self.whole[1]) and errors == ""
        return same and ("--trace" not in self.words or replayed(self.program, self.text, output.encode()))

    def first_behind(self, number, also):
        """The first number from this one on with which memory is not wanting."""
        while self.ran(number, also) == WANT:
            number += 1
        return number


def kept(output):
    """The lines that must not move: those of writes, disks and written runs."""
    return [line for line in output.splitlines() if line.split()[0] in ("write", "disk", "run")]


def opening_of(trial):
    """How many allocations there are up to the end of the opening. Without a trace a run outlives it that is refused all behind it. A trace takes none there,
    but for the words: as many more as a text that is refused at once shows."""
    if "--trace" not in trial.words:
        return trial.first_behind(1, True) - 1
    words = [word for word in trial.words if word != "--trace"]
    quiet, refused, quiet_refused = (Trial(trial.program, trial.shim, *given) for given in ((words, trial.text), (trial.words, "x\n"), (words, "x\n")))
    return opening_of(quiet) + refused.made - quiet_refused.made


def refuse_each(trial, opening, also):
    """Refuses each number, and tells what was seen."""
    traced = "--trace" in trial.words
    last = trial.made if traced else opening + BEYOND
    whole, wanting, spares = [0, 0], [0, 0], set()
    for number in range(1, last + 1):
        behind = number > opening
        run = trial.ran(number, also)
        if trial.is_whole(run) and (behind or not also):
            whole[behind] += 1
            spares.update(line for line in run[1].splitlines() if line.startswith("pool") and not line.endswith(" 0"))
        elif run == WANT and (traced or not behind):
            wanting[behind] += 1
        else:
            sys.exit(f"{' '.join(trial.words)}: number {number} refused{' and all behind it' if also else ''}: status {run[0]}\n{run[1]}{run[2]}")
    told = [f"{count[behind]} {what}" for behind in (0, 1) for count, what in ((wanting, "wanting"), (whole, "whole"))]
    print(f"  {'from it on:' if also else 'one alone:':12}opening: {told[0]}, {told[1]}; behind it: {told[2]}, {told[3]}", end="")
    print(f"; with one of them: {sorted(spares)[0]}" if spares and not also else "", flush=True)


def main():
    program = sys.argv[1] if len(sys.argv) > 1 else os.path.join(TOP, "crates", "biostack", "out", "biostack")
    if not shutil.which("cc"):
        sys.exit("there is no cc, so nothing is refused")
    with tempfile.TemporaryDirectory() as folder:
        source, shim = os.path.join(folder, "refuse.c"), os.path.join(folder, "refuse.so")
        with open(source, "w") as file:
            file.write(SHIM)
        subprocess.run(["cc", "-shared", "-fPIC", "-O2", "-o", shim, source, "-ldl"], check=True)
        for words in ORDERS:
            for name, text in TEXTS:
                print(f"{' '.join(words)}, {name}:", flush=True)
                trial = Trial(program, shim, words, text)
                opening = opening_of(trial)
                for also in (False, True):
                    refuse_each(trial, opening, also)


if __name__ == "__main__":
    main()
