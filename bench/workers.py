#!/usr/bin/env python3
"""Runs of the program by 1, 2 and 4 workers beside its serial run, and both beside a twin in plain Rust (`runs/twin.rs`): seconds. It is no test.

usage: bench/workers.py [PROGRAM]                     times the runs below, all in turn
       bench/workers.py [PROGRAM] --same N [--trace]  runs N random texts by four workers: the images and which writes are ok must be those of the serial
                                                      run; with --trace each is traced, and the trace must replay to its end without a bad line
       bench/workers.py [PROGRAM] --million           the same of one text of a million events, without a trace
       bench/workers.py [PROGRAM] --starts            runs by sixteen workers that may have so many threads, or so much address space: a thread that cannot be
                                                      started is made up for by the caller, so the run is to tell what the serial run tells, or that there is
                                                      no memory to open it. It needs `cc`, for a `pthread_create` that counts

PROGRAM is crates/biostack/out/biostack if left out. The twin has the same tasks over objects behind a `Mutex` each, draws a ticket for each event from an
atomic counter, and has workers that sweep and sleep as the program's do. To measure beside other work, raise the priority of the whole script.
"""
import os
import random
import resource
import shutil
import subprocess
import sys
import tempfile

HERE = os.path.dirname(os.path.abspath(__file__))
sys.path.insert(0, HERE)
import run  # noqa: E402
from runs import once, output, random_text  # noqa: E402

ROUNDS = 9
WORKERS = (1, 2, 4)


def lanes(count):
    """Four writers that share no disk: each has a limit of four sectors over a disk of its own."""
    devices = "".join(f"disk d{k} 65536\nlimit l{k} max=4 d{k}\n" for k in range(4))
    return devices + "".join(f"write {k % 4} l{k % 4} {64 * (k // 4)} 64 {64 * k}\n" for k in range(count))


CASES = [(name, words, text) for name, words, text, *_ in run.CASES if words[0] == "run" and "--trace" not in words and not name.startswith("refused")]
CASES.append(("four writers, a disk each", ["run"], lanes(4096)))


def by(words, workers):
    """The words of a run by so many workers, or of the serial run."""
    return words + (["--workers", str(workers)] if workers else [])


def told(output):
    """What every run of a text tells alike: the images, and which writes are ok."""
    lines = output.decode().splitlines()
    oks = [line.split()[1] for line in lines if line.startswith("write ") and line.endswith(" ok")]
    return oks, [line for line in lines if line.startswith(("disk ", "run "))]


def replayed(program, text, traced):
    """Whether what a traced run wrote replays to its end without a bad line, with as many events as its report counts."""
    events = [line for line in traced.decode().splitlines(True) if line.startswith("event ")]
    status, out, _ = output(program, ["replay"], text + "".join(events))
    lines = out.decode().splitlines()
    return status == 0 and f"replay events {len(events)}" in lines and "end ended" in lines and run.steps_of(traced.decode()) == len(events)


def same(program, texts, trace):
    """Compares runs by four workers with the serial run."""
    for number, text in texts:
        serial = output(program, ["run"], text)
        words = by(["run"], 4) + (["--trace"] if trace else [])
        shared = output(program, words, text)
        if told(serial[1]) != told(shared[1]) or serial[0] != shared[0]:
            sys.exit(f"text {number}: {' '.join(words)}\n{text}\n{serial[1].decode()}\n{shared[1].decode()}{shared[2].decode()}")
        if trace and not replayed(program, text, shared[1]):
            sys.exit(f"text {number}: its trace does not replay\n{text}\n{shared[1].decode()}")
        print(f"text {number}: the same, {run.steps_of(serial[1].decode())} and {run.steps_of(shared[1].decode())} events", flush=True)


# It counts the threads that were started and those that were refused, in two words of the file COUNT, whose third one says that it was loaded. It has the stack
# grow before to what a run by sixteen workers takes of the caller's, since the system ends a program whose stack cannot grow.
COUNTING = r"""
#define _GNU_SOURCE
#include <dlfcn.h>
#include <fcntl.h>
#include <pthread.h>
#include <stdatomic.h>
#include <stdlib.h>
#include <sys/mman.h>

#define STACK (512 << 10)

static atomic_ulong *counts;
static int (*real)(pthread_t *, const pthread_attr_t *, void *(*)(void *), void *);

__attribute__((constructor)) static void begin(void) {
    volatile char grown[STACK];
    for (int at = STACK; at > 0; at -= 4096) {
        grown[at - 1] = 0;
    }
    void *page = mmap(0, 24, PROT_READ | PROT_WRITE, MAP_SHARED, open(getenv("COUNT"), O_RDWR), 0);
    if (page == MAP_FAILED) {
        abort();
    }
    counts = page;
    *(void **)&real = dlsym(RTLD_NEXT, "pthread_create");
    counts[2] = 1;
}

int pthread_create(pthread_t *thread, const pthread_attr_t *attributes, void *(*work)(void *), void *argument) {
    int refused = real(thread, attributes, work, argument);
    ++counts[refused != 0];
    return refused;
}
"""

# A user who has no other thread: for root no number of threads is a limit.
NOBODY = 64999


def threads_of(user):
    """How many threads a user has now, each of which counts for its limit."""
    count = 0
    for number in filter(str.isdigit, os.listdir("/proc")):
        try:
            count += len(os.listdir(f"/proc/{number}/task")) if os.stat(f"/proc/{number}").st_uid == user else 0
        except OSError:
            continue
    return count


class Starts:
    """A program in a folder of its own that any user may run, with a `pthread_create` that counts."""

    def __init__(self, program, folder):
        os.chmod(folder, 0o755)
        self.program, self.shim, self.count = (os.path.join(folder, name) for name in ("biostack", "count.so", "count"))
        shutil.copy(program, self.program)
        with open(self.shim + ".c", "w") as file:
            file.write(COUNTING)
        subprocess.run(["cc", "-shared", "-fPIC", "-O2", "-o", self.shim, self.shim + ".c", "-ldl"], check=True)

    def ran(self, words, text, kind, limit):
        """The status, output and errors of a run under a limit, or nothing where it was not loaded, and how many threads it started and was refused."""
        user = NOBODY if os.geteuid() == 0 else os.geteuid()
        most = limit + threads_of(user) if kind == resource.RLIMIT_NPROC else limit
        with open(self.count, "wb") as file:
            file.write(bytes(24))
        os.chmod(self.count, 0o666)

        def begin():
            resource.setrlimit(kind, (most, most))
            if os.geteuid() == 0:
                os.setuid(user)

        environment = {"LD_PRELOAD": self.shim, "COUNT": self.count}
        done = subprocess.run([self.program, *words], input=text.encode(), capture_output=True, env=environment, preexec_fn=begin)
        with open(self.count, "rb") as file:
            started, refused, loaded = (int.from_bytes(file.read(8), sys.byteorder) for _ in range(3))
        return (done.returncode, done.stdout, done.stderr) if loaded else None, started, refused


# Small disks, so that it is threads that want the address space.
SMALL = (
    ("a mirror without memory", "disk a 64\ndisk b 64\nmirror m a b reserve=1 records=1\nmemory none\n" + "".join(f"write {k % 8} m {k} 1 {64 * k}\n" for k in range(64))),
    ("four writers, a disk each", "".join(f"disk d{k} 64\nlimit l{k} max=4 d{k}\n" for k in range(4)) + "".join(f"write {k} l{k} 0 64 0\n" for k in range(4))),
)


def seen(serial, run, may_lack):
    """What is seen of a run under a limit, or nothing where it is none of what may be."""
    if may_lack and run is None:
        return "the program could not be loaded"
    if may_lack and run == (6, b"", b"biostack: want of memory\n"):
        return "no memory to open it"
    if run is not None and run[0] == serial[0] and told(run[1]) == told(serial[1]) and not run[2]:
        return "what the serial run tells"
    return None


def starts(program):
    """Runs by sixteen workers under limits of threads and of address space. Tells where what is seen becomes another."""
    limits = (("threads", resource.RLIMIT_NPROC, 1, range(1, 18)), ("MiB", resource.RLIMIT_AS, 1 << 20, [half / 2 for half in range(4, 280)]))
    with tempfile.TemporaryDirectory() as folder:
        under = Starts(program, folder)
        for name, text in SMALL:
            serial = output(program, ["run"], text)
            for unit, kind, size, numbers in limits:
                before = None
                for number in numbers:
                    ended, started, refused = under.ran(by(["run"], 16), text, kind, int(number * size))
                    what = seen(serial, ended, kind == resource.RLIMIT_AS)
                    if what is None:
                        sys.exit(f"{name}, {number} {unit}: {ended}")
                    if (what, started) != before:
                        print(f"{name}, {number:g} {unit}: {what}; {started} threads started, {refused} refused", flush=True)
                    before = what, started


def build_twin(folder):
    path = os.path.join(folder, "twin")
    words = ["--edition", "2021", "-C", "opt-level=3", "-C", "target-cpu=x86-64-v2", "-A", "warnings"]
    subprocess.run(["rustc", *words, "-o", path, os.path.join(HERE, "runs", "twin.rs")], check=True)
    return path


def times(program):
    with tempfile.TemporaryDirectory() as folder:
        programs = {"Rattle": program, "Rust": build_twin(folder)}
        heads = "".join(f"{kind + ' ' + name:>9}" for kind in programs for name in ("run", *map(str, WORKERS)))
        print(f"{'seconds, the least of ' + str(ROUNDS):40}{heads}{'1 / run':>9}{'4 / 1':>7}")
        for name, words, text in CASES:
            ways = [(kind, workers) for kind in programs for workers in (0, *WORKERS)]
            # in turn, so that what else the machine does falls on each
            rounds = [[once(programs[kind], by(words, workers), text) for kind, workers in ways] for _ in range(ROUNDS)]
            least = [min(took[at] for took in rounds) for at in range(len(ways))]
            print(f"{name:40}{''.join(f'{seconds:9.4f}' for seconds in least)}{least[1] / least[0]:9.2f}{least[3] / least[1]:7.2f}", flush=True)


def main():
    words = sys.argv[1:]
    count, million, trace, limited = 0, "--million" in words, "--trace" in words, "--starts" in words
    words = [word for word in words if word not in ("--million", "--trace", "--starts")]
    if "--same" in words:
        at = words.index("--same")
        count = int(words[at + 1])
        del words[at:at + 2]
    program = words[0] if words else os.path.join(run.TOP, "crates", "biostack", "out", "biostack")
    if not os.access(program, os.X_OK):
        sys.exit("no program at " + program + ": run ./biostack prove, which builds it")
    if count:
        return same(program, ((seed, random_text(random.Random(seed))) for seed in range(count)), trace)
    if million:
        return same(program, [("of a million events", run.limited("", 72))], False)
    if limited:
        return starts(program) if shutil.which("cc") else sys.exit("there is no cc, so no thread is counted")
    times(program)


if __name__ == "__main__":
    main()
