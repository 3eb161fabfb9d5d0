"""The words of `view`, and what it reads and writes."""
import os
import sys

from fault import USAGE, Fault, write_all
from viewer.lanes import lanes_of
from viewer.page import page_of
from viewer.recording import Recording
from viewer.scenario import read_scenario
from viewer.sentences import many
from viewer.trace import read_trace

HELP = "usage: biostack run --trace < TEXT | view [--svg] [--steps FROM-TO] TEXT > run.html"
MISFIT = 1


def decode(data, name):
    try:
        return data.decode("ascii")
    except UnicodeDecodeError as error:
        line = data.count(b"\n", 0, error.start) + 1
        raise Fault(f"{name}: line {line}: a byte {data[error.start]}, which no text has") from None


def read_words(words):
    """Returns the file of the text, whether a picture is asked for, and its first and last step or None."""
    files, is_picture, steps = [], False, None
    words = list(words)
    while words:
        word = words.pop(0)
        if word == "--svg":
            is_picture = True
        elif word == "--steps" and words:
            first, dash, last = words.pop(0).partition("-")
            if not (dash and first.isdigit() and last.isdigit() and 1 <= int(first) <= int(last)):
                raise Fault("--steps takes FROM-TO, such as 1-25", USAGE)
            steps = int(first), int(last)
        elif word.startswith("-"):
            raise Fault(HELP, USAGE)
        else:
            files.append(word)
    if len(files) != 1 or steps and not is_picture:
        raise Fault(HELP, USAGE)
    return files[0], is_picture, steps


def read_text(path):
    try:
        with open(path, "rb") as file:
            return decode(file.read(), path)
    except OSError as error:
        raise Fault(f"{path}: {error.strerror}") from None


def notes_of(recording, report):
    """Returns what does not fit, and what is missing, a line each."""
    misfit, run = recording.misfit, recording.run
    if misfit:
        return [f"Line {misfit['line']} of the trace does not fit: {misfit['text']}. The steps before it are shown."]
    if report is None:
        waiting = "".join(f" {task.name} waits at {task.ask.object}." for task in recording.waiting())
        return [f"The trace has no report: it ends at step {run.step}, with {many(run.unfinished, 'write')} unfinished.{waiting}"]
    against = recording.against(report)
    return [f"The report, from line {report.line} of the trace on, does not fit. {against}."] if against else []


def main(words, source, out):
    path, is_picture, steps = read_words(words)
    scenario = read_scenario(read_text(path), path)
    events, lines, report = read_trace(decode(source.read(), "standard input"))
    recording = Recording(scenario)
    recording.follow(events)
    notes = notes_of(recording, report)
    title = os.path.basename(path)
    write_all(out, lanes_of(title, recording, lines, steps) if is_picture else page_of(title, recording, lines, notes))
    for note in notes:
        print(f"view: {note}", file=sys.stderr)
    return MISFIT if notes else 0
