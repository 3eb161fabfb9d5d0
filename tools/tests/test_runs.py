"""Runs that are followed: one that was worked out by hand, those of the examples, and traces that do not fit."""
import io
import unittest

from fault import Fault
from tests import EXAMPLES, RUNS, TOOLS, examples, needs_program, program, read
from viewer.main import main, notes_of
from viewer.recording import Recording
from viewer.scenario import read_scenario
from viewer.trace import read_trace

SHORTAGE = "disk a 8\ndisk b 8\nmirror m a b reserve=1 records=1\nmemory none\nwrite 0 m 0 1 0\n"
# a run of it in which disk a is done before the writer goes on
EVENTS = """w0 take fs.bios spare
w0 link 0 write 0
w0 take m.records spare
w0 link 0 master 1
w0 take m.bios spare
w0 link 0 leg 2
w0 try m.bios missed
w0 punt m 1
r:m pop m
r:m push a 0 1 leg 0
c:a complete a 0 ok
c:a drop 0 2 ok up
c:a give m.bios
c:a drop 0 1 ok left
w0 take m.bios spare
w0 link 0 leg 2
w0 push b 0 1 leg 1
c:b complete b 0 ok
c:b drop 0 2 ok up
c:b give m.bios
c:b drop 0 1 ok up
c:b give m.records
c:b drop 0 0 ok top
c:b give fs.bios
c:b done 0 ok"""
REPORT = """write 0 ok
disk a sum 00000000000007e0
run a 0 1
disk b sum 00000000000007e0
run b 0 1
pool fs.bios reserve 2 ordinary 0 spare 1
pool fs.vecs reserve 2 ordinary 0 spare 0
pool m.records reserve 1 ordinary 0 spare 1
pool m.bios reserve 1 ordinary 0 spare 2
steps 25 of 36
"""
TRACE = "".join(f"event {line}\n" for line in EVENTS.split("\n")) + REPORT
# the step at which a line of the trace is put in its place, and what is said of it
MISFITS = [
    (1, "w1 take fs.bios spare", "there is no task w1"),
    (1, "w0 take fs.bios ordinary", "no attempt of fs.bios at ordinary memory succeeds here"),
    (1, "w0 take m.bios spare", "w0 asks for take fs.bios"),
    (1, "w0 take fs.bios missed", "fs.bios has a spare"),
    (2, "w0 link 0 chain 0", "w0 asks for link 0 write"),
    (4, "w0 link 0 master 0", "place 0 of the book of writer 0 has an open node"),
    (7, "w0 try m.bios spare", "m.bios has no spare"),
    (7, "w0 take m.bios spare", "w0 asks for try m.bios"),
    (8, "w0 punt m 2", "it should be m 1"),
    (9, "c:a complete a 0 ok", "a has 0 bios that wait, and none at index 0"),
    (10, "r:m push b 0 1 leg 0", "r:m asks for push a 0 1 leg 0"),
    (11, "c:a complete a 0 io", "the bio ends with ok, and not with io"),
    (12, "c:a drop 0 2 ok left", "it should be up"),
    (14, "c:a give m.bios", "c:a asks for drop 0 1 ok"),
    (15, "w0 take m.bios missed", "m.bios has a spare"),
    (25, "c:b done 1 ok", "it should be 0 ok"),
]
# what stands in the report, what is put in its place, and where that does not fit
REPORT_MISFITS = [
    ("spare 2", "spare 1", "pool m.bios"),
    ("run b 0 1", "run b 0 2", "disk b"),
    ("write 0 ok", "write 0 io", "writes"),
    ("steps 25", "steps 24", "steps"),
]
FAULTS = [
    ("", "standard input: there is no line of an event"),
    ("event w0 take fs.bios\n", "standard input: line 1: this is no line of an event"),
    ("event w0 take fs.bios spare\nevent w0  link 0 write 0\n", "standard input: line 2: this is no line of an event"),
    ("event w0 take fs.bios spare\nwrite 0 well\n", "standard input: line 2: this is no line of a trace or a report"),
]
TEXT_FAULTS = [
    ("disk a\n", "text: line 1: a disk line has 3 words, and this one 2"),
    ("disk a x\n", "text: line 1: x is no number"),
    ("# a comment\n\ndisc a 8\n", "text: line 3: `disc` is no word that a line begins with"),
    ("disk a 8\nmirror m a b\n", "text: line 2: there is no device b"),
    ("disk a 8\nwrite 0 a 8 1 0\n", "text: line 2: the write has no sector, or passes the end of a"),
    ("script x.bios + +\n", "text: there is no pool x.bios"),
]


def followed(text, trace):
    recording = Recording(read_scenario(text, "text"))
    events, lines, report = read_trace(trace)
    recording.follow(events)
    return recording, lines, notes_of(recording, report)


class WorkedRun(unittest.TestCase):
    def test_fits(self):
        recording, lines, notes = followed(SHORTAGE, TRACE)
        self.assertEqual((notes, recording.run.step, len(lines)), ([], 25, 25))

    def test_lines_between_events(self):
        links = followed(SHORTAGE, TRACE)[0].run.links
        self.assertEqual(links, {"punt": [(8, 9)], "push": [(10, 11), (17, 18)], "give": [(13, 15)]})

    def test_says_why_a_rescuer_is_needed(self):
        recording = followed(SHORTAGE, TRACE)[0]
        tale = recording.teller.text(recording.tales[6])
        whys = ("m.bios is empty", "Writer 0 may not wait here", "its own list holds the copy of write 0 for a", "only it could submit", "rescuer of m")
        for words in whys:
            self.assertIn(words, tale)

    def test_misfits(self):
        for step, line, why in MISFITS:
            lines = TRACE.split("\n")
            lines[step - 1] = f"event {line}"
            recording, _, notes = followed(SHORTAGE, "\n".join(lines))
            self.assertEqual(recording.run.step, step - 1, line)
            self.assertIn(f"Line {step} of the trace does not fit: {line}: ", notes[0])
            self.assertIn(why, notes[0])

    def test_event_behind_the_end(self):
        lines = TRACE.split("\n")
        lines.insert(25, "event w0 take fs.bios spare")
        self.assertIn("Line 26 of the trace does not fit: w0 take fs.bios spare: w0 has ended", followed(SHORTAGE, "\n".join(lines))[2][0])

    def test_reports_that_do_not_fit(self):
        for old, new, what in REPORT_MISFITS:
            notes = followed(SHORTAGE, TRACE.replace(old, new))[2]
            self.assertIn(f"The report, from line 26 of the trace on, does not fit. {what}", notes[0])

    def test_stuck_without_a_rescuer(self):
        """Without a rescuer the run stands still behind its sixth event."""
        text = SHORTAGE.replace("records=1", "records=1 rescuer=no")
        recording, _, notes = followed(text, "".join(TRACE.splitlines(True)[:6]))
        self.assertEqual(notes, ["The trace has no report: it ends at step 6, with 1 write unfinished. w0 waits at m.bios."])
        self.assertEqual(recording.run.pools["m.bios"].facts()[:3], [1, 0, 0])
        self.assertEqual(recording.run.tasks["w0"].ask.verb, "take")
        self.assertFalse(recording.run.pools["m.bios"].can_serve())


class Inputs(unittest.TestCase):
    def test_traces(self):
        for trace, why in FAULTS:
            with self.assertRaises(Fault) as caught:
                followed(SHORTAGE, trace)
            self.assertTrue(str(caught.exception).startswith(why), caught.exception)

    def test_texts(self):
        for text, why in TEXT_FAULTS:
            with self.assertRaises(Fault) as caught:
                read_scenario(text, "text")
            self.assertEqual(str(caught.exception), why)

    def test_words(self):
        for words in ([], ["a", "b"], ["--png", "a"], ["--steps", "2-1", "--svg", "a"], ["--steps", "1-2", "a"]):
            with self.assertRaises(Fault) as caught:
                main(words, io.BytesIO(b""), io.StringIO())
            self.assertEqual(caught.exception.status, 2, words)

    def test_bytes(self):
        with self.assertRaises(Fault) as caught:
            main([f"{EXAMPLES}/first.txt"], io.BytesIO(b"event w0 take fs.bios spare\n\xff\n"), io.StringIO())
        self.assertEqual(str(caught.exception), "standard input: line 2: a byte 255, which no text has")


class Examples(unittest.TestCase):
    def test_fit(self):
        for name, path, output in examples():
            self.assertEqual(followed(read(path), output)[2], [], name)

    def test_reports_are_those_beside_the_texts(self):
        for name, path, output in examples():
            report = [line for line in output.splitlines() if not line.startswith("event ")]
            self.assertEqual(report, read(f"{path}.stdout").splitlines(), name)

    @needs_program
    def test_outputs_are_of_the_program(self):
        for name, path, output in examples():
            self.assertEqual(program("run", "--trace", data=read(path).encode())[1], output, name)

    @needs_program
    def test_report_of_threads(self):
        """Of this text every schedule has the same events, so its report is one, by a seed or by threads."""
        path = f"{EXAMPLES}/four-writers.txt"
        text, report = read(path).encode(), read(f"{path}.stdout")
        for words in (["--seed", "7"], *(["--workers", str(n)] for n in (1, 2, 4, 16))):
            self.assertEqual(program("run", *words, data=text), (0, report, ""), words)

    @needs_program
    def test_traces_of_threads(self):
        for name, path, output in examples():
            text = read(path)
            for workers in ("1", "4"):
                trace = program("run", "--workers", workers, "--trace", data=text.encode())[1]
                self.assertEqual(followed(text, trace)[2], [], (name, workers))

    def test_pictures(self):
        for name, path, output in examples():
            into = io.StringIO()
            self.assertEqual(main(["--svg", path], io.BytesIO(output.encode()), into), 0, name)
            self.assertTrue(into.getvalue().startswith("<svg ") and into.getvalue().endswith("</svg>\n"))
            self.assertEqual(into.getvalue().count('<use href="#done"'), 1 + output.count(" done "))

    def test_picture_in_readme(self):
        into = io.StringIO()
        run = io.BytesIO(read(f"{RUNS}/mirror-in-shortage.out").encode())
        main(["--svg", f"{EXAMPLES}/mirror-in-shortage.txt"], run, into)
        self.assertEqual(into.getvalue(), read(f"{TOOLS}/mirror-in-shortage.svg"))
