"""The page in a real browser: each example is stepped through to its end, and what the page shows there is what the report says."""
import os
import tempfile
import unittest

from tests import examples, needs, tool
from tests.browser import Browser, path_of_chromium
from viewer.trace import read_trace

KEYS_AT_MOST = 50  # longer runs go on by ten steps
LONG = 14500  # writes of seven events each


def long_run():
    """Returns a text of writes to one disk and a trace of a run that does one after the other: some 100,000 events."""
    lines, events = [f"disk a {LONG}"], []
    for number in range(LONG):
        lines.append(f"write 0 a {number} 1 0")
        for words in ("w0 take fs.bios ordinary", "w0 link 0 write 0", f"w0 push a {number} 1 leg 0", "c:a complete a 0 ok",
                      "c:a drop 0 0 ok top", "c:a give fs.bios", f"c:a done {number} ok"):
            events.append(f"event {words}")
    report = [f"write {number} ok" for number in range(LONG)]
    report += ["disk a sum 0000000000000000", f"run a 0 {LONG}", f"pool fs.bios reserve 2 ordinary {LONG} spare 0",
               "pool fs.vecs reserve 2 ordinary 0 spare 0", f"steps {7 * LONG} of {10 * LONG}"]
    return "\n".join(lines) + "\n", "\n".join(events + report) + "\n"


@needs(path_of_chromium(), "Chromium")
class Page(unittest.TestCase):
    @classmethod
    def setUpClass(cls):
        cls.folder = tempfile.TemporaryDirectory()
        cls.browser = Browser()

    @classmethod
    def tearDownClass(cls):
        cls.browser.close()
        cls.folder.cleanup()

    def open(self, name, path, trace, due=0):
        """Opens the page of a run, and returns the seconds that it took."""
        status, page, errors = tool("view", path, data=trace.encode())
        self.assertEqual(status, due, errors)
        self.file = os.path.join(self.folder.name, f"{name}.html")
        with open(self.file, "w", encoding="ascii") as into:
            into.write(page)
        return self.browser.open(self.file)

    def step_to_end(self, steps):
        for _ in range(min(steps, KEYS_AT_MOST)):
            self.browser.press("ArrowRight")
        for _ in range(max(0, steps - KEYS_AT_MOST + 9) // 10):
            self.browser.press("PageDown")

    def assert_shows(self, report):
        shown = self.browser.value("shown()")
        self.assertEqual((shown["step"], shown["writes"]), (report.steps, report.writes))
        self.assertEqual(shown["pools"], report.pools)
        self.assertEqual(shown["disks"], report.disks)
        self.assertEqual(self.browser.complaints, [])

    def test_examples(self):
        for name, path, output in examples():
            with self.subTest(name):
                report = read_trace(output)[2]
                self.open(name, path, output)
                self.step_to_end(report.steps)
                self.assert_shows(report)
                self.browser.press("Home")
                self.assertEqual(self.browser.value("shown()")["step"], 0)

    def test_fits_the_screen(self):
        name, path, output = next(it for it in examples() if it[0] == "mirror-in-shortage")
        try:
            for width, height in ((1280, 800), (390, 844)):
                self.browser.resize(width, height)
                self.open(name, path, output)
                self.assertLessEqual(self.browser.value("document.documentElement.scrollWidth"), width)
                least = self.browser.value("Math.min(...[...document.querySelectorAll('p,td,th,dd,dt,button,text')]"
                                           ".filter((it) => it.textContent).map((it) => parseFloat(getComputedStyle(it).fontSize)))")
                self.assertGreaterEqual(least, 13)
        finally:
            self.browser.resize(1280, 800)

    def test_keys_reach_everything(self):
        name, path, output = next(it for it in examples() if it[0] == "mirror-in-shortage")
        self.open(name, path, output)
        reached = set()
        for _ in range(30):
            self.browser.press("Tab")
            reached.add(self.browser.value("document.activeElement.id || document.activeElement.getAttribute('aria-label')"))
        due = {"first", "back", "play", "next", "last", "miss", "speed", "slider", "stack", "Tasks and their lists", "in", "out", "lanes-box"}
        self.assertEqual(due - reached, set())
        self.browser.press("m", "KeyM", "m")
        self.assertEqual(self.browser.value("document.getElementById('event').textContent"), "event w0 try m.bios missed")

    def test_misfit_is_said(self):
        name, path, output = next(it for it in examples() if it[0] == "mirror-in-shortage")
        self.open("misfit", path, output.replace("event w0 punt m 1\n", "event w0 punt m 2\n"), due=1)
        self.assertIn("Line 8 of the trace does not fit", self.browser.value("document.getElementById('notes').textContent"))
        self.assertEqual(self.browser.value("player.recording.steps"), 7)

    def test_long_run(self):
        text, trace = long_run()
        path = os.path.join(self.folder.name, "long.txt")
        with open(path, "w", encoding="ascii") as into:
            into.write(text)
        seconds = self.open("long", path, trace)
        for _ in range(3):
            # the machine may have other things to do
            seconds = min(seconds, self.browser.open(self.file)) if seconds >= 3 else seconds
        self.assertLess(seconds, 3)
        step = self.browser.value("(() => { const start = performance.now(); for (let k = 0; k < 100; k += 1) player.show(50000 + k);"
                                  " return (performance.now() - start) / 100; })()")
        self.assertLess(step, 50, "milliseconds of one step")
        self.browser.press("End")
        self.assert_shows(read_trace(trace)[2])
