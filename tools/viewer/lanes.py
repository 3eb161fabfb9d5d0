"""Draws the lanes of a run's tasks as a picture (SVG): a mark for each event, and under it the event's words."""
import html

from fault import USAGE, Fault, plain
from viewer.marks import LINES, MARKS

MOST = 2000  # steps in one picture
COLUMN, LANE, TOP, GUTTER, MARGIN = 30, 42, 34, 96, 12
FONT = "font-family=\"system-ui, 'DejaVu Sans', sans-serif\""
LETTER = 7.3  # the width of a letter at most


class Picture:
    """The lanes of the steps from `first` to `last`."""

    def __init__(self, recording, lines, first, last):
        self.recording, self.lines, self.first, self.last = recording, lines, first, last
        self.names = list(recording.tasks)
        self.parts = []
        self.bottom = TOP + len(self.names) * LANE
        longest = max((len(self.words(step)) for step in range(first, last + 1)), default=0)
        self.legend_top = self.bottom + 20 + round(longest * LETTER)
        self.width = max(GUTTER + (last - first + 1) * COLUMN + MARGIN, 700)

    def words(self, step):
        return self.lines[step - 1].partition(" ")[2]

    def x(self, step):
        return GUTTER + (step - self.first) * COLUMN + COLUMN // 2

    def y(self, step):
        return self.lane(self.recording.actors[step - 1])

    @staticmethod
    def lane(number):
        return TOP + number * LANE + LANE // 2

    def text(self, x, y, words, size=13, more=""):
        self.parts.append(f'<text x="{x}" y="{y}" font-size="{size}" {more}>{html.escape(str(words))}</text>')

    def draw_lanes(self):
        right = GUTTER + (self.last - self.first + 1) * COLUMN
        for number, name in enumerate(self.names):
            y = self.lane(number)
            self.parts.append(f'<path d="M{GUTTER} {y}H{right}" stroke="#bbb"/>')
            self.text(MARGIN, y + 5, name, 14, 'font-weight="bold"')
        for lane, start, end in self.recording.waits:
            if end >= self.first and start <= self.last:
                left, width = self.x(max(start, self.first)), self.x(min(end, self.last)) - self.x(max(start, self.first))
                self.parts.append(f'<rect x="{left}" y="{self.lane(lane) - 6}" width="{width}" height="12" fill="#e0e0e0"/>')

    def draw_steps(self):
        for step in range(self.first, self.last + 1):
            x = self.x(step)
            self.text(x, 18, step, 12, 'text-anchor="middle"')
            self.parts.append(f'<path d="M{x} {self.y(step)}V{self.bottom + 6}" stroke="#ddd"/>')
            self.text(0, 0, self.words(step), 12, f'transform="translate({x - 4} {self.bottom + 12}) rotate(90)"')

    def draw_links(self):
        for kind, pairs in self.recording.run.links.items():
            _, colour, dashes = LINES[kind]
            for start, end in pairs:
                if self.first <= start and end <= self.last:
                    x1, y1, x2, y2 = self.x(start), self.y(start), self.x(end), self.y(end)
                    curve = f"M{x1} {y1}C{x1 + (x2 - x1) * 0.3:.0f} {y2} {x1 + (x2 - x1) * 0.5:.0f} {y2} {x2} {y2}"
                    self.parts.append(f'<path d="{curve}" fill="none" stroke="{colour}" stroke-width="2" stroke-dasharray="{dashes}"/>')

    def draw_marks(self):
        for step in range(self.first, self.last + 1):
            mark = self.recording.marks[step - 1]
            self.parts.append(f'<use href="#{mark}" x="{self.x(step)}" y="{self.y(step)}"/>')

    def draw_legend(self):
        """Draws what the marks and lines mean, as far as they are there, in columns, and returns where it ends."""
        marks = [it for it in MARKS if it in self.recording.marks[self.first - 1:self.last]]
        columns = max(1, (self.width - 2 * MARGIN) // 225)
        entries = [(f'<use href="#{it}" x="X" y="Y"/>', MARKS[it][0]) for it in marks]
        for kind, (words, colour, dashes) in LINES.items():
            if self.recording.run.links[kind]:
                entries.append((f'<path d="MX Ym-12 0h24" stroke="{colour}" stroke-width="2.5" stroke-dasharray="{dashes}"/>', words))
        if self.recording.waits:
            entries.append(('<path d="MX Ym-12 0h24" stroke="#e0e0e0" stroke-width="12"/>', "waits for an element"))
        column = row = 0
        for picture, words in entries:
            wide = 2 if len(words) > 24 and columns > 1 else 1
            if column + wide > columns:
                column, row = 0, row + 1
            x, y = MARGIN + 14 + column * 225, self.legend_top + 14 + row * 24
            self.parts.append(picture.replace("X", str(x)).replace("Y", str(y)))
            self.text(x + 20, y + 5, words)
            column += wide
        return self.legend_top + 14 + row * 24 + 20

    def svg(self, title):
        self.draw_lanes()
        self.draw_steps()
        self.draw_links()
        self.draw_marks()
        height = self.draw_legend()
        shapes = "".join(f'<path id="{name}" d="{path}" fill="{colour}" stroke="#222"/>' for name, (_, colour, path) in MARKS.items())
        return plain(f'<svg xmlns="http://www.w3.org/2000/svg" width="{self.width}" height="{height}" viewBox="0 0 {self.width} {height}" {FONT}>\n'
                f"<title>{html.escape(title)}</title>\n<defs>{shapes}</defs>\n"
                f'<rect width="100%" height="100%" fill="#fff"/>\n' + "\n".join(self.parts) + "\n</svg>\n")


def lanes_of(title, recording, lines, steps):
    """Returns the picture of some steps, or of all."""
    first, last = steps or (1, recording.run.step)
    if last > recording.run.step:
        raise Fault(f"the run that fits has {recording.run.step} steps, and none of number {last}", USAGE)
    if last - first >= MOST:
        raise Fault(f"a picture has at most {MOST} steps, and this run {last - first + 1}: give --steps FROM-TO", USAGE)
    return Picture(recording, lines, first, last).svg(f"The steps of each task in a run of {title}")
