"""Reads what `run --trace` writes: the lines of the events, and the report behind them."""
from fault import Fault

STATUSES = ("ok", "io", "medium", "nospace")
GOT = ("ordinary", "spare", "missed")
ANY = None
# the words behind the verb: the values that a word may have, int for a number, ANY for a name
FORMS = {
    "take": (ANY, GOT),
    "try": (ANY, GOT),
    "give": (ANY,),
    "punt": (ANY, int),
    "pop": (ANY,),
    "push": (ANY, int, int, ("leg",), int),
    "complete": (ANY, int, STATUSES),
    "link": (int, ("write", "chain", "master", "leg"), int),
    "drop": (int, int, STATUSES, ("left", "up", "top")),
    "done": (int, STATUSES),
    "resize": (ANY, int),
    "round": (int,),
}


def read_event(line):
    """Returns the words of an event's line behind `event`, with numbers as numbers, or nothing where it is no such line."""
    words = line.split(" ")
    form = FORMS.get(words[2]) if len(words) > 2 else None
    if form is None or words[0] != "event" or len(words) != len(form) + 3:
        return None
    found = words[1:3]
    for word, allowed in zip(words[3:], form):
        if allowed is int:
            if not (word.isascii() and word.isdigit()) or len(word) > 20:
                return None
            found.append(int(word))
        elif not word or allowed is not ANY and word not in allowed:
            return None
        else:
            found.append(word)
    return found


class Report:
    """The report behind a trace, as far as it is there."""

    def __init__(self):
        self.writes, self.disks, self.pools, self.steps = [], {}, {}, None
        self.line = None

    def add(self, words):
        """Takes in a line of the report, and says whether it is one."""
        try:
            if words[0] == "write" and len(words) == 3 and words[2] in STATUSES:
                self.writes.append(words[2])
            elif words[0] == "disk" and words[2] == "sum" and len(words) == 4:
                self.disks[words[1]] = []
            elif words[0] == "run" and len(words) == 4:
                self.disks[words[1]].append([int(words[2]), int(words[3])])
            elif words[0] == "pool" and words[2::2] == ["reserve", "ordinary", "spare"]:
                self.pools[words[1]] = [int(word) for word in words[3::2]]
            elif words[0] == "steps" and words[2] == "of" and len(words) == 4:
                self.steps = int(words[1])
            else:
                return False
        except (IndexError, KeyError, ValueError):
            return False
        return True


def read_trace(text, name="standard input"):
    """Returns the events and the report of a text, or no report where it ends before."""
    events, lines, report = [], [], None
    if text.endswith("\n"):
        text = text[:-1]
    for number, line in enumerate(text.split("\n") if text else [], 1):
        event = read_event(line) if report is None else None
        if event:
            events.append(event)
            lines.append(line[len("event "):])
            continue
        if report is None:
            report = Report()
            report.line = number
        if not report.add(line.split(" ")):
            kind = "an event" if line.startswith("event") else "a trace or a report"
            raise Fault(f"{name}: line {number}: this is no line of {kind}: {line[:60]!r}")
    if not events and (report is None or report.writes):
        raise Fault(f"{name}: there is no line of an event; it should be what `biostack run --trace` writes")
    return events, lines, report
