"""The marks of events: shapes and colours that the page and the picture share. Each kind has a shape of its own, so none is told by colour alone."""

# Okabe and Ito's colours, which the colour-blind tell apart
ORANGE, SKY, GREEN, BLUE = "#E69F00", "#56B4E9", "#009E73", "#0072B2"
VERMILION, PURPLE, DARK, WHITE = "#D55E00", "#CC79A7", "#222222", "#FFFFFF"

CIRCLE = "M-7 0A7 7 0 1 0 7 0A7 7 0 1 0 -7 0Z"
CROSS = "M-7 -4L-4 -7L0 -3L4 -7L7 -4L3 0L7 4L4 7L0 3L-4 7L-7 4L-3 0Z"
DIAMOND = "M0 -9L8 0L0 9L-8 0Z"

# name: what it means, the colour that fills it, and its outline as a path of an SVG around the point 0 0
MARKS = {
    "spare": ("takes a spare", ORANGE, CIRCLE),
    "ordinary": ("takes ordinary memory", WHITE, CIRCLE),
    "missed": ("finds no element", VERMILION, CROSS),
    "give": ("gives an element back", GREEN, "M0 -8L8 6L-8 6Z"),
    "punt": ("hands bios to a rescuer", VERMILION, "M-8 -4L1 -4L1 -8L9 0L1 8L1 4L-8 4Z"),
    "pop": ("rescuer takes one", PURPLE, "M-7 -7L7 -7L7 7L-7 7Z"),
    "push": ("bio comes to a disk", BLUE, "M-8 -6L8 -6L0 8Z"),
    "ok": ("disk has written it", SKY, DIAMOND),
    "failed": ("disk fails it", DARK, DIAMOND),
    "link": ("opens a node", WHITE, "M-2 -6L2 -6L2 -2L6 -2L6 2L2 2L2 6L-2 6L-2 2L-6 2L-6 -2L-2 -2Z"),
    "drop": ("a part of a node ends", WHITE, "M-6 -2L6 -2L6 2L-6 2Z"),
    "done": ("write is done", GREEN, "M0 -9L2.5 -3L9 -3L4 1.5L6 8L0 4.5L-6 8L-4 1.5L-9 -3L-2.5 -3Z"),
    "keeper": ("round or reserve changes", DARK, "M-3 -9L3 -9L3 9L-3 9Z"),
}

# lines between events: what they mean, the colour, and the dashes
LINES = {
    "punt": ("from a hand-over to the rescuer's turn", VERMILION, "7 4"),
    "push": ("from a disk's queue to its end", BLUE, ""),
    "give": ("from a give to the take that waited for it", GREEN, "2 4"),
}


def mark_of(event):
    """Returns the name of an event's mark."""
    verb = event[1]
    if verb in ("take", "try"):
        return event[3]
    if verb == "complete":
        return "ok" if event[4] == "ok" else "failed"
    return "keeper" if verb in ("resize", "round") else verb
