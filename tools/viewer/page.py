"""Writes one page of HTML with a run in it, which a browser opens without a network."""
import html
import json
import os
import re

from fault import plain
from viewer.marks import LINES, MARKS

FOLDER = os.path.join(os.path.dirname(os.path.abspath(__file__)), "page")
SCRIPTS = ("recording.js", "stack.js", "lanes.js", "player.js")


def read(name):
    with open(os.path.join(FOLDER, name), encoding="ascii") as file:
        return file.read()


def plain_device(device):
    return {
        "name": device.name, "kind": device.kind, "size": device.size, "members": device.members, "rescuer": device.rescuer,
        "chunk": device.chunk, "max": device.max, "bad": [[start, count] for start, count, _ in device.bad],
    }


def data_of(title, recording, lines, notes):
    """Returns what the page's script needs, as plain lists and numbers."""
    run = recording.run
    flat = {kind: [step for pair in pairs for step in pair] for kind, pairs in run.links.items()}
    plain = {kind: {name: it.plain() for name, it in getattr(recording, kind).items()} for kind in ("pools", "lists", "disks", "tasks", "nodes")}
    return {
        "title": title, "notes": notes,
        "devices": [plain_device(device) for device in run.scenario.devices],
        "writes": len(run.scenario.writes),
        "lines": "\n".join(lines[:run.step]),
        "kinds": list(MARKS), "marks": MARKS, "lineKinds": LINES,
        "events": [list(MARKS).index(mark) for mark in recording.marks],
        "actors": recording.actors, "tales": recording.tales,
        "templates": list(recording.teller.templates), "labels": list(recording.labels),
        "links": flat, "waits": recording.waits, "written": recording.writes, **plain,
    }


def page_of(title, recording, lines, notes):
    """Returns the page. `notes` are lines that say what did not fit."""
    data = json.dumps(data_of(title, recording, lines, notes), separators=(",", ":")).replace("<", "\\u003c")
    parts = {
        "TITLE": plain(html.escape(title)), "STYLE": read("page.css"), "DATA": data,
        "SCRIPT": "\n".join(read(name) for name in SCRIPTS),
    }
    return re.sub("@([A-Z]+)@", lambda found: parts[found[1]], read("page.html"))
