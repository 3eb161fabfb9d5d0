"""Tests of the tools. They need Python alone; what needs Chromium, mandoc or the built program is skipped, and says so, where that is not there."""
import os
import subprocess
import sys
import unittest

TOOLS = os.path.dirname(os.path.dirname(os.path.abspath(__file__)))
TOP = os.path.dirname(TOOLS)
PROGRAM = os.path.join(TOP, "crates", "biostack", "out", "biostack")
EXAMPLES = os.path.join(TOP, "examples")
RUNS = os.path.join(TOOLS, "tests", "runs")


def tool(name, *words, data=b""):
    """Runs a tool, and returns its status, output and errors."""
    ran = subprocess.run([sys.executable, os.path.join(TOOLS, name), *words], input=data, stdout=subprocess.PIPE, stderr=subprocess.PIPE)
    return ran.returncode, ran.stdout.decode(), ran.stderr.decode()


def program(*words, data=b""):
    """Runs the built program, and returns its status, output and errors."""
    ran = subprocess.run([PROGRAM, *words], input=data, stdout=subprocess.PIPE, stderr=subprocess.PIPE)
    return ran.returncode, ran.stdout.decode(), ran.stderr.decode()


def needs(is_there, what):
    """Skips a test where something is missing, and says so."""
    if not is_there:
        print(f"tools: there is no {what}: the tests that need it are skipped", file=sys.stderr)
    return unittest.skipUnless(is_there, f"there is no {what}")


needs_program = needs(os.access(PROGRAM, os.X_OK), "built program")


def read(path):
    with open(path, encoding="ascii") as file:
        return file.read()


def examples():
    """Returns the name of each example that is run, its text, and the trace and report that the program writes of it."""
    for name in sorted(os.listdir(RUNS)):
        name = name[:-len(".out")]
        yield name, os.path.join(EXAMPLES, f"{name}.txt"), read(os.path.join(RUNS, f"{name}.out"))
