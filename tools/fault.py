"""What is wrong with an input or with the output: one line for standard error, and the status to end with."""
import os

USAGE, INPUT = 2, 3


class Fault(Exception):
    """An input that a tool cannot use. Its text says what is wrong and where."""

    def __init__(self, text, status=INPUT):
        super().__init__(text)
        self.status = status


def write_all(out, text):
    """Writes a text that is whole. What the output cannot take is a fault."""
    try:
        out.write(text)
        out.flush()
    except OSError as error:
        # Python writes what is left once more as it ends
        os.dup2(os.open(os.devnull, os.O_WRONLY), 1)
        raise Fault(f"standard output: {error.strerror}") from None


def plain(text):
    """Returns a text of HTML or SVG in ASCII, whatever a file's name has in it."""
    return text.encode("ascii", "xmlcharrefreplace").decode()
