"""Makes sizes small enough for a text, which has 262,144 sectors on all disks."""
from viewer.places import size_of

MOST_SECTORS = 262144
PAGE = 8  # sectors


def scaled(size, factor):
    """Returns a size in whole pages, and at least one."""
    return max(PAGE, size // factor // PAGE * PAGE) if factor > 1 else size


def factor_of(sizes):
    """Returns the least power of two by which all sizes must be divided to fit."""
    factor = 1
    while sum(scaled(size, factor) for size in sizes) > MOST_SECTORS:
        factor *= 2
    return factor


def scale_option(line, key, factor):
    """Divides a chunk or a limit where whole pages are left, and notes what was done."""
    value = line.options[key]
    if value % (PAGE * factor) == 0:
        line.options[key] = value // factor
        line.notes.append(f"{key} {value} is divided by {factor} too")
    else:
        line.notes.append(f"{key} {value} stays: divided by {factor} it is no whole number of pages")


def fit_chunk(line, sizes):
    """Makes the chunk of a stripe no longer than its smallest member."""
    chunk, least = line.options["chunk"], min(sizes)
    if chunk > least:
        line.options["chunk"] = max(least // PAGE * PAGE, 1)
        line.notes.append(f"chunk {chunk} is cut to {line.options['chunk']}, since its smallest member has {least} sectors")


class Measures:
    """What `size_of` asks of a device."""

    def __init__(self, line):
        self.kind, self.chunk = line.kind, line.options.get("chunk", 0)


def scale(lines):
    """Scales lines in place, and returns the factor and the sizes of all devices by name."""
    factor = factor_of([line.size for line in lines if line.kind == "disk"])
    sizes = {}
    for line in lines:
        if line.kind == "disk":
            if factor > 1:
                line.notes.append(f"{line.size} sectors, divided by {factor}")
            line.size = sizes[line.name] = scaled(line.size, factor)
            continue
        for key in ("max", "chunk"):
            if factor > 1 and key in line.options:
                scale_option(line, key, factor)
        below = [sizes[name] for name in line.members]
        if line.kind in ("stripe", "zoned"):
            fit_chunk(line, below)
        sizes[line.name] = size_of(Measures(line), below)
    return factor, sizes
