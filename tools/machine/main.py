"""The words of `from-machine`, and the text that it writes."""
from fault import INPUT, USAGE, Fault, write_all
from machine.arrays import read_arrays, read_detail
from machine.blocks import read_blocks, read_limits
from machine.lines import LONGEST_WRITE, build
from machine.plan import Plan
from machine.scaling import scale
from machine.shapes import Shapes
from machine.sources import live, saved
from machine.tables import read_tables

HELP = "usage: from-machine [--from FOLDER] [--with-rescuers] > TEXT"


def read_words(words):
    """Returns the folder of saved files or None, and whether mirrors are to have rescuers."""
    folder, with_rescuers, words = None, False, list(words)
    while words:
        word = words.pop(0)
        if word == "--from" and words and folder is None:
            folder = words.pop(0)
        elif word == "--with-rescuers":
            with_rescuers = True
        else:
            raise Fault(HELP, USAGE)
    return folder, with_rescuers


def plan_of(sources, with_rescuers):
    blocks = read_blocks(sources.lsblk)
    read_limits(sources.queue, blocks)
    arrays = read_arrays(sources.mdstat)
    named = {key: block.kernel_name for key, block in blocks.items()}
    for name, text in sources.details.items():
        if name not in arrays:
            raise Fault(f"mdadm-{name}: /proc/mdstat has no array {name}")
        read_detail(text, arrays[name], named)
    return Plan(blocks, Shapes(blocks, arrays, read_tables(sources.dmsetup), with_rescuers))


def comment(words):
    # a text has no other bytes than these, in comments too
    return "# " + "".join(letter if " " <= letter <= "~" else "?" for letter in words)


def device_line(line):
    if line.kind == "disk":
        return f"disk {line.name} {line.size}"
    options = [f"{key}={value}" for key, value in line.options.items()]
    return " ".join([line.kind, line.name, *line.members, *options])


def text_of(lines, tops, left_out):
    """Returns the text: devices, what is left out, and a write of the largest size to each top."""
    factor, sizes = scale(lines)
    found = [comment("The stacks of a machine's block devices, each as its kernel has it; all sizes are in sectors.")]
    if factor > 1:
        found.append(comment(f"A text has 262,144 sectors at the most, so sizes are divided by {factor}, in whole pages of 8."))
    found.append("memory none")
    for line in lines:
        found += [comment(f"{line.name}: {note}") for note in line.notes]
        found.append(device_line(line))
        found += [comment(words) for words in line.behind]
    found += [comment(words) for words in left_out]
    for number, name in enumerate(tops):
        found.append(f"write {number % 8} {name} 0 {min(sizes[name], LONGEST_WRITE)} 0")
    return "\n".join(found) + "\n"


def main(words, out):
    folder, with_rescuers = read_words(words)
    plan = plan_of(live() if folder is None else saved(folder), with_rescuers)
    lines, names, left_out = build(plan, plan.tops())
    if not names:
        whys = [f"{plan.blocks[key].name}, of type {plan.blocks[key].type}: {why}" for key, why in plan.left_out.items()]
        raise Fault(f"nothing of this machine can be told in a text. {'; '.join(whys) or 'It has no block device'}", INPUT)
    write_all(out, text_of(lines, names, left_out))
    return 0
