"""Says of each event, in plain sentences, what it was and why."""
from viewer.scenario import FS

ELEMENTS = {"bios": "bio", "vecs": "vector", "records": "record"}


def span(start, count):
    return f"sector {start}" if count == 1 else f"sectors {start} to {start + count - 1}"


def many(count, noun):
    return f"{count} {noun}" if count == 1 else f"{count} {noun}s"


def title(name):
    """Returns a task's name at the head of a sentence."""
    kind, _, device = name.partition(":")
    if device:
        return f"The {'rescuer' if kind == 'r' else 'completer'} of {device}"
    return "The keeper" if name == "k" else f"Writer {name[1:]}"


def inner(name):
    """Returns a task's name within a sentence."""
    found = title(name)
    return found if found.startswith("Writer") else f"the {found[4:]}"


class Teller:
    """Tells events. A tale is a list of sentences, each the number of its template in `templates` and what stands in its places."""

    def __init__(self, run):
        self.run, self.devices = run, run.scenario.devices
        self.templates, self.tale = {}, []

    def say(self, template, *words):
        number = self.templates.setdefault(template, len(self.templates))
        self.tale.append([number, *words])

    def tell(self, task, ask, brought):
        """Returns the tale of an event that the run has just made."""
        self.tale = []
        getattr(self, f"tell_{ask.verb}")(task, ask, brought)
        return self.tale

    def text(self, tale):
        templates = list(self.templates)
        return " ".join(templates[number].format(*words) for number, *words in tale)

    def bio(self, bio):
        """Returns what a bio is: that of its write, a copy that a mirror made, or a piece."""
        number = bio.write.number
        if bio.set == FS:
            return f"the bio of write {number}"
        device = self.devices[bio.set]
        if device.kind == "mirror":
            return f"the copy of write {number} for {self.devices[device.members[bio.leg]].name}"
        return f"a piece of write {number}"

    def node(self, node):
        number = node.write.number
        if node.how == "leg":
            mirror = self.devices[node.parent.record]
            return f"the copy of write {number} for {self.devices[mirror.members[node.leg]].name}"
        return {"write": f"write {number}", "chain": f"a piece of write {number}", "master": f"the copies of write {number}"}[node.how]

    def tell_take(self, task, ask, brought):
        got, waited, gave = brought
        self.say_purpose(task, ask.about)
        pool = self.run.pools[ask.object]
        if got == "missed":
            self.say("The attempt at ordinary memory fails, and {} has no spare: {} waits, and asks again.", pool.name, inner(task.name))
        elif waited is not None and gave is not None:
            giver = inner(self.run.givers[gave])
            self.say("It has waited since step {}, and now has the spare that {} gave back at step {}.", waited, giver, gave)
        else:
            self.say_got(pool, got)

    def say_got(self, pool, got):
        if got == "ordinary":
            self.say("Ordinary memory has one, so no spare of {} is used.", pool.name)
        else:
            self.say("Ordinary memory gives none, so it takes a spare of {}, which has {} left.", pool.name, pool.spares)

    def say_purpose(self, task, purpose):
        write = purpose.write
        if purpose.kind == "bio":
            where = f"{span(write.start, write.count)} of {self.devices[write.device].name}"
            self.say("{} begins write {}, of {}, and needs a bio for it.", title(task.name), write.number, where)
        elif purpose.kind == "vector":
            segments = (write.count + 7) // 8
            self.say("Write {} has {} segments, more than the 4 that its bio keeps itself, so it needs a vector.", write.number, segments)
        elif purpose.kind == "record":
            copies = len(purpose.device.members)
            self.say("The mirror {} has {} now, and needs a record of its {} copies.", purpose.device.name, self.bio(purpose.bio), copies)
        elif purpose.kind == "leg":
            place = f"{purpose.leg + 1} of {len(purpose.device.members)}"
            self.say("The mirror {} needs a bio for copy {}, which goes to {}.", purpose.device.name, place, purpose.member.name)
        else:
            self.say_cut(purpose)

    def say_cut(self, purpose):
        device, bio = purpose.device, purpose.bio
        end = bio.start + purpose.length
        why = {"linear": "its member ends there", "stripe": "a chunk ends there", "zoned": "a chunk ends there"}.get(device.kind)
        if device.kind == "limit":
            at_boundary = device.chunk and end % device.chunk == 0
            why = f"no piece crosses a multiple of {device.chunk}" if at_boundary else f"a piece has at most {many(device.max, 'sector')}"
        self.say("The {} {} cuts {} before sector {}, since {}: the first piece needs a bio of its own.",
                 device.kind, device.name, span(bio.start, bio.count), end, why)

    def tell_try(self, task, ask, brought):
        pool, device = self.run.pools[ask.object], ask.about.device
        if brought[0] != "missed":
            self.say_purpose(task, ask.about)
            self.say("{} has bios in its own lists, so it asks without waiting.", title(task.name))
            self.say_got(pool, brought[0])
            return
        self.say("{} is empty.", pool.name)
        own = [it for it in task.list0 + task.list1 if it.set == device.number]
        if not own:
            self.say("{} may not wait with bios in its lists, though none of them is of {}'s set.", title(task.name), device.name)
            return
        what = self.bio(own[0]) if len(own) == 1 else many(len(own), "bio") + f" of {device.name}'s set"
        self.say("{} may not wait here: its own list holds {}, which only it could submit, and for whose end it might be waiting.",
                 title(task.name), what)
        self.say("So it hands {} to the rescuer of {}.", "that bio" if len(own) == 1 else "them", device.name)

    def tell_punt(self, task, ask, moved):
        if moved:
            what = self.bio(moved[0]) if len(moved) == 1 else many(len(moved), "bio")
            self.say("{} hands {} to the rescuer of {}, which submits {} in its place.",
                     title(task.name), what, ask.object, "it" if len(moved) == 1 else "them")
        else:
            self.say("{} has no bio of {}'s set to hand over.", title(task.name), ask.object)
        self.say("Now it may wait at {}.bios: whoever has a bio of this pool goes on without it.", ask.object)

    def tell_pop(self, task, ask, bio):
        step, giver = bio.punted
        self.say("{} takes {} from its list, where {} put it at step {}, and submits it.", title(task.name), self.bio(bio), inner(giver), step)

    def tell_push(self, task, ask, bio):
        waiting = len(self.run.disks[ask.object].pending)
        what = self.bio(bio)
        self.say("{} comes to disk {}, to be written to {}.", what[0].upper() + what[1:], ask.object, span(bio.start, bio.count))
        if bio.set != FS and self.devices[bio.set].kind == "mirror":
            self.say("It is leg {} of its mirror.", bio.leg)
        self.say("{} there until the disk is done.", "1 bio waits" if waiting == 1 else f"{waiting} bios wait")

    def tell_complete(self, task, ask, brought):
        bio, status = brought
        where = span(bio.start, bio.count)
        if status == "ok":
            self.say("Disk {} has written {} for write {}.", ask.object, where, bio.write.number)
        else:
            self.say("Disk {} fails {} of write {} with {}: a bad range lies there. Nothing of it is written.",
                     ask.object, where, bio.write.number, status)

    def tell_link(self, task, ask, node):
        if node.how == "write":
            device = self.devices[node.write.device].name
            self.say("Node {} counts the parts of write {} until the last has ended. Its bio goes to {}.", node.place, node.write.number, device)
        elif node.how == "master":
            self.say("Node {} stands for {}: it closes with the last of them, and well if one of them ends well.", node.place, self.node(node))
        elif node.how == "leg":
            self.say("Node {} is for {}, which waits in the list of {} until the mirror has made all copies.",
                     node.place, self.node(node), inner(task.name))
        else:
            purpose = ask.about
            rest = purpose.bio
            self.say("Node {} is for the piece, and node {} waits for it. The piece goes on to {}, and {} to {} again, behind it.",
                     node.place, node.parent.place, purpose.member.name, span(rest.start, rest.count), purpose.device.name)

    def tell_drop(self, task, ask, closes):
        node = ask.node
        if not closes:
            parts = "1 part" if node.count == 1 else f"{node.count} parts"
            self.say("A part of node {} ({}) has ended with {}. It waits for {} more.", node.place, self.node(node), ask.object, parts)
        elif node.how == "master":
            why = "one of them ended well" if node.is_marked else "none of them ended well"
            self.say("The last of {} has ended, and {}: node {} closes with {}.", self.node(node), why, node.place, node.status)
        else:
            self.say("Node {} ({}) has no part left and closes with {}.", node.place, self.node(node), node.status)

    def tell_give(self, task, ask, brought):
        is_spare, waiting = brought
        pool = self.run.pools[ask.object]
        element = ELEMENTS[ask.object.rpartition(".")[2]]
        if is_spare:
            self.say("The {} goes home to {}, which has {} now.", element, pool.name, many(pool.spares, "spare"))
        else:
            self.say("The {} goes back to ordinary memory, since {} has all of its {}.", element, pool.name, many(pool.spares, "spare"))
        if waiting:
            self.say("{} for one.", f"{title(waiting[0])} waits" if len(waiting) == 1 else f"{len(waiting)} tasks wait")

    def tell_done(self, task, ask, status):
        self.say("Write {} is done with {}, and all that it took is at home.", ask.about.number, status)
        left = self.run.unfinished
        self.say("{} to do.", "No write is left" if not left else f"{many(left, 'write')} {'is' if left == 1 else 'are'} left")

    def tell_resize(self, task, ask, brought):
        self.say("Every element is at home, so reserves may change: {} keeps {} from now on.", ask.object, ask.about)

    def tell_round(self, task, ask, brought):
        self.say("Every write of the rounds before is done, so round {} begins.", ask.object)
