"""What each task asks for next: writers, rescuers, completers and the keeper of the rounds.

A task is a generator. It yields what it asks for, and is sent what the event brought: so it stands where the next event of the task is known.
"""
from viewer.objects import Bio, Node
from viewer.places import Places
from viewer.scenario import FS

INLINE_SECTORS = 32  # four segments of eight sectors stand in the bio itself


class Ask:
    """What a task asks for: the verb of the event, the name of its object, and what it is about."""

    __slots__ = ("verb", "object", "about", "node")

    def __init__(self, verb, object_, about=None, node=None):
        self.verb, self.object, self.about, self.node = verb, object_, about, node


class Purpose:
    """What an element is taken for: `kind` is bio, vector, record, piece or leg, and `bio` the one that is served."""

    __slots__ = ("kind", "write", "bio", "device", "length", "member", "leg")

    def __init__(self, kind, write, bio=None, device=None, length=0, member=None, leg=0):
        self.kind, self.write, self.bio, self.device = kind, write, bio, device
        self.length, self.member, self.leg = length, member, leg


class Task:
    """A task with its two lists, the step since which it asks, and the bio that it serves."""

    def __init__(self, name, owner):
        self.name, self.owner = name, owner
        self.list0, self.list1, self.current = [], [], None
        self.ask, self.asked, self.moves = None, 0, None

    def go_on(self, answer, step):
        self.asked = step
        try:
            self.ask = self.moves.send(answer)
        except StopIteration:
            self.ask = None


class Work:
    """The moves of the tasks over one stack."""

    def __init__(self, scenario):
        self.scenario, self.devices = scenario, scenario.devices
        self.places = Places(scenario.devices)

    def tasks(self):
        """Returns all tasks, in the order of their numbers, each at what it asks for first."""
        found, writes = [], self.scenario.writes
        for number in sorted({write.task for write in writes}):
            found.append((f"w{number}", number, self.write_all([it for it in writes if it.task == number])))
        rescued = [it for it in self.devices if it.rescuer]
        found += [(f"r:{it.name}", it, self.rescue(it)) for it in rescued]
        found += [(f"c:{it.name}", it, self.complete(it)) for it in self.devices if it.kind == "disk"]
        if self.scenario.rounds > 1:
            found.append(("k", None, self.keep()))
        tasks = []
        for name, owner, moves in found:
            task = Task(name, owner)
            task.moves = moves
            next(moves)
            task.go_on(task, 0)
            tasks.append(task)
        return tasks

    def write_all(self, writes):
        task = yield
        for write in writes:
            yield from self.take("fs.bios", Purpose("bio", write))
            if write.count > INLINE_SECTORS:
                yield from self.take("fs.vecs", Purpose("vector", write))
            node = Node("write", None, write)
            node.vector = write.count > INLINE_SECTORS
            yield Ask("link", "write", None, node)
            yield from self.submit(task, Bio(write, node, (write.device, write.start, write.count), FS))

    def rescue(self, device):
        task = yield
        while True:
            bio = yield Ask("pop", device.name)
            yield from self.submit(task, bio)

    def complete(self, disk):
        yield
        while True:
            bio, status = yield Ask("complete", disk.name)
            node, node_bio = bio.node, bio
            while node:
                node.bio = node_bio or node.bio
                closed = yield Ask("drop", status, node_bio, node)
                if not closed:
                    break
                for pool in node.homes(self.devices):
                    yield Ask("give", pool, node.write, node)
                status, node_bio = node.status, None
                if not node.parent:
                    yield Ask("done", status, node.write, node)
                node = node.parent

    def keep(self):
        yield
        for number in range(1, self.scenario.rounds):
            for pool, reserve in self.scenario.resizes[number]:
                yield Ask("resize", pool, reserve)
            yield Ask("round", number)

    def take(self, pool, purpose, waits=True):
        """Asks for an element, again after a miss where the task may wait. Answers whether it was had."""
        ask = Ask("take" if waits else "try", pool, purpose)
        while (yield ask) == "missed":
            if not waits:
                return False
        return True

    def take_inside(self, task, device, purpose):
        """Asks for a bio of a device inside a submission: first without waiting, where a rescuer could be handed the task's own."""
        pool = f"{device.name}.bios"
        if device.rescuer and (task.list0 or task.list1):
            if (yield from self.take(pool, purpose, waits=False)):
                return
            yield Ask("punt", device.name, purpose)
        yield from self.take(pool, purpose)

    def submit(self, task, bio):
        """Serves a bio, and what its drivers submit: for lower devices first, then for the same one, then what waited."""
        while bio:
            device, task.current = self.devices[bio.device], bio
            if device.kind == "disk":
                yield Ask("push", device.name, bio)
            elif device.kind == "mirror":
                yield from self.copy(task, device, bio)
            else:
                yield from self.cut(task, device, bio)
            lower = [it for it in task.list0 if it.device != device.number]
            same = [it for it in task.list0 if it.device == device.number]
            task.list0, task.list1 = [], lower + same + task.list1
            bio = task.list1.pop(0) if task.list1 else None
        task.current = None

    def cut(self, task, device, bio):
        length, member, at = self.places.first_piece(device, bio.start, bio.count)
        if length == bio.count:
            bio.device, bio.start = member, at
            task.list0.append(bio)
            return
        purpose = Purpose("piece", bio.write, bio, device, length, self.devices[member])
        yield from self.take_inside(task, device, purpose)
        node = Node("chain", bio.node, bio.write)
        yield Ask("link", "chain", purpose, node)
        bio.node.count += 1
        front = Bio(bio.write, node, (member, at, length), device.number)
        bio.start, bio.count = bio.start + length, bio.count - length
        task.list0 += [bio, front]

    def copy(self, task, device, bio):
        purpose = Purpose("record", bio.write, bio, device)
        yield from self.take(f"{device.name}.records", purpose)
        master = Node("master", bio.node, bio.write, len(device.members))
        master.record = device.number
        yield Ask("link", "master", purpose, master)
        bio.node.bio = bio
        for leg, member in enumerate(device.members):
            purpose = Purpose("leg", bio.write, bio, device, 0, self.devices[member], leg)
            yield from self.take_inside(task, device, purpose)
            node = Node("leg", master, bio.write)
            node.leg = leg
            yield Ask("link", "leg", purpose, node)
            task.list0.append(Bio(bio.write, node, (member, bio.start, bio.count), device.number, leg))
