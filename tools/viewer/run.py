"""Follows a run: each event is checked against what its task asks for, and changes one task and one object."""
from collections import deque

from viewer.objects import Disk, Misfit, Pool
from viewer.tasks import Work


class Run:
    """The state of a run: tasks, pools, rescue lists, disks, books of open nodes, and the writes that are done.

    `step` counts the events so far. `links` are pairs of steps: from a punt to its pops, from a push to its completion, and from
    a give to the take that waited for it.
    """

    def __init__(self, scenario):
        self.scenario, self.step, self.round = scenario, 0, 0
        self.pools = {plan.name: Pool(plan) for plan in scenario.pools}
        # the last step at whose end a pool could serve no attempt
        self.dry = {name: -1 if pool.can_serve() else 0 for name, pool in self.pools.items()}
        self.named = {device.name: device for device in scenario.devices}
        self.lists = {it.name: deque() for it in scenario.devices if it.rescuer}
        self.disks = {it.name: Disk(it) for it in scenario.devices if it.kind == "disk"}
        self.books = {write.task: {} for write in scenario.writes}
        self.statuses = [None] * len(scenario.writes)
        self.left = [0] * scenario.rounds
        for write in scenario.writes:
            self.left[write.round] += 1
        self.tasks = {task.name: task for task in Work(scenario).tasks()}
        self.links = {"punt": [], "push": [], "give": []}
        # who made each give that brought a spare
        self.givers = {}

    @property
    def unfinished(self):
        return sum(self.left)

    def apply(self, event):
        """Makes the step of an event, and returns what its task had asked for and what the event brought."""
        task = self.tasks.get(event[0])
        if task is None:
            raise Misfit(f"there is no task {event[0]}")
        ask = task.ask
        if ask is None:
            raise Misfit(f"{task.name} has ended")
        self.step += 1
        try:
            if event[1] != ask.verb:
                raise Misfit(f"{task.name} asks for {wanted(ask)}")
            brought = getattr(self, f"do_{ask.verb}")(task, ask, event[2:])
        except Misfit:
            self.step -= 1
            raise
        answer = brought[0] if isinstance(brought, tuple) and ask.verb in ("take", "try") else brought
        task.go_on(answer, self.step)
        return task, ask, brought

    def check(self, task, ask, given, due):
        if list(given) != list(due):
            raise Misfit(f"{task.name} asks for {wanted(ask)}: it should be {' '.join(map(str, due))}")

    def do_take(self, task, ask, words):
        """Returns what was had, the step since which the task waited or None, and the step of the give that brought it or None."""
        self.check(task, ask, words[:1], [ask.object])
        purpose, pool = ask.about, self.pools[ask.object]
        if purpose.kind == "bio" and purpose.write.round > self.round:
            raise Misfit(f"write {purpose.write.number} is of round {purpose.write.round}, and the present one is {self.round}")
        could = pool.can_serve()
        if not could:
            self.dry[pool.name] = self.step - 1
        gave = pool.take(words[1], ask.verb == "take")
        waited = task.asked if self.dry[pool.name] >= task.asked else None
        if not pool.can_serve():
            self.dry[pool.name] = self.step
        if waited is None:
            gave = None
        if gave is not None:
            self.links["give"].append((gave, self.step))
        return words[1], waited, gave

    do_try = do_take

    def do_give(self, task, ask, words):
        """Returns whether the element is a spare now, and the tasks that wait for one."""
        self.check(task, ask, words, [ask.object])
        pool = self.pools[ask.object]
        if not pool.can_serve():
            self.dry[pool.name] = self.step - 1
        is_spare = pool.give(self.step)
        if is_spare:
            self.givers[self.step] = task.name
        return is_spare, [task.name for task in self.tasks.values() if self.waits(task, pool)]

    def waits(self, task, pool):
        """Says whether a task waits at a pool: it serves nothing, or did so at some step since the task asks."""
        ask = task.ask
        if not ask or ask.verb != "take" or ask.object != pool.name:
            return False
        if pool.can_serve() and self.dry[pool.name] < task.asked:
            return False
        return ask.about.kind != "bio" or ask.about.write.round <= self.round

    def do_punt(self, task, ask, words):
        device = self.named[ask.object].number
        moved = [it for it in task.list0 + task.list1 if it.set == device]
        self.check(task, ask, words, [ask.object, len(moved)])
        task.list0 = [it for it in task.list0 if it.set != device]
        task.list1 = [it for it in task.list1 if it.set != device]
        for bio in moved:
            bio.punted = (self.step, task.name)
        self.lists[ask.object].extend(moved)
        return moved

    def do_pop(self, task, ask, words):
        self.check(task, ask, words, [ask.object])
        if not self.lists[ask.object]:
            raise Misfit(f"the rescue list of {ask.object} is empty")
        bio = self.lists[ask.object].popleft()
        self.links["punt"].append((bio.punted[0], self.step))
        return bio

    def do_push(self, task, ask, words):
        bio = ask.about
        self.check(task, ask, words, [ask.object, bio.start, bio.count, "leg", bio.leg])
        bio.pushed = self.step
        self.disks[ask.object].pending.append(bio)
        return bio

    def do_complete(self, task, ask, words):
        self.check(task, ask, words[:1], [ask.object])
        bio = self.disks[ask.object].complete(words[1], words[2])
        self.links["push"].append((bio.pushed, self.step))
        return bio, words[2]

    def do_link(self, task, ask, words):
        node = ask.node
        self.check(task, ask, words[:2], [node.write.task, ask.object])
        book = self.books[node.write.task]
        if words[2] in book:
            raise Misfit(f"place {words[2]} of the book of writer {node.write.task} has an open node")
        book[words[2]] = node
        node.place = words[2]
        return node

    def do_drop(self, task, ask, words):
        node = ask.node
        self.check(task, ask, words[:3], [node.write.task, node.place, ask.object])
        closes = node.count == 1
        self.check(task, ask, words[3:], [("up" if node.parent else "top") if closes else "left"])
        node.drop(ask.object)
        if closes:
            del self.books[node.write.task][node.place]
        return closes

    def do_done(self, task, ask, words):
        self.check(task, ask, words, [ask.about.number, ask.object])
        self.statuses[ask.about.number] = ask.object
        self.left[ask.about.round] -= 1
        return ask.object

    def check_round_is_over(self):
        if any(self.left[:self.round + 1]):
            raise Misfit(f"{sum(self.left[:self.round + 1])} writes of the rounds so far are not done")

    def do_resize(self, task, ask, words):
        self.check(task, ask, words, [ask.object, ask.about])
        self.check_round_is_over()
        self.pools[ask.object].resize(ask.about)
        self.dry[ask.object] = -1

    def do_round(self, task, ask, words):
        self.check(task, ask, words, [ask.object])
        self.check_round_is_over()
        self.round = ask.object
        # those who write in it ask from now on
        for it in self.tasks.values():
            if it.ask and it.ask.object == "fs.bios" and it.ask.verb == "take" and it.ask.about.write.round == self.round:
                it.asked = self.step


def wanted(ask):
    """Returns the words with which the event begins that a task asks for."""
    words = {
        "link": lambda: f"link {ask.node.write.task} {ask.object}",
        "drop": lambda: f"drop {ask.node.write.task} {ask.node.place} {ask.object}",
        "done": lambda: f"done {ask.about.number} {ask.object}",
        "push": lambda: f"push {ask.object} {ask.about.start} {ask.about.count} leg {ask.about.leg}",
    }
    return words[ask.verb]() if ask.verb in words else f"{ask.verb} {ask.object}"
