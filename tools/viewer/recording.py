"""Follows a whole trace and keeps, for each object, at which steps it changed and to what: so any step can be looked at at once."""
from viewer.marks import mark_of
from viewer.objects import Misfit
from viewer.run import Run, wanted
from viewer.sentences import Teller, span

SHOWN = 4  # bios of a list that are kept by name


class History:
    """The values of one object, each with the step from which it holds."""

    def __init__(self, value):
        self.steps, self.values = [0], [value]

    def add(self, step, value):
        if value != self.values[-1]:
            self.steps.append(step)
            self.values.append(value)

    def plain(self):
        return {"steps": self.steps, "values": self.values}


class Recording:
    """A run that is told: `misfit` says which line does not fit, and why."""

    def __init__(self, scenario):
        self.run = Run(scenario)
        self.teller, self.labels = Teller(self.run), {}
        self.tales, self.marks, self.actors, self.waits = [], [], [], []
        self.misfit = None
        run, empty = self.run, self.shown([])
        self.numbers = {name: number for number, name in enumerate(run.tasks)}
        self.pools = {name: History(pool.facts()) for name, pool in run.pools.items()}
        self.lists = {name: History(empty) for name in run.lists}
        self.disks = {name: History(empty) for name in run.disks}
        self.writes = {name: [] for name in run.disks}
        self.tasks = {name: History(self.task(task)) for name, task in run.tasks.items()}
        self.nodes = {f"w{number}": History(0) for number in run.books}

    def label(self, text):
        return self.labels.setdefault(text, len(self.labels))

    def shown(self, bios):
        """Returns how many bios there are, and what the first of them are."""
        found = [len(bios)]
        for bio in bios if len(bios) <= SHOWN else [bios[k] for k in range(SHOWN)]:
            found.append(self.label(f"{self.teller.bio(bio)}, {span(bio.start, bio.count)}"))
        return found

    def task(self, task):
        """Returns what a task asks for, and its two lists."""
        asks = wanted(task.ask) if task.ask else ""
        return [self.label(asks), self.shown(task.list0), self.shown(task.list1)]

    def follow(self, events):
        for event in events:
            try:
                task, ask, brought = self.run.apply(event)
            except Misfit as misfit:
                self.misfit = {"line": self.run.step + 1, "text": f"{' '.join(map(str, event))}: {misfit}"}
                return
            self.tales.append(self.teller.tell(task, ask, brought))
            self.marks.append(mark_of(event))
            self.actors.append(self.numbers[task.name])
            self.note(task, ask, brought)
        for task in self.waiting():
            self.waits.append([self.numbers[task.name], task.asked, self.run.step + 1])

    def waiting(self):
        """Returns the tasks that wait at a pool as things stand."""
        tasks = self.run.tasks.values()
        return [task for task in tasks if task.ask and task.ask.verb == "take" and self.run.waits(task, self.run.pools[task.ask.object])]

    def note(self, task, ask, brought):
        """Keeps what an event has changed."""
        run, step, verb = self.run, self.run.step, ask.verb
        self.tasks[task.name].add(step, self.task(task))
        if verb in ("take", "try", "give", "resize"):
            self.pools[ask.object].add(step, run.pools[ask.object].facts())
        if verb == "take" and brought[1] is not None:
            self.waits.append([self.numbers[task.name], brought[1], step])
        if verb in ("punt", "pop"):
            self.lists[ask.object].add(step, self.shown(run.lists[ask.object]))
        if verb in ("push", "complete"):
            self.disks[ask.object].add(step, self.shown(run.disks[ask.object].pending))
        if verb == "complete" and brought[1] == "ok":
            self.writes[ask.object].append([step, brought[0].start, brought[0].count])
        if verb in ("link", "drop"):
            writer = ask.node.write.task
            self.nodes[f"w{writer}"].add(step, len(run.books[writer]))

    def against(self, report):
        """Returns what a report says otherwise than the run, or None."""
        run = self.run
        statuses = ["unfinished" if it is None else it for it in run.statuses]
        pairs = [("writes", report.writes, statuses), ("steps", report.steps, run.step)]
        for name, disk in run.disks.items():
            pairs.append((f"disk {name}, runs", report.disks.get(name), disk.runs()))
        for name, pool in run.pools.items():
            pairs.append((f"pool {name}, reserve and takes", report.pools.get(name), [pool.reserve, pool.ordinary, pool.spare]))
        for what, said, found in pairs:
            if said != found:
                return f"{what}: the report says {said}, and the events come to {found}"
        return None
