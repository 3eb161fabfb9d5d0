// What the page knows of a run: for each object the steps at which it changed, so that every step can be looked at.

class Recording {
  constructor(data) {
    Object.assign(this, data);
    this.lines = data.lines === "" ? [] : data.lines.split("\n");
    this.steps = this.lines.length;
    this.taskNames = Object.keys(this.tasks);
    this.dones = [];
    this.rounds = [0];
    this.lines.forEach((line, at) => {
      const words = line.split(" ");
      if (words[1] === "done") this.dones.push({ step: at + 1, write: Number(words[2]), status: words[3] });
      if (words[1] === "round") this.rounds.push(at + 1);
    });
    this.doneSteps = [0, ...this.dones.map((done) => done.step)];
    this.indexLinks();
  }

  // For each step the lines between events that begin or end there.
  indexLinks() {
    this.linksAt = new Map();
    for (const [kind, pairs] of Object.entries(this.links)) {
      for (let k = 0; k < pairs.length; k += 2) {
        const link = { kind, from: pairs[k], to: pairs[k + 1] };
        for (const step of [link.from, link.to]) {
          if (!this.linksAt.has(step)) this.linksAt.set(step, []);
          this.linksAt.get(step).push(link);
        }
      }
    }
  }

  // The value that an object has after a step.
  static at(history, step) {
    return history.values[Recording.place(history.steps, step)];
  }

  // The place of the last of some rising numbers that is not above a step.
  static place(steps, step) {
    let low = 0;
    let high = steps.length;
    while (high - low > 1) {
      const middle = (low + high) >> 1;
      if (steps[middle] <= step) low = middle;
      else high = middle;
    }
    return low;
  }

  pool(name, step) {
    const [reserve, spares, live, ordinary, spare] = Recording.at(this.pools[name], step);
    return { reserve, spares, live, ordinary, spare };
  }

  // How many bios a list has, and what the first of them are.
  bios(value) {
    return { count: value[0], names: value.slice(1).map((label) => this.labels[label]) };
  }

  task(name, step) {
    const [asks, list0, list1] = Recording.at(this.tasks[name], step);
    const hasEnded = this.labels[asks] === "" || this.doneCount(step) === this.writes;
    const found = { asks: hasEnded ? "ended" : this.labels[asks], list0: this.bios(list0), list1: this.bios(list1) };
    found.waits = found.asks.startsWith("take ") && this.isWaiting(name, step);
    return found;
  }

  isWaiting(name, step) {
    const number = this.taskNames.indexOf(name);
    if (!this.waitsOf) {
      this.waitsOf = this.taskNames.map(() => ({ from: [0], to: [0] }));
      for (const [task, from, to] of this.waits) {
        this.waitsOf[task].from.push(from);
        this.waitsOf[task].to.push(to);
      }
    }
    const { from, to } = this.waitsOf[number];
    return step < to[Recording.place(from, step)];
  }

  // The runs of written sectors of a disk, as first sectors and lengths.
  runs(name, size, step) {
    const cache = (this.images = this.images || new Map());
    let image = cache.get(name);
    if (!image || image.step > step) {
      image = { step: 0, next: 0, sectors: new Uint8Array(size + 1) };
      cache.set(name, image);
    }
    const writes = this.written[name];
    if (image.runs && (image.next === writes.length || writes[image.next][0] > step)) {
      image.step = step;
      return image.runs;
    }
    for (; image.next < writes.length && writes[image.next][0] <= step; image.next += 1) {
      const [, start, count] = writes[image.next];
      image.sectors.fill(1, start, start + count);
    }
    image.step = step;
    image.runs = Recording.runsOf(image.sectors);
    return image.runs;
  }

  static runsOf(sectors) {
    const found = [];
    for (let start = sectors.indexOf(1); start >= 0;) {
      const end = sectors.indexOf(0, start);
      found.push([start, end - start]);
      start = sectors.indexOf(1, end);
    }
    return found;
  }

  tale(step) {
    if (step === 0) return "Nothing has happened yet: each pool has its reserve, and every disk is all zeros.";
    return this.tales[step - 1].map(([number, ...words]) => {
      let next = 0;
      return this.templates[number].replace(/\{\}/g, () => words[next++]);
    }).join(" ");
  }

  doneCount(step) {
    return Recording.place(this.doneSteps, step);
  }

  openNodes(step) {
    return Object.values(this.nodes).reduce((sum, history) => sum + Recording.at(history, step), 0);
  }

  // All that the report of a run says, as it is after a step.
  state(step) {
    const statuses = new Array(this.writes).fill("unfinished");
    for (const done of this.dones) if (done.step <= step) statuses[done.write] = done.status;
    const pools = {};
    for (const name of Object.keys(this.pools)) {
      const { reserve, ordinary, spare } = this.pool(name, step);
      pools[name] = [reserve, ordinary, spare];
    }
    const disks = {};
    for (const device of this.devices) if (device.kind === "disk") disks[device.name] = this.runs(device.name, device.size, step);
    return { step, writes: statuses, pools, disks };
  }
}
