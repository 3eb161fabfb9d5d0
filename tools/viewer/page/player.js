// The player: buttons, keys and slider go to a step, and all parts of the page show it.

class Player {
  constructor(recording) {
    this.recording = recording;
    this.step = 0;
    this.timer = null;
    this.parts = {};
    for (const part of document.querySelectorAll("[id]")) this.parts[part.id] = part;
    const { parts } = this;
    this.stack = new Stack(recording, parts.stack);
    this.lanes = new Lanes(recording, parts.lanes, parts["lanes-box"]);
    parts.title.textContent = `A run of ${recording.title}`;
    parts.slider.max = recording.steps;
    for (const note of recording.notes) {
      const line = document.createElement("p");
      line.textContent = note;
      parts.notes.append(line);
    }
    this.rows = recording.taskNames.map((name) => this.addRow(name));
    this.addLegend();
    this.listen();
    this.show(0);
  }

  addRow(name) {
    const row = this.parts.tasks.insertRow();
    row.insertCell().textContent = name;
    row.insertCell();
    row.insertCell();
    return row;
  }

  addLegend() {
    const { marks, kinds, lineKinds, events } = this.recording;
    const there = new Set(events);
    const add = (picture, words) => {
      const entry = document.createElement("span");
      entry.innerHTML = picture;
      entry.append(words);
      this.parts.legend.append(entry);
    };
    kinds.forEach((kind, number) => {
      const [words, colour, path] = marks[kind];
      const look = `<svg width="22" height="22" viewBox="-11 -11 22 22"><path d="${path}" fill="${colour}" stroke="#222"/></svg>`;
      if (there.has(number)) add(look, words);
    });
    for (const [kind, [words, colour, dashes]] of Object.entries(lineKinds)) {
      const look = `<svg width="34" height="12"><path d="M0 6L34 6" stroke="${colour}" stroke-width="2.5" stroke-dasharray="${dashes}"/></svg>`;
      if (this.recording.links[kind].length) add(look, words);
    }
    add('<svg width="34" height="12"><rect width="34" height="10" y="1" fill="#e4e4e4"/></svg>', "waits for an element");
    add('<svg width="15" height="15"><rect x="1" y="1" width="13" height="13" fill="#E69F00" stroke="#222"/></svg>', "a spare in a pool");
    add('<svg width="15" height="15"><rect x="1" y="1" width="13" height="13" fill="#fff" stroke="#222" stroke-dasharray="2 2"/></svg>', "its place, when it is out");
    add('<svg width="15" height="15"><circle cx="7.5" cy="7.5" r="6.5" fill="#56B4E9" stroke="#222"/></svg>', "ordinary elements that are out");
  }

  show(step) {
    const { recording, parts } = this;
    this.step = Math.max(0, Math.min(step, recording.steps));
    parts.slider.value = this.step;
    parts.step.textContent = `Step ${this.step} of ${recording.steps}`;
    const round = recording.rounds.length > 1 ? `, round ${Recording.place(recording.rounds, this.step)}` : "";
    const nodes = recording.openNodes(this.step);
    parts.done.textContent = `${recording.doneCount(this.step)} of ${recording.writes} writes done, ${nodes} nodes open${round}`;
    parts.event.textContent = this.step > 0 ? `event ${recording.lines[this.step - 1]}` : "";
    parts.tale.textContent = recording.tale(this.step);
    this.stack.draw(this.step);
    this.lanes.draw(this.step);
    this.showTasks();
    if (this.step === recording.steps) this.stop();
  }

  showTasks() {
    const { recording } = this;
    const acting = this.step > 0 ? recording.actors[this.step - 1] : -1;
    recording.taskNames.forEach((name, number) => {
      const task = recording.task(name, this.step);
      const [, asks, lists] = this.rows[number].cells;
      this.rows[number].className = number === acting ? "acts" : "";
      asks.innerHTML = task.waits ? `<span class="waits">${escapeText(task.asks)}: waits</span>` : escapeText(task.asks);
      lists.textContent = [task.list0, task.list1].map((list) => Player.words(list)).filter(Boolean).join("; ");
    });
    if (acting >= 0) this.follow(this.rows[acting]);
  }

  // Scrolls the table, and not the page, to a row.
  follow(row) {
    const box = row.closest(".scroll");
    const above = row.offsetTop - row.offsetHeight;
    const below = row.offsetTop + row.offsetHeight;
    if (above < box.scrollTop) box.scrollTop = above;
    else if (below > box.scrollTop + box.clientHeight) box.scrollTop = below - box.clientHeight;
  }

  static words(list) {
    const more = list.count - list.names.length;
    return list.names.join("; ") + (more > 0 ? `; and ${more} more` : "");
  }

  stop() {
    clearInterval(this.timer);
    this.timer = null;
    this.parts.play.setAttribute("aria-pressed", "false");
    this.parts.play.textContent = "Play";
  }

  play() {
    if (this.timer) return this.stop();
    if (this.step === this.recording.steps) this.show(0);
    this.timer = setInterval(() => this.show(this.step + 1), 1000 / Number(this.parts.speed.value));
    this.parts.play.setAttribute("aria-pressed", "true");
    this.parts.play.textContent = "Stop";
    return undefined;
  }

  goToMiss() {
    const missed = this.recording.kinds.indexOf("missed");
    const next = this.recording.events.indexOf(missed, this.step);
    this.show(next < 0 ? this.recording.steps : next + 1);
  }

  listen() {
    const { parts } = this;
    const moves = {
      first: () => this.show(0), back: () => this.show(this.step - 1), next: () => this.show(this.step + 1),
      last: () => this.show(this.recording.steps), play: () => this.play(), miss: () => this.goToMiss(),
      in: () => this.lanes.zoomBy(1), out: () => this.lanes.zoomBy(-1),
    };
    for (const [id, move] of Object.entries(moves)) parts[id].addEventListener("click", move);
    parts.slider.addEventListener("input", () => this.show(Number(parts.slider.value)));
    parts.speed.addEventListener("change", () => {
      if (!this.timer) return;
      this.stop();
      this.play();
    });
    parts.lanes.addEventListener("click", (event) => this.show(this.lanes.stepAt(event.offsetX)));
    window.addEventListener("resize", () => this.show(this.step));
    const keys = {
      ArrowRight: moves.next, ArrowLeft: moves.back, Home: moves.first, End: moves.last, m: moves.miss, " ": moves.play,
      PageDown: () => this.show(this.step + 10), PageUp: () => this.show(this.step - 10), "+": moves.in, "-": moves.out,
    };
    window.addEventListener("keydown", (event) => {
      const key = event.key.length === 1 ? event.key.toLowerCase() : event.key;
      const isTaken = event.target.tagName === "SELECT" || (key === " " && event.target.tagName === "BUTTON");
      const scrolls = event.shiftKey && key.startsWith("Arrow");
      if (!keys[key] || isTaken || scrolls || event.ctrlKey || event.altKey || event.metaKey) return;
      event.preventDefault();
      keys[key]();
    });
  }
}

const player = new Player(new Recording(JSON.parse(document.getElementById("data").textContent)));
// what is on the page, for those who test it
window.shown = () => player.recording.state(player.step);
