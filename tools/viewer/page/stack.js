// The stack as a picture: devices from the top down to the disks, with their pools as rows of places.

const BOX = { least: 158, gap: 10, row: 20, head: 23, pad: 6, below: 22, letter: 8.2 };

function escapeText(text) {
  return String(text).replace(/&/g, "&amp;").replace(/</g, "&lt;").replace(/>/g, "&gt;");
}

class Stack {
  constructor(recording, into) {
    this.recording = recording;
    this.into = into;
    const longest = Math.max(12, ...recording.devices.map((it) => it.name.length + it.kind.length + 2));
    this.boxWidth = Math.max(BOX.least, Math.round(longest * BOX.letter) + 20);
    this.place();
  }

  rowsOf(device) {
    if (device.kind === "disk") return 2;
    return 1 + (device.kind === "mirror" ? 1 : 0) + (device.rescuer ? 1 : 0);
  }

  // Gives each device its place: disks side by side, each other device above the middle of its members.
  place() {
    const { devices } = this.recording;
    const members = new Set(devices.flatMap((device) => device.members));
    this.tops = devices.map((_, number) => number).filter((number) => !members.has(number));
    this.level = devices.map(() => 0);
    this.x = devices.map(() => 0);
    let column = 0;
    const visit = (number, level) => {
      this.level[number] = level;
      const below = devices[number].members;
      below.forEach((member) => visit(member, level + 1));
      if (below.length === 0) this.x[number] = (column++) * (this.boxWidth + BOX.gap);
      else this.x[number] = (this.x[below[0]] + this.x[below[below.length - 1]]) / 2;
    };
    this.tops.forEach((number) => visit(number, 1));
    this.width = Math.max(column, 1) * (this.boxWidth + BOX.gap) - BOX.gap + 4;
    const deepest = Math.max(0, ...this.level);
    this.level = this.level.map((level, number) => (devices[number].kind === "disk" ? deepest : level));
    this.top = [2];
    for (let level = 0; level <= deepest; level += 1) {
      const rows = level === 0 ? [2] : devices.filter((_, n) => this.level[n] === level).map((it) => this.rowsOf(it));
      this.top.push(this.top[level] + BOX.head + Math.max(1, ...rows) * BOX.row + BOX.pad + BOX.below);
    }
    this.height = this.top[deepest + 1] - BOX.below + 4;
  }

  draw(step) {
    const { recording } = this;
    const words = step > 0 ? recording.lines[step - 1].split(" ") : [];
    this.step = step;
    this.touched = this.objectOf(words);
    const fsX = (this.width - this.boxWidth) / 2;
    const parts = [this.box(fsX, this.top[0], 2, "fs: writers' set", this.touched.startsWith("fs."))];
    parts.push(this.poolRow(fsX, this.top[0] + BOX.head, "bios", "fs.bios"));
    parts.push(this.poolRow(fsX, this.top[0] + BOX.head + BOX.row, "vecs", "fs.vecs"));
    recording.devices.forEach((device, number) => parts.push(this.edges(device, number)));
    recording.devices.forEach((device, number) => parts.push(this.device(device, number)));
    const label = `Step ${step}: ${recording.devices.length} devices`;
    this.into.innerHTML = `<svg width="${this.width}" height="${this.height}" font-size="13" role="img" aria-label="${label}">${parts.join("")}</svg>`;
    this.follow();
  }

  // The device or pool that an event names.
  objectOf(words) {
    if (["take", "try", "give", "resize", "punt", "pop", "push", "complete"].includes(words[1])) return words[2];
    return "";
  }

  isTouched(device) {
    return this.touched === device.name || this.touched.startsWith(`${device.name}.`);
  }

  // Scrolls to the device at hand where the picture is wider than its place.
  follow() {
    const number = this.recording.devices.findIndex((device) => this.isTouched(device));
    if (number < 0 || this.width <= this.into.clientWidth) return;
    const x = this.x[number];
    if (x < this.into.scrollLeft || x + this.boxWidth > this.into.scrollLeft + this.into.clientWidth) {
      this.into.scrollLeft = x + this.boxWidth / 2 - this.into.clientWidth / 2;
    }
  }

  box(x, y, rows, name, isTouched) {
    const height = BOX.head + rows * BOX.row + BOX.pad;
    const border = isTouched ? 'stroke="#D55E00" stroke-width="3"' : 'stroke="#444"';
    return `<rect x="${x + 2}" y="${y}" width="${this.boxWidth - 4}" height="${height}" rx="5" fill="${isTouched ? "#fff2cc" : "#fafafa"}" ${border}/>`
      + `<text x="${x + 10}" y="${y + 17}" font-weight="bold" font-size="14">${escapeText(name)}</text>`;
  }

  edges(device, number) {
    const y = this.top[this.level[number]] + BOX.head + this.rowsOf(device) * BOX.row + BOX.pad;
    return device.members.map((member) => {
      const from = this.x[number] + this.boxWidth / 2;
      const to = this.x[member] + this.boxWidth / 2;
      return `<path d="M${from} ${y}L${to} ${this.top[this.level[member]]}" stroke="#777" stroke-width="1.5"/>`;
    }).join("");
  }

  device(device, number) {
    const x = this.x[number];
    const y = this.top[this.level[number]];
    const parts = [this.box(x, y, this.rowsOf(device), `${device.name}: ${device.kind}`, this.isTouched(device))];
    let row = y + BOX.head;
    const add = (part) => {
      parts.push(part);
      row += BOX.row;
    };
    if (device.kind === "disk") {
      const waits = this.recording.bios(Recording.at(this.recording.disks[device.name], this.step));
      add(this.text(x, row, waits.count === 1 ? "1 bio waits" : `${waits.count} bios wait`));
      add(this.sectors(x, row, device));
      return parts.join("");
    }
    if (device.kind === "mirror") add(this.poolRow(x, row, "records", `${device.name}.records`));
    add(this.poolRow(x, row, "bios", `${device.name}.bios`));
    if (device.rescuer) {
      const { count } = this.recording.bios(Recording.at(this.recording.lists[device.name], this.step));
      add(this.text(x, row, `rescuer: ${count === 0 ? "no bio waits" : count === 1 ? "1 bio waits" : `${count} bios wait`}`));
    }
    return parts.join("");
  }

  text(x, y, words, from = 10) {
    return `<text x="${x + from}" y="${y + 14}">${escapeText(words)}</text>`;
  }

  // A place is a spare (filled), out (dashed), or an ordinary element that is out (round).
  poolRow(x, y, name, pool) {
    const { reserve, spares, live } = this.recording.pool(pool, this.step);
    const parts = [this.text(x, y, name)];
    let at = x + 63;
    if (reserve > 4) {
      parts.push(this.text(at, y, `${spares} of ${reserve}`, 0));
      at += 78;
    } else {
      for (let k = 0; k < reserve; k += 1) {
        const look = k < spares ? 'fill="#E69F00" stroke="#222"' : 'fill="#fff" stroke="#222" stroke-dasharray="2 2"';
        parts.push(`<rect x="${at + 0.5}" y="${y + 3.5}" width="13" height="13" ${look}/>`);
        at += 16;
      }
    }
    if (live > 0) parts.push(`<circle cx="${at + 8}" cy="${y + 10}" r="6.5" fill="#56B4E9" stroke="#222"/>`, this.text(at + 18, y, live, 0));
    return parts.join("");
  }

  sectors(x, y, device) {
    const width = this.boxWidth - 24;
    const left = x + 10;
    const runs = this.recording.runs(device.name, device.size, this.step);
    const scale = width / Math.max(device.size, 1);
    const bar = (start, count, look) => `<rect x="${left + start * scale}" y="${y + 3}" width="${Math.max(count * scale, 1)}" height="12" ${look}/>`;
    const parts = [bar(0, device.size, 'fill="#fff"')];
    let drawn = -1;
    for (const [start, count] of runs) {
      const end = Math.floor((start + count) * scale);
      if (end > drawn || count * scale >= 1) parts.push(bar(start, count, 'fill="#0072B2"'));
      drawn = Math.max(drawn, end);
    }
    for (const [start, count] of device.bad) parts.push(bar(start, count, 'fill="none" stroke="#D55E00" stroke-width="2"'));
    parts.push(bar(0, device.size, 'fill="none" stroke="#222"'));
    return parts.join("");
  }
}
