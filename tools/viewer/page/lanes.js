// A lane for each task over the steps of the run. Only the steps that are seen are drawn.

const LANE = { height: 28, top: 22, zooms: [3, 6, 12, 22, 36, 52] };

class Lanes {
  constructor(recording, canvas, box) {
    this.recording = recording;
    this.canvas = canvas;
    this.box = box;
    this.paths = recording.kinds.map((kind) => new Path2D(recording.marks[kind][2]));
    this.colours = recording.kinds.map((kind) => recording.marks[kind][1]);
    this.zoom = 4;
    this.first = 1;
    this.step = 0;
    this.chooseZoom();
  }

  get spacing() {
    return LANE.zooms[this.zoom];
  }

  get gutter() {
    return this.box.clientWidth < 500 ? 74 : 120;
  }

  get seen() {
    return Math.max(1, Math.floor((this.box.clientWidth - this.gutter - 10) / this.spacing));
  }

  // The widest spacing at which the whole run is seen, or a middle one.
  chooseZoom() {
    while (this.zoom > 3 && this.recording.steps > this.seen) this.zoom -= 1;
  }

  zoomBy(change) {
    this.zoom = Math.min(Math.max(this.zoom + change, 0), LANE.zooms.length - 1);
    this.first = this.step - Math.floor(this.seen / 2);
    this.draw(this.step);
  }

  // Moves the seen steps so that a step is among them, with room on both sides.
  show(step) {
    const { seen } = this;
    const margin = Math.min(4, Math.floor(seen / 3));
    if (step < this.first + margin || step > this.first + seen - 1 - margin) this.first = step - Math.floor(seen / 2);
    this.first = Math.max(1, Math.min(this.first, this.recording.steps - seen + 1));
  }

  x(step) {
    return this.gutter + (step - this.first + 0.5) * this.spacing;
  }

  y(lane) {
    return LANE.top + (lane + 0.5) * LANE.height;
  }

  draw(step) {
    this.step = step;
    this.show(step);
    const width = this.box.clientWidth;
    const height = LANE.top + this.recording.taskNames.length * LANE.height + 4;
    const ratio = window.devicePixelRatio || 1;
    if (this.canvas.width !== Math.round(width * ratio) || this.canvas.height !== Math.round(height * ratio)) {
      this.canvas.width = Math.round(width * ratio);
      this.canvas.height = Math.round(height * ratio);
      this.canvas.style.width = `${width}px`;
      this.canvas.style.height = `${height}px`;
    }
    const pen = this.canvas.getContext("2d");
    pen.setTransform(ratio, 0, 0, ratio, 0, 0);
    pen.clearRect(0, 0, width, height);
    const last = Math.min(this.recording.steps, this.first + this.seen - 1);
    this.drawGround(pen, width, height, last);
    pen.save();
    pen.beginPath();
    pen.rect(this.gutter, 0, width - this.gutter, height);
    pen.clip();
    this.drawWaits(pen, last);
    this.drawLinks(pen, last);
    this.drawMarks(pen, last);
    pen.restore();
    this.follow();
  }

  // Scrolls to the lane of the step's task.
  follow() {
    if (this.step === 0 || this.box.scrollHeight <= this.box.clientHeight) return;
    const y = this.y(this.recording.actors[this.step - 1]);
    if (y - LANE.height < this.box.scrollTop || y + LANE.height > this.box.scrollTop + this.box.clientHeight) {
      this.box.scrollTop = y - this.box.clientHeight / 2;
    }
  }

  drawGround(pen, width, height, last) {
    const { taskNames, actors } = this.recording;
    const acting = this.step > 0 ? actors[this.step - 1] : -1;
    if (this.step > 0) {
      pen.fillStyle = "#fff2cc";
      pen.fillRect(this.x(this.step) - this.spacing / 2, 0, Math.max(this.spacing, 3), height);
    }
    pen.font = "14px system-ui, 'DejaVu Sans', sans-serif";
    pen.textBaseline = "middle";
    taskNames.forEach((name, lane) => {
      pen.strokeStyle = "#ccc";
      pen.beginPath();
      pen.moveTo(this.gutter, this.y(lane));
      pen.lineTo(width, this.y(lane));
      pen.stroke();
      pen.fillStyle = "#111";
      pen.font = `${lane === acting ? "bold " : ""}14px system-ui, 'DejaVu Sans', sans-serif`;
      pen.fillText(name, 6, this.y(lane), this.gutter - 12);
    });
    pen.font = "12px system-ui, 'DejaVu Sans', sans-serif";
    pen.fillStyle = "#333";
    pen.textAlign = "center";
    const room = String(last).length * 8 + 8;
    const every = [1, 5, 10, 50, 100, 500].find((it) => it * this.spacing >= room) || 1000;
    for (let step = this.first; step <= last; step += 1) {
      const isFree = Math.abs(step - this.step) * this.spacing >= room;
      if (step === this.step || (step % every === 0 && isFree)) pen.fillText(step, this.x(step), 11);
    }
    pen.textAlign = "left";
  }

  drawWaits(pen, last) {
    pen.fillStyle = "#e4e4e4";
    for (const [lane, from, to] of this.recording.waits) {
      if (to < this.first || from > last) continue;
      pen.fillRect(this.x(Math.max(from, this.first - 1)), this.y(lane) - 5, this.x(Math.min(to, last + 1)) - this.x(Math.max(from, this.first - 1)), 10);
    }
  }

  drawLinks(pen, last) {
    const { linksAt, lineKinds, actors } = this.recording;
    const drawn = new Set();
    for (let step = this.first; step <= last; step += 1) {
      for (const link of linksAt.get(step) || []) {
        if (drawn.has(link)) continue;
        drawn.add(link);
        const [, colour, dashes] = lineKinds[link.kind];
        const near = link.from === this.step || link.to === this.step;
        pen.strokeStyle = colour;
        pen.lineWidth = near ? 3.5 : 1.6;
        pen.setLineDash(dashes ? dashes.split(" ").map(Number) : []);
        const [x1, y1] = [this.x(link.from), this.y(actors[link.from - 1])];
        const [x2, y2] = [this.x(link.to), this.y(actors[link.to - 1])];
        pen.beginPath();
        pen.moveTo(x1, y1);
        pen.bezierCurveTo(x1 + (x2 - x1) * 0.3, y2, x1 + (x2 - x1) * 0.5, y2, x2, y2);
        pen.stroke();
      }
    }
    pen.setLineDash([]);
    pen.lineWidth = 1;
  }

  drawMarks(pen, last) {
    const { events, actors } = this.recording;
    const size = Math.min(1, this.spacing / 20);
    for (let step = this.first; step <= last; step += 1) {
      pen.save();
      pen.translate(this.x(step), this.y(actors[step - 1]));
      const grow = step === this.step ? Math.max(size * 1.35, 0.7) : size;
      pen.scale(grow, grow);
      pen.fillStyle = this.colours[events[step - 1]];
      pen.strokeStyle = "#222";
      pen.lineWidth = step === this.step ? 2.2 : 1.1;
      pen.fill(this.paths[events[step - 1]]);
      pen.stroke(this.paths[events[step - 1]]);
      pen.restore();
    }
  }

  // The step at a place of the canvas.
  stepAt(x) {
    const step = this.first + Math.floor((x - this.gutter) / this.spacing);
    return x < this.gutter ? this.step : Math.max(0, Math.min(step, this.recording.steps));
  }
}
