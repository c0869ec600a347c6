// The strip above: for each processor a lane of vectors, one of messages and one of timers.

const LANE = 9, HEAD = 16, LEFT = 92;

const LANES = ["vectors", "messages", "timers"];

class Strip {
  constructor(run, go) {
    Object.assign(this, { run, go, chosen: run.first, middle: run.first, seen: null, scale: 0 });
    this.canvas = element("strip");
    this.canvas.addEventListener("click", (event) => this.go(this.numberAt(event.offsetX)));
    this.canvas.addEventListener("wheel", (event) => { event.preventDefault(); this.zoom(event.deltaY < 0 ? 1.25 : 0.8); }, { passive: false });
    element("closer").addEventListener("click", () => this.zoom(2));
    element("wider").addEventListener("click", () => this.zoom(0.5));
    window.addEventListener("resize", () => this.draw());
    this.draw();
  }

  get wide() {
    return this.canvas.clientWidth - LEFT - 40;
  }

  get least() {
    return Math.min(24, this.wide / Math.max(1, this.run.events.length));
  }

  zoom(factor) {
    this.scale = Math.min(24, Math.max(this.least, this.scale * factor));
    this.draw();
  }

  choose(number) {
    this.chosen = this.middle = number;
    this.draw();
  }

  /** The list was moved to these events. */
  follow(from, to) {
    if (this.seen && this.seen[0] === from && this.seen[1] === to) return;
    this.seen = [from, to];
    this.middle = this.chosen >= from && this.chosen <= to ? this.chosen : (from + to) / 2;
    this.draw();
  }

  /** The first event at the left end, so that the one that the list shows is in the middle where that is possible. */
  start() {
    const room = this.wide / this.scale;
    const middle = this.middle - this.run.first - room / 2;
    return Math.max(0, Math.min(this.run.events.length - room, middle));
  }

  numberAt(x) {
    const at = Math.floor(this.start() + (x - LEFT) / this.scale);
    return this.run.first + Math.max(1, Math.min(this.run.events.length, at + 1));
  }

  draw() {
    this.scale = Math.min(24, Math.max(this.least, this.scale));
    const high = HEAD + this.run.processors * (LANES.length * LANE + 4) + 4, ratio = window.devicePixelRatio || 1;
    this.canvas.style.height = high + "px";
    this.canvas.width = this.canvas.clientWidth * ratio;
    this.canvas.height = high * ratio;
    const pen = this.canvas.getContext("2d");
    pen.scale(ratio, ratio);
    this.colours = colours();
    pen.font = "10px ui-monospace, monospace";
    this.drawNames(pen);
    const from = this.start(), to = Math.min(this.run.events.length, from + this.wide / this.scale);
    if (this.scale >= 1) for (let i = Math.floor(from); i < to; i++) this.column(pen, LEFT + (i - from) * this.scale, this.scale, i, i + 1);
    else for (let x = 0; x < this.wide; x++) this.column(pen, LEFT + x, 1, Math.floor(from + x / this.scale), Math.ceil(from + (x + 1) / this.scale));
    this.drawChosen(pen, from, high);
  }

  drawNames(pen) {
    pen.fillStyle = this.colours.quiet;
    for (let vp = 0; vp < this.run.processors; vp++) {
      LANES.forEach((name, lane) => pen.fillText(lane ? name : `${vp}: ${name}`, lane ? 22 : 6, this.top(vp, lane) + LANE - 1));
    }
  }

  top(vp, lane) {
    return HEAD + vp * (LANES.length * LANE + 4) + lane * LANE;
  }

  /** One event, or several that share a column. */
  column(pen, x, width, from, to) {
    const fill = (colour, y, height) => { pen.fillStyle = this.colours[colour]; pen.fillRect(x, y, Math.max(1, width - (width > 4 ? 1 : 0)), height); };
    let refused = false;
    const seen = new Uint8Array(this.run.processors);
    for (let i = from; i < to && i < this.run.events.length; i++) {
      refused = refused || this.run.events[i].refused;
      this.run.glance[i].forEach((bits, vp) => { seen[vp] |= bits; });
    }
    if (refused) fill("wrong", 2, HEAD - 4);
    seen.forEach((bits, vp) => {
      const vectors = this.top(vp, 0), messages = this.top(vp, 1);
      if (bits & GLANCE.asleep) fill("suspend", vectors, LANES.length * LANE);
      if (bits & GLANCE.requested) fill("request", vectors, 3);
      if (bits & GLANCE.serving) fill("serve", vectors + 4, 4);
      if (bits & GLANCE.slot) fill(bits & GLANCE.pending ? "pending" : "slot", messages, 4);
      if (bits & GLANCE.waits) fill("request", messages + 5, 2);
      if (bits & GLANCE.timer) fill("timer", this.top(vp, 2), LANE - 2);
    });
  }

  /** The events that the list shows, and the chosen one. */
  drawChosen(pen, from, high) {
    if (this.seen) {
      pen.fillStyle = this.colours.quiet;
      pen.fillRect(LEFT + Math.max(0, this.seen[0] - this.run.first - 1 - from) * this.scale, high - 3, Math.max(2, (this.seen[1] - Math.max(this.seen[0], this.run.first + 1 + from) + 1) * this.scale), 3);
    }
    if (this.chosen === this.run.first) return;
    pen.strokeStyle = this.colours.ink;
    pen.strokeRect(LEFT + (this.chosen - this.run.first - 1 - from) * this.scale - 0.5, 0.5, Math.max(2, this.scale), high - 1);
  }
}

function colours() {
  const style = getComputedStyle(document.documentElement);
  const names = ["ink", "quiet", "wrong", "suspend", "request", "serve", "slot", "pending", "timer"];
  return Object.fromEntries(names.map((name) => [name, style.getPropertyValue("--" + name).trim()]));
}
