// The events, the state after each of them, and the index of lives.

const CHECKPOINT = 512;

async function unpack(text) {
  const bytes = Uint8Array.from(atob(text.trim()), (letter) => letter.charCodeAt(0));
  const stream = new Blob([bytes]).stream().pipeThrough(new DecompressionStream("deflate"));
  return JSON.parse(await new Response(stream).text());
}

/** A recorded run. Events have the numbers first + 1 to first + events.length. */
class Run {
  constructor(data) {
    this.name = data.name;
    this.board = data.board;
    this.first = data.first;
    this.all = data.all;
    this.processors = Number(data.board.split(" ")[1]);
    this.events = data.events.map(asEvent);
    this.base = data.base;
    this.checkpoints = [];
    this.lives = new Map();
    this.portOf = new Map();
    this.glance = this.events.map(() => null);
    this.index();
  }

  get last() {
    return this.first + this.events.length;
  }

  event(number) {
    return this.events[number - this.first - 1];
  }

  /** The state after the event of this number; after `first` it is that before the page. */
  state(number) {
    const passed = number - this.first;
    const start = Math.floor(passed / CHECKPOINT);
    const state = Object.assign({}, this.checkpoints[start]);
    for (let i = start * CHECKPOINT; i < passed; i++) Object.assign(state, this.events[i].delta);
    return state;
  }

  index() {
    const state = Object.assign({}, this.base);
    this.events.forEach((event, i) => {
      if (i % CHECKPOINT === 0) this.checkpoints.push(Object.assign({}, state));
      const number = this.first + i + 1;
      this.place(event, state);
      this.live(event, number, state);
      Object.assign(state, event.delta);
      this.fallDue(event, number, state);
      this.glance[i] = glanceAt(event, state, this.processors, this.glance[i - 1]);
    });
    if (this.events.length % CHECKPOINT === 0) this.checkpoints.push(Object.assign({}, state));
  }

  add(key, number, text) {
    if (!this.lives.has(key)) this.lives.set(key, []);
    this.lives.get(key).push({ number, text });
  }

  /** The processors, sources and ports that an event is about, as bit sets. */
  place(event, before) {
    const at = { vps: 0, sints: 0, ports: 0 };
    const add = (name, number) => { if (number < 32) at[name] |= 1 << number; };
    const target = (port) => {
      const held = before["port" + port];
      add("ports", Number(port));
      if (held) { add("vps", held[1]); add("sints", held[2]); }
    };
    const [word, ...numbers] = event.words;
    if (["write", "read", "assert", "absorb", "take", "suspend", "resume", "reset"].includes(word)) add("vps", Number(numbers[0]));
    if (word === "send") this.placeMask(BigInt("0x" + numbers[1]), add);
    if (word === "open") { add("ports", Number(numbers[0])); add("vps", Number(numbers[2])); add("sints", Number(numbers[3])); }
    if (["close", "post", "signal"].includes(word)) target(numbers[0]);
    if (word === "write" && /^4000009.$/.test(numbers[1])) add("sints", parseInt(numbers[1][7], 16));
    if (word === "store" || word === "load") this.placeBytes(BigInt("0x" + numbers[0]), before, add);
    for (const notice of event.notices) this.placeNotice(notice.split(" "), event, add);
    Object.assign(event, at);
  }

  placeMask(mask, add) {
    for (let vp = 0; vp < 32; vp++) if (mask >> BigInt(vp) & 1n) add("vps", vp);
  }

  placeBytes(address, before, add) {
    const owner = before.owners && before.owners.find((entry) => BigInt(entry[0]) === address >> 12n);
    if (owner) { add("vps", owner[2]); add("sints", Number(address >> 8n & 15n)); }
  }

  placeNotice([kind, a, b, c], event, add) {
    if (["accepted", "placed", "consumed", "withdrawn"].includes(kind)) {
      if (kind === "accepted" && event.words[0] === "post") this.portOf.set(a, Number(event.words[1]));
      if (this.portOf.has(a)) add("ports", this.portOf.get(a));
      add("vps", Number(b));
      add("sints", Number(c));
    } else {
      add("vps", Number(a));
      if (kind === "pending" || kind === "flag") add("sints", Number(b));
    }
  }

  /** What an event says of a message, a vector or a timer. */
  live(event, number, before) {
    const [word, ...numbers] = event.words;
    event.notices.forEach((notice, i) => {
      const [kind, a, b] = notice.split(" ");
      const words = event.sentences[i + 1];
      if (["accepted", "placed", "consumed", "withdrawn"].includes(kind)) this.add("message " + a, number, words);
      if (kind === "requested") this.add(`vector ${b} of processor ${a}`, number, "requested");
      if (kind === "expired" || kind === "skipped") this.add(`timer ${b} of processor ${a}`, number, words);
    });
    if (word === "assert" && event.reply === "done" && !event.notices.length) {
      this.add(`vector ${numbers[1]} of processor ${numbers[0]}`, number, "asserted: merged with the request that was there");
    }
    if (word === "take" && event.reply.startsWith("taken ") && event.reply !== "taken none") this.livesTake(event, number);
    if (word === "write" && event.reply === "done") this.livesWrite(numbers, number, event, before);
    if (word === "reset" && event.reply === "done") this.livesReset(Number(numbers[0]), number, before);
  }

  livesTake(event, number) {
    const vp = event.words[1];
    const vector = event.reply.slice(6);
    const joins = (event.delta[`p${vp}.serving`] || []).includes(vector);
    this.add(`vector ${vector} of processor ${vp}`, number, joins ? "taken, and in service" : "taken as auto-EOI: it ends at once");
  }

  livesWrite([vp, register, value], number, event, before) {
    if (/^400000b[0-7]$/.test(register)) {
      const digit = parseInt(register[7], 16);
      this.add(`timer ${digit >> 1} of processor ${vp}`, number, `${digit & 1 ? "COUNT" : "CONFIG"} written: ${value}`);
    }
    const serving = before[`p${vp}.serving`] || [];
    if (register === "40000070" && serving.length) {
      this.add(`vector ${serving[serving.length - 1]} of processor ${vp}`, number, "ended by EOI");
    }
  }

  livesReset(vp, number, before) {
    const lost = new Set([...before[`p${vp}.requested`], ...before[`p${vp}.serving`]]);
    for (const vector of lost) this.add(`vector ${vector} of processor ${vp}`, number, "cleared by the reset");
    for (let i = 0; i < 4; i++) {
      if (before[`p${vp}.timer${i}`][2] !== null) this.add(`timer ${i} of processor ${vp}`, number, "cleared by the reset");
    }
  }

  /** Timers that are due after an event and were not before it, or that a write started late. */
  fallDue(event, number, after) {
    if (this.waiting === undefined) this.waiting = new Set();
    for (let vp = 0; vp < this.processors; vp++) {
      if (!("time" in event.delta) && !Object.keys(event.delta).some((key) => key.startsWith(`p${vp}.timer`))) continue;
      for (let i = 0; i < 4; i++) {
        const key = `timer ${i} of processor ${vp}`;
        const due = after[`p${vp}.timer${i}`][2];
        const late = due !== null && big(due) <= big(after.time);
        if (late && !this.waiting.has(key)) this.add(key, number, `due since ${due}, and not expired`);
        if (late) this.waiting.add(key); else this.waiting.delete(key);
      }
    }
  }
}

function asEvent([line, actor, reply, notices, sentences, delta]) {
  const refused = reply.startsWith("refused") || reply === "general protection";
  return { line, actor, reply, notices, sentences, delta, refused, words: line.split(" ") };
}

const GLANCE = { requested: 1, serving: 2, slot: 4, pending: 8, timer: 16, asleep: 32, taken: 64, waits: 128 };

/** What the strip shows of each processor after an event, from what it showed before. */
function glanceAt(event, state, processors, before) {
  const seen = new Uint8Array(processors);
  if (before) before.forEach((bits, vp) => { seen[vp] = bits & ~(GLANCE.timer | GLANCE.taken); });
  const touched = new Set(Object.keys(event.delta).map((key) => /^p(\d)\./.exec(key)).filter(Boolean).map((found) => Number(found[1])));
  for (let vp = 0; vp < processors; vp++) {
    if (!before || touched.has(vp)) seen[vp] = stillAt(state, vp);
  }
  for (const notice of event.notices) {
    if (/^(expired|skipped)/.test(notice)) seen[Number(notice.split(" ")[1])] |= GLANCE.timer;
  }
  if (/^taken [0-9a-f]{2}$/.test(event.reply)) seen[Number(event.words[1])] |= GLANCE.taken;
  return seen;
}

function stillAt(state, vp) {
  let bits = 0;
  if (state[`p${vp}.requested`].length) bits |= GLANCE.requested;
  if (state[`p${vp}.serving`].length) bits |= GLANCE.serving;
  if (state[`p${vp}.suspended`]) bits |= GLANCE.asleep;
  for (let sint = 0; sint < 16; sint++) {
    const [held] = state[`p${vp}.slot${sint}`];
    if (held) bits |= GLANCE.slot;
    if (held.length > 10 && parseInt(held.slice(10, 12), 16) & 1) bits |= GLANCE.pending;
    if (state[`p${vp}.queue${sint}`].length) bits |= GLANCE.waits;
  }
  return bits;
}

function big(text) {
  return BigInt(text);
}
