// The left side: the rows of the events that the filters leave, of which only the visible ones exist.

const ROW = 42;

const FILTERS = ["by-vp", "by-actor", "by-kind", "by-sint", "by-port"];

function element(id) {
  return document.getElementById(id);
}

class List {
  constructor(run, go) {
    Object.assign(this, { run, go, rows: [], chosen: run.first, moved: null });
    this.box = element("list");
    this.inner = element("rows");
    this.fillFilters();
    this.box.addEventListener("scroll", () => requestAnimationFrame(() => this.draw()));
    this.box.addEventListener("click", (event) => {
      const row = event.target.closest(".row");
      if (row) this.go(Number(row.dataset.event));
    });
    for (const id of [...FILTERS, "by-refused", "matches", "search"]) element(id).addEventListener("input", () => this.filter());
    this.filter();
  }

  fillFilters() {
    const actors = new Set(), kinds = new Set();
    let sints = 0, ports = 0;
    for (const event of this.run.events) {
      if (event.actor !== null) actors.add(event.actor);
      kinds.add(event.words[0]);
      sints |= event.sints;
      ports |= event.ports;
    }
    const numbers = (bits, most) => Array.from({ length: most }, (_, i) => i).filter((i) => bits >> i & 1);
    this.choices("by-vp", Array.from({ length: this.run.processors }, (_, i) => i));
    this.choices("by-actor", [...actors].sort((a, b) => a - b));
    this.choices("by-kind", [...kinds].sort());
    this.choices("by-sint", numbers(sints, 16));
    this.choices("by-port", numbers(ports, 16));
  }

  choices(id, values) {
    element(id).replaceChildren(...["", ...values].map((value) => make("option", { value: String(value) }, value === "" ? "all" : String(value))));
    element(id).parentElement.hidden = values.length === 0;
  }

  /** Whether an event passes the filters. */
  passes() {
    const [vp, actor, kind, sint, port] = FILTERS.map((id) => element(id).value);
    const refused = element("by-refused").checked;
    return (event) => (vp === "" || event.vps >> vp & 1) && (actor === "" || event.actor === Number(actor))
      && (kind === "" || event.words[0] === kind) && (sint === "" || event.sints >> sint & 1)
      && (port === "" || event.ports >> port & 1) && (!refused || event.refused);
  }

  matches(event) {
    return this.wanted !== "" && [event.line, event.reply, ...event.notices, ...event.sentences].some((text) => text.toLowerCase().includes(this.wanted));
  }

  filter() {
    this.wanted = element("search").value.toLowerCase();
    const passes = this.passes(), only = element("matches").checked && this.wanted !== "";
    this.rows = [];
    this.found = [];
    this.run.events.forEach((event, i) => {
      if (!passes(event)) return;
      const match = this.matches(event);
      if (match) this.found.push(this.run.first + i + 1);
      if (!only || match) this.rows.push(this.run.first + i + 1);
    });
    const all = this.rows.length === this.run.events.length;
    element("found").textContent = [this.wanted ? `${this.found.length} matches` : "", all ? "" : `${this.rows.length} events`].filter(Boolean).join(", ");
    this.inner.style.height = this.rows.length * ROW + "px";
    this.reveal();
    this.draw();
  }

  /** The position in the rows of the first event that has this number or a greater one. */
  position(number) {
    let low = 0, high = this.rows.length;
    while (low < high) {
      const middle = low + high >> 1;
      if (this.rows[middle] < number) low = middle + 1; else high = middle;
    }
    return low;
  }

  choose(number) {
    this.chosen = number;
    this.reveal();
    this.draw();
  }

  reveal() {
    const top = this.position(this.chosen) * ROW;
    const { scrollTop, clientHeight } = this.box;
    if (top < scrollTop) this.box.scrollTop = top;
    if (top + ROW > scrollTop + clientHeight) this.box.scrollTop = top + ROW - clientHeight;
  }

  draw() {
    const from = Math.max(0, Math.floor(this.box.scrollTop / ROW) - 10);
    const to = Math.min(this.rows.length, from + Math.ceil(this.box.clientHeight / ROW) + 20);
    const rows = [];
    for (let i = from; i < to; i++) rows.push(this.row(i));
    this.inner.replaceChildren(...rows);
    this.box.setAttribute("aria-activedescendant", "row-" + this.chosen);
    this.report();
  }

  /** Says which events are visible. */
  report() {
    if (!this.moved || !this.rows.length) return;
    const { scrollTop, clientHeight } = this.box, last = this.rows.length - 1;
    const at = (y) => this.rows[Math.max(0, Math.min(last, Math.floor(y / ROW)))];
    this.moved(at(scrollTop), at(scrollTop + clientHeight - 1));
  }

  row(i) {
    const number = this.rows[i], event = this.run.event(number), chosen = number === this.chosen;
    const marks = [chosen && "chosen", event.refused && "refused", this.matches(event) && "match"].filter(Boolean);
    const actor = event.actor === null ? "" : `actor ${event.actor}: `;
    return make("div", { id: "row-" + number, "data-event": number, class: ["row", ...marks].join(" "), role: "option", "aria-selected": String(chosen), "aria-posinset": i + 1, "aria-setsize": this.rows.length, style: `top:${i * ROW}px` },
      make("p", {}, make("span", { class: "number" }, String(number)), make("span", { class: "line" }, actor + event.line), make("span", { class: "reply" }, "= " + event.reply), ...event.notices.map((notice) => make("span", { class: "reply" }, ". " + notice))),
      make("p", { class: "words" }, event.sentences.join("; ")));
  }

  /** The event that is so many rows away. */
  beside(steps) {
    const at = this.position(this.chosen);
    const present = this.rows[at] === this.chosen;
    const wanted = steps > 0 && !present ? at + steps - 1 : at + steps;
    if (wanted < 0) return this.run.first;
    return this.rows[Math.min(this.rows.length - 1, wanted)];
  }

  /** The next match after the chosen event, or the last one before it. */
  match(forward) {
    const others = this.found.filter((number) => (forward ? number > this.chosen : number < this.chosen));
    return forward ? others[0] : others[others.length - 1];
  }
}
