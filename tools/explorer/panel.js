// The right side: the chosen event, the state after it with what changed, and a life.

function make(tag, attributes, ...children) {
  const element = document.createElement(tag);
  for (const [name, value] of Object.entries(attributes || {})) {
    if (name.startsWith("on")) element.addEventListener(name.slice(2), value);
    else if (value !== null && value !== undefined && value !== false) element.setAttribute(name, value === true ? "" : value);
  }
  element.append(...children.filter((child) => child !== null && child !== undefined));
  return element;
}

/** The text of a cell, to compare and to test. */
function plain(cell) {
  if (Array.isArray(cell)) return cell.map((part) => (typeof part === "string" ? part : part.text)).join(cell.every((part) => part.life) ? ", " : "");
  return typeof cell === "string" ? cell : cell.text;
}

class Panel {
  constructor(run, go, openLife) {
    Object.assign(this, { run, go, openLife, open: new Map() });
    this.eventBox = document.getElementById("event");
    this.stateBox = document.getElementById("state");
    this.lifeBox = document.getElementById("life");
  }

  part(part) {
    if (typeof part === "string") return part;
    if (part.life) return make("button", { type: "button", class: "life", title: "Show its life", onclick: () => this.openLife(part.life) }, part.text);
    return make("button", { type: "button", class: "jump", onclick: () => this.go(part.event) }, part.text);
  }

  contents(cell) {
    if (cell.rule) return [cell.text, make("span", { class: "rule" }, cell.rule)];
    if (!Array.isArray(cell)) return [cell];
    const between = cell.every((part) => part.life);
    return cell.flatMap((part, i) => (between && i ? [", ", this.part(part)] : [this.part(part)]));
  }

  cell(tag, cell, key, before) {
    const changed = before !== undefined && before !== plain(cell);
    const element = make(tag, { "data-key": key, class: changed ? "changed" : null, scope: tag === "th" ? "row" : null, title: changed && before !== null ? "before: " + before : null });
    element.append(...this.contents(cell));
    if (changed) element.append(make("span", { class: "hidden" }, before === null ? " (new)" : ` (changed, before: ${before || "empty"})`));
    return element;
  }

  /** A row, with the cells marked that differ from those of `old`: null for a new row, undefined if
   * there is nothing to compare with. */
  row(section, row, old, head) {
    const before = (i) => {
      if (!old) return old;
      // it differs after each tick
      return head && head[i] === "From now" ? undefined : plain(old.cells[i]);
    };
    return make("tr", {}, ...row.cells.map((cell, i) => this.cell(i ? "td" : "th", cell, `${section}/${row.id}/${i}`, before(i))));
  }

  /** A table, with the cells marked that differ from `old`, and its rows that are gone. */
  table(section, old) {
    const earlier = new Map(old ? old.rows.map((row) => [row.id, row]) : []);
    const rows = section.rows.map((row) => this.row(section.id, row, old ? earlier.get(row.id) || null : undefined, section.head));
    const kept = new Set(section.rows.map((row) => row.id));
    for (const row of earlier.values()) {
      if (!kept.has(row.id)) rows.push(make("tr", { class: "gone" }, ...row.cells.map((cell, i) => make(i ? "td" : "th", {}, plain(cell), i ? "" : make("span", { class: "hidden" }, " (gone)")))));
    }
    if (!rows.length) return null;
    const head = section.head && make("thead", {}, make("tr", {}, ...section.head.map((word) => make("th", { scope: "col" }, word))));
    return make("table", { id: "table-" + section.id }, make("caption", {}, section.caption), head, make("tbody", {}, ...rows));
  }

  showEvent(number) {
    this.eventBox.className = "";
    if (number === this.run.first) {
      this.eventBox.replaceChildren(make("h2", {}, number ? `After event ${number}` : "Before the first event"), make("p", {}, make("code", {}, this.run.board)));
      return;
    }
    const event = this.run.event(number);
    const [lead, ...others] = event.sentences;
    this.eventBox.className = event.refused ? "refused" : "";
    const actor = event.actor === null ? "" : ` of actor ${event.actor}`;
    this.eventBox.replaceChildren(
      make("h2", {}, `Event ${number}${actor}`), make("p", {}, make("code", {}, event.line), " \u2192 ", make("code", {}, event.reply)), make("p", {}, lead),
      make("ul", {}, ...others.map((words, i) => make("li", {}, make("code", {}, event.notices[i]), " ", words))));
  }

  showState(number) {
    const now = this.run.state(number);
    const old = number > this.run.first ? this.run.state(number - 1) : null;
    const general = make("section", { class: "block" }, make("h2", {}, "Board and ports"), this.table(boardSection(now), old && boardSection(old)), this.table(portsSection(now), old && portsSection(old)));
    const blocks = [general];
    for (let vp = 0; vp < this.run.processors; vp++) blocks.push(this.processor(number, vp, now, old));
    this.stateBox.replaceChildren(...blocks);
  }

  processor(number, vp, now, old) {
    const event = number > this.run.first ? this.run.event(number) : null;
    const touched = event && (event.vps >> vp & 1 || Object.keys(event.delta).some((key) => key.startsWith(`p${vp}.`)));
    const open = this.open.has(vp) ? this.open.get(vp) : this.run.processors <= 2 || Boolean(touched);
    const next = now[`p${vp}.next`];
    const title = make("summary", {}, make("h2", {}, `Processor ${vp}`), ` next: ${next || "none"}${now[`p${vp}.suspended`] ? ", suspended" : ""}${touched ? ", touched by this event" : ""}`);
    const box = make("details", { class: "block" + (now[`p${vp}.suspended`] ? " asleep" : ""), open }, title);
    if (!open) title.addEventListener("click", () => this.fill(box, vp, now, old), { once: true });
    title.addEventListener("click", () => this.open.set(vp, !box.open));
    if (open) this.fill(box, vp, now, old);
    return box;
  }

  fill(box, vp, now, old) {
    const before = old && sectionsOf(old, vp);
    box.append(...sectionsOf(now, vp).map((section, i) => this.table(section, before && before[i])).filter(Boolean));
  }

  showLife(key) {
    this.lifeBox.hidden = !key;
    if (!key) return;
    const steps = this.run.lives.get(key) || [];
    const from = this.run.first ? make("p", {}, `Only the events of this page, from ${this.run.first + 1} on.`) : null;
    this.lifeBox.replaceChildren(
      make("button", { type: "button", class: "close", "aria-label": "Close the life", onclick: () => this.openLife(null) }, "Close"),
      make("h2", {}, `Life of ${key}`), ...(from ? [from] : []),
      steps.length ? make("ol", {}, ...steps.map(({ number, text }) => make("li", {}, this.part(jump(`event ${number}`, number)), ": " + text))) : make("p", {}, "no event"));
  }
}
