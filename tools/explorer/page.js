// Brings the parts together: what is chosen, the keys and the address.

class Page {
  constructor(run) {
    this.run = run;
    this.life = null;
    const go = (number) => this.go(number);
    this.panel = new Panel(run, go, (key) => this.openLife(key));
    this.list = new List(run, go);
    this.strip = new Strip(run, go);
    this.list.moved = (from, to) => this.strip.follow(from, to);
    const more = run.all > run.events.length ? ` (events ${run.first + 1} to ${run.last} of ${run.all})` : "";
    element("count").textContent = `${run.events.length} events${more}`;
    element("skip").addEventListener("click", () => element("state").focus());
    element("theme").addEventListener("click", () => this.theme());
    document.addEventListener("keydown", (event) => this.key(event));
    window.addEventListener("hashchange", () => this.follow());
    this.follow();
  }

  /** Shows what the address names. */
  follow() {
    const wanted = new URLSearchParams(location.hash.slice(1));
    const number = Number(wanted.get("event") || this.run.first + 1);
    this.openLife(wanted.get("life"), false);
    this.go(Number.isInteger(number) ? number : this.run.first + 1, false);
  }

  go(number, named = true) {
    this.chosen = Math.max(this.run.first, Math.min(this.run.last, number));
    this.list.choose(this.chosen);
    this.strip.choose(this.chosen);
    this.panel.showEvent(this.chosen);
    this.panel.showState(this.chosen);
    if (named) this.name();
  }

  openLife(key, named = true) {
    this.life = key;
    this.panel.showLife(key);
    if (named) this.name();
  }

  name() {
    const life = this.life ? "&life=" + encodeURIComponent(this.life) : "";
    history.replaceState(null, "", `#event=${this.chosen}${life}`);
  }

  theme() {
    const root = document.documentElement;
    const dark = root.dataset.theme ? root.dataset.theme === "dark" : matchMedia("(prefers-color-scheme: dark)").matches;
    root.dataset.theme = dark ? "light" : "dark";
    this.strip.draw();
  }

  key(event) {
    const field = event.target.closest("input, select");
    if (event.key === "Escape") return field ? element("list").focus() : this.openLife(null);
    if (field || event.ctrlKey || event.metaKey || event.altKey) return undefined;
    if (event.key === "/") { event.preventDefault(); element("search").focus(); return undefined; }
    if (event.key === "+" || event.key === "-") return this.strip.zoom(event.key === "+" ? 2 : 0.5);
    // there the other keys scroll
    if (event.target.closest("#right") && event.key.length > 1) return undefined;
    const number = this.goal(event.key);
    if (number !== undefined) { event.preventDefault(); this.go(number); }
    return undefined;
  }

  /** The event that a key leads to. */
  goal(key) {
    const steps = { ArrowUp: -1, k: -1, ArrowDown: 1, j: 1, PageUp: -10, PageDown: 10 }[key];
    if (steps) return this.list.beside(steps);
    if (key === "n" || key === "N") return this.list.match(key === "n");
    return { Home: this.list.rows[0], End: this.list.rows[this.list.rows.length - 1] }[key];
  }
}

async function begin() {
  const started = performance.now();
  const run = new Run(await unpack(element("data").textContent));
  hook(new Page(run), started);
}

begin().catch((fault) => {
  const old = typeof DecompressionStream === "undefined";
  element("count").textContent = old ? "This browser cannot decompress the events: it has no DecompressionStream." : `The events cannot be shown: ${fault}`;
});
