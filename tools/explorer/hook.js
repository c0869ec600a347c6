// For tests/explorer: #test=ACTION,ACTION,.. performs actions and writes what is shown into the document.

function shownCells() {
  return [...document.querySelectorAll("[data-key]")].map((cell) => {
    const copy = cell.cloneNode(true);
    for (const extra of copy.querySelectorAll(".hidden, .rule")) extra.remove();
    const rule = cell.querySelector(".rule");
    return [cell.dataset.key, copy.textContent, cell.classList.contains("changed"), rule ? rule.textContent : null];
  });
}

/** An action is the number of an event, key:KEY, set:ID:VALUE, check:ID, life:KEY or hash:ADDRESS. */
function act(page, action) {
  const [kind, id, value] = action.split(":");
  if (/^\d+$/.test(kind)) page.go(Number(kind), false);
  if (kind === "key") element("list").dispatchEvent(new KeyboardEvent("keydown", { key: id, bubbles: true }));
  if (kind === "life") page.openLife(id, false);
  if (kind === "hash") {
    location.hash = id;
    page.follow();
  }
  if (kind === "set") element(id).value = value;
  if (kind === "check") element(id).checked = !element(id).checked;
  if (kind === "set" || kind === "check") element(id).dispatchEvent(new Event("input"));
}

function shownAfter(page, action, isWhole) {
  if (isWhole) for (let vp = 0; vp < page.run.processors; vp++) page.panel.open.set(vp, true);
  act(page, action);
  page.list.draw();
  const chosen = document.querySelectorAll(".row.chosen");
  return {
    action, event: page.chosen, words: element("event").textContent, cells: isWhole ? shownCells() : [],
    state: isWhole ? page.run.state(page.chosen) : null, rows: page.list.rows.length, drawn: document.querySelectorAll(".row").length,
    chosen: [...chosen].map((row) => Number(row.dataset.event)), life: element("life").hidden ? null : element("life").textContent,
    found: element("found").textContent,
  };
}

function hook(page, started) {
  const wanted = new URLSearchParams(location.hash.slice(1));
  if (!wanted.has("test")) return;
  const opened = performance.now() - started;
  const shown = wanted.get("test").split(",").map((action) => shownAfter(page, action, !wanted.has("brief")));
  const lives = wanted.has("brief") ? {} : Object.fromEntries(page.run.lives);
  document.body.append(make("pre", { id: "hook", hidden: true }, JSON.stringify({ shown, lives, opened })));
}
