// The state as tables of text. A cell is a text, or parts of which some open a life or an event.

function life(text, key) {
  return { text, life: key };
}

function jump(text, event) {
  return { text, event };
}

function vectors(list, vp) {
  return list.length ? list.map((vector) => life(vector, `vector ${vector} of processor ${vp}`)) : "none";
}

function hex(bytes) {
  return bytes ? bytes.replace(/../g, "$& ").trim() : "none";
}

function bits(value, names) {
  return Object.entries(names).filter(([at]) => bit(value, Number(at))).map(([, name]) => name);
}

function boardSection(state) {
  const owners = state.owners || [];
  const rows = [
    ["time", "time", state.time],
    ["ticket", "next ticket", state.ticket],
    ["earliest", "earliest timer", state.earliest ? [life(`timer ${state.earliest[2]} of processor ${state.earliest[1]}`, `timer ${state.earliest[2]} of processor ${state.earliest[1]}`), ` at ${state.earliest[0]}`] : "none"],
    ...owners.map(([page, kind, vp]) => ["page" + page, "page " + page, `${kind === "sim" ? "SIM" : "SIEF"} of processor ${vp} is visible`]),
    ...hiddenOverlays(state, owners),
  ];
  return { id: "board", caption: "Board", head: null, rows: rows.map(([id, ...cells]) => ({ id, cells })) };
}

function hiddenOverlays(state, owners) {
  const rows = [];
  for (let vp = 0; `p${vp}.simp` in state; vp++) {
    for (const [register, kind] of [["simp", "sim"], ["siefp", "sief"]]) {
      const value = state[`p${vp}.${register}`];
      const page = BigInt("0x" + value) >> 12n;
      if (!bit(value, 0) || owners.some((entry) => BigInt(entry[0]) === page && entry[1] === kind && entry[2] === vp)) continue;
      const reason = page >= BigInt(state.pages) ? "outside the guest pages" : "obscured by another overlay";
      rows.push([`hidden.${vp}.${kind}`, `page ${page}`, `${kind.toUpperCase()} of processor ${vp} is ${reason}`]);
    }
  }
  return rows;
}

function portsSection(state) {
  const rows = [];
  for (let port = 0; port < 16; port++) {
    const held = state["port" + port];
    if (!held) continue;
    const [kind, vp, sint, a, b] = held;
    const use = kind === "message" ? `${usedBuffers(state, port)} of ${a} buffers used` : `flags ${a} to ${a + b - 1}`;
    rows.push({ id: "port" + port, cells: [`port ${port}`, kind, `SINT${sint} of processor ${vp}`, use] });
  }
  return { id: "ports", caption: "Ports", head: ["Port", "Kind", "Target", "Use"], rows };
}

function usedBuffers(state, port) {
  let used = 0;
  const [, vp, sint] = state["port" + port];
  for (const entry of state[`p${vp}.queue${sint}`]) used += entry[1] === "port" && entry[2] === port ? 1 : 0;
  return used;
}

function interruptSection(state, vp) {
  const priority = priorityOf(state, vp);
  const reason = whyNext(state, vp);
  const next = state[`p${vp}.next`];
  const rows = [
    ["tpr", "TPR", state[`p${vp}.tpr`]],
    ["priority", "processor priority", `${priority.value}`],
    ["requested", "requested", vectors(state[`p${vp}.requested`], vp)],
    ["serving", "in service", vectors(state[`p${vp}.serving`], vp)],
    ["next", "next", next ? [life(next, `vector ${next} of processor ${vp}`)] : "none"],
    ["why", next ? "why next" : "why none is next", reason],
    ["auto", "auto-EOI", (state[`p${vp}.auto`] || []).join(", ") || "none"],
    ["suspended", "suspended", state[`p${vp}.suspended`] ? "yes" : "no"],
  ];
  return { id: `p${vp}.interrupts`, caption: "Interrupts", head: null, rows: rows.map(([id, ...cells]) => ({ id, cells })) };
}

function overlayText(value) {
  return bit(value, 0) ? `enabled, page ${BigInt("0x" + value) >> 12n}` : "disabled";
}

function registerSection(state, vp) {
  const rows = [
    ["scontrol", "SCONTROL", state[`p${vp}.scontrol`], bit(state[`p${vp}.scontrol`], 0) ? "SynIC enabled" : "SynIC disabled"],
    ["simp", "SIMP", state[`p${vp}.simp`], overlayText(state[`p${vp}.simp`])],
    ["siefp", "SIEFP", state[`p${vp}.siefp`], overlayText(state[`p${vp}.siefp`])],
  ];
  for (let sint = 0; sint < 16; sint++) {
    const value = state[`p${vp}.sint${sint}`];
    const words = ["vector " + (BigInt("0x" + value) & 255n).toString(16).padStart(2, "0"), ...bits(value, { 16: "masked", 17: "AutoEOI", 18: "polling" })];
    if (value !== "10000") rows.push([`sint${sint}`, `SINT${sint}`, value, words.join(", ")]);
  }
  return { id: `p${vp}.registers`, caption: "SynIC registers (SINTs that are not listed hold 10000: masked)", head: ["Register", "Value", "Meaning"], rows: rows.map(([id, ...cells]) => ({ id, cells })) };
}

function little(held, from, to) {
  return BigInt("0x0" + (held.padEnd(512, "0").slice(2 * from, 2 * to).match(/../g) || []).reverse().join(""));
}

/** The message of a slot, in words. */
function decoded(held) {
  if (!isSlotFull(held)) return { type: "empty", from: "", body: hex(held) };
  const type = little(held, 0, 4).toString(16);
  if (type === "80000010") {
    const times = `expiration ${little(held, 24, 32)}, delivery ${little(held, 32, 40)}`;
    return { type: "80000010 (timer)", from: `timer ${little(held, 16, 20)}`, body: times };
  }
  const length = Math.min(240, Number(little(held, 4, 5)));
  return { type, from: `port ${little(held, 8, 16)}`, body: "payload " + hex(held.padEnd(512, "0").slice(32, 32 + 2 * length)) };
}

function slotSection(state, vp) {
  const rows = [];
  for (let sint = 0; sint < 16; sint++) {
    const [held, ticket] = state[`p${vp}.slot${sint}`];
    if (!held) continue;
    const words = decoded(held);
    const pending = little(held, 5, 6) & 1n ? "set" : "clear";
    const quiet = isSlotFull(held) ? whyQuiet(state, vp, sint) : null;
    const name = ticket === null ? "none" : [life(ticket, "message " + ticket)];
    rows.push({ id: `slot${sint}`, cells: [`slot ${sint}`, name, words.type, words.from, words.body, pending, quiet || ""] });
  }
  return { id: `p${vp}.slots`, caption: "Message slots (those that are not listed are all zero)", head: ["Slot", "Ticket", "Type", "From", "Content", "MessagePending", "Note"], rows };
}

function flagSection(state, vp) {
  const rows = [];
  for (let sint = 0; sint < 16; sint++) {
    const flags = state[`p${vp}.flags${sint}`];
    if (flags.length) rows.push({ id: `flags${sint}`, cells: [`SINT${sint}`, flags.slice(0, 64).join(", ") + (flags.length > 64 ? ` and ${flags.length - 64} more` : "")] });
  }
  return { id: `p${vp}.flags`, caption: "Event flags that are set", head: ["Source", "Flags"], rows };
}

function timerSection(state, vp) {
  const rows = [];
  for (let index = 0; index < 4; index++) {
    const [config, count, due] = state[`p${vp}.timer${index}`];
    if (config === "0" && count === "0") continue;
    const target = bit(config, 12) ? "vector " + (BigInt("0x" + config) >> 4n & 255n).toString(16).padStart(2, "0") : `SINT${BigInt("0x" + config) >> 16n & 15n}`;
    const names = [...bits(config, { 0: "enabled", 1: "periodic", 2: "lazy", 3: "AutoEnable", 12: "direct" }), "to " + target];
    const name = `timer ${index} of processor ${vp}`;
    rows.push({ id: `timer${index}`, cells: [[life(`timer ${index}`, name)], `${config}: ${names.join(", ")}`, count, due === null ? "none" : due, distance(due, state.time), whyIdle(state, vp, index)] });
  }
  return { id: `p${vp}.timers`, caption: "Timers", head: ["Timer", "CONFIG", "COUNT", "Due", "From now", "Why it has not expired"], rows };
}

function distance(due, time) {
  if (due === null) return "";
  const left = big(due) - big(time);
  return left > 0n ? `in ${left}` : left < 0n ? `${-left} late` : "now";
}

function queueSection(state, vp) {
  const rows = [];
  for (let sint = 0; sint < 16; sint++) {
    state[`p${vp}.queue${sint}`].forEach(([ticket, kind, index, type, payload, expiration, event, actor], position) => {
      const body = kind === "timer" ? `expiration ${expiration}` : "payload " + hex(payload);
      const by = actor === null ? [jump(`event ${event}`, event)] : [jump(`event ${event}`, event), ` by actor ${actor}`];
      rows.push({ id: `message${ticket}`, cells: [`SINT${sint}`, [life(ticket, "message " + ticket)], `${kind} ${index}`, type, body, by, whyWaits(state, vp, sint, position)] });
    });
  }
  return { id: `p${vp}.queues`, caption: "Queued messages, front first", head: ["Queue", "Ticket", "From", "Type", "Content", "Posted", "Why it waits"], rows };
}

function sectionsOf(state, vp) {
  return [interruptSection, registerSection, slotSection, queueSection, flagSection, timerSection].map((make) => make(state, vp));
}
