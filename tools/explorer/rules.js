// Why something did not happen, from the state. Each rule is a sentence of docs/MACHINE.md.

const RULES = {
  next: "The next vector is the awaited one; a suspended processor has none.",
  awaited: "The awaited vector is the greatest requested vector whose class is greater than the processor priority.",
  priority: "The processor priority is the greater of the class of TPR and the class of the greatest vector in service, which is 0 if none is.",
  autoEoi: "An auto-EOI vector only leaves the requests.",
  raise: "If a source is neither masked nor polling, raising it requests its vector",
  quiet: "If it is masked or polling, raising it does nothing.",
  off: "Enabling SCONTROL or SIMP attempts no delivery: queued messages are placed by EOM or with the next message.",
  nothing: "SCONTROL bit 0 or SIMP bit 0 is clear, or the queue is empty",
  occupied: "MessagePending (bit 0 of byte 5 of the slot) is set",
  attempts: "A delivery is attempted after a post is accepted, after a timer's message is accepted, and by EOM, and at no other time.",
  head: "A post to a queue that is not empty places the head, not the new message.",
  consumed: "If a slot that holds a ticket is empty after a guest store to a SIM page, it loses the ticket: the message is consumed.",
  restart: "A write that leaves the timer enabled with a count above 0 restarts it, even if it was running.",
  other: "Any other write leaves no deadline",
  target: "Enabled is cleared at once if the mode is not direct and SINTx is 0, or if the mode is direct and the vector is below 16.",
  asleep: "A timer of a suspended processor is not due, whatever its deadline",
  later: "A timer whose deadline has passed by then is tried by the next tick to a later time, unless 32 timers before it expire there, or by the next write of it that leaves it due.",
  ready: "SCONTROL bit 0 of its processor is set, it has no message queued, and a ticket is left",
  stays: "A timer that is not ready is unchanged and stays due.",
  tick: "the time advances; the timers that are due by then, except those of suspended processors, are sorted by (deadline, processor, index), and each is tried once in that order",
};

const SPENT = (1n << 64n) - 1n;

function classOf(vector) {
  return parseInt(vector, 16) >> 4;
}

function bit(value, at) {
  return (BigInt("0x" + value) >> BigInt(at) & 1n) === 1n;
}

function priorityOf(state, vp) {
  const serving = state[`p${vp}.serving`];
  const served = serving.length ? classOf(serving[serving.length - 1]) : 0;
  const tpr = parseInt(state[`p${vp}.tpr`], 16) >> 4;
  return { value: Math.max(tpr, served), tpr, served, by: serving[serving.length - 1] };
}

function why(text, rule) {
  return { text, rule: RULES[rule] };
}

/** Why this vector is next, or why none is. */
function whyNext(state, vp) {
  const requested = state[`p${vp}.requested`];
  const auto = state[`p${vp}.auto`] || [];
  const greatest = requested[requested.length - 1];
  if (state[`p${vp}.suspended`]) return why(greatest ? `the processor is suspended, and ${greatest} is requested` : "the processor is suspended", "next");
  if (!greatest && auto.length) return why(`nothing is requested; ${auto.join(", ")} is auto-EOI, so it is not in service after its take`, "autoEoi");
  if (!greatest) return why(["nothing is requested", ...waiting(state, vp)].join("; "), "awaited");
  const priority = priorityOf(state, vp);
  if (classOf(greatest) > priority.value) return why(`class ${classOf(greatest)} of ${greatest} is above the priority ${priority.value}`, "awaited");
  const holders = [];
  if (priority.served >= classOf(greatest)) holders.push(`${priority.by} is in service, and no EOI ended it`);
  if (priority.tpr >= classOf(greatest)) holders.push(`TPR has class ${priority.tpr}`);
  return why(`${greatest} has class ${classOf(greatest)}, which is not above the priority: ${holders.join("; ")}`, "awaited");
}

/** The queues of a processor that are not empty, in words. */
function waiting(state, vp) {
  const queues = Array.from({ length: 16 }, (_, sint) => [sint, state[`p${vp}.queue${sint}`]]);
  return queues.filter(([, queue]) => queue.length).map(([sint, queue]) => `message ${queue[0][0]} waits at SINT${sint}`);
}

/** Why the source of a full slot requested no vector, or nothing. */
function whyQuiet(state, vp, sint) {
  const value = state[`p${vp}.sint${sint}`];
  if (bit(value, 16)) return why(`SINT${sint} is masked, so no vector was requested`, "quiet");
  if (bit(value, 18)) return why(`SINT${sint} is polling, so no vector was requested`, "quiet");
  return null;
}

function isSlotFull(held) {
  return /[1-9a-f]/.test(held.slice(0, 8));
}

/** Why the message at this position of a queue waits. */
function whyWaits(state, vp, sint, position) {
  const [held, ticket] = state[`p${vp}.slot${sint}`];
  if (position > 0) return why(`${position} before it in the queue`, "head");
  if (!bit(state[`p${vp}.scontrol`], 0)) return why("SCONTROL bit 0 is clear: the SynIC is off", "nothing");
  if (!bit(state[`p${vp}.simp`], 0)) return why("SIMP bit 0 is clear: the message page is off", "nothing");
  if (!isSlotFull(held)) return why("the slot is empty, and no delivery was attempted since: EOM is missing", "attempts");
  const holder = ticket === null ? "what the guest stored" : `message ${ticket}`;
  return why(`slot ${sint} is occupied by ${holder}: the guest has to empty it and to write EOM`, "consumed");
}

/** Why a timer has not expired. */
function whyIdle(state, vp, index) {
  const [config, count, due] = state[`p${vp}.timer${index}`];
  const direct = bit(config, 12);
  if (due === null) return whyUnarmed(config, count, direct);
  if (state[`p${vp}.suspended`]) return why("the processor is suspended", "asleep");
  if (big(due) > big(state.time)) return why(`not due: ${big(due) - big(state.time)} from now`, "tick");
  if (!direct && !bit(state[`p${vp}.scontrol`], 0)) return why("due, but SCONTROL bit 0 is clear: the SynIC is off", "ready");
  const sint = Number(BigInt("0x" + config) >> 16n & 15n);
  const own = state[`p${vp}.queue${sint}`].find((entry) => entry[1] === "timer" && entry[2] === index) || anyQueued(state, vp, index);
  if (!direct && own) return why(`due, but its message ${own[0]} is queued: its buffer is in use`, "ready");
  if (!direct && big(state.ticket) >= SPENT) return why("due, but no ticket is left", "ready");
  return why("due: the next tick to a later time tries it", "later");
}

function whyUnarmed(config, count, direct) {
  if (bit(config, 0)) return why(count === "0" ? "enabled, but its count is 0" : "no deadline", "other");
  const vector = Number(BigInt("0x" + config) >> 4n & 255n);
  if (direct ? vector < 16 : !(BigInt("0x" + config) >> 16n & 15n)) return why("not enabled: it has no valid target", "target");
  return why("not enabled", "restart");
}

/** A message of the timer that is queued at another source, since the configuration was written. */
function anyQueued(state, vp, index) {
  for (let sint = 0; sint < 16; sint++) {
    const found = state[`p${vp}.queue${sint}`].find((entry) => entry[1] === "timer" && entry[2] === index);
    if (found) return found;
  }
  return null;
}
