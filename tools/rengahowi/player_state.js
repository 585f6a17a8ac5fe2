// The state of what is looked at, in words.
const table = (head, rows) => rows.length ? `<table><tr>${head.map(one => `<th scope="col">${safe(one)}</th>`).join("")}</tr>${rows.map(row => `<tr>${row.map(one => `<td>${one}</td>`).join("")}</tr>`).join("")}</table>` : "";
const pick = what => `<button type="button" data-pick="${safe(what)}">${safe(what)}</button>`;
const bothWays = wire => segments(wire).flatMap(([a, b]) => [[a, b], [b, a]]);
const ticks = () => Number(value("tick") || 0);
// For so many ticks the number of a label rests.
const REST = 64;

// The stations that an edge has learned, each with its age and where a frame to it goes.
function learnedRows(edge) {
  const rows = [];
  for (const cell of learned) {
    const [, service, at, address] = steps.cells[cell].split(" ");
    if (at !== edge || !shown(service)) continue;
    const [port, since] = steps.values[state[cell]].split(" ");
    rows.push([safe(service), safe(address), safe(port), ticks() - since, pointsTo(service, edge, address)]);
  }
  return rows.sort((a, b) => (a[0] + a[1] < b[0] + b[1] ? -1 : 1));
}

// Where a frame to a station goes by what is learned, edge by edge.
function pointsTo(service, edge, address) {
  let came = "", passed = [];
  for (let hop = 0; hop < 64; hop++) {
    const port = value(`mac ${service} ${edge} ${address}`).split(" ")[0];
    if (!port) return `${passed.map(safe).join(", ")}${passed.length ? ", " : ""}then flooded`;
    if (circuitOf.has(port)) return value(`circuit ${port}`) === "on" ? `finds ${safe(port)}` : `${safe(port)} is off`;
    const wire = wireOf.get(port);
    if (stands(wire)[0] !== "carries") return `astray: ${safe(port)} ${safe(stands(wire)[1])}`;
    if (port === came || came && wire.kind === "mesh" && wireOf.get(came).kind === "mesh") return `astray at ${safe(edge)}: not back by ${safe(port)}`;
    passed.push(port);
    came = port;
    edge = wire.path[0] === edge ? wire.path[wire.path.length - 1] : wire.path[0];
  }
  return "astray: in a circle";
}

// What an edge advertises to a neighbour on a wire, and what it has heard of it.
function labels(edge, wire, peer) {
  const own = value(`told ${edge} ${wire.name} ${peer}`), heard = value(`heard ${edge} ${wire.name} ${peer}`);
  return [safe(peer), own.endsWith("!") ? `${own.slice(0, -1)}, withdrawn` : own || "-", heard || "-"];
}

// The numbers of labels that an edge advertises no longer: those that wait for a connection, rest, or are free.
function numberRows(edge) {
  return [...numbers].map(cell => [steps.cells[cell].split(" "), steps.values[state[cell]].split(" ")]).filter(([name]) => name[1] === edge)
    .map(([name, [what, of]]) => [name[2], what === "waits" ? `waits for a new connection with ${safe(of)}` : what === "rests" ? `rests, ${REST - (ticks() - of)} ticks more` : "free"]).sort((a, b) => a[0] - b[0]);
}

const statesOf = (a, b) => [safe(value(`session ${a} ${b}`)), safe(value(`adjacency ${a} ${b}`) || "-")];
const travelling = is => [...packets].map(cell => [safe(steps.cells[cell]), steps.values[state[cell]].split(" ")]).filter(([, row]) => is(row));

const STATES = {
  edge(name) {
    const peers = plan.pairs.filter(pair => pair[0] === name || pair[1] === name).map(([a, b]) => a === name ? b : a);
    const sessions = peers.map(peer => [safe(peer), ...statesOf(name, peer), value(`octets ${peer} ${name}`) || 0]);
    const own = wires().filter(wire => wire.path.includes(name)).flatMap(wire => segments(wire).filter(pair => pair.includes(name)).map(([a, b]) => [safe(wire.name), ...labels(name, wire, a === name ? b : a), safe(ends(wire).includes(name) ? value(`end ${name} ${wire.name}`) : "switching point"), safe(stands(wire)[1])]));
    return table(["session with", "state", "adjacency", "octets to it"], sessions) + table(["wire", "to", "label told", "heard", "its end here", "as a whole"], own) +
      (table(["service", "station", "port", "age", "a frame to it"], learnedRows(name)) || "<p>No station is learned here.</p>") + table(["label number", "is told no longer: it"], numberRows(name));
  },
  wire(name) {
    const wire = wireOf.get(name), under = travelling(row => row[2] === name).map(([packet]) => packet);
    return `<p>${wire.kind} of ${safe(wire.service)}, ${wire.path.map(safe).join(" – ")}, PW ID ${wire.pw_id}${wire.kind === "spoke" ? `, priority ${wire.priority}` : ""}: <b>${safe(stands(wire)[1])}</b></p>` +
      table(["end", "state"], ends(wire).map(edge => [safe(edge), safe(value(`end ${edge} ${name}`))])) +
      table(["edge", "to", "label told", "heard"], bothWays(wire).map(([a, b]) => [safe(a), ...labels(a, wire, b)])) +
      table(["session", "state", "adjacency"], bothWays(wire).map(([a, b]) => [`${safe(a)} with ${safe(b)}`, ...statesOf(a, b)])) +
      `<p>Under way: ${under.join(", ") || "no packet"}</p>`;
  },
  circuit(name) {
    const circuit = circuitOf.get(name), rows = framesAt(name).filter(([at]) => at <= event).map(([at, kind, frame]) => [numberOf(at), kind === "in" ? "in" : "out", pick("frame " + frame)]);
    return `<p>${safe(circuit.service)} at ${pick("edge " + circuit.edge)}, ${value(`circuit ${name}`)}${circuit.tag ? `, VLAN ${circuit.tag}` : ""}</p>` + (table(["event", "way", "frame"], rows.reverse().slice(0, 200)) || "<p>No frame yet.</p>");
  },
  frame(name) {
    const all = told.get(name) || [], under = travelling(row => row[4] === name).map(([packet, [a, b, wire]]) => `${packet} from ${safe(a)} to ${safe(b)} on ${safe(wire)}`);
    const isOver = !all.length || event >= all[all.length - 1][0];
    return table(["event", "what"], all.filter(row => row[0] <= event).map(row => [numberOf(row[0]), FRAME_WORDS[row[2]](row[3])])) + `<p>Under way: ${under.join("; ") || "no copy"}</p>` + (isOver && !under.length ? `<p>${verdictOf(name)}</p>` : "");
  },
};

const FRAME_WORDS = {
  in: ([circuit, , octets]) => `entered at ${safe(circuit)}, to ${octets.slice(0, 12)} from ${octets.slice(12, 24)}`,
  left: ([circuit, , hops]) => `served ${safe(circuit)} over ${hops} segment${hops === "1" ? "" : "s"}`,
  dropped: ([edge, , cause]) => `dropped at ${safe(edge)}: ${safe(cause)}`,
  sent: ([packet, a, b, wire]) => `packet ${packet} from ${safe(a)} to ${safe(b)} on ${safe(wire)}`,
  copied: ([packet, old]) => `packet ${old} repeated as ${packet}`,
  aged: ([packet]) => `packet ${packet} aged`,
};

// The events at which frames entered and left at a circuit.
function framesAt(name) {
  const rows = [];
  for (const [frame, all] of told) for (const [at, , kind, words_] of all) if ((kind === "in" || kind === "left") && words_[0] === name) rows.push([at, kind, frame]);
  return rows.sort((a, b) => a[0] - b[0]);
}

// What became of a frame.
function verdictOf(name) {
  const row = run.frames[name];
  if (!row) return "Nobody got it twice, and nobody missed it.";
  const parts = [row.twice.length ? "twice at " + row.twice.map(safe).join(", ") : "", row.missed.length ? "never at " + row.missed.map(safe).join(", ") : "", row.nowhere ? "it left nowhere" : ""];
  return parts.filter(Boolean).join("; ");
}

// What changed at the event, in words.
const CELLS = {
  session: ([a, b]) => `session of ${a} with ${b}`, end: ([edge, wire]) => `end of ${wire} at ${edge}`, told: ([edge, wire, peer]) => `label of ${wire} that ${edge} tells ${peer}`,
  heard: ([edge, wire, peer]) => `label of ${wire} that ${edge} has of ${peer}`, label: ([edge, number]) => `label number ${number} of ${edge}`, circuit: ([name]) => `circuit ${name}`,
  octets: ([a, b]) => `octets from ${a} to ${b}`, packet: ([number]) => `packet ${number}`, mac: ([service, edge, address]) => `${address} in ${service} at ${edge}`, calm: ([service]) => `service ${service}`,
  adjacency: ([a, b]) => `adjacency of ${a} with ${b}`, tick: () => "tick",
};
const inWords = cell => { const [kind, ...rest] = cell.split(" "); return safe(CELLS[kind](rest)); };
function changedRows() {
  const rows = [];
  for (let at = begins[event]; event && at < begins[event + 1]; at++) rows.push([inWords(steps.cells[steps.changed[at]]), safe(steps.values[was[at]] || "-"), safe(steps.values[steps.to[at]] || "-")]);
  return rows;
}

function drawState() {
  const [kind, ...name] = chosen.split(" "), other = table(["otherwise than beside", "here", "there"], otherRows());
  if (STATES[kind]) { $("state").innerHTML = `<h2>${safe(chosen)}</h2>${STATES[kind](name.join(" "))}${other}`; return; }
  const services = Object.keys(plan.services).filter(shown).map(service => [safe(service), safe(value(`calm ${service}`)), plan.wires.filter(wire => wire.service === service && stands(wire)[0] === "carries").length, plan.wires.filter(wire => wire.service === service).length]);
  const rows = changedRows();
  $("state").innerHTML = `<h2>the network</h2>${table(["service", "is", "wires that carry", "of"], services)}<p>${packets.size} packet${packets.size === 1 ? "" : "s"} under way, tick ${ticks()}. Click an edge, a wire, a circuit or a packet.</p>` +
    other + table(["changed by this event", "before", "behind"], rows.slice(0, 60)) + (rows.length > 60 ? `<p>and ${rows.length - 60} more</p>` : "") +
    `<p>Keys: left and right an event, r and R a round, Page Up and Page Down a command, Home and End, space plays, n and N the next and the last change of what is looked at, m and M a mark, Escape the whole network, + and - the size of the picture.</p>`;
}
