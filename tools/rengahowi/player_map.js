// The plan of the page, and what is found in it by its name.
const plan = JSON.parse(document.getElementById("plan").textContent);
const $ = id => document.getElementById(id);
const wireOf = new Map(plan.wires.map(wire => [wire.name, wire]));
const circuitOf = new Map(plan.circuits.map(circuit => [circuit.name, circuit]));
const edgeOf = new Map(plan.edges.map(edge => [edge.name, edge]));
if (window.matchMedia("(prefers-color-scheme: dark)").matches) for (const name of Object.keys(plan.services)) plan.services[name] = `color-mix(in srgb, ${plan.services[name]} 55%, white)`;

// The picture of the network behind an event: lines, boxes, packets, and names where there is room for them.
const MOST_LABELS = 30, FRAME_COLOURS = ["#1f6fb4", "#c65102", "#2a7f62", "#8a3ea8", "#a0741a", "#b02a4c", "#4a5a8c", "#5f6b1f"];
const frameColour = frame => frame === "0" ? "#6b7c8c" : FRAME_COLOURS[(frame - 1) % FRAME_COLOURS.length];
const EDGE_HIGH = 36, CIRCUIT_HIGH = 20, NAME_HIGH = 13;
const isNarrow = window.innerWidth <= 700, isSmall = plan.edges.length <= 8;

// A small plan is pushed together or drawn apart until it fills its room, with names in their own size, as far as no edge lies on another one;
// circuits stay as far from their edges as they were. A large plan is moved about instead.
const LEAST_UP = 0.4, MOST_APART = 1.6;
for (const one of [...plan.edges, ...plan.circuits]) one.from = [one.x, one.y];
for (const one of plan.circuits) one.leads = one.lead;
function fitIn(map) {
  if (!isSmall || !map.clientWidth) return;
  const all = [...plan.edges, ...plan.circuits], side = isNarrow ? 4 : 56, fit = (axis, room, size, least) => {
    const own = plan.edges.map(edge => edge.from[axis]), low = Math.min(...own), span = Math.max(...own) - low;
    const before = low - Math.min(...all.map(one => one.from[axis] - size(one))), behind = Math.max(...all.map(one => one.from[axis] + size(one))) - low - span;
    const share = span ? Math.max(least(), Math.min(MOST_APART, (room - before - behind) / span)) : 1, spare = Math.max(0, (room - before - behind - span * share) / 2);
    return [one => spare + before + (one - low) * share, Math.max(room, before + behind + span * share)];
  };
  const closest = () => Math.max(0, ...plan.edges.flatMap(a => plan.edges.map(b => a.from[0] < b.from[0] && Math.abs(a.from[1] - b.from[1]) < EDGE_HIGH ? ((a.wide + b.wide) / 2 + 10) / (b.from[0] - a.from[0]) : 0)));
  const [right, wide] = fit(0, map.clientWidth, one => one.wide / 2 + side, closest), [down, high] = fit(1, map.clientHeight, one => (one.edge ? CIRCUIT_HIGH : EDGE_HIGH) / 2 + 16, () => LEAST_UP);
  for (const edge of plan.edges) [edge.x, edge.y] = [right(edge.from[0]), down(edge.from[1])];
  for (const one of plan.circuits) {
    const edge = edgeOf.get(one.edge), [x, y] = [edge.x - edge.from[0], edge.y - edge.from[1]];
    [one.x, one.y, one.lead] = [one.from[0] + x, one.from[1] + y, one.leads.map(point => [point[0] + x, point[1] + y])];
  }
  [plan.width, plan.height] = [wide, high];
}

// How wide a text is, as the browser draws it.
const pen = document.createElement("canvas").getContext("2d");
const widths = new Map();
function widthOf(text, size = 12) {
  const key = size + text;
  if (!widths.has(key)) { pen.font = `${size}px "DejaVu Sans", Helvetica, Arial, sans-serif`; widths.set(key, pen.measureText(text).width); }
  return widths.get(key);
}

// What takes room in the picture, each as its middle and its size; and lines, each with whose it is.
class Room {
  constructor() { this.boxes = []; this.lines = []; }
  take(x, y, wide, high) { this.boxes.push([x, y, wide, high]); }
  isFree(x, y, wide, high) {
    return x - wide / 2 >= 1 && x + wide / 2 <= plan.width - 1 && y - high / 2 >= 1 && y + high / 2 <= plan.height - 1 &&
      this.boxes.every(one => Math.abs(one[0] - x) * 2 >= one[2] + wide || Math.abs(one[1] - y) * 2 >= one[3] + high);
  }
  // The first of some places at which a text lies on nothing, not even the line of something else if it must not; it is taken then.
  put(text, size, places, owner = null) {
    const wide = widthOf(text, size) + 5;
    for (const [x, y] of places) {
      if (!this.isFree(x, y, wide, NAME_HIGH) || owner !== null && this.lines.some(([whose, line]) => whose !== owner && cuts(line, x, y, wide, NAME_HIGH))) continue;
      this.take(x, y, wide, NAME_HIGH);
      return [x, y];
    }
    return null;
  }
  // The same for what has to be shown: at the first place where there is room nowhere.
  force(text, size, places) {
    const found = this.put(text, size, places);
    if (!found) this.take(...places[0], widthOf(text, size) + 5, NAME_HIGH);
    return found || places[0];
  }
}

// Whether a line passes through a box.
function cuts([x1, y1, x2, y2], x, y, wide, high) {
  let begin = 0, end = 1;
  for (const [from, to, middle, size] of [[x1, x2, x, wide], [y1, y2, y, high]]) {
    const low = middle - size / 2 - from, top = middle + size / 2 - from, step = to - from;
    if (step === 0) { if (low > 0 || top < 0) return false; continue; }
    begin = Math.max(begin, Math.min(low / step, top / step));
    end = Math.min(end, Math.max(low / step, top / step));
  }
  return begin < end;
}

// Where the middle of a line's name may stand: on either side of it, so that they do not touch, and last on the line itself.
function besides([x1, y1, x2, y2], text, size) {
  const long = Math.hypot(x2 - x1, y2 - y1) || 1, right = Math.abs(y2 - y1) / long, down = -(x2 - x1) / long * (y2 >= y1 ? 1 : -1);
  const far = (widthOf(text, size) + 5) / 2 * right + NAME_HIGH / 2 * Math.abs(down) + 2;
  return [far, -far, 0].flatMap(side => [0.4, 0.5, 0.3, 0.6, 0.22, 0.7, 0.8].map(share => [x1 + (x2 - x1) * share + right * side, y1 + (y2 - y1) * share + down * side]));
}

// Beside, below and above a box.
const around = (x, y, wide, high, text, size) => {
  const far = wide / 2 + (widthOf(text, size) + 5) / 2 + 2, up = high / 2 + NAME_HIGH / 2 + 1;
  return [[x + far, y], [x - far, y], [x, y + up], [x, y - up], [x + far, y + up], [x - far, y + up], [x + far, y - up], [x - far, y - up], [x, y + 2 * up], [x, y - 2 * up]];
};

const textAt = ([x, y], text, look) => `<text class="halo" x="${x}" y="${y + 4}" text-anchor="middle" ${look}>${safe(text)}</text>`;

// A line between two edges, so far beside the middle.
function lineOf(a, b, lane) {
  const from = edgeOf.get(a), to = edgeOf.get(b), long = Math.hypot(to.x - from.x, to.y - from.y) || 1;
  const x = -(to.y - from.y) / long * lane, y = (to.x - from.x) / long * lane;
  return [from.x + x, from.y + y, to.x + x, to.y + y];
}

// The part of a line between two edges that no box of theirs hides.
function visible([x1, y1, x2, y2], a, b) {
  const cut = edge => Math.min(edge.wide / 2 / Math.abs(x2 - x1 || 1e-9), EDGE_HIGH / 2 / Math.abs(y2 - y1 || 1e-9), 0.45);
  const begin = cut(edgeOf.get(a)), end = cut(edgeOf.get(b));
  return [x1 + (x2 - x1) * begin, y1 + (y2 - y1) * begin, x2 - (x2 - x1) * end, y2 - (y2 - y1) * end];
}

const at4 = ([x1, y1, x2, y2]) => `x1="${x1}" y1="${y1}" x2="${x2}" y2="${y2}"`;

// The line of a wire from one of its edges to a neighbour on it.
function lineOn(wire, a, b) {
  const segment = segments(wire).findIndex(([from, to]) => from === a && to === b);
  if (segment >= 0) return lineOf(a, b, wire.lanes[segment]);
  const [x1, y1, x2, y2] = lineOn(wire, b, a);
  return [x2, y2, x1, y1];
}

// Whether an edge is looked at, and whether a wire is or ends there; where something is, the rest of a large plan is paler.
const touches = edge => chosen === `edge ${edge}`;
function isPale(wire) {
  const [kind, name] = chosen.split(" ");
  if (wires().length <= MOST_LABELS || !kind) return false;
  if (kind === "frame") return !(told.get(name) || []).some(row => row[0] <= event && row[2] === "sent" && row[3][3] === wire.name);
  if (kind === "circuit") return !wire.path.includes(circuitOf.get(name).edge);
  return kind === "edge" ? !wire.path.includes(name) : wire.name !== name;
}

const LOOK = { carries: "", waits: ' stroke-dasharray="8 5" stroke-opacity="0.65"', down: ' stroke-dasharray="1.5 4"' };

function drawSessions(flash) {
  return plan.pairs.map(([a, b, lane]) => {
    const up = isUp(a, b) && run.told, hot = flash.has(`session ${a} ${b}`) || flash.has(`session ${b} ${a}`);
    if (up && !hot && plan.pairs.length > MOST_LABELS && !touches(a) && !touches(b)) return "";
    const title = `session ${a}: ${value(`session ${a} ${b}`)}, ${b}: ${value(`session ${b} ${a}`)}`;
    return `<line class="${hot ? "flash" : ""}" ${at4(lineOf(a, b, lane))} stroke="var(--pale)" stroke-width="1"${up ? "" : ' stroke-dasharray="1 5"'}><title>${safe(title)}</title></line>`;
  }).join("");
}

function drawOctets(room) {
  return plan.pairs.map(([a, b, lane]) => {
    const [x1, y1, x2, y2] = visible(lineOf(a, b, lane), a, b);
    let text = "";
    for (const [from, to, part] of [[a, b, 0.15], [b, a, 0.85]]) {
      const octets = value(`octets ${from} ${to}`), x = x1 + (x2 - x1) * part, y = y1 + (y2 - y1) * part;
      if (!octets) continue;
      room.take(x, y, 9, 9);
      const name = `${octets} to ${to}`, where = room.put(name, 10.5, around(x, y, 8, 8, name, 10.5));
      text += `<g class="octets"><rect x="${x - 4}" y="${y - 4}" width="8" height="8" fill="var(--wait)"/>${where ? textAt(where, name, 'style="font-size:10.5px;fill:var(--pale)"') : ""}<title>${octets} octets of LDP from ${safe(from)} to ${safe(to)}</title></g>`;
    }
    return text;
  }).join("");
}

// The name of a wire, with its priority and how it stands, or shorter where that has no room; and where it stands.
function nameOf(room, wire, kind, text, isLoud) {
  const named = wire.name + (wire.kind === "spoke" ? ` (${wire.priority})` : ""), mark = differs(`wire ${wire.name}`) ? " ≠" : "";
  const texts = [named + (kind === "carries" ? "" : ": " + text.replace("down: ", "")) + mark, wire.name + mark], lines = segments(wire).map(pair => visible(lineOn(wire, ...pair), ...pair));
  for (const owner of isLoud || wires().length <= MOST_LABELS ? [wire.name, null] : [wire.name]) {
    for (const name of texts) {
      const found = room.put(name, 12, lines.flatMap(line => besides(line, name, 12)), owner);
      if (found) return [name, found];
    }
  }
  return isLoud ? [texts[1], room.force(texts[1], 12, besides(lines[0], texts[1], 12))] : null;
}

function drawWire(room, flash, wire) {
  const [kind, text] = stands(wire), colour = kind === "down" ? "var(--bad)" : plan.services[wire.service];
  const hot = ends(wire).some(edge => flash.has(`end ${edge} ${wire.name}`)), picked = chosen === `wire ${wire.name}`;
  const named = wires().length <= MOST_LABELS || picked || kind === "down" && hot ? nameOf(room, wire, kind, text, picked) : null;
  const parts = segments(wire).map(pair => `<line ${at4(lineOn(wire, ...pair))} class="${hot ? "flash" : ""}" stroke="${colour}" stroke-width="${picked ? 4 : 2}"${LOOK[kind]}/><line class="wide" ${at4(lineOn(wire, ...pair))}/>`);
  const label = named ? textAt(named[1], named[0], `style="fill:${colour}"`) : "";
  const shape = `<g class="pick wire"${isPale(wire) ? ' opacity="0.12"' : ""} data-pick="wire ${safe(wire.name)}" data-stands="${kind}">${parts.join("")}<title>${safe(wire.name)}: ${wire.kind} of ${safe(wire.service)}, ${safe(text)}</title></g>`;
  return [shape, label && `<g class="pick" data-pick="wire ${safe(wire.name)}">${label}</g>`];
}

function drawEdge(edge) {
  const picked = chosen === `edge ${edge.name}`, mark = differs(`edge ${edge.name}`) ? " ≠" : "";
  return `<g class="pick edge" data-pick="edge ${safe(edge.name)}"><rect x="${edge.x - edge.wide / 2}" y="${edge.y - EDGE_HIGH / 2}" width="${edge.wide}" height="${EDGE_HIGH}" rx="3" fill="var(--box)" stroke="var(--ink)" stroke-width="${picked ? 3 : 1.4}"/>` +
    `<text x="${edge.x}" y="${edge.y - 3}" text-anchor="middle" font-weight="bold">${safe(edge.name + mark)}</text><text class="small" x="${edge.x}" y="${edge.y + 12}" text-anchor="middle">${safe(edge.address)}</text></g>`;
}

// What stands in the box of a circuit, and the box: it grows where the circuit is off, to the right where it hangs on a trunk.
function circuitBox(circuit) {
  const isOn = value(`circuit ${circuit.name}`) === "on";
  const text = circuit.name + (circuit.tag ? ` (VLAN ${circuit.tag})` : "") + (isOn ? "" : ", off") + (differs(`circuit ${circuit.name}`) ? " ≠" : "");
  const wide = Math.max(circuit.wide, widthOf(text) + 12), x = circuit.lead.length > 2 ? circuit.x + (wide - circuit.wide) / 2 : circuit.x;
  return [text, x, wide, isOn ? plan.services[circuit.service] : "var(--pale)"];
}

// The line of a circuit to its edge: the trunk of several is nobody's.
function drawLead(circuit) {
  const colour = circuitBox(circuit)[3], lead = circuit.lead, points = part => part.map(point => point.join(",")).join(" ");
  const trunk = lead.length > 2 ? `<polyline points="${points(lead.slice(0, 2))}" fill="none" stroke="var(--line)"/>` : "";
  return trunk + `<polyline points="${points(lead.slice(-2))}" fill="none" stroke="${colour}"/>`;
}

function drawCircuit(room, circuit, lit) {
  const [text, x, wide, colour] = circuitBox(circuit), picked = chosen === `circuit ${circuit.name}`, frames = lit.get(circuit.name) || [];
  const marks = frames.map(([frame, kind]) => {
    const mark = `${kind === "in" ? "→ in" : "← out"} ${frame}`;
    return textAt(room.force(mark, 12, around(x, circuit.y, wide, CIRCUIT_HIGH, mark, 12)), mark, `style="fill:${frameColour(frame)}"`);
  }).join("");
  const fill = frames.length ? "var(--mark)" : "var(--ground)";
  return `<g class="pick circuit" data-pick="circuit ${safe(circuit.name)}"><rect x="${x - wide / 2}" y="${circuit.y - CIRCUIT_HIGH / 2}" width="${wide}" height="${CIRCUIT_HIGH}" rx="9" fill="${fill}" stroke="${colour}" stroke-width="${picked ? 3 : 1.2}"/>` +
    `<text x="${x}" y="${circuit.y + 4}" text-anchor="middle" style="fill:${colour}">${safe(text)}</text>${marks}</g>`;
}

function drawPackets(room, flash) {
  const seen = new Map();
  return [...packets].map(cell => {
    const name = steps.cells[cell], [from, to, wire, , frame] = steps.values[state[cell]].split(" ");
    if (!shown(wireOf.get(wire).service)) return "";
    const key = `${from} ${to} ${wire}`, number = seen.get(key) || 0;
    seen.set(key, number + 1);
    const [x1, y1, x2, y2] = visible(lineOn(wireOf.get(wire), from, to), from, to), part = (flash.has(name) ? 0.3 : 0.6) - 0.08 * (number % 4);
    const x = x1 + (x2 - x1) * part, y = y1 + (y2 - y1) * part, text = frame === "0" ? "ping" : frame;
    const size = text.length > 2 ? 9 : 11, radius = Math.max(9, widthOf(text, size) / 2 + 4);
    room.take(x, y, 2 * radius + 2, 2 * radius + 2);
    return `<g class="pick packet" data-pick="${frame === "0" ? "" : "frame " + frame}"><circle class="dot" cx="${x}" cy="${y}" r="${radius}" fill="${frameColour(frame)}" stroke="var(--ground)" stroke-width="1.5"/>` +
      `<text x="${x}" y="${y + 4}" text-anchor="middle" style="fill:#fff;font-weight:bold;font-size:${size}px">${text}</text><title>${safe(name)} from ${safe(from)} to ${safe(to)} on ${safe(wire)}, ${frame === "0" ? "ping" : "frame " + frame}</title></g>`;
  }).join("");
}

// Where frames entered, left and were dropped at the event.
function framesNow() {
  const at = new Map(), drops = [];
  for (let line = starts[event] + 1; event && line < starts[event + 1]; line++) {
    const [kind, place, frame, cause] = lines[line].split(" ", 4);
    if (kind === "in" || kind === "left") at.set(place, [...(at.get(place) || []), [frame, kind]]);
    if (kind === "dropped") drops.push([place, frame, cause]);
  }
  return [at, drops];
}

function drawDrops(room, drops) {
  return drops.map(([name, frame, cause]) => {
    const edge = edgeOf.get(name), text = `✖ ${frame === "0" ? "ping" : "frame " + frame}: ${cause}`, [beside, other, ...rest] = around(edge.x, edge.y, edge.wide, EDGE_HIGH, text, 12);
    return textAt(room.force(text, 12, [...rest, beside, other]), text, 'style="fill:var(--bad);font-weight:bold"');
  }).join("");
}

let zoom = 1;
// How large the map is drawn: all of it in sight, but not so small that nobody reads it.
function sizeOf(map) {
  const fits = Math.min(map.clientWidth / plan.width, map.clientHeight / plan.height), scale = Math.max(fits, isSmall ? 0 : 0.72) * zoom;
  return scale <= fits ? "" : `width:${Math.max(map.clientWidth, scale * plan.width)}px;height:${Math.max(map.clientHeight, scale * plan.height)}px`;
}

function magnify(by) { zoom = Math.max(0.25, Math.min(8, zoom * by)); drawMap(); }

function drawMap() {
  fitIn($("map"));
  const flash = changedNow(), [lit, drops] = framesNow(), room = new Room(), size = sizeOf($("map"));
  const circuits = plan.circuits.filter(circuit => shown(circuit.service)), drawn = wires();
  for (const edge of plan.edges) room.take(edge.x, edge.y, edge.wide + 2, EDGE_HIGH + 2);
  for (const circuit of circuits) { const [, x, wide] = circuitBox(circuit); room.take(x, circuit.y, wide + 2, CIRCUIT_HIGH + 2); }
  if (drawn.length <= 2 * MOST_LABELS) room.lines = [...drawn.flatMap(wire => segments(wire).map(pair => [wire.name, lineOn(wire, ...pair)])), ...plan.pairs.map(([a, b, lane]) => ["session", lineOf(a, b, lane)])];
  // What must be shown takes its room first.
  const dots = drawPackets(room, flash), crosses = drawDrops(room, drops), boxes = circuits.map(circuit => drawCircuit(room, circuit, lit)).join("");
  const picked = drawn.filter(wire => chosen === `wire ${wire.name}`), parts = [...picked, ...drawn.filter(wire => !picked.includes(wire))].map(wire => drawWire(room, flash, wire));
  const octets = drawOctets(room);
  $("map").innerHTML = `<svg style="${size}" xmlns="http://www.w3.org/2000/svg" viewBox="0 0 ${plan.width} ${plan.height}" role="img" aria-label="the network behind event ${safe(words(event))}">` +
    drawSessions(flash) + parts.map(part => part[0]).join("") + circuits.map(drawLead).join("") + parts.map(part => part[1]).join("") + boxes + octets + plan.edges.map(drawEdge).join("") + dots + crosses + "</svg>";
}

// Where the event happens: its edge, or the edge of its circuit, or to which its packet goes.
function placeOf(at) {
  const [, kind, one, two] = lines[starts[at]].split(" ", 4);
  const name = kind === "deliver" ? two : kind === "arrive" || kind === "drop" || kind === "again" ? goesTo.get(one) : circuitOf.has(one) ? circuitOf.get(one).edge : one;
  return at ? edgeOf.get(name) : undefined;
}

// Where not all of the map is in sight, it is moved to where the event happens.
function bringInView() {
  const map = $("map"), edge = placeOf(event), svg = map.firstElementChild;
  if (!edge || svg.clientWidth <= map.clientWidth + 1 && svg.clientHeight <= map.clientHeight + 1) return;
  const scale = Math.min(svg.clientWidth / plan.width, svg.clientHeight / plan.height);
  const x = (svg.clientWidth - scale * plan.width) / 2 + edge.x * scale, y = (svg.clientHeight - scale * plan.height) / 2 + edge.y * scale;
  if (x < map.scrollLeft + 30 || x > map.scrollLeft + map.clientWidth - 30) map.scrollLeft = x - map.clientWidth / 2;
  if (y < map.scrollTop + 30 || y > map.scrollTop + map.clientHeight - 30) map.scrollTop = y - map.clientHeight / 2;
}
