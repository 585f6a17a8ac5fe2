// The page of a run: opens it, goes from event to event, and listens to the reader.
let run, steps, lines, begins, starts, was, state, cellAt, last, event = 0, chosen = "", timer = null;
// The packets that are under way, what each edge has learned, and numbers of labels that are not told, as cells.
const packets = new Set(), learned = new Set(), numbers = new Set(), SETS = { packet: packets, mac: learned, label: numbers };
// Of each frame what the report tells, each with its event and its line; the frame of each packet, and the edge to which it goes.
const told = new Map(), frameOfPacket = new Map(), goesTo = new Map();

function open(found) {
  run = found;
  steps = found.steps;
  lines = found.report.split("\n");
  last = steps.counts.length - 1;
  begins = new Int32Array(last + 2);
  steps.counts.forEach((count, at) => { begins[at + 1] = begins[at] + count; });
  state = new Int32Array(steps.cells.length);
  was = new Int32Array(steps.changed.length);
  steps.changed.forEach((cell, at) => { was[at] = state[cell]; state[cell] = steps.to[at]; });
  state.fill(0);
  cellAt = new Map(steps.cells.map((name, cell) => [name, cell]));
  starts = [0];
  let names = 0;
  lines.forEach((line, at) => {
    if (line[0] === ">") starts.push(at);
    else tellFrames(line, at);
    if (line.startsWith("said ") || line.startsWith("hello ")) lines[at] = named(line, found.names[names++]);
  });
  starts.push(lines.length);
}

// A message by its name, in the place of its octets.
function named(line, name) {
  const place_ = line.lastIndexOf(" ");
  return `${line.slice(0, place_)} (${(line.length - place_ - 1) / 2} octets) ${name || ""}`;
}

function tellFrames(line, at) {
  const [kind, ...words_] = line.split(" ", 8);
  let frame;
  if (kind === "in" || kind === "dropped" || kind === "left") frame = words_[1];
  else if (kind === "sent") { frameOfPacket.set(words_[0], frame = words_[5]); goesTo.set(words_[0], words_[2]); }
  else if (kind === "copied") { frameOfPacket.set(words_[0], frame = frameOfPacket.get(words_[1])); goesTo.set(words_[0], goesTo.get(words_[1])); }
  else if (kind === "aged") frame = frameOfPacket.get(words_[0]);
  if (frame === undefined || frame === "0") return;
  if (!told.has(frame)) told.set(frame, []);
  told.get(frame).push([starts.length - 1, at, kind, words_]);
}

const value = name => { const cell = cellAt.get(name); return cell === undefined ? "" : steps.values[state[cell]]; };

function put(cell, to) {
  state[cell] = to;
  const name = steps.cells[cell], set = SETS[name.slice(0, name.indexOf(" "))];
  if (set) { if (to) set.add(cell); else set.delete(cell); }
}

// Goes to an event, forward or back.
function move(to) {
  for (; event < to; event++) for (let at = begins[event + 1]; at < begins[event + 2]; at++) put(steps.changed[at], steps.to[at]);
  for (; event > to; event--) for (let at = begins[event + 1] - 1; at >= begins[event]; at--) put(steps.changed[at], was[at]);
}

function go(to, follows = false) {
  to = Math.max(0, Math.min(last, to));
  move(to);
  $("slider").value = event;
  $("slider").setAttribute("aria-valuetext", words(event));
  try { history.replaceState(null, "", address()); } catch { /* a page within another one has no address of its own */ }
  draw();
  if (!follows) tellBeside();
}

// An event has the number that the whole report gives it, of which a page may have a part.
const numberOf = at => run.numbers ? run.numbers[at] : at;
function eventNumbered(number) {
  const at = run.numbers ? run.numbers.indexOf(number) : number;
  return Number.isInteger(at) && at >= 0 && at <= last ? at : undefined;
}

const address = () => `#event=${numberOf(event)}` + (chosen ? `&at=${encodeURIComponent(chosen)}` : "");
const words = at => at === 0 ? run.begin || "before the first event" : `${numberOf(at)}: ${lines[starts[at]].slice(2, 80)}`;

// The cells that changed at the event.
function changedNow() { return new Set(Array.from({ length: begins[event + 1] - begins[event] }, (_, at) => steps.cells[steps.changed[begins[event] + at]])); }

function segments(wire) { return wire.path.slice(1).map((far, at) => [wire.path[at], far]); }
function ends(wire) { return [wire.path[0], wire.path[wire.path.length - 1]]; }
const isUp = (a, b) => !run.told || value(`session ${a} ${b}`) === "Operational" && value(`session ${b} ${a}`) === "Operational";

// How a wire stands: carries, standing by, or down; and in words.
function stands(wire) {
  const states = ends(wire).map(edge => value(`end ${edge} ${wire.name}`)), over = segments(wire).every(pair => isUp(...pair));
  if (over && states.every(one => one === "up")) return ["carries", "carries"];
  if (over && wire.kind === "spoke" && states.includes("Standby") && states.every(one => one === "up" || one === "Standby")) return ["waits", "standing by"];
  const causes = [...new Set(states.filter(one => one !== "up"))].join(", ");
  return ["down", causes ? `down: ${causes}` : "down: no session"];
}

const shown = service => !$("service").value || $("service").value === service;
const wires = () => plan.wires.filter(wire => shown(wire.service));

const LINE = 18;
function drawLines() {
  const view = $("lines"), first = Math.max(0, Math.floor(view.scrollTop / LINE) - 5), count = Math.ceil(view.clientHeight / LINE) + 10;
  $("rows").style.top = first * LINE + "px";
  $("rows").innerHTML = lines.slice(first, first + count).map((line, number) => {
    const at = first + number, own = at >= starts[event] && at < starts[event + 1], isEvent = line[0] === ">";
    return `<div class="${isEvent ? "event" : ""}${own ? " current" : ""}" data-line="${at}" title="${safe(line.slice(0, 2000))}">${safe(isEvent ? `${numberOf(eventAt(at))} ${line}` : "    " + line.slice(0, 400))}</div>`;
  }).join("");
}

function eventAt(line) {
  let low = 0, high = last + 1;
  while (high - low > 1) { const middle = (low + high) >> 1; if (starts[middle] <= line) low = middle; else high = middle; }
  return low;
}

function draw() {
  compare();
  $("now").textContent = `${words(event)} (of ${numberOf(last)})`;
  drawMap();
  bringInView();
  const view = $("lines"), top = starts[event] * LINE, low = Math.min(starts[event + 1], starts[event] + 6) * LINE;
  if (top < view.scrollTop || low > view.scrollTop + view.clientHeight) view.scrollTop = Math.max(0, top - 2 * LINE);
  drawLines();
  drawState();
}

function choose(what) {
  chosen = what;
  const list = $("chosen");
  if (what && ![...list.options].some(option => option.value === what)) list.add(new Option(what, what));
  list.value = what;
  go(event);
}

function stop() { clearInterval(timer); timer = null; $("play").textContent = "▶ play"; }
function play() {
  if (timer) return stop();
  if (event === last) go(0);
  $("play").textContent = "⏸ stop";
  timer = setInterval(() => { if (event === last) stop(); else go(event + 1); }, Number($("speed").value));
}

function jump(to) { if (to !== undefined) go(to); }

const KEYS = { ArrowRight: () => go(event + 1), ArrowLeft: () => go(event - 1), Home: () => go(0), End: () => go(last), PageDown: () => go(nextCommand(1)), PageUp: () => go(nextCommand(-1)),
  r: () => jump(nextRound(1)), R: () => jump(nextRound(-1)), n: () => jump(nextChange(1)), N: () => jump(nextChange(-1)), m: () => jump(nextMark(1)), M: () => jump(nextMark(-1)),
  " ": play, "+": () => magnify(1.4), "-": () => magnify(1 / 1.4), Escape: () => choose("") };

function fill() {
  $("ending").textContent = run.ending;
  $("slider").max = last;
  $("room").style.height = lines.length * LINE + "px"; // before the first event is brought in view
  $("service").innerHTML = ["", ...Object.keys(plan.services)].map(name => `<option value="${safe(name)}">${safe(name) || "all"}</option>`).join("");
  const groups = { edges: plan.edges.map(one => "edge " + one.name), circuits: plan.circuits.map(one => "circuit " + one.name), wires: plan.wires.map(one => "wire " + one.name), frames: [...told.keys()].slice(0, 1000).map(one => "frame " + one) };
  $("chosen").innerHTML = `<option value="">the network</option>` + Object.entries(groups).map(([name, all]) => `<optgroup label="${name}">${all.map(one => `<option value="${safe(one)}">${safe(one)}</option>`).join("")}</optgroup>`).join("");
}

function listen() {
  $("slider").addEventListener("input", () => { stop(); go(Number($("slider").value)); });
  for (const [id, work] of Object.entries({ first: KEYS.Home, back: KEYS.ArrowLeft, on: KEYS.ArrowRight, last: KEYS.End, play, round: KEYS.r, command: KEYS.PageDown, change: KEYS.n, larger: KEYS["+"], smaller: KEYS["-"] })) $(id).addEventListener("click", work);
  $("speed").addEventListener("change", () => { if (timer) { stop(); play(); } });
  $("service").addEventListener("change", draw);
  $("chosen").addEventListener("change", () => choose($("chosen").value));
  $("mark").addEventListener("change", () => { if ($("mark").value) go(Number($("mark").value)); $("mark").value = ""; });
  $("lines").addEventListener("scroll", () => requestAnimationFrame(drawLines));
  document.addEventListener("click", found => {
    const what = found.target.closest("[data-pick]"), line = found.target.closest("[data-line]"), mark = found.target.closest("[data-event]");
    if (what) choose(what.dataset.pick); else if (line) go(eventAt(Number(line.dataset.line))); else if (mark) go(Number(mark.dataset.event));
  });
  document.addEventListener("keydown", found => {
    if (found.ctrlKey || found.altKey || found.metaKey || /^(SELECT)$/.test(found.target.tagName) || found.key === " " && found.target.tagName === "BUTTON") return;
    if (KEYS[found.key]) { found.preventDefault(); if (found.key !== " ") stop(); KEYS[found.key](); }
  });
  window.addEventListener("hashchange", fromAddress);
  window.addEventListener("resize", draw);
}

function fromAddress() {
  const wanted = new URLSearchParams(location.hash.slice(1)), at = wanted.get("at") || "", number = wanted.has("event") ? eventNumbered(Number(wanted.get("event"))) : 0;
  const [kind, name] = at.split(" "), known = { edge: edgeOf, wire: wireOf, circuit: circuitOf, frame: told }[kind];
  if (number === undefined) { go(0); $("state").textContent = `The page has events ${numberOf(0)} to ${numberOf(last)}, and none ${wanted.get("event")}.`; $("now").textContent = `no event ${wanted.get("event")}: the last one is ${numberOf(last)}`; return; }
  chosen = known && known.has(name) ? at : "";
  go(number);
  $("chosen").value = chosen;
}

unpacked(document.getElementById("packed").textContent).then(found => {
  open(found);
  move(0);
  for (let at = begins[0]; at < begins[1]; at++) put(steps.changed[at], steps.to[at]);
  fill();
  findMarks();
  drawMarks();
  listenBeside();
  listen();
  fromAddress();
  document.body.dataset.open = "yes";
}, fault => { $("state").textContent = `The page cannot be opened: ${fault}`; });
