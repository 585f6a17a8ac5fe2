// Two runs that stand side by side, each in its own page: both move together, and what is otherwise here than there is marked.
const isBeside = window.parent !== window;
const COMPARED = /^(session|end|told|heard|circuit|mac|calm|adjacency) /;
let beside = null, commands = null, compared = null;

// Where an event is, as the command before it and how many events it stands behind that; and the event of such a place.
function place() {
  let low = 0, high = commands.length;
  while (high - low > 1) { const middle = (low + high) >> 1; if (commands[middle] <= event) low = middle; else high = middle; }
  return [low, event - commands[low]];
}
function eventOf([command, behind]) {
  if (command >= commands.length) return last;
  return Math.min(commands[command] + behind, command + 1 < commands.length ? commands[command + 1] - 1 : last);
}

// What is compared of the state, by the names of its cells.
function ownState() {
  compared = compared || steps.cells.flatMap((name, cell) => COMPARED.test(name) ? [cell] : []);
  return new Map(compared.flatMap(cell => state[cell] ? [[steps.cells[cell], steps.values[state[cell]]]] : []));
}

// The cells that are otherwise there, each with its value here and there; and the edges, wires and circuits that they are of.
let others = [], differing = new Set();
function compare() {
  const own = beside ? ownState() : new Map();
  others = beside ? [...new Set([...own.keys(), ...beside.keys()])].filter(cell => own.get(cell) !== beside.get(cell)).map(cell => [cell, own.get(cell), beside.get(cell)]) : [];
  differing = new Set(others.flatMap(([cell]) => {
    const [kind, one, two, three] = cell.split(" ");
    return kind === "end" ? [`wire ${two}`] : kind === "circuit" ? [cell] : kind === "mac" ? [`edge ${two}`] : kind === "session" || kind === "adjacency" ? [`edge ${one}`] : kind === "told" || kind === "heard" ? [`wire ${two}`] : [];
  }));
}
const differs = what => differing.has(what);

// The differences of what is looked at, or of all.
function otherRows() {
  const [kind] = chosen.split(" "), is = kind === "frame" ? () => false : kind ? concerns() : () => true;
  return others.filter(([cell]) => is(cell)).slice(0, 60).map(([cell, here, there]) => [inWords(cell), safe(here || "-"), safe(there || "-")]);
}

function tellBeside() { if (isBeside) window.parent.postMessage({ moved: place(), state: ownState() }, "*"); }

function listenBeside() {
  commands = [0];
  for (let at = 1; at <= last; at++) if (isCommand(at)) commands.push(at);
  window.addEventListener("message", ({ source, data }) => {
    if (source !== window.parent || !data) return;
    if (data.state) beside = data.state;
    if (data.follow) { go(eventOf(data.follow), true); window.parent.postMessage({ answer: ownState() }, "*"); } else if (data.state) go(event, true);
  });
}
