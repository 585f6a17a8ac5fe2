// Where the run is gone through: by commands, by rounds, by changes, by marks.
const isCommand = at => !/^> (deliver|arrive) /.test(lines[starts[at]]);

function nextCommand(way) {
  for (let at = event + way; at > 0 && at <= last; at += way) if (isCommand(at)) return at;
  return way > 0 ? last : 0;
}

// The last event of each round. A command is one by itself. Behind it a round is over when all that was on its way when it began has come,
// octets of LDP and packets, or when the next command comes.
function roundsOf() {
  const found = [0], octets = new Map(), under = new Set();
  let left = new Map(), packets_ = new Set();
  const begin = () => { left = new Map(octets); packets_ = new Set(under); };
  for (let at = 0; at <= last; at++) {
    const [, kind, a, b, count] = at ? lines[starts[at]].split(" ") : [], way = `${a} ${b}`;
    if (at && isCommand(at) && found[found.length - 1] < at - 1) found.push(at - 1);
    if (kind === "deliver" && left.has(way)) left.set(way, left.get(way) - count);
    for (let place = begins[at]; place < begins[at + 1]; place++) {
      const [what, one, two] = steps.cells[steps.changed[place]].split(" "), text = steps.values[steps.to[place]];
      if (what === "octets") { if (text) octets.set(`${one} ${two}`, Number(text)); else { octets.delete(`${one} ${two}`); left.delete(`${one} ${two}`); } }
      if (what === "packet") { if (text) under.add(one); else { under.delete(one); packets_.delete(one); } }
    }
    if (left.get(way) <= 0) left.delete(way);
    if (at && (isCommand(at) || !left.size && !packets_.size)) { found.push(at); begin(); }
  }
  if (found[found.length - 1] !== last) found.push(last);
  return found;
}

let rounds = null;
function nextRound(way) {
  rounds = rounds || roundsOf();
  return way > 0 ? rounds.find(at => at > event) : rounds.findLast(at => at < event);
}

// The cells that concern what is looked at.
function concerns() {
  const [kind, ...rest] = chosen.split(" "), name = rest.join(" ");
  if (kind === "wire") {
    const both = bothWays(wireOf.get(name)), own = new Set([...ends(wireOf.get(name)).map(edge => `end ${edge} ${name}`), ...both.flatMap(([a, b]) => [`session ${a} ${b}`, `told ${a} ${name} ${b}`, `heard ${a} ${name} ${b}`])]);
    return cell => own.has(cell);
  }
  if (kind === "edge") return cell => { const [what, one, two] = cell.split(" "); return what === "mac" ? two === name : what !== "octets" && one === name; };
  if (kind === "circuit") return cell => cell === `circuit ${name}`;
  return cell => /^(session|end|circuit|calm|adjacency) /.test(cell);
}

function nextChange(way) {
  const [kind, name] = chosen.split(" ");
  if (kind === "frame" || kind === "circuit") {
    const own = kind === "frame" ? (told.get(name) || []).map(row => row[0]) : framesAt(name).map(row => row[0]);
    const found = way > 0 ? own.filter(at => at > event).sort((a, b) => a - b)[0] : own.filter(at => at < event).sort((a, b) => b - a)[0];
    if (found !== undefined || kind === "frame") return found;
  }
  const is = concerns(), mine = steps.cells.map(is);
  for (let at = event + way; at >= 0 && at <= last; at += way) for (let place = begins[at]; place < begins[at + 1]; place++) if (mine[steps.changed[place]]) return at;
  return undefined;
}

// The marks, each with its event, its kind, and what it is: where a service leaves and regains calm, where a frame serves a site for the
// second time, and the last event of one that a site never got; and where two runs that stand side by side part and meet.
const KINDS = { leaves: ["▾", "var(--wait)"], calm: ["▴", "var(--good)"], twice: ["2", "var(--bad)"], never: ["×", "var(--bad)"], differs: ["≠", "var(--ink)"] };
let marks = [];
function findMarks() {
  const cells = steps.cells.map(name => name.startsWith("calm ")), found = (run.marks || []).map(([number, text]) => [eventNumbered(number), "differs", text]);
  for (let at = 1; at <= last; at++) for (let place = begins[at]; place < begins[at + 1]; place++) if (cells[steps.changed[place]]) {
    const isCalm = steps.values[steps.to[place]] === "calm", service = steps.cells[steps.changed[place]].slice(5);
    found.push([at, isCalm ? "calm" : "leaves", `${service} ${isCalm ? "is calm" : "leaves calm"}`]);
  }
  for (const [frame, row] of Object.entries(run.frames)) found.push(...marksOf(frame, row));
  marks = found.sort((a, b) => a[0] - b[0]);
}

function marksOf(frame, row) {
  const all = told.get(frame) || [], seen = new Set(), found = [];
  const entered = (all.find(one => one[2] === "in") || [0, 0, "", [""]])[3][0];
  for (const [at, , kind, [circuit]] of all) {
    if (kind === "left" && (seen.has(circuit) || circuit === entered)) found.push([at, "twice", `frame ${frame} ${circuit === entered ? "comes back to" : "comes twice to"} ${circuit}`]);
    if (kind === "left") seen.add(circuit);
  }
  const missed = row.missed.length ? `never comes to ${row.missed.join(", ")}` : row.nowhere ? "leaves nowhere" : "";
  if (missed && all.length) found.push([all[all.length - 1][0], "never", `frame ${frame} ${missed}`]);
  return found;
}

function nextMark(way) {
  const found = way > 0 ? marks.find(([at]) => at > event) : marks.findLast(([at]) => at < event);
  return found && found[0];
}

// The marks below the slider, one of a kind in each two hundredth of it; and all of them as a list.
function drawMarks() {
  const seen = new Map(), text = ([at, , what]) => `${numberOf(at)}: ${what}`;
  for (const mark of marks) {
    const key = `${mark[1]} ${Math.floor(mark[0] / Math.max(1, last) * 200)}`;
    if (!seen.has(key)) seen.set(key, []);
    seen.get(key).push(mark);
  }
  $("marks").innerHTML = [...seen.values()].map(all => {
    const [sign, colour] = KINDS[all[0][1]], title = all.slice(0, 8).map(text).join("\n") + (all.length > 8 ? `\nand ${all.length - 8} more` : "");
    return `<i data-event="${all[0][0]}" class="${all[0][1]}" style="left:${all[0][0] / Math.max(1, last) * 100}%;color:${colour}" title="${safe(title)}">${sign}</i>`;
  }).join("");
  $("mark").innerHTML = `<option value="">${marks.length} mark${marks.length === 1 ? "" : "s"}</option>` + marks.slice(0, 2000).map(mark => `<option value="${mark[0]}">${safe(text(mark))}</option>`).join("");
}
