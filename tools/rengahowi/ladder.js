// The page of a ladder: only the rows in sight are drawn.
let data;
const isNarrow = window.innerWidth < 600;
const ROW = 24, GUTTER = isNarrow ? 150 : 236, LEAST_COLUMN = isNarrow ? 96 : 124, LANE = 4, MOST_LANES = 8, HEAD = 40;
const view = document.getElementById("view"), head = document.getElementById("head"), space = document.getElementById("space");
// The columns that are drawn, by their places in the order of the page; the others have no row among those that are shown.
let drawn = [], position = new Map(), columnWidth = 0, width = 0;
const x = place => GUTTER + columnWidth * (position.get(place) + 0.5);
const cut = (text, most) => text.length > most ? text.slice(0, most - 1) + "\u2026" : text;
let shown = [], chosenFrame = null, chosenRow = null;
// The columns to which the rows of a frame are folded where not all of theirs fit: null where the page was opened for none.
let way = null;

// The number of the event that each row belongs to.
let eventOf;

function colourOf(state) {
  if (state === "up" || state === "Operational") return "#2a7f62";
  if (state === "NonExistent" || state === "NoLocal") return "#d5dce3";
  if (["Initialized", "OpenSent", "OpenRec", "Standby"].includes(state)) return "#e0a526";
  return "#c0392b";
}

// The state of a lane at a row: the last one that was told by then.
function stateAt(lane, row) {
  let low = 0, high = lane.states.length;
  while (high - low > 1) {
    const middle = (low + high) >> 1;
    if (lane.states[middle][0] <= row) low = middle; else high = middle;
  }
  return lane.states[low][1];
}

// The lanes of an edge by kind; many of them are drawn as one, which tells whether all, some or none are up.
const groups = [];

function laneParts(group, row) {
  const states = group.lanes.map(lane => stateAt(lane, row));
  if (states.length <= MOST_LANES) {
    return states.map((state, number) => [number, colourOf(state), `${group.kind} ${group.lanes[number].name}: ${state}`]);
  }
  const up = states.filter(state => state === "up" || state === "Operational").length;
  const colour = up === states.length ? "#2a7f62" : up ? "#e0a526" : "#d5dce3";
  return [[0, colour, `${up} of ${states.length} ${group.kind}s up`]];
}

// The lanes beside the rows in sight; rows with one state in turn are one bar.
function lanesOf(rows) {
  let text = "";
  for (const group of groups.filter(group => position.has(group.place))) {
    const states = rows.map(row => laneParts(group, row));
    for (let lane = 0; lane < states[0].length; lane++) {
      const shift = 3 + lane * (LANE + 1);
      const at = group.kind === "session" ? x(group.place) - shift - LANE : x(group.place) + shift;
      for (let from = 0, to = 0; from < rows.length; from = to) {
        const [, colour, title] = states[from][lane];
        while (to < rows.length && states[to][lane][2] === title) to++;
        text += `<rect x="${at}" y="${from * ROW}" width="${LANE}" height="${(to - from) * ROW}" fill="${colour}"><title>${safe(title)}</title></rect>`;
      }
    }
  }
  return text;
}

// How wide a text is, as the browser draws it.
const pen = document.createElement("canvas").getContext("2d");
pen.font = '12px "DejaVu Sans", Helvetica, Arial, sans-serif';
const widthOf = text => pen.measureText(text).width;

// A text around a place, or beginning there, on a ground of its own, within the page.
function label(text, left, y, colour) {
  const long = widthOf(text), placed = Math.max(GUTTER + 4, Math.min(width - long - 4, left));
  return `<rect x="${placed - 3}" y="${y - 11}" width="${long + 6}" height="14" fill="#fff" fill-opacity="0.93"/>` +
    `<text x="${placed}" y="${y}" fill="${colour}">${safe(text)}</text>`;
}

function arrow(row, y, colour, dash) {
  const [from, to] = row.c.map(x), right = to > from, tip = to + (right ? -7 : 7), line = y + ROW - 6;
  return `<line x1="${from}" y1="${line}" x2="${tip}" y2="${line}" stroke="${colour}" stroke-width="1.6"${dash}/>` +
    `<path d="M${to} ${line} L${tip} ${line - 4} L${tip} ${line + 4} Z" fill="${colour}"/>` +
    label(cut(row.t, 72), (from + to - widthOf(cut(row.t, 72))) / 2, y + 12, colour);
}

function noteAt(row, y, colour, sign) {
  const at = x(row.c[0]), long = widthOf(row.t), toLeft = at + long + 56 > width;
  return `<text x="${at}" y="${y + 16}" text-anchor="middle" fill="${colour}" class="halo">${sign}</text>` +
    label(row.t, toLeft ? at - 50 - long : at + 50, y + 16, colour);
}

function eventText(row, y) {
  const dot = row.c.length ? `<circle cx="${x(row.c[0])}" cy="${y + ROW / 2}" r="4" fill="#1c2733"/>` : "";
  return `<text class="mono" x="8" y="${y + 16}" fill="#6b7c8c">${row.n}</text>` +
    `<text class="mono" x="48" y="${y + 16}">${safe(cut(row.t, isNarrow ? 13 : 25))}</text>` + dot;
}

const LOOKS = {
  event: eventText,
  idle: (row, y) => `<text class="mono" x="48" y="${y + 16}" fill="#6b7c8c">idle: nothing changes</text>`,
  said: (row, y) => arrow(row, y, "#33475b", ""),
  sent: (row, y) => arrow(row, y, data.services[data.wires[row.w]], ""),
  copied: (row, y) => arrow(row, y, "#8a3ea8", ' stroke-dasharray="3 3"'),
  in: (row, y) => arrow(row, y, "#0b6e4f", ""),
  left: (row, y) => arrow(row, y, "#0b6e4f", ""),
  dropped: (row, y) => noteAt(row, y, "#c0392b", "\u2716"),
  aged: (row, y) => noteAt(row, y, "#8a3ea8", "\u2716"),
  session: (row, y) => noteAt(row, y, "#33475b", "\u25c6"),
  wire: (row, y) => noteAt(row, y, "#33475b", "\u25cf"),
  pong: (row, y) => noteAt(row, y, "#33475b", "\u25cf"),
  uses: (row, y) => noteAt(row, y, "#33475b", "\u25cf"),
  hello: (row, y) => arrow(row, y, "#7a5c00", ' stroke-dasharray="2 4"'),
  adjacency: (row, y) => noteAt(row, y, "#7a5c00", "\u25c6"),
  barred: (row, y) => noteAt(row, y, "#c0392b", "\u2716"),
};

function backOf(number, place) {
  const colour = number === chosenRow ? "#ffe9a8" : data.rows[number].k === "event" ? "#edf2f6" : "#ffffff";
  return `<rect class="back" data-row="${number}" x="0" y="${place * ROW}" width="${width}" height="${ROW}" fill="${colour}"/>`;
}

function lineOf(column, place, height) {
  const dash = column.kind === "edge" ? "" : ' stroke-dasharray="2 3"';
  return `<line x1="${x(place)}" y1="0" x2="${x(place)}" y2="${height}" stroke="#9fb0bf"${dash}/>`;
}

function rowText(number, place) {
  const row = data.rows[number], y = place * ROW;
  const frame = row.f !== undefined && row.k !== "event" ?
    `<text class="frame mono" data-frame="${row.f}" x="${GUTTER - 12}" y="${y + 16}" text-anchor="end" fill="#1f6fb4">frame ${row.f}</text>` : "";
  return `<g class="row ${row.k}" data-row="${number}">${frame}${LOOKS[row.k](row, y)}</g>`;
}

// Only the rows in sight are drawn.
function draw() {
  const first = Math.max(0, Math.floor(view.scrollTop / ROW) - 10);
  const rows = shown.slice(first, first + Math.ceil(view.clientHeight / ROW) + 20);
  const height = rows.length * ROW;
  space.style.height = shown.length * ROW + "px";
  space.style.width = width + "px";
  const parts = [rows.map(backOf), drawn.map(place => lineOf(data.columns[place], place, height)), rows.length ? [lanesOf(rows)] : [], rows.map(rowText)];
  space.innerHTML = `<svg xmlns="http://www.w3.org/2000/svg" style="top:${first * ROW}px" width="${width}" height="${height}">${parts.flat().join("")}</svg>`;
}

function drawHead() {
  head.setAttribute("width", width);
  head.setAttribute("height", HEAD);
  head.innerHTML = `<text x="8" y="17" font-weight="bold">events</text>` + drawn.map(place => {
    const column = data.columns[place];
    const colour = column.service ? data.services[column.service] : "#1c2733";
    return `<text x="${x(place)}" y="17" text-anchor="middle" font-weight="bold" fill="${colour}">${safe(cut(column.name, 16))}</text>` +
      `<text x="${x(place)}" y="33" text-anchor="middle" fill="${column.service ? colour : "#6b7c8c"}">${safe(cut(column.under, 17))}</text>`;
  }).join("");
}

function hexDump(octets) {
  const lines = [];
  for (let at = 0; at < octets.length; at += 32) {
    const pairs = octets.slice(at, at + 32).match(/../g);
    const signs = pairs.map(pair => { const code = parseInt(pair, 16); return code > 31 && code < 127 ? String.fromCharCode(code) : "."; }).join("");
    lines.push((at / 2).toString(16).padStart(4, "0") + "  " + pairs.join(" ").padEnd(47) + "  " + signs);
  }
  return lines.join("\n");
}

function choose(number) {
  chosenRow = number;
  const row = data.rows[number], where = row.c.map(place => data.columns[place].name).join(" \u2192 ");
  const event = data.rows[eventOf[number]];
  const octets = row.o ? `<pre id="octets">${safe(hexDump(row.o))}</pre>` : "";
  const within = event.k === "event" ? `, event ${event.n}</b> (${safe(event.t)})` : ", before the first event</b>";
  document.getElementById("more").innerHTML = `<div><b>line ${row.l || number + 2}${within}</div><div>${safe(where)} ${safe(row.t)}</div>${octets}`;
  draw();
}

// The columns of the rows that are shown, or all of them where the reader wants them.
function fold() {
  const fits = Math.max(2, Math.floor((window.innerWidth - 24 - GUTTER) / LEAST_COLUMN)), wantsAll = document.getElementById("columns").checked;
  shown = rowsOf(chosenFrame);
  let used = new Set(wantsAll ? data.columns.keys() : shown.flatMap(number => data.rows[number].c));
  if (!wantsAll && way && chosenFrame !== null && used.size > fits) {
    used = new Set([...data.columns.keys()].filter(place => way.has(data.columns[place].name)));
    shown = shown.filter(number => data.rows[number].c.every(place => used.has(place)));
    const events = new Set(shown.filter(number => data.rows[number].k !== "event").map(number => eventOf[number]));
    shown = shown.filter(number => data.rows[number].k !== "event" || events.has(number) || data.rows[number].c.length);
  }
  drawn = [...data.columns.keys()].filter(place => used.has(place));
  if (!drawn.length) drawn = [...data.columns.keys()];
  position = new Map(drawn.map((place, number) => [place, number]));
  columnWidth = Math.max(LEAST_COLUMN, Math.floor((window.innerWidth - 24 - GUTTER) / Math.max(1, drawn.length)));
  width = GUTTER + columnWidth * drawn.length;
  drawHead();
}

// The rows of a frame, each with its event; or all.
function rowsOf(frame) {
  const has = new Set();
  if (frame !== null) data.rows.forEach((row, number) => { if (row.f === frame) has.add(number).add(eventOf[number]); });
  return data.rows.map((row, number) => number).filter(number => frame === null || has.has(number));
}

function showFrame(frame) {
  chosenFrame = frame;
  document.getElementById("frame").value = frame === null ? "" : frame;
  try { history.replaceState(null, "", frame === null ? "#" : "#frame=" + frame); } catch { /* a page within another one has no address of its own */ }
  view.scrollTop = 0;
  fold();
  draw();
}

function open(found) {
  data = found;
  eventOf = new Int32Array(data.rows.length);
  data.rows.forEach((row, number) => { eventOf[number] = row.k === "event" || number === 0 ? number : eventOf[number - 1]; });
  data.columns.forEach((column, place) => {
    for (const kind of ["session", "wire"]) {
      const lanes = data.lanes.filter(lane => lane.kind === kind && lane.edge === column.name);
      if (column.kind === "edge" && lanes.length) groups.push({ place, kind, lanes });
    }
  });
}

function listen() {
  document.getElementById("ending").textContent = data.ending;
  document.getElementById("frame").addEventListener("change", event => showFrame(event.target.value === "" ? null : Number(event.target.value)));
  document.getElementById("event").addEventListener("change", event => {
    const place = shown.findIndex(number => data.rows[number].n === Number(event.target.value));
    if (place >= 0) view.scrollTop = place * ROW;
  });
  document.getElementById("all").addEventListener("click", () => showFrame(null));
  document.getElementById("columns").addEventListener("change", () => { fold(); draw(); });
  space.addEventListener("click", event => {
    const frame = event.target.closest("[data-frame]"), row = event.target.closest("[data-row]");
    if (frame) showFrame(Number(frame.dataset.frame)); else if (row) choose(Number(row.dataset.row));
  });
  view.addEventListener("scroll", () => requestAnimationFrame(draw));
  window.addEventListener("resize", () => { fold(); draw(); });
}

unpacked(document.getElementById("data").textContent).then(found => {
  open(found);
  listen();
  const wanted = new URLSearchParams(location.hash.slice(1));
  if (wanted.has("way")) way = new Set(wanted.get("way").split(","));
  showFrame(wanted.has("frame") ? Number(wanted.get("frame")) : null);
  if (wanted.has("line")) { choose(Number(wanted.get("line")) - 2); view.scrollTop = shown.indexOf(chosenRow) * ROW; }
  document.body.dataset.open = "yes";
});
