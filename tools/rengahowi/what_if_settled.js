// What a survey tells, once all has settled: each two failures as a cell of a matrix of failures by failures, and its cases by sites.

// So many failures, and so many cases, are shown at most, those that part most first.
const MOST_FAILURES = 150, MOST_CASES = 500;

// The sites at other edges that a site reaches where nothing fails.
function reachedBy(plan) {
  const reached = new Map(), off = new Set(plan.survey.off);
  for (const [service, names] of Object.entries(plan.services)) {
    const sites = names.filter(site => !off.has(site));
    for (const site of sites) reached.set(site, new Set(sites.filter(other => plan.edges[other] !== plan.edges[site])));
  }
  for (const one of plan.survey.before) {
    for (const a of one.sites) {
      for (const b of one.what === "cut" ? [...reached.get(a)] : one.others) { reached.get(a).delete(b); reached.get(b).delete(a); }
    }
  }
  return reached;
}

// For each site of a case those that it lost, and those that it found.
function changesOf(plan, told) {
  const changes = new Map();
  const of = site => changes.get(site) || changes.set(site, { lost: new Set(), found: new Set() }).get(site);
  for (const one of told.sites) {
    const what = one.what === "found" ? "found" : "lost";
    for (const a of one.sites) {
      for (const b of one.what === "cut" ? plan.reached.get(a) : one.others) { of(a)[what].add(b); of(b)[what].add(a); }
    }
  }
  return changes;
}

const serviceOf = (plan, site) => Object.keys(plan.services).find(name => plan.services[name].includes(site));
const saidOf = one => `${few(one.sites)} ${one.what === "cut" ? "lost all" : `${one.what} ${few(one.others)}`}`;
const keyOf = failures => [...failures].sort().join(" + ");
const isOf = (told, service) => service === "all" || told.sites.some(one => one.service === service);

// How many pairs of sites a case parts and joins, of one service or of all.
function weightOfTold(plan, told, service) {
  if (service === "all") return [told.lost, told.found];
  const changes = [...changesOf(plan, told)].filter(([site]) => plan.services[service].includes(site)).map(([, it]) => it);
  return ["lost", "found"].map(what => changes.reduce((sum, it) => sum + it[what].size, 0) / 2);
}

for (const plan of plans) {
  if (!plan.survey) continue;
  plan.reached = reachedBy(plan);
  plan.told = new Map(plan.survey.told.map(told => [keyOf(told.failures), told]));
}

// The failures of a matrix: those of cases that are told, of a service or of all.
function failuresOf(plan, service) {
  const weights = new Map();
  for (const told of plan.told.values()) {
    if (told.failures.length > 2 || !isOf(told, service)) continue;
    for (const name of told.failures) weights.set(name, (weights.get(name) || 0) + told.lost + told.found);
  }
  const shown = [...weights].sort((a, b) => b[1] - a[1]).slice(0, MOST_FAILURES).map(([name]) => name);
  if (input("order").value === "weight") return [shown, weights.size];
  const places = new Map([...weights.keys()].map((name, place) => [name, place]));
  return [shown.sort((a, b) => places.get(a) - places.get(b)), weights.size];
}

// A cell of two failures, or of one.
function pairCell(plan, at, a, b, service) {
  const told = plan.told.get(keyOf(a === b ? [a] : [a, b])), marks = `data-plan="${at}" data-a="${safe(a)}" data-b="${safe(b)}"`;
  if (told && isOf(told, service)) {
    const [lost, found] = weightOfTold(plan, told, service), look = lost ? a === b ? "split" : "split off" : "found";
    return `<td class="${look}${a === b ? " alone" : ""}" ${marks} title="${safe(`${a === b ? a : `${a} + ${b}`}: ${told.sites.map(saidOf).join("; ")}`)}">${lost || `+${found}`}</td>`;
  }
  const alone = [a, b].some(name => { const one = plan.told.get(name); return one && isOf(one, service); });
  return `<td class="${alone ? "pale" : ""}${a === b ? " alone" : ""}" ${marks}></td>`;
}

// The matrix of failures by failures of each plan.
function drawMatrix() {
  const service = input("service").value, told = [];
  view.innerHTML = plans.map((plan, at) => {
    const [names, count] = failuresOf(plan, service), survey = plan.survey;
    told.push(`${survey.cases} cases, ${survey.split} split` + (count > names.length ? `; the ${names.length} failures that part most, of ${count}` : ""));
    const head = names.map(name => `<th><div>${safe(name)}</div></th>`).join("");
    const rows = names.map(a => `<tr><th title="${safe(a)}">${safe(a)}</th>${names.map(b => pairCell(plan, at, a, b, service)).join("")}</tr>`).join("");
    return `<table class="matrix"><thead><tr><th>${plans.length > 1 ? safe(plan.scenario) : "failure"}</th>${head}</tr></thead><tbody>${rows}</tbody></table>`;
  }).join("");
  input("count").textContent = told.join("; ");
}

// A cell of a site: how many others it lost, or found.
function siteCell(plan, told, changes, site) {
  const it = changes.get(site);
  if (!it) return "<td></td>";
  const isCut = told.sites.some(one => one.what === "cut" && one.sites.includes(site));
  const title = ["lost", "found"].filter(what => it[what].size).map(what => `${site} ${what} ${few([...it[what]])}`).join("; ");
  return `<td class="${it.lost.size ? `split${isCut ? " off" : ""}` : "found"}" title="${safe(title)}">${it.lost.size || `+${it.found.size}`}</td>`;
}

// The cases that are told, by sites.
function drawTold() {
  const service = input("service").value, counts = [];
  view.innerHTML = plans.map(plan => {
    const all = [...plan.told.values()].filter(told => isOf(told, service));
    if (input("order").value === "weight") all.sort((a, b) => b.lost - a.lost || b.found - a.found);
    const sites = sitesOf(plan), shown = all.slice(0, MOST_CASES);
    counts.push(`${shown.length} of ${all.length} cases that are told`);
    const head = sites.map(([site, name]) => `<th><div style="color:${plan.colours[name]}">${safe(site)}</div></th>`).join("");
    const rows = shown.map(told => {
      const changes = changesOf(plan, told), name = told.failures.join(" + ");
      return `<tr><th title="${safe(name)}">${safe(name)}</th>${sites.map(([site]) => siteCell(plan, told, changes, site)).join("")}</tr>`;
    }).join("");
    return `<table><thead><tr><th>${plans.length > 1 ? safe(plan.scenario) : "case"}</th>${head}</tr></thead><tbody>${rows}</tbody></table>`;
  }).join("");
  input("count").textContent = counts.join("; ");
}

// What is told of a cell of the matrix: of both failures together, and of each alone.
function tellPair(cell) {
  const plan = plans[Number(cell.dataset.plan)], { a, b } = cell.dataset;
  const line = failures => {
    const told = plan.told.get(keyOf(failures)), name = failures.join(" + ");
    const none = failures.length > 1 ? "no sites that neither of them parts or joins alone" : "no sites";
    return `${name}: ${told ? told.sites.map(saidOf).join("; ") : none}`;
  };
  input("told").textContent = (a === b ? [line([a])] : [line([a, b]), line([a]), line([b])]).join("\n");
}

view.addEventListener("click", event => {
  const cell = event.target.closest("[data-a]");
  if (cell) tellPair(cell);
});
