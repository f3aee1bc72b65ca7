"use strict";
const $ = (id) => document.getElementById(id);
const about = JSON.parse($("data").textContent);
$("data").textContent = "";
const COUNT = about.count, FIRST = about.first, ROW = 24, TALLEST = 8000000;
const UNKNOWN = 255, HUNG = 4294967295, SENT = 0, FULL = 1;

// COLUMNS

function column(of) {
  const text = atob(of.data), bytes = new Uint8Array(text.length);
  for (let i = 0; i < bytes.length; i++) bytes[i] = text.charCodeAt(i);
  of.data = "";
  return new { u8: Uint8Array, u16: Uint16Array, u32: Uint32Array, f64: Float64Array }[of.type](bytes.buffer);
}
const c = Object.fromEntries(Object.entries(about.columns).map(([name, of]) => [name, column(of)]));
const flows = about.flows;  // protocol, source, source port, destination, destination port
const end = (address, port) => address === null ? "" : port === null ? address : address.includes(":") ? `[${address}]:${port}` : `${address}:${port}`;
const sources = flows.map((it) => end(it[1], it[2])), destinations = flows.map((it) => end(it[3], it[4]));
const known = about.waits, kinds = about.kinds;

function seconds(nanoseconds) {
  if (Number.isNaN(nanoseconds)) return "";
  const sign = nanoseconds < 0 ? "-" : "", all = Math.abs(nanoseconds), digits = about.digits;
  const whole = Math.floor(all / 1e9), rest = Math.floor((all - whole * 1e9) / (digits === 9 ? 1 : 1000));
  return `${sign}${whole}.${String(rest).padStart(digits, "0")}`;
}
// where queues are opened by time, a packet waited until its queue was opened, and else until the last packet came that came meanwhile
const waitedTime = (n) => !known ? NaN : c.wait ? c.wait[n] : c.time[n + c.waited[n]] - c.time[n];
const didWait = (n) => c.gone[n] !== 2 * n + 1 || Boolean(c.wait && c.wait[n] > 0);
function named(n) {
  const kind = c.fate[n], name = c.names[n];
  if (kind === SENT) return "";
  if (kind === FULL) return name + FIRST;
  return !about.units ? "" : name === HUNG ? "hung" : name;
}
const ranks = (texts) => {
  const order = [...texts.keys()].sort((a, b) => texts[a] < texts[b] ? -1 : texts[a] > texts[b] ? 1 : 0), rank = new Uint32Array(texts.length);
  order.forEach((flow, place) => { rank[flow] = place; });
  return rank;
};
let sourceRanks, destinationRanks, protocolRanks;
const none = (it) => it === UNKNOWN ? "" : it;
const several = (name) => c[name] && c[name].some((it) => it !== c[name][0]);
const sortsLow = NaN;
// of each column its head, how wide it is, its text, and what it is sorted and compared by
const COLUMNS = {
  number: { head: "packet", wide: "4.8rem", text: (n) => n + FIRST, key: (n) => n + FIRST },
  time: { head: "time", wide: "6.8rem", text: (n) => seconds(c.time[n]), key: (n) => c.time[n] / 1e9 },
  sender: { head: "sender", wide: "4.2rem", text: (n) => c.sender[n], key: (n) => c.sender[n], shown: several("sender") },
  station: { head: "station", wide: "4.4rem", text: (n) => none(c.station[n]), key: (n) => c.station[n], shown: several("station") },
  queue: { head: "queue", wide: "4rem", text: (n) => none(c.queue[n]), key: (n) => c.queue[n], shown: several("queue") },
  band: { head: "band", wide: "3.4rem", text: (n) => none(c.band[n]), key: (n) => c.band[n], shown: about.units },
  dscp: { head: "DSCP", wide: "3.6rem", text: (n) => none(c.dscp[n]), key: (n) => c.dscp[n] === UNKNOWN ? -1 : c.dscp[n] },
  protocol: { head: "protocol", wide: "4.8rem", left: true, text: (n) => flows[c.flow[n]][0] || "", key: (n) => (protocolRanks = protocolRanks || ranks(flows.map((it) => it[0] || "")))[c.flow[n]], word: (n) => flows[c.flow[n]][0] || "" },
  source: { head: "from", wide: "minmax(9.6rem, 1fr)", left: true, text: (n) => sources[c.flow[n]], key: (n) => (sourceRanks = sourceRanks || ranks(sources))[c.flow[n]], word: (n) => flows[c.flow[n]][1] || "" },
  destination: { head: "to", wide: "minmax(9.6rem, 1fr)", left: true, text: (n) => destinations[c.flow[n]], key: (n) => (destinationRanks = destinationRanks || ranks(destinations))[c.flow[n]], word: (n) => flows[c.flow[n]][3] || "" },
  length: { head: "bytes", wide: "3.9rem", text: (n) => c.length[n], key: (n) => c.length[n] },
  fate: { head: "fate", wide: "6.9rem", left: true, text: (n) => `${kinds[c.fate[n]]} ${named(n)}`, key: (n) => c.fate[n] * 4294967296 + (c.fate[n] === SENT ? 0 : c.names[n]), word: (n) => kinds[c.fate[n]] },
  unit: { head: "unit", wide: "3.2rem", text: (n) => c.fate[n] === SENT ? c.names[n] : "", key: (n) => c.fate[n] === SENT ? c.names[n] : sortsLow, shown: about.units && about.many_units },
  serial: { head: about.units ? "serial" : "place", wide: "4.4rem", text: (n) => c.fate[n] === SENT ? c.serial[n] : "", key: (n) => c.fate[n] === SENT ? c.serial[n] : sortsLow },
  waited: { head: "waited", wide: "4.5rem", text: (n) => c.waited[n], key: (n) => c.waited[n], shown: known },
  seconds: { head: "waited s", wide: "5.8rem", text: (n) => seconds(waitedTime(n)), key: (n) => waitedTime(n) / 1e9, shown: known },
  after: { head: "after last", wide: "5rem", text: (n) => c.late[n] ? "yes" : "", key: (n) => c.late[n], shown: known && c.late.includes(1) },
};
// what can be compared besides
const MORE = {
  names: { key: (n) => c.fate[n] === SENT || named(n) === "" ? NaN : c.fate[n] === FULL ? c.names[n] + FIRST : c.names[n] },
  port: { either: (n) => [flows[c.flow[n]][2], flows[c.flow[n]][4]] },
  address: { either: (n) => [flows[c.flow[n]][1], flows[c.flow[n]][3]] },
};
const shown = Object.keys(COLUMNS).filter((name) => COLUMNS[name].shown !== false);

// FILTER AND ORDER

let order = Uint32Array.from({ length: COUNT }, (_, n) => n), sorted = { by: "number", down: false }, selected = -1;

function test(term) {
  const found = /^(\w+)(!=|=|<|>)(.*)$/.exec(term);
  if (!found) {
    const word = term.toLowerCase(), has = new Uint8Array(flows.length);
    flows.forEach((it, flow) => { has[flow] = [it[0], sources[flow], destinations[flow]].some((part) => part && part.toLowerCase().includes(word)); });
    return (n) => has[c.flow[n]] || kinds[c.fate[n]] === word;
  }
  const [, name, how, value] = found, of = COLUMNS[name] || MORE[name];
  if (!of) throw new Error(`no column is called ${name}`);
  const number = { yes: 1, no: 0 }[value] ?? (value === "" ? NaN : Number(value)), text = of.word || of.either;
  if (!text && Number.isNaN(number)) throw new Error(`${term}: ${name} is compared with a number`);
  if (of.either) return how === "=" ? (n) => of.either(n).some((it) => String(it) === value) : (n) => !of.either(n).some((it) => String(it) === value);
  if (of.word) return how === "!=" ? (n) => of.word(n) !== value : (n) => of.word(n) === value;
  return { "=": (n) => of.key(n) === number, "!=": (n) => of.key(n) !== number, "<": (n) => of.key(n) < number, ">": (n) => of.key(n) > number }[how];
}

function refresh() {
  const tests = [];
  $("wrong").textContent = "";
  try {
    for (const term of $("filter").value.split(/\s+/).filter(Boolean)) tests.push(test(term));
  } catch (fault) {
    $("wrong").textContent = fault.message;
    return;
  }
  for (const choice of $("choices").querySelectorAll("select")) if (choice.value !== "") {
    const wanted = Number(choice.value), of = c[choice.name];
    tests.push((n) => of[n] === wanted);
  }
  const found = new Uint32Array(COUNT);
  let many = 0;
  for (let n = 0; n < COUNT; n++) if (tests.every((is) => is(n))) found[many++] = n;
  order = found.subarray(0, many);
  if (sorted.by !== "number") {
    const key = COLUMNS[sorted.by].key, keys = new Float64Array(COUNT), sign = sorted.down ? -1 : 1;
    for (const n of order) keys[n] = key(n);
    // what has no value comes last either way
    order.sort((a, b) => (Number.isNaN(keys[a]) - Number.isNaN(keys[b])) || sign * (keys[a] - keys[b]) || a - b);
  } else if (sorted.down) order.reverse();
  $("found").textContent = many === COUNT ? `${COUNT} packets` : `${many} of ${COUNT} packets`;
  $("grid").setAttribute("aria-rowcount", many + 1);
  for (const it of $("head").children) it.setAttribute("aria-sort", it.dataset.name !== sorted.by ? "none" : sorted.down ? "descending" : "ascending");
  for (const it of $("head").querySelectorAll("button")) it.textContent = COLUMNS[it.name].head + (it.name !== sorted.by ? "" : sorted.down ? " ▾" : " ▴");
  $("space").style.height = `${Math.min(many * ROW, TALLEST) + 26}px`;
  $("grid").scrollTop = 0;
  draw();
}

// THE TABLE: only rows that are to be seen are there

const pool = [];
const visible = () => Math.ceil(($("grid").clientHeight - 26) / ROW);
const reach = () => Math.max($("space").offsetHeight - $("grid").clientHeight, 1);
const isScaled = () => order.length * ROW > TALLEST;
function topRow() {
  const most = Math.max(order.length - visible() + 1, 0), top = $("grid").scrollTop;
  return Math.min(isScaled() ? Math.round(top / reach() * most) : Math.floor(top / ROW), most);
}
function scrollTo(row) {
  const grid = $("grid"), many = visible() - 1, top = topRow();
  if (row >= top && row < top + many) return;
  const wanted = Math.max(row < top ? row : row - many + 1, 0), most = Math.max(order.length - visible() + 1, 1);
  grid.scrollTop = isScaled() ? wanted / most * reach() : wanted * ROW;
}
function draw() {
  const top = topRow(), many = Math.min(visible() + 1, order.length - top), body = $("body");
  while (pool.length < many) {
    const row = document.createElement("div");
    row.className = "row";
    row.setAttribute("role", "row");
    for (const name of shown) {
      const cell = document.createElement("span");
      cell.setAttribute("role", "gridcell");
      cell.className = (COLUMNS[name].left ? "left" : "") + (name === "fate" ? " fate" : "");
      row.append(cell);
    }
    pool.push(row);
    body.append(row);
  }
  body.style.transform = `translateY(${isScaled() ? $("grid").scrollTop : top * ROW}px)`;
  pool.forEach((row, place) => {
    row.hidden = place >= many;
    row.style.display = row.hidden ? "none" : "";
    if (row.hidden) return;
    const n = order[top + place];
    row.packet = n;
    row.setAttribute("aria-rowindex", top + place + 2);
    row.setAttribute("aria-selected", n === selected);
    row.id = `row${n}`;
    shown.forEach((name, at) => {
      const cell = row.children[at];
      cell.textContent = COLUMNS[name].text(n);
      if (name === "fate") cell.style.setProperty("--fate", c.fate[n] ? about.colours[kinds[c.fate[n]]] === "#000000" ? "var(--ink)" : about.colours[kinds[c.fate[n]]] : "transparent");
    });
  });
  if (selected >= 0) $("grid").setAttribute("aria-activedescendant", `row${selected}`);
}

// A PACKET'S WAY

const link = (n) => `<a href="#packet=${n + FIRST}" data-packet="${n}">${n + FIRST}</a>`;
const packets = (many) => many === 1 ? "1 packet" : `${many} packets`;
function clock(n) {
  if (Number.isNaN(c.time[n])) return "at an unknown time";
  const time = BigInt(about.start) + BigInt(Math.round(c.time[n])), second = 1000000000n, digits = about.digits;
  return `at ${time / second}.${String(time % second).padStart(9, "0").slice(0, digits)}, ${seconds(c.time[n])} s after the first`;
}
function waitingBefore(n) {
  let many = 0;
  for (let m = 0; m < n; m++) if (c.station[m] === c.station[n] && c.band[m] === c.band[n] && c.gone[m] > 2 * n) many++;
  return many;
}
let serials = null;
function neighbour(n, step) {
  if (!serials) {
    serials = new Map();
    for (let m = 0; m < COUNT; m++) if (c.fate[m] === SENT) serials.set(c.names[m] * 4294967296 + c.serial[m], m);
  }
  return serials.get(c.names[n] * 4294967296 + c.serial[n] + step);
}
function event(n) {
  return c.names[n] === HUNG ? "when the run ended: its device hangs" : `by ${about.events[c.names[n]]}`;
}
function sentWay(n, lines) {
  const before = neighbour(n, -1), after = neighbour(n, 1), place = c.serial[n] + 1;
  const near = [before === undefined ? "" : `after packet ${link(before)}`, after === undefined ? "" : `before packet ${link(after)}`].filter(Boolean).join(" and ");
  if (!about.units) return lines.push(`It was read: it is record ${place} of the capture that was written${near ? `, ${near}` : ""}.`);
  lines.push(`Unit ${c.names[n]} sent it with serial ${c.serial[n]}: it is record ${place} of what the unit sent${near ? `, ${near}` : ""}.`);
}
function waitWay(n) {
  const time = seconds(waitedTime(n)), came = `${packets(c.waited[n])} came meanwhile${time ? `, in ${time} s` : ""}`;
  if (c.late[n] && !c.ends) return `It waited until the capture ended: ${came}. It left after the last packet, when queues are opened until nothing is held.`;
  if (!didWait(n)) return "It didn't wait.";
  if (c.late[n]) return `It waited: ${came}. It left after the last packet had come, when its queue was opened.`;
  const last = n + c.waited[n];
  if (c.wait && c.gone[n] % 2) return `It waited: ${came}. It left once packet ${link(last)} had come, when its queue was opened.`;
  return `It waited: ${came}. It left ${c.gone[n] % 2 ? `when packet ${link(last)} had come` : `before packet ${link(last + 1)} came`}.`;
}
function way(n) {
  const flow = flows[c.flow[n]], kind = kinds[c.fate[n]], lines = [];
  const addresses = flow[0] === null ? "no IP header" : `${flow[0]} from ${sources[c.flow[n]]} to ${destinations[c.flow[n]]}, DSCP ${c.dscp[n]}`;
  lines.push(`It came ${clock(n)}, with ${c.length[n]} bytes: ${addresses}.`);
  if (about.units) {
    const waiting = known ? ` ${packets(waitingBefore(n))} of this band waited there.` : "";
    lines.push(`Sender ${c.sender[n]} brought it to band ${c.band[n]} of station ${c.station[n]}, whose device sends it on queue ${c.queue[n]}.${waiting}`);
  } else lines.push(`Sender ${c.sender[n]} brought it to the ring.`);
  if (kind === "full") {
    const taken = known && c.gone[c.names[n]] <= 2 * n + 1 ? " That packet was taken before, and its slot isn't emptied yet: slots are emptied in batches." : "";
    lines.push(`It was dropped: the ring was full, with packet ${link(c.names[n])} in the slot that it needed.${taken}`);
  } else if (kind === "lost") lines.push("The reader took it and gave it back, and the ring had no room left for it: it was lost.");
  else if (kind === "refused") lines.push(`It was dropped: its station was deactivated ${event(n)}.`);
  else if (known) lines.push(waitWay(n));
  if (kind === "shrunk") lines.push(`It was dropped, as the shorter ring had no room for it, ${event(n)}.`);
  if (kind === "purged") lines.push(`It was dropped while it was held, ${event(n)}.`);
  if (c.fate[n] === SENT) sentWay(n, lines);
  if (c.ends && c.fate[n] === SENT) lines.push(`Its frame had left the wire ${seconds(c.ends[n] - c.time[n])} s after it came.`);
  $("way").innerHTML = `<h3>Packet ${n + FIRST}: ${kind} ${named(n)}</h3><ol>${lines.map((it) => `<li>${it}</li>`).join("")}</ol>`;
}

// where a packet is in the pictures, from 0 to 1, and the packet that is there: by number, or by the time of the capture
const span = c.moment ? about.span : COUNT;
const across = (n) => (c.moment ? c.moment[n] : n + 0.5) / span;
function packetAt(at) {
  if (!c.moment) return Math.min(Math.max(Math.floor(at * COUNT), 0), COUNT - 1);
  let nearest = 0;
  for (let n = 0; n < COUNT; n++) if (Math.abs(across(n) - at) < Math.abs(across(nearest) - at)) nearest = n;
  return nearest;
}
function mark(n) {
  for (const picture of document.querySelectorAll("figure svg")) {
    let line = picture.querySelector(".mark");
    if (!line) {
      line = document.createElementNS(picture.namespaceURI, "line");
      line.setAttribute("class", "mark");
      picture.append(line);
    }
    const x = about.left + about.width * across(n);
    for (const [name, value] of [["x1", x], ["x2", x], ["y1", 64], ["y2", picture.viewBox.baseVal.height - 18]]) line.setAttribute(name, value);
  }
}
// its way is told below what it was chosen in: a box over the pictures would hide what they show
function choose(n, scroll = true, chosen = null) {
  if (!(n >= 0 && n < COUNT)) return;
  selected = n;
  $("jump").value = n + FIRST;
  way(n);
  if (chosen) {
    chosen.after($("way"));
    $("way").scrollIntoView({ block: "nearest" });
  }
  mark(n);
  const row = scroll ? order.indexOf(n) : -1;
  if (row >= 0) scrollTo(row);
  draw();
  try { history.replaceState(null, "", `#packet=${n + FIRST}`); } catch (fault) { /* a page in a frame */ }
}

// WHAT IS DONE

function key(event) {
  const grid = $("grid"), steps = { ArrowDown: 1, ArrowUp: -1, PageDown: visible() - 1, PageUp: 1 - visible(), Home: -Infinity, End: Infinity };
  if (event.key === "/" && !/^(INPUT|SELECT)$/.test(document.activeElement.tagName)) {
    $("filter").focus();
  } else if (event.key === "Escape") {
    clear();
  } else if (document.activeElement === grid && event.key in steps && order.length) {
    const at = order.indexOf(selected), wanted = at < 0 && Math.abs(steps[event.key]) < Infinity ? topRow() : at + steps[event.key];
    choose(order[Math.min(Math.max(wanted, 0), order.length - 1)], true, grid);
  } else return;
  event.preventDefault();
}
function clear() {
  $("filter").value = "";
  for (const it of $("choices").querySelectorAll("select")) it.value = "";
  refresh();
}
function choice(name, words) {
  const label = document.createElement("label"), select = document.createElement("select");
  select.name = name;
  select.append(new Option("any", ""), ...words.map(([value, word]) => new Option(word, value)));
  select.addEventListener("change", refresh);
  label.append(name, select);
  $("choices").append(label);
}
function begin() {
  const found = (name) => [...new Set(c[name])].sort((a, b) => a - b);
  choice("fate", found("fate").map((it) => [it, kinds[it]]));
  for (const name of ["sender", "station", "queue", "band"]) if (several(name)) choice(name, found(name).map((it) => [it, it]));
  $("grid").style.setProperty("--columns", shown.map((name) => COLUMNS[name].wide).join(" "));
  for (const name of shown) {
    const cell = document.createElement("span"), button = document.createElement("button");
    cell.setAttribute("role", "columnheader");
    cell.dataset.name = button.name = name;
    cell.className = COLUMNS[name].left ? "left" : "";
    button.type = "button";
    button.addEventListener("click", () => { sorted = { by: name, down: sorted.by === name && !sorted.down }; refresh(); });
    cell.append(button);
    $("head").append(cell);
  }
  $("names").textContent = [...shown, ...Object.keys(MORE)].join(", ");
  $("filter").addEventListener("input", refresh);
  $("clear").addEventListener("click", clear);
  $("jump").addEventListener("change", () => choose($("jump").value - FIRST, true, $("grid")));
  $("grid").addEventListener("scroll", draw, { passive: true });
  addEventListener("resize", draw);
  document.addEventListener("keydown", key);
  $("body").addEventListener("click", (event) => { const row = event.target.closest(".row"); if (row) choose(row.packet, false, $("grid")); });
  $("way").addEventListener("click", (event) => { const to = event.target.closest("a"); if (to) { event.preventDefault(); choose(Number(to.dataset.packet)); } });
  for (const picture of document.querySelectorAll("figure svg")) picture.addEventListener("click", (event) => {
    const box = picture.getBoundingClientRect(), x = (event.clientX - box.left) / box.width * picture.viewBox.baseVal.width;
    choose(packetAt((x - about.left) / about.width), true, picture.closest("figure"));
  });
  addEventListener("hashchange", fromHash);
  refresh();
  fromHash();
}
function fromHash() {
  const asked = /^#packet=(\d+)$/.exec(location.hash);
  if (asked) choose(asked[1] - FIRST);
}
begin();
