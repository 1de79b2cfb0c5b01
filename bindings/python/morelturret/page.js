"use strict";
// What the page does. The picture of cells, lines and crossings is drawn once for a view and put onto `base`; while one drags or zooms that picture is
// moved and scaled, and a new one is drawn when the hand rests, a little at a time, so that the hand is never held up. The axes, what is chosen and what
// is under the pointer are drawn onto `over`, at once.

const about = JSON.parse(document.getElementById("about").textContent);
const element = (id) => document.getElementById(id);
const base = element("base"), over = element("over");
const KINDS = ["apart", "cross", "touch", "overlap"];
const LEFT = 64, BOTTOM = 48, TOP = 12, RIGHT = 14; // room for the axes
const MOST_DOTS = 3000, NEAR = 26, LARGEST_DOT = 9, RESTS = 90, SLICE = 10; // the last two in milliseconds
const count = (n, what) => `${n.toLocaleString("en")} ${what}${n === 1 ? "" : "s"}`;

const data = {}; // the arrays, by name
const view = { low_x: 0, high_x: 1, low_y: 0, high_y: 1 };
let whole = { ...view }, drawn = { ...view }; // the view of everything, and the one that `base` shows
let chosen = null, pointer = null, resting = 0, wide = 0, high = 0, ratio = 1, cells = null, drawing = 0;

// ---- the arrays

async function unpacked([name, type]) {
  const text = atob(element("array-" + name).textContent), bytes = new Uint8Array(text.length);
  for (let i = 0; i < text.length; i++) bytes[i] = text.charCodeAt(i);
  const stream = new Blob([bytes]).stream().pipeThrough(new DecompressionStream("deflate"));
  const kinds = { float64: Float64Array, uint32: Uint32Array, uint8: Uint8Array };
  data[name] = new kinds[type](await new Response(stream).arrayBuffer());
}

// ---- from values to the paper and back

const across = () => (wide - LEFT - RIGHT) / (view.high_x - view.low_x);
const up = () => (high - TOP - BOTTOM) / (view.high_y - view.low_y);
const toX = (x) => LEFT + (x - view.low_x) * across();
const toY = (y) => high - BOTTOM - (y - view.low_y) * up();
const fromX = (x) => view.low_x + (x - LEFT) / across();
const fromY = (y) => view.low_y + (high - BOTTOM - y) / up();

function bounds() {
  let low_x = Infinity, high_x = -Infinity, low_y = Infinity, high_y = -Infinity;
  for (const [xs, ys] of [[data.start_x, data.start_y], [data.end_x, data.end_y]])
    for (let i = 0; i < xs.length; i++) {
      low_x = Math.min(low_x, xs[i]); high_x = Math.max(high_x, xs[i]);
      low_y = Math.min(low_y, ys[i]); high_y = Math.max(high_y, ys[i]);
    }
  if (!about.lines) [low_x, high_x, low_y, high_y] = [0, 1, 0, 1];
  const margin = (low, high) => (high - low) * 0.03 || Math.max(Math.abs(low), 1) * 0.05;
  const x = margin(low_x, high_x), y = margin(low_y, high_y);
  return { low_x: low_x - x, high_x: high_x + x, low_y: low_y - y, high_y: high_y + y };
}

// ---- lists

const cellAt = (x, y) => {
  const g = about.grid;
  if (!g || !g.cols) return null;
  const column = Math.floor((x - g.min_x) / g.width), row = Math.floor((y - g.min_y) / g.height);
  return column < 0 || row < 0 || column >= g.cols || row >= g.rows ? null : { row, column };
};
const listOf = ({ row, column }) => {
  const cell = row * about.grid.cols + column;
  return data.items.subarray(data.offsets[cell], data.offsets[cell + 1]);
};
const lists = (list, line) => {
  let low = 0, top = list.length;
  while (low < top) { const middle = (low + top) >> 1; if (list[middle] < line) low = middle + 1; else top = middle; }
  return list[low] === line;
};

// The cells that list a line are within the box of its ends, a cell more on each side.
function cellsOf(line) {
  const g = about.grid, found = [];
  if (!g || !g.cols) return found;
  const clamp = (v, most) => Math.max(0, Math.min(most - 1, v));
  const column = [data.start_x[line], data.end_x[line]].map((x) => Math.floor((x - g.min_x) / g.width));
  const row = [data.start_y[line], data.end_y[line]].map((y) => Math.floor((y - g.min_y) / g.height));
  for (let r = clamp(Math.min(...row) - 1, g.rows); r <= clamp(Math.max(...row) + 1, g.rows); r++)
    for (let c = clamp(Math.min(...column) - 1, g.cols); c <= clamp(Math.max(...column) + 1, g.cols); c++)
      if (lists(listOf({ row: r, column: c }), line)) found.push({ row: r, column: c });
  return found;
}

// The cells as a picture of one point a cell, shaded by a factor from one shade to the next.
function shaded() {
  const g = about.grid;
  if (!g || !g.cols) { element("shading").hidden = true; return; }
  let longest = 0;
  for (let c = 0; c < g.cols * g.rows; c++) longest = Math.max(longest, data.offsets[c + 1] - data.offsets[c]);
  const many = Math.min(about.shades.length, longest), colours = about.shades.slice(0, many);
  const reach = colours.map((_, k) => Math.round(longest ** ((k + 1) / many)));
  const picture = new ImageData(g.cols, g.rows);
  for (let r = 0; r < g.rows; r++)
    for (let c = 0; c < g.cols; c++) {
      const length = data.offsets[r * g.cols + c + 1] - data.offsets[r * g.cols + c];
      if (!length) continue;
      const at = 4 * ((g.rows - 1 - r) * g.cols + c), grey = parseInt(colours[reach.findIndex((most) => length <= most)].slice(1, 3), 16);
      picture.data.set([grey, grey, grey, 255], at);
    }
  cells = document.createElement("canvas");
  cells.width = g.cols; cells.height = g.rows;
  cells.getContext("2d").putImageData(picture, 0, 0);
  element("shades").innerHTML = colours.map((colour) => `<i style="background:${colour}"></i>`).join("");
  element("shades-ends").innerHTML = `<span>1</span><span>${longest.toLocaleString("en")}</span>`;
}

// ---- drawing

const inTime = (line) => line >= +element("from").value && line <= +element("to").value;

// Draws onto a canvas of its own, with pauses, and gives up where the view has moved on meanwhile.
async function drawBase() {
  const mine = ++drawing, sheet = document.createElement("canvas"), pen = sheet.getContext("2d");
  sheet.width = base.width; sheet.height = base.height;
  pen.setTransform(ratio, 0, 0, ratio, 0, 0);
  let since = performance.now();
  const stale = async () => {
    if (performance.now() - since < SLICE) return false;
    await new Promise((go) => setTimeout(go));
    since = performance.now();
    return mine !== drawing;
  };
  drawCells(pen);
  if (await drawLines(pen, stale) || await drawCrossings(pen, stale)) return;
  base.getContext("2d").clearRect(0, 0, base.width, base.height);
  base.getContext("2d").drawImage(sheet, 0, 0);
  drawn = { ...view };
  base.style.transform = "";
  document.body.dataset.drawn = mine;
}

function drawCells(pen) {
  if (!cells) return;
  const g = about.grid, x = toX(g.min_x), y = toY(g.min_y + g.rows * g.height);
  pen.imageSmoothingEnabled = false;
  pen.drawImage(cells, x, y, g.cols * g.width * across(), g.rows * g.height * up());
  const width = g.width * across(), height = g.height * up();
  if (Math.min(width, height) < 9) return;
  pen.strokeStyle = "#fff"; pen.lineWidth = 1; pen.beginPath();
  for (let c = Math.max(0, Math.floor((view.low_x - g.min_x) / g.width)); c <= g.cols && toX(g.min_x + c * g.width) <= wide; c++) {
    const at = toX(g.min_x + c * g.width); pen.moveTo(at, 0); pen.lineTo(at, high);
  }
  for (let r = Math.max(0, Math.floor((view.low_y - g.min_y) / g.height)); r <= g.rows && toY(g.min_y + r * g.height) >= 0; r++) {
    const at = toY(g.min_y + r * g.height); pen.moveTo(0, at); pen.lineTo(wide, at);
  }
  pen.stroke();
}

// A line is drawn where its box is in view, some of one colour at a time.
async function drawLines(pen, stale) {
  const { start_x, start_y, end_x, end_y } = data, many = about.times.length, inView = [];
  const from = +element("from").value, to = +element("to").value;
  for (let i = from; i <= to && i < about.lines; i++) {
    if (Math.max(start_x[i], end_x[i]) < view.low_x || Math.min(start_x[i], end_x[i]) > view.high_x) continue;
    if (Math.max(start_y[i], end_y[i]) < view.low_y || Math.min(start_y[i], end_y[i]) > view.high_y) continue;
    inView.push(i);
  }
  pen.lineWidth = inView.length > 20000 ? 0.5 : inView.length > 3000 ? 0.9 : 1.4;
  const colour = (i) => Math.floor((i * many) / about.lines);
  for (let at = 0; at < inView.length; ) {
    const k = colour(inView[at]);
    pen.strokeStyle = about.times[k]; pen.beginPath();
    for (let last = -2, some = 0; some < 1000 && at < inView.length && colour(inView[at]) === k; at++, some++) {
      const i = inView[at];
      if (last !== i - 1 || !data.follows[i]) pen.moveTo(toX(start_x[i]), toY(start_y[i]));
      pen.lineTo(toX(end_x[i]), toY(end_y[i]));
      last = i;
    }
    pen.stroke();
    if (await stale()) return true;
  }
  return false;
}

// Few crossings in view are dots; of many, dots grow with how many are near.
async function drawCrossings(pen, stale) {
  const { cross_x, cross_y, first, second } = data, inView = [], from = +element("from").value, to = +element("to").value;
  if (!cross_x) return false;
  for (let k = 0; k < cross_x.length; k++) {
    const inside = cross_x[k] >= view.low_x && cross_x[k] <= view.high_x && cross_y[k] >= view.low_y && cross_y[k] <= view.high_y;
    if (inside && first[k] >= from && second[k] <= to) inView.push(k);
    if (k % 65536 === 65535 && await stale()) return true;
  }
  pen.fillStyle = "rgba(255,255,255,0.85)"; pen.strokeStyle = "#000"; pen.lineWidth = 1;
  const dot = (x, y, radius) => { pen.beginPath(); pen.arc(x, y, radius, 0, 7); pen.fill(); pen.stroke(); };
  if (inView.length <= MOST_DOTS) { for (const k of inView) dot(toX(cross_x[k]), toY(cross_y[k]), 3); return stale(); }
  const groups = new Map();
  for (let n = 0; n < inView.length; n++) {
    if (n % 65536 === 65535 && await stale()) return true;
    const k = inView[n], x = toX(cross_x[k]), y = toY(cross_y[k]), at = Math.floor(x / NEAR) * 10000 + Math.floor(y / NEAR);
    const group = groups.get(at) || { x: 0, y: 0, many: 0 };
    group.x += x; group.y += y; group.many++;
    groups.set(at, group);
  }
  const most = Math.max(...[...groups.values()].map((group) => group.many));
  for (const { x, y, many } of groups.values()) dot(x / many, y / many, Math.max(LARGEST_DOT * Math.sqrt(many / most), 0.8));
  return stale();
}

function ticks(low, top, most) {
  const least = (top - low) / most, power = Math.floor(Math.log10(least));
  const size = [1, 2, 5, 10].map((m) => m * 10 ** power).find((s) => s >= least * 0.999999), found = [];
  for (let k = Math.ceil(low / size); k * size <= top; k++) found.push([k * size, (k * size).toFixed(Math.max(0, -Math.floor(Math.log10(size) + 1e-9))).slice(0, 12)]);
  return found;
}

// The axes, over whatever reaches into their margins.
function drawAxes(pen) {
  pen.fillStyle = "#fff";
  for (const margin of [[0, 0, LEFT, high], [0, high - BOTTOM, wide, BOTTOM], [0, 0, wide, TOP], [wide - RIGHT, 0, RIGHT, high]]) pen.fillRect(...margin);
  pen.strokeStyle = pen.fillStyle = "#222"; pen.lineWidth = 1; pen.font = "12px sans-serif";
  pen.beginPath(); pen.moveTo(LEFT, TOP); pen.lineTo(LEFT, high - BOTTOM); pen.lineTo(wide - RIGHT, high - BOTTOM);
  pen.textAlign = "center"; pen.textBaseline = "top";
  for (const [value, text] of ticks(view.low_x, view.high_x, Math.max(2, wide / 120))) {
    pen.moveTo(toX(value), high - BOTTOM); pen.lineTo(toX(value), high - BOTTOM + 5); pen.fillText(text, toX(value), high - BOTTOM + 8);
  }
  pen.fillText(about.labels[0], (LEFT + wide) / 2, high - 18);
  pen.textAlign = "right"; pen.textBaseline = "middle";
  for (const [value, text] of ticks(view.low_y, view.high_y, Math.max(2, high / 70))) {
    pen.moveTo(LEFT, toY(value)); pen.lineTo(LEFT - 5, toY(value)); pen.fillText(text, LEFT - 8, toY(value));
  }
  pen.stroke();
  pen.save(); pen.translate(12, (high - BOTTOM) / 2); pen.rotate(-Math.PI / 2); pen.textAlign = "center"; pen.fillText(about.labels[1], 0, 0); pen.restore();
}

function drawOver() {
  const pen = over.getContext("2d");
  pen.setTransform(ratio, 0, 0, ratio, 0, 0);
  pen.clearRect(0, 0, wide, high);
  pen.save();
  pen.beginPath(); pen.rect(LEFT, TOP, wide - LEFT - RIGHT, high - TOP - BOTTOM); pen.clip();
  const box = ({ row, column }) => {
    const g = about.grid;
    pen.rect(toX(g.min_x + column * g.width), toY(g.min_y + (row + 1) * g.height), g.width * across(), g.height * up());
  };
  const stroke = (from, to, colour, width) => {
    pen.strokeStyle = colour; pen.lineWidth = to - from > 600 ? width / 2 : width; // a long loop is drawn with a thinner pen: that is quicker
    pen.lineJoin = to - from > 600 ? "bevel" : "round"; pen.lineCap = "round"; pen.beginPath();
    for (let i = from; i <= to; i++) {
      if (i === from || !data.follows[i]) pen.moveTo(toX(data.start_x[i]), toY(data.start_y[i]));
      pen.lineTo(toX(data.end_x[i]), toY(data.end_y[i]));
    }
    pen.stroke();
  };
  if (chosen && chosen.cells) { pen.fillStyle = "rgba(0,114,178,0.22)"; pen.strokeStyle = "#0072b2"; pen.lineWidth = 1; pen.beginPath(); chosen.cells.forEach(box); pen.fill(); pen.stroke(); }
  if (chosen && chosen.loop) stroke(chosen.first, chosen.second, "rgba(0,158,115,0.45)", 5);
  if (chosen) for (const line of chosen.lines) { stroke(line, line, "#fff", 6); stroke(line, line, "#000", 3); }
  if (chosen && chosen.x !== undefined) { pen.fillStyle = "#fff"; pen.strokeStyle = "#000"; pen.lineWidth = 2.5; pen.beginPath(); pen.arc(toX(chosen.x), toY(chosen.y), 6, 0, 7); pen.fill(); pen.stroke(); }
  const cell = pointer && cellAt(fromX(pointer.x), fromY(pointer.y));
  if (cell) { pen.strokeStyle = "#0072b2"; pen.lineWidth = 2; pen.beginPath(); box(cell); pen.stroke(); }
  pen.restore();
  drawAxes(pen);
}

// ---- what is said

const place = (x, y) => `${+x.toPrecision(9)}, ${+y.toPrecision(9)}`;
const legText = (i) => `line ${i}: ${place(data.start_x[i], data.start_y[i])} to ${place(data.end_x[i], data.end_y[i])}`;
const paragraphs = (...said) => said.map((text) => `<p>${text}</p>`).join("");
const listText = (list) => [...list.slice(0, 400)].join(" ") + (list.length > 400 ? ` and ${list.length - 400} more` : "");

function sayUnder() {
  if (!pointer) { element("under").innerHTML = paragraphs("nothing"); return; }
  const x = fromX(pointer.x), y = fromY(pointer.y), cell = cellAt(x, y), said = [place(x, y)];
  if (cell) { const list = listOf(cell); said.push(`row ${cell.row}, column ${cell.column}: ${count(list.length, "line")}`, listText(list)); }
  else if (about.grid) said.push("outside the grid");
  element("under").innerHTML = paragraphs(...said);
}

function sayChosen() {
  if (!chosen) element("chosen").innerHTML = paragraphs("nothing");
  else if (chosen.x !== undefined) {
    const said = [`crossing at ${place(chosen.x, chosen.y)}: ${KINDS[chosen.kind]}`, ...chosen.lines.map(legText)];
    said.push(chosen.loop ? `the loop between them: ${count(chosen.second - chosen.first + 1, "leg")}` : "the two are of different chains");
    element("chosen").innerHTML = paragraphs(...said);
  } else {
    const line = chosen.lines[0], global = data.globals && data.globals.includes(line);
    element("chosen").innerHTML = paragraphs(legText(line), global ? "a global line: it is in no list" : about.grid ? `in ${count(chosen.cells.length, "cell")} (row, column):` : "",
      chosen.cells.slice(0, 200).map(({ row, column }) => `(${row}, ${column})`).join(" "));
  }
}

// ---- choosing

function distance(px, py, i) {
  const ax = toX(data.start_x[i]), ay = toY(data.start_y[i]), dx = toX(data.end_x[i]) - ax, dy = toY(data.end_y[i]) - ay;
  const share = dx || dy ? Math.max(0, Math.min(1, ((px - ax) * dx + (py - ay) * dy) / (dx * dx + dy * dy))) : 0;
  return Math.hypot(px - ax - share * dx, py - ay - share * dy);
}

function crossingAt(px, py) {
  let best = -1, least = 8;
  for (let k = 0; data.cross_x && k < data.cross_x.length; k++) {
    const far = Math.hypot(toX(data.cross_x[k]) - px, toY(data.cross_y[k]) - py);
    if (far < least && inTime(data.first[k]) && inTime(data.second[k])) { best = k; least = far; }
  }
  return best;
}

function lineAt(px, py) {
  let best = -1, least = 6;
  for (let i = +element("from").value; i < about.lines && i <= +element("to").value; i++) {
    const far = distance(px, py, i);
    if (far < least) { best = i; least = far; }
  }
  return best;
}

function choose(px, py) {
  const k = crossingAt(px, py), line = k < 0 ? lineAt(px, py) : -1;
  chosen = null;
  if (k >= 0) {
    const first = data.first[k], second = data.second[k];
    let loop = true; // one chain from the first leg to the second
    for (let i = first + 1; i <= second && loop; i++) loop = !!data.follows[i];
    chosen = { first, second, lines: [first, second], x: data.cross_x[k], y: data.cross_y[k], kind: data.kind[k], loop };
  } else if (line >= 0) chosen = { lines: [line], cells: cellsOf(line) };
  sayChosen(); drawOver();
}

// ---- the hand

// Till the hand rests, what was drawn is moved and scaled.
function moved() {
  const x = (wide - LEFT - RIGHT) / (drawn.high_x - drawn.low_x), y = (high - TOP - BOTTOM) / (drawn.high_y - drawn.low_y);
  const a = across() / x, d = up() / y, e = LEFT + (drawn.low_x - view.low_x) * across() - a * LEFT;
  const f = high - BOTTOM - (drawn.low_y - view.low_y) * up() - d * (high - BOTTOM);
  base.style.transformOrigin = "0 0";
  base.style.transform = `matrix(${a}, 0, 0, ${d}, ${e}, ${f})`;
  drawOver(); sayUnder();
  drawing++; // a picture that is being drawn is of no use any more
  clearTimeout(resting);
  resting = setTimeout(drawBase, RESTS);
}

function zoom(px, py, factor) {
  const x = fromX(px), y = fromY(py);
  if ((view.high_x - view.low_x) * factor < Math.abs(x) * 1e-13 || (view.high_x - view.low_x) * factor > (whole.high_x - whole.low_x) * 20) return;
  for (const [low, top, at] of [["low_x", "high_x", x], ["low_y", "high_y", y]]) { view[low] = at + (view[low] - at) * factor; view[top] = at + (view[top] - at) * factor; }
  moved();
}

function shift(dx, dy) {
  const x = dx / across(), y = dy / up();
  view.low_x -= x; view.high_x -= x; view.low_y += y; view.high_y += y;
  moved();
}

function resize() {
  const box = element("plot").getBoundingClientRect();
  wide = box.width; high = box.height; ratio = window.devicePixelRatio || 1;
  for (const canvas of [base, over]) { canvas.width = Math.round(wide * ratio); canvas.height = Math.round(high * ratio); }
  drawBase(); drawOver();
}

function hands() {
  let held = null;
  const at = (event) => { const box = over.getBoundingClientRect(); return { x: event.clientX - box.left, y: event.clientY - box.top }; };
  over.addEventListener("pointerdown", (event) => { held = { ...at(event), far: 0 }; over.setPointerCapture(event.pointerId); });
  over.addEventListener("pointermove", (event) => {
    pointer = at(event);
    if (held) { held.far += Math.hypot(pointer.x - held.x, pointer.y - held.y); if (held.far > 3) shift(pointer.x - held.x, pointer.y - held.y); held.x = pointer.x; held.y = pointer.y; }
    else drawOver();
    sayUnder();
  });
  over.addEventListener("pointerup", (event) => { if (held && held.far <= 3) choose(at(event).x, at(event).y); held = null; });
  over.addEventListener("pointerleave", () => { pointer = null; sayUnder(); drawOver(); });
  over.addEventListener("wheel", (event) => { event.preventDefault(); zoom(at(event).x, at(event).y, Math.exp(event.deltaY * 0.0015)); }, { passive: false });
  over.addEventListener("keydown", (event) => {
    const steps = { ArrowLeft: [60, 0], ArrowRight: [-60, 0], ArrowUp: [0, 60], ArrowDown: [0, -60] };
    if (steps[event.key]) shift(...steps[event.key]);
    else if (event.key === "+") zoom(wide / 2, high / 2, 0.7);
    else if (event.key === "-") zoom(wide / 2, high / 2, 1 / 0.7);
    else if (event.key === "Escape") { chosen = null; sayChosen(); drawOver(); }
  });
  element("whole").onclick = () => { Object.assign(view, whole); drawBase(); drawOver(); };
  element("none").onclick = () => { chosen = null; sayChosen(); drawOver(); };
  for (const id of ["from", "to"]) element(id).oninput = () => {
    const other = element(id === "from" ? "to" : "from");
    if (+element("from").value > +element("to").value) other.value = element(id).value;
    times(); clearTimeout(resting); resting = setTimeout(drawBase, 15);
  };
  new ResizeObserver(() => requestAnimationFrame(resize)).observe(element("plot"));
}

function times() {
  for (const id of ["from", "to"]) element(`${id}-said`).textContent = (+element(id).value).toLocaleString("en");
}

async function start() {
  await Promise.all(about.arrays.map(unpacked));
  for (const id of ["from", "to"]) element(id).max = Math.max(about.lines - 1, 0);
  element("to").value = Math.max(about.lines - 1, 0);
  element("times").innerHTML = about.times.map((colour) => `<i style="background:${colour}"></i>`).join("");
  element("times-ends").innerHTML = `<span>0</span><span>${Math.max(about.lines - 1, 0).toLocaleString("en")}</span>`;
  times();
  whole = bounds(); Object.assign(view, whole);
  shaded();
  const g = about.grid, held = data.first ? data.first.length : 0, said = [count(about.lines, "line")];
  said.push(g ? `${g.cols} by ${g.rows} cells` : "in several builds, so no cells are shown", count(about.found, "crossing") + (held < about.found ? `, of which ${held.toLocaleString("en")} are shown` : ""));
  element("said").textContent = said.join("; ");
  hands(); // with them comes the first drawing, since the size is then seen for the first time
}

window.addEventListener("error", (event) => { element("trouble").textContent = event.message; });
start().catch((problem) => { element("trouble").textContent = typeof DecompressionStream === "undefined" ? "this browser is too old: it has no DecompressionStream" : String(problem); throw problem; });
