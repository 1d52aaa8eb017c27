// The run from left to right: rows of one axis, a cursor over them, and a strip of the whole run. Rows of two runs that show the same
// have one scale, and stand one above the other.
const plot = element("plot"), strip = element("strip"), GAP = 30, FOOT = 24, STRIP = 38;
/** The most pages that a row of a run shows. */
function topPages({ mostPages, settings: { pages } }) {
  return Math.max(1, mostPages * 2 < pages ? Math.ceil(mostPages * 1.2) : pages);
}
const [high, middle, low] = runs.length > 1 ? [84, 77, 63] : [120, 110, 90];
const KINDS = [
  { title: run => `Pages in use, of ${number(run.settings.pages)}`, height: high, most: topPages, column: "most", name: "pages", draw: drawUse },
  { title: () => "Words", height: middle, most: run => Math.max(1, run.mostPages) * PAGE_WORDS, column: "words", name: "words", draw: drawWords },
  { title: () => "Blocks allocated", height: low, most: run => Math.max(1, greatest(run.samples.blocks)), column: "blocks", name: "objects",
    draw: drawLine },
  { title: () => "Phases", height: 56, most: () => 0, draw: drawPhases },
];
const ROWS = KINDS.flatMap(kind => runs.map(run => ({
  ...kind, run, title: kind.title(run) + (run.config == null ? "" : ` \u2013 ${run.config}`), most: ofBoth(kind.most), column: run.samples[kind.column],
})));
let left = 62, width = 0, bottom = 0;

const toX = line => left + (line - state.view[0]) / (state.view[1] - state.view[0]) * (width - left);
const fromX = x => state.view[0] + (x - left) / (width - left) * (state.view[1] - state.view[0]);
const lineOf = x => clamp(Math.floor(fromX(x)), 0, lines);
const yOf = (row, n) => row.y + row.height * (1 - Math.min(1, n / row.most));
const shown = (run, column) => column.slice(run.range[0], run.range[1] + 1);
const heights = (row, column) => shown(row.run, column).map(n => yOf(row, n));
function drawTracks() {
  width = plot.clientWidth;
  left = width < 560 ? 50 : 62;
  bottom = -4;
  for (const row of ROWS) { row.y = bottom + GAP; bottom = row.y + row.height; }
  plot.style.height = bottom + FOOT + "px";
  const pen = surface(element("tracks"), width, bottom + FOOT);
  for (const run of runs) {
    run.range = state.view.map(line => run.sampleAt(line));
    run.edges = [...shown(run, run.samples.line), run.nextSample(run.range[1])].map(toX);
  }
  pen.strokeStyle = ink.grid;
  for (const at of steps(...state.view, width / 110)) {
    const x = Math.round(toX(at)) + .5;
    pen.strokeRect(x, ROWS[0].y, 0, bottom - ROWS[0].y + 4);
    label(pen, at ? short(at) : "0 lines", at ? x : x + 12, bottom + 18, "soft", x > width - 24 ? "right" : "center");
  }
  for (const row of ROWS) drawRow(pen, row);
}

/** Draws a row with its title and its numbers. */
function drawRow(pen, row) {
  label(pen, row.title, left, row.y - 9, "text");
  for (const value of steps(0, row.most, row.height / 24)) {
    const y = Math.round(row.most ? yOf(row, value) : row.y + row.height) + .5;
    pen.strokeRect(left, y, width - left, 0);
    if (row.most) label(pen, short(value), left - 7, y + 4, "soft", "right");
  }
  if (row.draw === drawWords && (runs.length === 1 || width >= 560)) drawKey(pen, row);
  pen.save();
  pen.beginPath(); pen.rect(left, row.y - 2, width - left, row.height + 4); pen.clip();
  row.draw(pen, row);
  pen.restore();
  if (row.draw === drawPhases) namePhases(pen, row);
}

/** Shows the meaning of the marks of a row of words. */
function drawKey(pen, row) {
  let x = width;
  for (const [name, text, high] of [["words", "of allocated blocks", 3], ["pages-most", "of pages in use", 9]]) {
    label(pen, text, x, row.y - 9, "soft", "right");
    x -= pen.measureText(text).width + 32;
    pen.fillStyle = ink[name];
    pen.fillRect(x + 14, row.y - 13 - high / 2, 12, high);
  }
}

/** Names the lanes of a row of phases. */
function namePhases(pen, row) {
  const font = pen.font;
  if (width < 560) pen.font = FONT.replace("11.5", "9");
  PHASES.forEach((name, i) => label(pen, name, left - 5, row.y + i * 14 + 10, "soft", "right"));
  pen.font = font;
}

function drawLine(pen, row) {
  pen.lineWidth = 1.6;
  pen.strokeStyle = ink[row.name];
  stepped(pen, row.run.edges, heights(row, row.column));
}
function drawUse(pen, row) {
  const { edges, samples } = row.run;
  for (const [name, column] of [["pages-most", samples.most], ["pages-least", samples.least]]) {
    pen.fillStyle = ink[name];
    stepped(pen, edges, heights(row, column), row.y + row.height);
  }
  drawLine(pen, row);
}
function drawWords(pen, row) {
  const { edges, samples } = row.run;
  pen.fillStyle = ink["pages-most"];
  stepped(pen, edges, shown(row.run, samples.most).map(n => yOf(row, n * PAGE_WORDS)), row.y + row.height);
  drawLine(pen, row);
}
function drawPhases(pen, row) {
  const { edges, samples, range } = row.run;
  PHASES.forEach((name, phase) => {
    pen.fillStyle = ink[name];
    for (let i = range[0], from = null; i <= range[1] + 1; i++) {
      const on = i <= range[1] && samples.phases[i] >> phase & 1, x = edges[i - range[0]];
      if (on) from ??= x;
      else if (from != null) { pen.fillRect(from, row.y + phase * 14 + 1, Math.max(1.5, x - from), 11); from = null; }
    }
  });
}

/** Draws the cursor, and the part that is being dragged over. */
function drawOver() {
  const pen = surface(element("over"), width, bottom + FOOT), x = Math.round(toX(state.cursor)) + .5;
  if (x >= left && x <= width) {
    pen.strokeStyle = ink.text;
    pen.setLineDash(state.pinned ? [] : [3, 3]);
    pen.strokeRect(x, ROWS[0].y, 0, bottom - ROWS[0].y + 4);
    pen.setLineDash([]);
    pen.strokeStyle = ink.panel;
    for (const row of ROWS.filter(row => row.column)) {
      pen.fillStyle = ink[row.name];
      pen.beginPath(); pen.arc(x, yOf(row, row.column[row.run.sampleAt(state.cursor)]), 4, 0, 7); pen.fill(); pen.stroke();
    }
  }
  if (!drag.to) return;
  pen.fillStyle = ink.accent;
  pen.globalAlpha = .18;
  pen.fillRect(drag.from, ROWS[0].y, drag.to - drag.from, bottom - ROWS[0].y + 4);
}

/** Draws the pages in use of the whole run in small, those of a second run as a line, with a frame around the part in view. */
function drawStrip() {
  const pen = surface(strip, width, STRIP), x = line => left + line / (lines + 1) * (width - left);
  const [from, to] = state.view.map(x), most = ofBoth(topPages);
  pen.fillStyle = ink.grid;
  pen.fillRect(left, 0, width - left, STRIP);
  pen.fillStyle = ink["pages-least"];
  pen.strokeStyle = ink.pages;
  for (const { samples, end } of runs) {
    stepped(pen, [...samples.line, lines + 1].map(x), samples.most.map(n => STRIP - 32 * n / most), end ? null : STRIP);
  }
  pen.strokeStyle = ink.accent;
  pen.lineWidth = 2;
  pen.strokeRect(from + 1, 1, Math.max(3, to - from - 2), STRIP - 2);
}

/** The values of a run at the cursor, each with its name. */
function atCursor(run) {
  const i = run.sampleAt(state.cursor), cycle = run.cycleAt(state.cursor), { samples, settings } = run;
  const upto = (a, b) => a < b ? `${number(a)} to ${number(b)}` : number(a);
  return [["Lines", upto(samples.line[i], run.nextSample(i) - 1)], ["Phases", phasesText(samples.phases[i])],
    ["Cycle", cycle < 0 ? "none" : number(cycle + 1)], ["Pages in use", upto(samples.least[i], samples.most[i])],
    ["Free pages", number(settings.pages - samples.most[i])], ["Blocks allocated", number(samples.blocks[i])],
    ["Words allocated", number(samples.words[i])],
    ["Of the pages in use", share(samples.words[i], samples.least[i] * PAGE_WORDS)]];
}
function tellCursor() {
  element("where").textContent = state.pinned ? "At the kept cursor" : "At the cursor";
  for (const run of runs) run.element("readout").innerHTML = pairs(atCursor(run));
  plot.ariaValueNow = state.cursor;
  plot.ariaValueText = runs.map(run => [...run.config == null ? [] : [["Run", run.config]], ...atCursor(run)]
    .map(([name, value]) => `${name} ${value}`).join(", ")).join("; ");
}

/** Tells about the part of a run that is in view. */
function tellView(run) {
  const { samples, cycles, range } = run;
  const inside = [...cycles.line.keys()].filter(i => cycles.line[i] >= state.view[0] && cycles.line[i] <= state.view[1]);
  const of = column => number(sum(inside.map(i => column[i] ?? 0)));
  run.element("in-view").innerHTML = pairs([["Lines", `${number(samples.line[range[0]])} to ${number(Math.min(lines, run.nextSample(range[1]) - 1))}`],
    ["Most pages", number(greatest(shown(run, samples.most)))], ["Most words", number(greatest(shown(run, samples.words)))],
    ["Cycles begun", number(inside.length)], ["Their quanta", of(cycles.quanta)], ["Their units", of(cycles.units)],
    ["Objects freed", of(cycles.freed)]]);
}

const timelineTables = runs.map(run => tableIn(run.element("timeline-table"), ["Line", "Pages, least", "Pages, most", "Blocks", "Words allocated", "Phases"], () => {
  const { range, samples } = run, { line, least, most, blocks, words } = samples, rows = [];
  for (let i = range[0], step = Math.max(1, Math.ceil((range[1] - range[0]) / 100)); i <= range[1]; i += step) {
    rows.push([...[line, least, most, blocks, words].map(column => number(column[i])), phasesText(samples.phases[i])]);
  }
  return rows;
}));
