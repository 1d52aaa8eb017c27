// Zooming, moving and the cursor, by pointer and keys.

let drag = {}, queued = null;
/** Draws again what changed, once for each frame: everything, or only the views of the cursor. */
function redraw(all) {
  if (queued) { queued.all ||= all; return; }
  queued = { all };
  requestAnimationFrame(() => {
    if (queued.all) {
      readColours(); drawTracks(); drawStrip();
      runs.forEach(tellView);
      for (const renew of timelineTables) renew();
    }
    queued = null;
    drawOver();
    tellCursor();
    runs.forEach(drawPages);
    runs.forEach(markCycle);
  });
}

function setView(from, to) {
  const whole = lines + 1, span = clamp(to - from, Math.min(8, whole), whole), start = clamp(from, 0, whole - span);
  state.view = [start, start + span];
  redraw(true);
}
const spanOf = () => state.view[1] - state.view[0];
const isWhole = () => spanOf() > lines;
const showWhole = () => setView(0, lines + 1);
const moveBy = part => setView(state.view[0] + part * spanOf(), state.view[1] + part * spanOf());
const moveTo = line => setView(line - spanOf() / 2, line + spanOf() / 2);
function zoom(factor, around = (state.view[0] + state.view[1]) / 2) {
  setView(around - (around - state.view[0]) * factor, around + (state.view[1] - around) * factor);
}
function setCursor(line) {
  state.cursor = clamp(Math.round(line), 0, lines);
  if (state.cursor < state.view[0] || state.cursor > state.view[1]) moveTo(state.cursor);
  redraw(false);
}
function zoomToCycle(run, i) {
  const from = run.cycles.line[i], to = run.cycleEnd(i), rest = Math.max(4, (to - from) / 4);
  state.pinned = true;
  setView(from - rest, to + rest);
  setCursor(from);
}
/** Zooms to a cycle of the first run: the next one after the cursor, or the one before. */
function nextCycle(by) {
  const [run] = runs, i = lastAt(run.cycles.line, state.cursor) + by;
  if (i >= 0 && i < run.cycles.line.length) zoomToCycle(run, i);
}

const keys = {
  ArrowRight: by => by, ArrowLeft: by => -by, ArrowUp: by => by, ArrowDown: by => -by, PageUp: () => 50, PageDown: () => -50,
  Home: () => -Infinity, End: () => Infinity, // these return how many samples the cursor moves
  "+": () => zoom(.6, state.cursor), "=": () => zoom(.6, state.cursor), "-": () => zoom(1 / .6, state.cursor),
  0: showWhole, Escape: () => { state.pinned = false; showWhole(); },
  "]": () => nextCycle(1), "[": () => nextCycle(-1),
};

const xOf = (event, box = plot) => clamp(event.clientX - box.getBoundingClientRect().left, left, width);
/** Zooms by the wheel, or moves if it goes sideways. If the whole run is in view, the page scrolls in place of zooming out. */
function onWheel(event) {
  if (isWhole() && event.deltaY > 0) return;
  event.preventDefault();
  if (Math.abs(event.deltaX) > Math.abs(event.deltaY)) moveBy(event.deltaX / (width - left));
  else zoom(Math.exp(clamp(event.deltaY, -300, 300) / 400), fromX(xOf(event)));
}
function onDown(event) {
  if (event.button !== 0) return;
  drag = { from: xOf(event), last: xOf(event), moves: event.shiftKey, down: true };
  if (event.pointerType === "mouse") plot.setPointerCapture(event.pointerId);
}
function onMove(event) {
  const x = xOf(event);
  if (drag.moves) { moveBy((drag.last - x) / (width - left)); drag.last = x; }
  else if (drag.down && event.pointerType === "mouse") { if (Math.abs(x - drag.from) > 4) { drag.to = x; redraw(false); } }
  else if (!state.pinned) { state.cursor = lineOf(x); redraw(false); }
}
function onUp(event) {
  const { from, to, moves, down } = drag, y = event.clientY - plot.getBoundingClientRect().top;
  drag = {};
  if (!down || moves) return;
  if (to) return setView(fromX(Math.min(from, to)), fromX(Math.max(from, to)));
  for (const row of ROWS.filter(row => row.draw === drawPhases && y >= row.y - 4 && y <= row.y + 60)) {
    const cycle = lastAt(row.run.cycles.line, lineOf(from + 8));
    if (cycle >= 0 && row.run.cycleEnd(cycle) >= lineOf(from - 8)) return zoomToCycle(row.run, cycle);
  }
  state.pinned = !state.pinned || Math.abs(toX(state.cursor) - from) > 6;
  setCursor(lineOf(xOf(event)));
}
function onKey(event) {
  if (event.ctrlKey || event.metaKey || !keys[event.key]) return;
  event.preventDefault();
  const by = keys[event.key](event.shiftKey ? 10 : 1);
  if (by == null) return;
  state.pinned = true;
  const [run] = runs, { line } = run.samples;
  setCursor(line[clamp(run.sampleAt(state.cursor) + by, 0, line.length - 1)]);
}

function listen() {
  plot.addEventListener("wheel", onWheel, { passive: false });
  plot.addEventListener("pointerdown", onDown);
  plot.addEventListener("pointermove", onMove);
  plot.addEventListener("pointerup", onUp);
  plot.addEventListener("dblclick", showWhole);
  plot.addEventListener("keydown", onKey);
  const slide = event => moveTo((xOf(event, strip) - left) / (width - left) * (lines + 1));
  strip.addEventListener("pointerdown", event => { strip.setPointerCapture(event.pointerId); slide(event); });
  strip.addEventListener("pointermove", event => { if (event.buttons) slide(event); });
  element("in").onclick = () => zoom(.5);
  element("out").onclick = () => zoom(2);
  element("whole").onclick = showWhole;
  new ResizeObserver(() => { if (plot.clientWidth !== width) redraw(true); }).observe(plot);
}
