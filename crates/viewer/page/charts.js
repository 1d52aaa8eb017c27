// Utilisation over windows, quanta in their order, plans. Nothing is drawn between windows or plans: the values there may be lower.
const said = (x, y, text, anchor = "middle") => `<text x="${x}" y="${y}" text-anchor="${anchor}">${escaped(text)}</text>`;
/** A frame with a grid: `across` and `up` are lists of [position from 0 to 1, text]. */
function frame(width, height, across, up, name) {
  const from = 54, right = width - 26, top = 10, low = height - 38;
  const x = part => from + 8 + part * (right - from - 8), y = part => low - part * (low - top);
  const lines = up.map(([part, text]) => `<path d="M${from} ${y(part)}H${right}" stroke="var(--grid)"/>${
    said(from - 7, y(part) + 4, text, "end")}`);
  const back = lines.join("") + across.map(([part, text]) => said(x(part), low + 17, text)).join("")
    + said((from + right) / 2, height - 4, name);
  return { x, y, back };
}
const scale = (most, count) => steps(0, most, count).map(n => [n / most, short(n)]);

function windowText(windows, i) {
  return `Of any ${many(windows.ticks[i], "tick")} mutators had ${permille(windows.least[i])} at least; promised ${
    permille(windows.promised[i])}`;
}

function utilisationChart({ windows }, width, height) {
  const { ticks, least, promised } = windows, part = w => Math.log10(w) / end;
  const last = ofBoth(run => greatest(run.windows.ticks)), end = Math.log10(Math.max(2, last));
  const powers = Array.from({ length: Math.floor(end) + 1 }, (_, i) => [i / end, short(10 ** i)]);
  if (1 - powers.at(-1)[0] > .12) powers.push([1, short(last)]);
  const up = [0, .2, .4, .6, .8, 1].map(p => [p, 100 * p + " %"]);
  const { x, y, back } = frame(width, height, powers, up, "ticks of the window");
  const points = ticks.map((w, i) => [x(part(w)), y(least[i] / 1000), y(promised[i] / 1000)]);
  return back + points.map(([x, y, by], i) => `<g><title>${windowText(windows, i)}</title>
      <rect x="${x - 8}" y="10" width="16" height="${height - 48}" fill="transparent"/>
      <rect x="${x - 5}" y="${by - 5}" width="10" height="10" fill="none" stroke="var(--refused)" stroke-width="1.6"/>
      <circle cx="${x}" cy="${y}" r="3.2" fill="var(--pages)"/></g>`).join("");
}

/** Quanta in their order, with a bar for each. If they are many, a bar stands for several in a row, and shows the longest. */
function quantaChart({ quanta, budget }, width, height) {
  const most = Math.max(ofBoth(run => greatest(run.quanta.budget)), 1) * 1.06, count = ofBoth(run => run.quanta.units.length);
  const { x, y, back } = frame(width, height, scale(count, width / 90), scale(most, 5), "quanta");
  const step = Math.max(1, Math.ceil(count / (width - 80))), bars = [];
  for (let i = 0; i < quanta.units.length; i += step) {
    const units = quanta.units.slice(i, i + step), high = greatest(units), wide = Math.max(1, x(step / count) - x(0) - 1);
    bars.push(`<g><title>${step > 1 ? `Quanta ${number(i + 1)} to ${number(i + units.length)}: at most` : `Quantum ${number(i + 1)}:`} ${
      many(high, "unit")} of ${number(quanta.budget[i])}, found ${phasesText(quanta.phase[i])}, after ${
      many(quanta.commands[i], "command")}</title><rect x="${x(i / count)}" y="${y(high / most)}" width="${wide}"
      height="${y(0) - y(high / most)}" fill="var(--${phasesText(quanta.phase[i])})"/></g>`);
  }
  return back + bars.join("") + `<path d="M62 ${y(budget / most)}H${width - 26}" stroke="var(--text)" stroke-dasharray="4 3"/>`;
}

function plansChart({ plans }, width, height) {
  const most = Math.max(1, ofBoth(run => greatest(run.plans.words))) * 1.12, wide = ofBoth(run => greatest(run.plans.pages)) * 1.05;
  const { x, y, back } = frame(width, height, scale(wide, width / 90), scale(most, 6), "pages");
  const points = plans.pages.map((count, i) => [x(count / wide), y((plans.words[i] ?? 0) / most), plans.words[i] != null]);
  return back + points.map(([px, py, is], i) => `<g><title>${number(plans.pages[i])} pages: ${
    is ? `${number(plans.words[i])} words for each quantum` : "no plan"}</title>${
    is ? `<path d="M${px} ${y(0)}V${py}" stroke="var(--live)" stroke-width="2"/>
    <circle cx="${px}" cy="${py}" r="4.5" fill="var(--live)"/>${said(px - 8, py - 7, (plans.tenths[i] / 10).toFixed(1), "end")}`
    : `<path d="M${px - 5} ${py - 5}l10 10m0-10l-10 10" stroke="var(--refused)" stroke-width="2"/>${
      said(px - 4, py - 14, "no plan", "start")}`}</g>`).join("");
}

/** Makes the pictures of a run. */
function makeCharts(run) {
  const make = (id, name, draw) => chart(run.element(id), name, (width, height) => draw(run, width, height));
  if (run.windows.ticks.length) make("utilisation-chart", "Least utilisation of windows, and what is promised", utilisationChart);
  if (run.quanta.units.length) make("quanta-chart", "Units of the quanta, in their order", quantaChart);
  if (run.plans) make("plans-chart", "Words for a quantum, by the number of pages", plansChart);
}

/** Makes the tables of these pictures and of the map of pages. */
function makeTables(run) {
  const { windows, quanta, plans, pages } = run;
  tableIn(run.element("utilisation-table"), ["Ticks", "Least share", "Promised share"], () => windows.ticks.map((w, i) =>
    [number(w), permille(windows.least[i]), permille(windows.promised[i])]));
  tableIn(run.element("quanta-table"), ["Quantum", "After commands", "Units", "Budget", "Phase"], () => quanta.units.slice(0, 1000).map((units, i) =>
    [number(i + 1), number(quanta.commands[i]), number(units), number(quanta.budget[i]), phasesText(quanta.phase[i])]));
  if (plans) tableIn(run.element("plans-table"), ["Pages", "Words for a quantum", "Tenths of a unit for a word"], () => plans.pages.map((_, i) =>
    [plans.pages, plans.words, plans.tenths].map(column => number(column[i]))));
  run.pagesTable = tableIn(run.element("pages-table"), ["Page", "Block size", "Allocated", "Of", "Marks"], () =>
    [...pages.size.keys()].filter(page => pages.size[page]).map(page =>
      [number(page), pages.size[page], pages.allocated[page], blocksOf(pages.size[page]), MARKS[pages.marks[page]]]));
}
