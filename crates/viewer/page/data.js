// The data of a run, or of two, and the place of each figure. Nothing here calculates a promise: the program gives shares and limits.
const began = performance.now();
const PHASES = ["roots", "marking", "sweeping", "moving"]; // bits 0 to 3 of the phases
const MARKS = ["", "evacuating", "target of moves", "evacuating, target of moves"];
const REASONS = { 1: "bad slot", 2: "null slot", 3: "bad index", 4: "wrong kind", 5: "too large", 6: "identities spent", 7: "no space",
  8: "bad static", 14: "not live", 15: "already live" };
const PAGE_WORDS = 2048;
const TABLES = ["samples", "quanta", "cycles", "windows", "shapes", "roots", "refused", "pages", "plans"];

/** A table of rows as a list for each column. */
function columns(rows) {
  const [names, ...items] = rows;
  return Object.fromEntries(names.map((name, i) => [name, items.map(row => row[i])]));
}

const element = id => document.getElementById(id);
const NONE = "\u2013"; // a dash
const number = n => n == null ? NONE : (typeof n === "string" ? BigInt(n) : n).toLocaleString("en-GB"); // a string may be beyond 2^53
const many = (n, one, more = one + "s") => `${number(n)} ${n === 1 ? one : more}`;
const share = (part, whole) => whole ? `${Math.floor(1000 * part / whole) / 10}\u00a0%` : NONE;
const permille = n => `${n / 10}\u00a0%`;
const clamp = (n, low, high) => Math.min(Math.max(n, low), high);
const greatest = list => list.reduce((a, b) => Math.max(a, b), 0);
const sum = list => list.reduce((a, b) => a + b, 0);
const blocksOf = size => Math.floor(PAGE_WORDS / size);
const phasesText = bits => PHASES.filter((_, i) => bits >> i & 1).join(", ") || "idle";

/** The index of the last item of a rising array that is at most a value, or -1. */
function lastAt(array, value) {
  let low = 0, high = array.length;
  while (low < high) {
    const middle = (low + high) >> 1;
    if (array[middle] <= value) low = middle + 1; else high = middle;
  }
  return low - 1;
}

/** A name of a file: each of its characters is a byte of the name in UTF-8. */
const nameOf = bytes => new TextDecoder().decode(Uint8Array.from(bytes, byte => byte.charCodeAt()));

/** A run: its tables by columns, and figures that several views show. */
class Run {
  constructor(script, i) {
    const data = JSON.parse(script.textContent), { settings, run, stride, live } = data;
    for (const name of TABLES) this[name] = data[name] && columns(data[name]);
    const [config, trace] = (data.files ?? []).map(nameOf), { samples, refused, pages } = this;
    Object.assign(this, { settings, run, stride, live, config, trace, end: i ? `-${i + 1}` : "", page: 0 });
    this.budget = settings.collector_ticks * settings.rate;
    this.mostPages = greatest(samples.most);
    this.mostAt = samples.line[samples.most.indexOf(this.mostPages)];
    this.usedAtEnd = pages.size.filter(size => size > 0).length;
    this.spaceRefused = refused.count[refused.number.indexOf(7)];
  }

  /** The run's own element of this name. */
  element(id) { return element(id + this.end); }

  sampleAt(line) { return Math.max(0, lastAt(this.samples.line, line)); }

  nextSample(i) { return this.samples.line[i + 1] ?? this.run.lines + 1; }

  /** The last line of a cycle, by the samples: that of its last sample with a phase, before the next cycle. */
  cycleEnd(i) {
    const { samples, cycles } = this, next = cycles.line[i + 1] ?? this.run.lines + 1;
    let at = this.sampleAt(cycles.line[i]) + 1;
    while (at < samples.line.length && samples.line[at] < next && samples.phases[at]) at++;
    return Math.min(next - 1, this.nextSample(at - 1));
  }

  /** The cycle that is running after a line, or -1. */
  cycleAt(line) {
    const i = lastAt(this.cycles.line, line);
    return i >= 0 && line <= this.cycleEnd(i) ? i : -1;
  }

  /** A page, in words. */
  pageText(page) {
    const size = this.pages.size[page], allocated = this.pages.allocated[page], mark = MARKS[this.pages.marks[page]];
    return `Page ${number(page)}: ` + (size ? `blocks of ${many(size, "word")}, ${allocated} of ${blocksOf(size)} allocated (${
      share(allocated, blocksOf(size))})${mark && ", " + mark}` : "free");
  }
}

const runs = [...document.querySelectorAll('script[type="application/json"]')].map((script, i) => new Run(script, i));
const lines = runs[0].run.lines; // of both: they have one trace
const state = { view: [0, 1], cursor: 0, pinned: false, shade: "fill" };
/** The greatest figure of the runs, so that both have one scale. */
const ofBoth = figure => greatest(runs.map(figure));

/** If there are two runs, each element that shows one gets a second of its kind below, and both get the name of their run. */
function showBoth() {
  for (const box of document.querySelectorAll(".of-run")) {
    for (const run of runs.slice(1)) {
      const copy = box.cloneNode(true);
      for (const node of [copy, ...copy.querySelectorAll("[id]")]) if (node.id) node.id += run.end;
      for (const node of copy.querySelectorAll("[aria-describedby]")) node.setAttribute("aria-describedby", node.getAttribute("aria-describedby") + run.end);
      box.after(copy);
      for (const [at, its] of [[box, runs[0]], [copy, run]]) {
        const name = document.createElement("h3");
        name.className = "run-name";
        name.textContent = its.config;
        at.prepend(name);
      }
    }
  }
}
showBoth();
