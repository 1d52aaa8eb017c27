// Key numbers, cycles, shapes, roots, settings, and the sentences that say what each picture shows.

/** Tells the sizes of the heaps, with the names of the files of two runs. */
function tellSubtitle() {
  const heaps = runs.map(({ config, settings }) =>
    `${config == null ? "" : config + ": "}${many(settings.pages, "page")} of 16 KB, ${many(settings.mutators, "mutator")}`);
  const [{ trace }] = runs;
  element("subtitle").textContent = heaps.join(". ") + (trace == null ? "" : `. Trace: ${trace}`);
}

function tellOverview(run) {
  const { settings, windows, shapes, samples, cycles, quanta, budget, spaceRefused, mostPages, mostAt, usedAtEnd } = run;
  const { made, commands, ticks, cycle_limit: limit } = run.run;
  const period = windows.ticks.findIndex(w => w >= settings.collector_ticks + settings.mutator_ticks);
  const w = period < 0 ? windows.ticks.length - 1 : period, held = sum(shapes.objects), last = samples.words.at(-1);
  const tiles = [
    ["Refused, no space", number(spaceRefused), spaceRefused ? "objects that found no room" : `${many(made, "object")} made`],
    ["Most pages in use", `${number(mostPages)} <span>of ${number(settings.pages)}</span>`,
      `first ${run.stride > 1 ? "in the lines from" : "after line"} ${number(mostAt)}`],
    ["Objects at the end", number(held), `${number(made)} made`],
    ["Words at the end", number(last), usedAtEnd ? `of allocated blocks, ${share(last, usedAtEnd * PAGE_WORDS)} of the pages in use`
      : "no page is in use"],
    ["Cycles", number(cycles.line.length), cycles.line.length ? `the most units ${number(greatest(cycles.units))}, limit ${
      number(limit)}` : "none was begun"],
    ["Longest quantum", `${number(greatest(quanta.units))} <span>units</span>`, `${many(quanta.units.length, "quantum", "quanta")}; budget ${
      number(budget)}`],
    ["Least utilisation", w < 0 ? NONE : permille(windows.least[w]), w < 0 ? "no ticks have passed"
      : `of ${many(windows.ticks[w], "tick")}; promised ${permille(windows.promised[w])}`],
    ["Lines", number(lines), `${many(commands, "command")}, ${many(ticks, "tick")}`],
  ];
  run.element("tiles").innerHTML = tiles.map(([name, value, more], i) =>
    `<div${i === 0 && spaceRefused ? ' class="bad"' : ""}><dt>${name}</dt><dd>${value}<small>${more}</small></dd></div>`).join("");
}

function show(run, id, is) {
  for (const part of ["-chart", "-table", "-legend"].map(part => run.element(id + part)).filter(part => part)) part.hidden = !is;
}

/** Tells what each picture of a run shows. */
function tellTexts(run) {
  const { windows, samples, cycles, quanta, plans, budget, spaceRefused, mostPages, stride } = run, { ticks } = run.run;
  const count = cycles.line.length, quantaCount = quanta.units.length;
  const text = (id, words) => { run.element(id + "-text").textContent = words; };
  text("timeline", `${spaceRefused ? `${many(spaceRefused, "object")} ${spaceRefused === 1 ? "was" : "were"} refused for lack of space. `
    : "No object was refused for lack of space. "}${many(lines, "line")} in ${many(ticks, "tick")}: at most ${
    many(mostPages, "page")}, ${many(greatest(samples.blocks), "block")} and ${many(greatest(samples.words), "word")} allocated. ${
    stride > 1 ? `A sample is of ${number(stride)} event lines in a row: blocks and words are those at the first of them.` : ""}`);
  text("cycles", count ? "A row is a cycle. Its number zooms the run to it; a head sorts." : "No cycle was begun.");
  const below = windows.ticks.filter((_, i) => windows.least[i] < windows.promised[i]).length;
  text("utilisation", windows.ticks.length ? `The least share that mutators had of any window of so many ticks, beside what the schedule
    promises. ${below ? `${below} of these windows are` : "No window is"} below the promise. A window of another length may have less
    than its neighbours.` : "No ticks have passed, so no window is known.");
  text("quanta", quantaCount ? `${many(quantaCount, "quantum", "quanta")} that found a cycle running spent ${
    many(sum(quanta.units), "unit")}; the longest ${number(greatest(quanta.units))}. The line is the budget, ${
    number(budget)}; the colour is the phase that a quantum found.` : "No quantum found a cycle running.");
  show(run, "utilisation", windows.ticks.length);
  show(run, "quanta", quantaCount);
  element("plans").hidden = document.querySelector('nav a[href="#plans"]').hidden = !plans;
  if (plans) text("plans", `Of a heap with ${number(run.live)} live words that paces itself: words for each quantum of ${
    many(budget, "unit")}, and beside a dot the units for a word.`);
}

const COLUMNS = { at: "Cycle", line: "Line", quanta: "Quanta", units: "Units", longest: "Longest", freed: "Freed", blocks: "Blocks",
  kept: "Kept", moved: "Moved", before: "Free before", after: "Free after", made: "Made" };

function tellCycles(run) {
  const { cycles } = run, order = run.order ??= { by: "at", down: false, shown: 100 };
  const names = Object.keys(COLUMNS), column = order.by === "at" ? [...cycles.line.keys()] : cycles[order.by];
  const rows = [...cycles.line.keys()].sort((a, b) => (order.down ? -1 : 1) * ((column[a] ?? -1) - (column[b] ?? -1)) || a - b);
  const way = order.down ? "descending" : "ascending", sign = order.down ? " \u25bc" : " \u25b2";
  const head = names.map(name => `<th scope="col"${name === order.by ? ` aria-sort="${way}"` : ""}>
    <button type="button" data-by="${name}">${COLUMNS[name]}${name === order.by ? sign : ""}</button></th>`).join("");
  const row = i => `<tr data-cycle="${i}"><td><button type="button" class="link" aria-label="Zoom to cycle ${i + 1}">${i + 1}</button></td>${
    names.slice(1).map(name => `<td>${number(cycles[name][i])}</td>`).join("")}</tr>`;
  const body = () => `<thead><tr>${head}</tr></thead><tbody>${rows.slice(0, order.shown).map(row).join("")}</tbody>`;
  run.element("cycles-table").innerHTML = rows.length ? body() : "";
  run.element("all").hidden = rows.length <= order.shown;
  run.element("all").textContent = `Show all ${number(rows.length)}`;
  markCycle(run);
}

/** Marks the row of the cycle at the cursor. */
function markCycle(run) {
  const rows = run.element("cycles-table");
  rows.querySelector("tr.here")?.classList.remove("here");
  rows.querySelector(`tr[data-cycle="${run.cycleAt(state.cursor)}"]`)?.classList.add("here");
}

function listenCycles(run) {
  const { order } = run, rows = run.element("cycles-table");
  rows.addEventListener("click", event => {
    const by = event.target.closest("th button")?.dataset.by, row = event.target.closest("tr[data-cycle]");
    if (by) {
      Object.assign(order, { down: order.by === by ? !order.down : by !== "at" && by !== "line", by });
      tellCycles(run);
      rows.querySelector(`button[data-by="${by}"]`).focus();
    } else if (row) {
      zoomToCycle(run, Number(row.dataset.cycle));
      element("timeline").scrollIntoView();
    }
  });
  run.element("all").onclick = () => { order.shown = Infinity; tellCycles(run); };
}

function tellShapes(run) {
  const { shapes } = run, rows = [...shapes.refs.keys()].sort((a, b) => shapes.block_words[b] - shapes.block_words[a] || a - b);
  const most = greatest(shapes.block_words), first = rows.slice(0, 200);
  run.element("shapes-text").textContent = `At the end of the run: ${many(rows.length, "shape")}, ${many(sum(shapes.objects), "object")}. What no root reaches
    counts until it is swept.${rows.length > 200 ? " The 200 shapes that take most words are shown." : ""}`;
  run.element("shapes-table").innerHTML = table(["References", "Words", "Objects", "Parts", "Words of blocks", ""], first.map(i =>
    [...["refs", "words", "objects", "parts", "block_words"].map(name => number(shapes[name][i])), meter(shapes.block_words[i] / most)]));
}

/** Tells which roots own the live objects: the report by root. */
function tellRoots(run) {
  const { roots } = run, count = roots.objects.length, [most] = roots.words;
  const name = i => roots.static[i] == null ? `slot ${number(roots.mutator[i])} ${number(roots.slot[i])}` : `static ${number(roots.static[i])}`;
  run.element("roots-text").textContent = `At the end of the run: ${many(sum(roots.objects), "live object")}, ${
    many(sum(roots.words), "word")} of their blocks. Each counts for its owner: of the nearest roots, the first.${
    count > 200 ? " The 200 roots that own most words are shown." : ""}`;
  run.element("roots-table").innerHTML = table(["Root", "Objects", "Words of blocks", ""], roots.objects.slice(0, 200).map((objects, i) =>
    [name(i), number(objects), number(roots.words[i]), meter(roots.words[i] / most)]));
}

function tellSettings(run) {
  const { settings, budget, refused } = run;
  run.element("settings-list").innerHTML = pairs([...Object.entries(settings).map(([key, value]) => [key, number(value)]),
    ["budget of a quantum, units", number(budget)], ["a cycle, units at most", number(run.run.cycle_limit)],
    ...refused.number.map((n, i) => [`refused ${n}: ${REASONS[n]}`, number(refused.count[i])])]);
}
