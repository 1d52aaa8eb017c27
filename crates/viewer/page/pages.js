// The map of the pages at the end of the run, and the figures of its block sizes.

/** Finds how many pages stand in a row, so that all fit in some height and each square is as large as possible. */
function layOut(count, width) {
  const margin = width < 560 ? 0 : 44;
  let best = null;
  for (const columns of [4, 8, 12, 16, 20, 24, 32, 48, 64, 80, 96, 112, 128]) {
    const cell = clamp(Math.floor((width - margin) / columns), 3, 48);
    const fits = Math.ceil(count / columns) * cell <= 560 && columns * cell <= width - margin;
    if (!best || fits && (!best.fits || cell === best.cell && columns < count + 4)) best = { columns, cell, margin, fits };
  }
  return best;
}

function drawPages(run) {
  const { settings, pages } = run, map = run.element("map"), width = map.parentElement.clientWidth, focus = document.activeElement === map;
  const key = [width, state.shade, run.page, focus, ink.panel].join();
  if (key === run.drawn) return;
  run.drawn = key;
  run.grid = layOut(settings.pages, width);
  const { columns, cell, margin } = run.grid, rows = Math.ceil(settings.pages / columns), gap = cell > 7 ? 1 : .5, inner = cell - gap;
  const pen = surface(map, width, rows * cell + 2), band = cell > 24 ? 4 : cell > 10 ? 2.5 : 1.5;
  const shades = Array.from({ length: 17 }, (_, i) => between(ink["shade-low"], ink["shade-high"], i / 16));
  pen.textBaseline = "middle";
  for (let page = 0; page < settings.pages; page++) {
    const x = margin + page % columns * cell, y = Math.floor(page / columns) * cell, size = pages.size[page],
      mark = pages.marks[page];
    if (size) {
      const part = state.shade === "size" ? Math.log2(size / 4) / 6 : pages.allocated[page] / blocksOf(size);
      pen.fillStyle = shades[Math.ceil(16 * part)];
      pen.fillRect(x, y, inner, inner);
      if (cell >= 26) label(pen, size, x + inner / 2, y + inner / 2, part > .5 ? "shade-ink" : "text", "center");
    }
    const line = mark ? band : gap;
    pen.strokeStyle = ink[mark & 1 ? "evacuating" : mark ? "target" : "line"];
    pen.lineWidth = line;
    if (!size || mark) pen.strokeRect(x + line / 2, y + line / 2, inner - line, inner - line);
    if (!(mark & 1) || cell < 8) continue;
    pen.fillStyle = ink.evacuating; // a corner too, for readers who can't tell the colours apart
    pen.beginPath(); pen.moveTo(x + cell * .55, y); pen.lineTo(x + inner, y); pen.lineTo(x + inner, y + cell * .45); pen.fill();
  }
  pen.strokeStyle = ink.accent;
  pen.lineWidth = 3;
  if (focus) pen.strokeRect(margin + run.page % columns * cell, Math.floor(run.page / columns) * cell + .5, inner, inner);
  const every = Math.max(1, Math.ceil(15 / cell));
  if (margin) for (let row = 0; row < rows; row += every) label(pen, number(row * columns), margin - 7, (row + .5) * cell, "soft", "right");
  tellPages(run);
}

/** For each block size, in rising order: its pages, the blocks allocated, and the blocks that there are. */
function bySize(pages) {
  const sizes = new Map();
  pages.size.forEach((size, page) => {
    if (!size) return;
    const [count, held, blocks] = sizes.get(size) ?? [0, 0, 0];
    sizes.set(size, [count + 1, held + pages.allocated[page], blocks + blocksOf(size)]);
  });
  return [...sizes].sort((a, b) => a[0] - b[0]);
}

function tellPages(run) {
  const { settings, pages, usedAtEnd } = run, marked = bit => pages.marks.filter(mark => mark & bit).length, rows = bySize(pages);
  const moving = [[marked(1), "page being evacuated", "pages being evacuated"], [marked(2), "target of moves", "targets of moves"]];
  const text = `At the end of the run: ${number(usedAtEnd)} of ${many(settings.pages, "page")} in use, ${
    number(settings.pages - usedAtEnd)} free${moving.map(([count, one, more]) => count ? ", " + many(count, one, more) : "").join("")}.`;
  run.element("pages-text").textContent = text;
  run.element("map").ariaLabel = "Map of the pages. " + text;
  const free = sum(rows.map(([size, [, held, blocks]]) => size * (blocks - held)));
  const foot = rows.length ? `${number(free)} words in free blocks (${share(free, PAGE_WORDS * usedAtEnd)} of the pages in use)`
    : "No page is in use.";
  run.element("sizes").innerHTML = table(["Words", "Pages", "Blocks", "Filled"], rows.map(([size, [count, held, blocks]]) =>
    [size, number(count), number(held), meter(held / blocks)])) + `<tfoot><tr><td colspan="4">${foot}</td></tr></tfoot>`;
  const what = state.shade === "fill" ? "few to all blocks allocated" : "blocks of 4 to 256 words";
  run.element("pages-legend").innerHTML = `<li><i class="scale"></i>${what}</li><li><i class="free"></i>free</li>${settings.defrag_pages
    ? '<li><i class="evacuating"></i>evacuating</li><li><i class="target"></i>target of moves</li>' : ""}${
    run.grid.cell >= 26 ? "<li>number: words of a block</li>" : ""}`;
  run.pagesTable();
}

function setShade(shade) {
  state.shade = shade;
  press("shades", "shade", shade);
  redraw(false);
}

function listenPages(run) {
  const { settings } = run, map = run.element("map");
  map.addEventListener("pointermove", event => {
    const { grid } = run, box = map.getBoundingClientRect(), column = Math.floor((event.clientX - box.left - grid.margin) / grid.cell);
    const page = Math.floor((event.clientY - box.top) / grid.cell) * grid.columns + column;
    tip(column >= 0 && column < grid.columns && page < settings.pages ? run.pageText(page) : "", event);
  });
  map.addEventListener("pointerleave", event => tip("", event));
  for (const kind of ["focus", "blur"]) map.addEventListener(kind, () => redraw(false));
  map.addEventListener("keydown", event => {
    const by = { ArrowRight: 1, ArrowLeft: -1, ArrowDown: run.grid.columns, ArrowUp: -run.grid.columns }[event.key];
    if (!by) return;
    event.preventDefault();
    run.page = clamp(run.page + by, 0, settings.pages - 1);
    run.element("page-told").textContent = run.pageText(run.page);
    redraw(false);
  });
}
