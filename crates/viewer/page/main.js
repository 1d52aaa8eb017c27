// Makes all views once. Afterwards only changed views are drawn again.

tellSubtitle();
for (const run of runs) {
  tellOverview(run);
  tellTexts(run);
  tellCycles(run);
  tellShapes(run);
  tellRoots(run);
  tellSettings(run);
  makeCharts(run);
  makeTables(run);
}
plot.ariaValueMax = lines;
state.view = [0, lines + 1];
setShade("fill");
redraw(true);
setCursor(lines);
listen();
for (const run of runs) {
  listenPages(run);
  listenCycles(run);
}
for (const button of element("shades").children) button.onclick = () => setShade(button.dataset.shade);
matchMedia("(prefers-color-scheme: dark)").addEventListener("change", () => redraw(true));
window.addEventListener("resize", () => redraw(true));
requestAnimationFrame(() => requestAnimationFrame(() => {
  Object.assign(document.body.dataset, { began: Math.round(began), ready: Math.round(performance.now()) }); // for the test
}));
