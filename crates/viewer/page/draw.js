// Drawing: the theme's colours, canvases, scales, small pictures in SVG, tables.
const FONT = '11.5px system-ui, "Segoe UI", "DejaVu Sans", sans-serif';
const ink = {};
function readColours() {
  const style = getComputedStyle(document.documentElement);
  for (const name of ("text soft line grid panel accent pages pages-most pages-least words live objects refused roots marking "
    + "sweeping moving evacuating target shade-low shade-high shade-ink").split(" ")) ink[name] = style.getPropertyValue("--" + name).trim();
}

/** Clears a canvas of this size in CSS pixels, and returns its pen. The screen may have more or fewer pixels. */
function surface(canvas, width, height) {
  const ratio = window.devicePixelRatio || 1;
  canvas.width = Math.round(width * ratio);
  canvas.height = Math.round(height * ratio);
  canvas.style.height = height + "px";
  const pen = canvas.getContext("2d");
  pen.scale(ratio, ratio);
  pen.font = FONT;
  return pen;
}

/** Writes text on a canvas. */
function label(pen, text, x, y, name, align = "left") {
  pen.fillStyle = ink[name];
  pen.textAlign = align;
  pen.fillText(text, x, y);
}
/** Draws values as steps between edges, of which there is one more than values. If there is a base, fills the area down to it. */
function stepped(pen, edges, values, base) {
  pen.beginPath();
  values.forEach((y, i) => { pen.lineTo(edges[i], y); pen.lineTo(edges[i + 1], y); });
  if (base == null) return pen.stroke();
  pen.lineTo(edges.at(-1), base);
  pen.lineTo(edges[0], base);
  pen.fill();
}

/** Round numbers from low to high, about as many as asked for: steps of 1, 2, 5, 10 and so on. */
function steps(low, high, about) {
  const raw = Math.max((high - low) / Math.max(1, about), 1), power = 10 ** Math.floor(Math.log10(raw));
  const step = power * ([1, 2, 5].find(k => k * power >= raw) ?? 10), list = [];
  for (let at = Math.ceil(low / step) * step; at <= high; at += step) list.push(at);
  return list;
}

/** A number in few letters: 1200000 is 1.2 M. */
function short(n) {
  const [unit, name] = [[1e9, " G"], [1e6, " M"], [1e3, " k"]].find(([unit]) => n >= Math.max(unit, 1e4)) ?? [];
  return unit ? +(n / unit).toPrecision(4) + name : number(n);
}

/** A colour between two, all #rrggbb. */
function between(low, high, part) {
  const byte = i => Math.round(parseInt(low.slice(i, i + 2), 16) * (1 - part) + parseInt(high.slice(i, i + 2), 16) * part);
  return `rgb(${byte(1)},${byte(3)},${byte(5)})`;
}

const escaped = text => String(text).replace(/[&<>"]/g, letter => `&#${letter.charCodeAt()};`);
const pairs = list => list.map(([name, value]) => `<div><dt>${escaped(name)}</dt><dd>${value}</dd></div>`).join("");
const meter = part => `<i class="meter"><i style="width:${(100 * part).toFixed(1)}%"></i></i>`;
const table = (heads, rows) => `<thead><tr>${heads.map(head => `<th scope="col">${head}</th>`).join("")}</tr></thead><tbody>${
  rows.map(row => `<tr>${row.map(cell => `<td>${cell}</td>`).join("")}</tr>`).join("")}</tbody>`;
const press = (id, key, value) => { for (const button of element(id).children) button.ariaPressed = button.dataset[key] === value; };

/** Makes a table when its <details> is opened. Returns the function that makes it anew. */
function tableIn(box, heads, rows) {
  const place = box.appendChild(document.createElement("div"));
  place.className = "scroll";
  const renew = () => { if (box.open) place.innerHTML = `<table>${table(heads, rows())}</table>`; };
  box.addEventListener("toggle", renew);
  return renew;
}

/** Draws a picture in SVG for the width of its box, and draws it anew if the width changes. */
function chart(box, name, draw, height = 270) {
  let drawn = 0;
  new ResizeObserver(() => {
    const width = Math.floor(box.clientWidth);
    if (width === drawn || !width) return;
    drawn = width;
    box.innerHTML = `<svg viewBox="0 0 ${width} ${height}" height="${height}" role="img" aria-label="${name}">${draw(width, height)}</svg>`;
  }).observe(box);
}

/** Shows the small box beside the pointer. */
function tip(text, event) {
  const box = element("tip");
  box.hidden = !text;
  box.textContent = text;
  box.style.left = clamp(event.clientX + 14, 4, window.innerWidth - box.offsetWidth - 8) + "px";
  box.style.top = clamp(event.clientY + 16, 4, window.innerHeight - box.offsetHeight - 8) + "px";
}
