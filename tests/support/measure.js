// What is wrong with how a page of wire_up-report looks, as lines: tests run these functions in it.

// --- where things stand ---

function findFigures() {
  return [...document.querySelectorAll("figure svg:not(.swatch)")];
}

// All that goes past the page, or past or over something else.
function measurePage(width) {
  const said = [];
  if (!document.querySelector("header h1")) return ["there is no verdict"];
  if (document.documentElement.scrollWidth > width)
    said.push(`the page is ${document.documentElement.scrollWidth} wide`);
  if (document.title.startsWith("in") && !document.title.includes(":")) said.push("a script ran");
  if (document.querySelector("script, img, iframe, object")) said.push("has what a plan injected");
  for (const svg of findFigures()) said.push(...measureFigure(svg));
  return said;
}

function measureFigure(svg) {
  const texts = [...svg.querySelectorAll("text")];
  const all = texts.map(it => [it.getBoundingClientRect(), it.textContent]);
  const whole = svg.getBoundingClientRect(), said = findCut(svg, all, whole);
  for (const [box, text] of all)
    if (box.right > whole.right + 1 || box.left < whole.left - 1 || box.bottom > whole.bottom + 1)
      said.push(`${text} goes past the diagram`);
  for (let i = 0; i < all.length; i++) for (let j = i + 1; j < all.length; j++) {
    const [a, b] = [all[i][0], all[j][0]];
    const wide = Math.min(a.right, b.right) - Math.max(a.left, b.left);
    const high = Math.min(a.bottom, b.bottom) - Math.max(a.top, b.top);
    if (wide > 1 && high > 1.5) said.push(`${all[i][1]} is over ${all[j][1]}`);
  }
  return [...said, ...findRunOver(svg, all)];
}

// The labels over which an arrow goes, or the line between two calls that race; and the marks of
// other calls over which that goes.
function findRunOver(svg, all) {
  const said = new Set(), marks = [...svg.querySelectorAll(".dot:not(.racing), .met")];
  const taken = [...all, ...marks.map(it => [it.getBoundingClientRect(), "a call"])];
  for (const line of svg.querySelectorAll(".race")) addRunOver(line, taken, "the race", said);
  for (const line of svg.querySelectorAll(".arrow")) addRunOver(line, all, "an arrow", said);
  return said;
}

function addRunOver(line, taken, name, said) {
  const onScreen = line.getScreenCTM(), half = parseFloat(getComputedStyle(line).strokeWidth) / 2;
  for (let at = 0; at < line.getTotalLength(); at++) {
    const {x, y} = line.getPointAtLength(at).matrixTransform(onScreen);
    for (const [box, what] of taken)
      if (x > box.left - half && x < box.right + half && y > box.top - half && y < box.bottom + half)
        said.add(`${name} goes over ${what}`);
  }
}

// A label that is cut must have no room for one more character up to what stands beside it.
function findCut(svg, all, whole) {
  const dots = [...svg.querySelectorAll(".dot, .met")].map(it => it.getBoundingClientRect());
  const said = [];
  for (const [box, text] of all.filter(([, it]) => it.indexOf("…") > 0 && it.length > 12)) {
    const beside = [...all.map(it => it[0]), ...dots].filter(it =>
      it.left > box.left + 1 && it.top < box.bottom + 8 && it.bottom > box.top - 8);
    const edge = Math.min(whole.right, ...beside.map(it => it.left));
    const character = box.width / text.length;
    if (edge - box.right > 6 * character) said.push(`${text} is cut and has room`);
  }
  return said;
}

// On a printed sheet of so many pixels nothing that stays whole is higher than two thirds of it:
// else sheets before it would be empty.
function measureSheet(height) {
  const whole = [...document.querySelectorAll("body *")].filter(it =>
    getComputedStyle(it).breakInside === "avoid");
  return whole.filter(it => it.getBoundingClientRect().height > height * 2 / 3).map(it =>
    `${it.tagName} stays whole on a sheet: ${it.getBoundingClientRect().height} of ${height}`);
}

// Diagrams of one or two lanes stand in the page whole, with letters of at least so many pixels.
function measureFew(least) {
  const said = [];
  for (const svg of findFigures()) {
    if (svg.querySelectorAll(".lane-name").length > 2) continue;
    const around = svg.parentElement;
    if (around.scrollWidth > around.clientWidth)
      said.push(`two lanes are ${around.scrollWidth} wide, and there is room for ` +
        `${around.clientWidth}`);
    const scale = svg.getBoundingClientRect().width / svg.viewBox.baseVal.width;
    const size = parseFloat(getComputedStyle(svg.querySelector("text")).fontSize) * scale;
    if (size < least) said.push(`letters of two lanes have ${size.toFixed(1)} pixels`);
  }
  return said;
}

// What must be seen before one scrolls: the verdict with its reasons, and the first cause.
function measureFold(height) {
  const said = [];
  for (const it of ["header h1", "header .why", "header .badge", "#cause-1 h2"]) {
    const found = document.querySelector(it);
    const bottom = found ? found.getBoundingClientRect().bottom + scrollY : 0;
    if (bottom > height) said.push(`${it} ends ${Math.round(bottom)} down`);
  }
  return said;
}

// --- colours ---

function readColour(text) {
  const found = text.match(/[\d.]+/g);
  return found ? found.map(Number) : null;
}

function isSeen(colour) {
  return colour && (colour.length < 4 || colour[3] > 0);
}

function weigh([red, green, blue]) {
  const [r, g, b] = [red, green, blue].map(it => it / 255).map(it =>
    it <= 0.04045 ? it / 12.92 : ((it + 0.055) / 1.055) ** 2.4);
  return 0.2126 * r + 0.7152 * g + 0.0722 * b;
}

function compareColours(one, other) {
  const [low, high] = [weigh(one), weigh(other)].sort((a, b) => a - b);
  return (high + 0.05) / (low + 0.05);
}

function findGround(element) {
  for (let it = element; it; it = it.parentElement) {
    const found = readColour(getComputedStyle(it).backgroundColor);
    if (isSeen(found)) return found;
  }
  return [255, 255, 255];
}

// Texts with a contrast below 4.5 to what is behind them, and marks of diagrams with one below 3.
function measureColours() {
  const said = new Set();
  const hold = (element, colour, least, what) => {
    const found = readColour(colour);
    if (!isSeen(found)) return;
    const contrast = compareColours(found, findGround(element));
    if (contrast < least) said.add(`${what} has a contrast of ${contrast.toFixed(1)}`);
  };
  for (const it of document.querySelectorAll("h1,h2,h3,p,span,th,td,li,dt,dd,a,b,summary,pre,code"))
    if (it.textContent.trim() && !it.closest("svg"))
      hold(it, getComputedStyle(it).color, 4.5, `${it.localName} ${it.className}`);
  for (const it of document.querySelectorAll("svg text"))
    hold(it, getComputedStyle(it).fill, 4.5, `text ${it.getAttribute("class")}`);
  for (const it of document.querySelectorAll("svg :is(.dot,.met,.bar,.arrow,.race,.tip)")) {
    const style = getComputedStyle(it);
    const colour = isSeen(readColour(style.stroke)) ? style.stroke : style.fill;
    hold(it, colour, 3, `mark ${it.getAttribute("class")}`);
  }
  return [...said];
}

// --- what is pointed at ---

// Brings the calls of a diagram into view, and tells where the mark of each stands.
function findCalls(name) {
  const figure = document.getElementById(name);
  figure.scrollIntoView({block: "start"});
  return [...figure.querySelectorAll("svg .at :is(.dot, .met)")].map(it => {
    it.scrollIntoView({block: "nearest", inline: "nearest"});
    const box = it.getBoundingClientRect(), of = it.closest(".at").getAttribute("class");
    return {x: box.x + box.width / 2, y: box.y + box.height / 2, of: of.split(" ")[1],
      isRacing: it.classList.contains("racing")};
  });
}

// The classes of the calls, the fences and the arrows of a diagram that aren't faint.
function findLit(name) {
  const all = document.querySelectorAll(`#${name} svg :is(.at, .way)`);
  const lit = [...all].filter(it => getComputedStyle(it).opacity === "1");
  return lit.map(it => it.getAttribute("class").split(" ")[1]);
}
