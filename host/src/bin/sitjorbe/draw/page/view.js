// Which part of the visual field is shown, and the polar grid over it. Degrees have x to the right and y up; pixels are those of the surface.

const SVG = "http://www.w3.org/2000/svg";
const USUAL_RADIUS = 35;
const LEAST_RADIUS = 0.5;
const FARTHEST = 1000;
/** Room for the degrees and sides round the field, in pixels. */
const MARGIN = 26;
/** Circles of eccentricity are at least as far apart, in pixels. */
const CIRCLES_APART = 46;
const MOST_CIRCLES = 60;
const MERIDIANS = [0, 30, 60, 90, 120, 150, 180, 210, 240, 270, 300, 330];
/** Drawn points are rounded to a tenth of a degree. */
const TENTHS = 10;
const SIDES = { right: ["nasal", "temporal"], left: ["temporal", "nasal"] };

const part = (name) => document.getElementById(name);
const surface = part("surface");
/** The surface's size in pixels, and how many of them a degree has. */
const sheet = { width: 0, height: 0, scale: 1 };

function element(name, attributes = {}, words = null) {
  const made = document.createElementNS(SVG, name);
  for (const [key, value] of Object.entries(attributes)) made.setAttribute(key, value);
  if (words !== null) made.textContent = words;
  return made;
}

function html(name, attributes = {}, ...inside) {
  const made = document.createElement(name);
  for (const [key, value] of Object.entries(attributes)) made.setAttribute(key, value);
  made.append(...inside);
  return made;
}

/** A number with no more decimals than it needs, three at most. */
function short(value) {
  return String(Math.round(value * 1000) / 1000 + 0);
}

function snapped([x, y]) {
  return [x, y].map((value) => Math.round(value * TENTHS) / TENTHS + 0);
}

function distance([ax, ay], [bx, by]) {
  return Math.hypot(bx - ax, by - ay);
}

// ---- degrees and pixels

function toPixels([x, y]) {
  const { view } = state;
  return [sheet.width / 2 + (x - view.x) * sheet.scale, sheet.height / 2 - (y - view.y) * sheet.scale];
}

function toDegrees([px, py]) {
  const { view } = state;
  return [view.x + (px - sheet.width / 2) / sheet.scale, view.y - (py - sheet.height / 2) / sheet.scale];
}

/** What is shown: [left, low, right, high] in degrees. */
function shown() {
  const [left, high] = toDegrees([0, 0]);
  const [right, low] = toDegrees([sheet.width, sheet.height]);
  return [left, low, right, high];
}

/** The nearest place that is shown and that the library takes. */
function within([x, y]) {
  const [left, low, right, high] = shown();
  const clamp = (value, least, most) => Math.min(Math.max(value, least, -FARTHEST), most, FARTHEST);
  return [clamp(x, left, right), clamp(y, low, high)];
}

function measure() {
  const { width, height } = surface.getBoundingClientRect();
  Object.assign(sheet, { width, height, scale: Math.max(Math.min(width, height) - 2 * MARGIN, 40) / (2 * state.view.radius) });
}

/** The usual extent round fixation, or more where the field is larger. */
function fitted() {
  const points = [...state.loops.flatMap((loop) => loop.points), ...(state.draft?.points ?? [])];
  const reach = points.filter((point) => point.every(Number.isFinite)).map(([x, y]) => Math.max(Math.abs(x), Math.abs(y)));
  return { x: 0, y: 0, radius: Math.min(Math.max(USUAL_RADIUS, 1.05 * reach.reduce((most, one) => Math.max(most, one), 0)), FARTHEST) };
}

/** Zooms so that a place in degrees stays where it is. */
function zoom(factor, at = [state.view.x, state.view.y]) {
  const { view } = state;
  const radius = Math.min(Math.max(view.radius / factor, LEAST_RADIUS), FARTHEST);
  const kept = radius / view.radius;
  show({ x: at[0] + (view.x - at[0]) * kept, y: at[1] + (view.y - at[1]) * kept, radius });
}

function fit() {
  show(fitted());
}

function show(view) {
  state.view = view;
  keep();
  redraw();
}

// ---- the grid

function drawGrid() {
  const [cx, cy] = toPixels([0, 0]);
  const d = circles().map((radius) => circle(cx, cy, radius * sheet.scale)).join("") + MERIDIANS.map((meridian) => ray(cx, cy, meridian)).join("");
  const cross = `M${cx - 8},${cy}h16M${cx},${cy - 8}v16`;
  part("grid").replaceChildren(
    ...["halo", "polar"].map((name) => element("path", { class: name, d })),
    element("path", { class: "fixation-halo", d: cross }),
    element("path", { class: "fixation", d: cross }),
    ...circleLabels(), ...meridianLabels(cx, cy), ...sideLabels(),
  );
}

function circle(cx, cy, radius) {
  return `M${cx - radius},${cy}a${radius},${radius} 0 1,0 ${2 * radius},0a${radius},${radius} 0 1,0 ${-2 * radius},0`;
}

/** The distance between circles, in degrees. */
function circleStep() {
  for (let power = -3; power < 4; power += 1) {
    for (const base of [1, 2, 5]) {
      if (base * 10 ** power * sheet.scale >= CIRCLES_APART) return base * 10 ** power;
    }
  }
  return FARTHEST;
}

/** The circles that cross what is shown. */
function circles() {
  const [left, low, right, high] = shown();
  const outside = (least, most) => Math.max(least, -most, 0);
  const nearest = Math.hypot(outside(left, right), outside(low, high));
  const farthest = Math.hypot(Math.max(-left, right), Math.max(-low, high));
  const step = circleStep();
  const first = Math.floor(nearest / step) + 1;
  const count = Math.max(Math.ceil(farthest / step) - first, 0);
  return Array.from({ length: Math.min(count, MOST_CIRCLES) }, (_, k) => (first + k) * step);
}

function way(meridian) {
  const angle = (meridian * Math.PI) / 180;
  return [Math.cos(angle), Math.sin(angle)];
}

function ray(cx, cy, meridian) {
  const [x, y] = way(meridian);
  const length = Math.hypot(sheet.width, sheet.height) + Math.hypot(cx, cy);
  return `M${cx},${cy}l${x * length},${-y * length}`;
}

function label(name, [x, y], words, anchor = "middle") {
  return element("text", { class: name, x, y, "text-anchor": anchor, "dominant-baseline": "central" }, words);
}

function circleLabels() {
  const places = circles().flatMap((radius) => [radius, -radius].map((x) => [toPixels([x, 0]), `${short(radius)}°`]));
  const room = ([x, y]) => x > MARGIN && x < sheet.width - MARGIN && y > 0 && y < sheet.height;
  return places.filter(([at]) => room(at)).map(([at, words]) => label("label", at, words));
}

/** Where each meridian comes to the surface's edge, if fixation is shown. */
function meridianLabels(cx, cy) {
  if (cx < MARGIN || cy < MARGIN || cx > sheet.width - MARGIN || cy > sheet.height - MARGIN) return [];
  return MERIDIANS.filter((meridian) => meridian % 90 !== 0).map((meridian) => {
    const [x, y] = way(meridian);
    const across = (x > 0 ? sheet.width - 20 - cx : cx - 20) / Math.abs(x);
    const up = (y > 0 ? cy - 14 : sheet.height - 14 - cy) / Math.abs(y);
    const length = Math.min(across, up);
    return label("label", [cx + x * length, cy - y * length], `${meridian}°`);
  });
}

function sideLabels() {
  const [left, right] = SIDES[state.eye] ?? ["", ""];
  const middle = sheet.height / 2;
  const turned = (x, words) => {
    const made = label("side", [x, middle], words);
    made.setAttribute("transform", `rotate(-90 ${x} ${middle})`);
    return made;
  };
  return [
    label("side", [sheet.width / 2, 12], "superior"), label("side", [sheet.width / 2, sheet.height - 12], "inferior"),
    turned(12, left), turned(sheet.width - 12, right),
  ];
}
