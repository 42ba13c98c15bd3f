// The exam on the surface: shades by estimates, contours, numbers, the node that comes next.

/** Tenths of a decibel to a shade, and the shades: from 0 dB to 40, which is white; as in the command's pictures (hill.rs). */
const SHADE_STEP = 20;
const SHADES = 21;
/** A quad's estimates are five by five from corner to corner, then four by four in between. */
const LATTICE = 5;
const PATCHES = 4;
const CONTOUR_STEP = 50;
/** Numbers are drawn where a quad's side has so many pixels. */
const NUMBERS_SEEN = 16;
const QUAD_NUMBERS_SEEN = 22;

function grey(tenths) {
  const shade = Math.min(Math.floor(tenths / SHADE_STEP), SHADES - 1);
  const level = Math.floor(24 + (231 * shade) / (SHADES - 1));
  return `rgb(${level},${level},${level})`;
}

/** A quad's point at two shares of the way: from a towards b, and towards c. Corners run round it: a, b, d, c. */
function inQuad([a, b, d, c], u, v) {
  const at = (axis) => (1 - u) * (1 - v) * a[axis] + u * (1 - v) * b[axis] + u * v * d[axis] + (1 - u) * v * c[axis];
  return [at(0), at(1)];
}

function cornersOf(quad) {
  return exam.quads[quad].map((node) => exam.nodes[node]);
}

function drawExam() {
  const isSeen = isExam() && state.look !== "hill";
  part("exam-shades").replaceChildren(...(isSeen ? examPaths() : []));
  drawExamMarks();
}

function examPaths() {
  const lines = exam.quads.map((_, quad) => ring(cornersOf(quad))).join("");
  const made = [path("untested", lines)];
  if (state.look === "shades") made.push(...shadePaths(), path("contour-halo", contours()), path("contour", contours()));
  made.push(path("net", lines), path("open", exam.left.map((ids) => ring(ids.map((node) => exam.nodes[node]))).join("")));
  if (desk.bowl !== null && state.showBowl) made.push(path("bowl", exam.quads.map((quad) => ring(quad.map((node) => desk.bowl[node]))).join("")));
  return made;
}

/** The patches of one shade are one path. */
function shadePaths() {
  const parts = new Map();
  exam.estimates.forEach((found, quad) => {
    if (found === null) return;
    const corners = cornersOf(quad);
    for (let k = 0; k < PATCHES * PATCHES; k += 1) {
      const [column, row] = [k % PATCHES, Math.floor(k / PATCHES)];
      const at = (i, j) => inQuad(corners, (column + i) / PATCHES, (row + j) / PATCHES);
      const shade = grey(found[LATTICE * LATTICE + k]);
      parts.set(shade, (parts.get(shade) ?? "") + ring([at(0, 0), at(1, 0), at(1, 1), at(0, 1)]));
    }
  });
  return [...parts].map(([shade, d]) => {
    const made = path("shade", d);
    Object.assign(made.style, { fill: shade, stroke: shade });
    return made;
  });
}

/** Lines of equal estimate, every 5 dB, drawn straight within each patch. */
function contours() {
  const drawn = [];
  exam.estimates.forEach((found, quad) => {
    if (found === null) return;
    const corners = cornersOf(quad);
    for (let k = 0; k < PATCHES * PATCHES; k += 1) drawn.push(...patchContours(found, corners, k % PATCHES, Math.floor(k / PATCHES)));
  });
  return drawn.join("");
}

function patchContours(found, corners, column, row) {
  const places = [[0, 0], [1, 0], [1, 1], [0, 1]].map(([i, j]) => [column + i, row + j]);
  const levels = places.map(([i, j]) => found[LATTICE * j + i]);
  const [least, most] = [Math.min(...levels), Math.max(...levels)];
  const drawn = [];
  for (let level = Math.ceil((least + 1) / CONTOUR_STEP) * CONTOUR_STEP; level <= most; level += CONTOUR_STEP) {
    const met = places.flatMap((place, k) => crossing(level, place, levels[k], places[(k + 1) % 4], levels[(k + 1) % 4]));
    const ends = met.map(([i, j]) => inQuad(corners, i / PATCHES, j / PATCHES));
    for (let k = 0; k + 1 < ends.length; k += 2) drawn.push(line(ends[k], ends[k + 1]));
  }
  return drawn;
}

/** Where a level lies between two places, if it does: at or above it on one side alone. */
function crossing(level, [ax, ay], one, [bx, by], other) {
  if (one >= level === other >= level) return [];
  const along = (level - one) / (other - one);
  return [[ax + along * (bx - ax), ay + along * (by - ay)]];
}

// ---- marks in pixels

function drawExamMarks() {
  const isSeen = isExam() && state.look !== "hill";
  part("exam-marks").replaceChildren(...(isSeen ? [...nodeMarks(), ...quadNumbers(), ...askedMark(), ...simulatedMark()] : []));
}

function nodeMarks() {
  const isNumbered = sideInPixels() >= NUMBERS_SEEN;
  const [tested, open, numbers] = [[], [], []];
  exam.nodes.forEach((node, id) => {
    const [x, y] = toPixels(node);
    if (x < -20 || y < -20 || x > sheet.width + 20 || y > sheet.height + 20 || !isTestable(id)) return;
    const threshold = exam.thresholds[id];
    (threshold === null ? open : tested).push(`M${x},${y}h0`);
    if (threshold !== null && isNumbered && state.look === "numbers") numbers.push(element("text", { class: "decibels", x, y, "dominant-baseline": "central" }, decibels(threshold)));
  });
  const dots = state.look === "numbers" && isNumbered ? [] : [path("tested-halo", tested.join("")), path("tested-node", tested.join(""))];
  return [path("open-node", open.join("")), ...dots, ...numbers];
}

function quadNumbers() {
  if (!state.quadNumbers || sideInPixels() < QUAD_NUMBERS_SEEN) return [];
  return exam.order.map((quad, place) => {
    const [x, y] = toPixels(inQuad(cornersOf(quad), 0.5, 0.5));
    return element("text", { class: "quad-number", x, y, "dominant-baseline": "central" }, state.quadNumbers === "places" ? String(place + 1) : String(quad));
  });
}

/** The node that the next threshold is for, and the quad under the pointer. */
function askedMark() {
  const node = nodeAsked();
  const found = shownNow.estimate;
  const quad = found ? [path("pointed-quad", ring(cornersOf(found.quad).map(toPixels)))] : [];
  const refused = desk.refusedQuad === undefined || !state.showBowl ? [] : [path("refused-quad", ring(cornersOf(desk.refusedQuad).map(toPixels)))];
  if (node === null) return [...quad, ...refused];
  return [...quad, ...refused, dot(exam.nodes[node], "asked-halo", 12), dot(exam.nodes[node], desk.chosen === null ? "asked-node" : "asked-node chosen-node", 11), dot(exam.nodes[node], "asked-middle", 4)];
}

function simulatedMark() {
  if (exam.simulated === null) return [];
  return [element("text", { class: "simulated-mark", x: sheet.width / 2, y: 38, "text-anchor": "middle" }, "SIMULATED")];
}
