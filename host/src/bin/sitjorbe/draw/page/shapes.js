// What is drawn on the surface: the field, the mesh, the front, and marks.

const PATCH_COLOURS = 6;
/** Nodes have dots where a quad's side has so many pixels, and quads have lines where it has so many. */
const NODES_SEEN = 12;
const SIDES_SEEN = 3;
/** The least distance of a cross from the next, in pixels. */
const CROSSES_APART = 22;
const MOST_CROSSES = 4096;

/** What was answered for what is drawn: none of it is kept. */
const NOTHING = { paved: null, mesh: null, refusal: null, faults: [], nearest: null, crosses: null, steps: null };
const shownNow = { ...NOTHING, refusedDraft: null, digestWanted: null, thinned: null, estimate: null };

function ring(points) {
  return points.length === 0 ? "" : `M${points.map(([x, y]) => `${x},${y}`).join("L")}Z`;
}

function line(...points) {
  return `M${points.map(([x, y]) => `${x},${y}`).join("L")}`;
}

function path(name, d) {
  return element("path", { class: name, d });
}

function colourOf(origin) {
  return origin === 0 ? 0 : 1 + ((origin - 1) % (PATCH_COLOURS - 1));
}

/** The layers in degrees are turned and scaled as the view says; the hatching keeps its size. */
function placeLayers() {
  const [x, y] = toPixels([0, 0]);
  const matrix = `matrix(${sheet.scale} 0 0 ${-sheet.scale} ${x} ${y})`;
  for (const layer of surface.querySelectorAll(".degrees")) layer.setAttribute("transform", matrix);
  part("hatch").setAttribute("patternTransform", `scale(${1 / sheet.scale}) rotate(45)`);
}

function redraw() {
  if (state.view === null) return;
  measure();
  placeLayers();
  drawGrid();
  drawLoops();
  drawMesh();
  drawExam();
  drawHill();
  drawCrosses();
  drawFront();
  drawMarks();
  drawPoints();
  drawCursor();
}

// ---- the field

function drawLoops() {
  const [outer, ...holes] = state.loops.map((loop) => ring(loop.points));
  part("loops").replaceChildren(path("blind", holes.join("")), path("outline", outer ?? ""), ...draftPaths());
  part("first").hidden = hasField() || state.draft !== null || state.mode !== "outline";
}

function draftPaths() {
  const points = state.draft?.points ?? [];
  if (points.length === 0) return [];
  const next = hand.over ?? points[0];
  return [path("draft", line(...points)), path("draft-next", line(points.at(-1), next, points[0]))];
}

function drawPoints() {
  const hidden = ["step", "nearest", "exam"].includes(state.mode);
  const loops = hidden ? [] : state.loops.flatMap((loop) => loop.points.map((point) => dot(point, "point")));
  const draft = (state.draft?.points ?? []).map((point, k) => dot(point, k === 0 ? "point first-point" : "point"));
  part("points").replaceChildren(...loops, ...draft, ...(hidden ? [] : selectedDot()));
}

function dot(point, name, r = 4.5) {
  const [cx, cy] = toPixels(point);
  return element("circle", { class: name, cx, cy, r });
}

function selectedDot() {
  if (state.selected === null) return [];
  const point = pointAt(state.selected);
  return [dot(point, "selected", 6), dot(point, "selected-ring", 10)];
}

// ---- the mesh

function meshShown() {
  return state.mode === "step" ? shownNow.steps : shownNow.mesh;
}

function drawMesh() {
  const mesh = meshShown();
  part("patches").replaceChildren(...(mesh === null || isExam() ? [] : meshPaths(mesh)));
}

function meshPaths({ nodes, origins, quads, kinds = [], left = [] }) {
  const patches = Array.from({ length: PATCH_COLOURS }, () => []);
  const closing = [];
  quads.forEach((quad, k) => (kinds[k] === 2 ? closing : patches[colourOf(origins[quad[0]])]).push(ring(quad.map((id) => nodes[id]))));
  const side = sideInPixels();
  const made = [...patches.map((rings, k) => path(`patch patch-${k}`, rings.join(""))), path("patch closing", closing.join(""))];
  for (const patch of made) patch.style.strokeWidth = side < SIDES_SEEN ? 0 : Math.min(Math.max(side / 14, 0.3), 1.2);
  const open = path("open", left.map((ids) => ring(ids.map((id) => nodes[id]))).join(""));
  open.style.strokeWidth = Math.min(Math.max(side / 5, 0.3), 2);
  made.push(open);
  if (side >= NODES_SEEN) made.push(path("node", nodes.map(([x, y]) => `M${x},${y}h0`).join("")));
  return made;
}

function sideInPixels() {
  return sizeAsked() * sheet.scale;
}

function drawCrosses() {
  const { crosses } = shownNow;
  const d = crosses === null ? "" : crosses.points.map((point, k) => cross(point, crosses.directions[k], crosses.apart)).join("");
  part("crosses").replaceChildren(path("cross", d));
}

function cross([x, y], direction, apart) {
  if (direction === null) return "";
  const [ux, uy] = direction.map((value) => 0.36 * apart * value);
  return line([x - ux, y - uy], [x + ux, y + uy]) + line([x + uy, y - ux], [x - uy, y + ux]);
}

/** The points of a lattice over the field, and how far apart they are. */
function crossLattice() {
  const points = state.loops.flatMap((loop) => loop.points);
  const [xs, ys] = [0, 1].map((axis) => points.map((point) => point[axis]));
  const [left, right, low, high] = [Math.min(...xs), Math.max(...xs), Math.min(...ys), Math.max(...ys)];
  const least = Math.sqrt(((right - left) * (high - low)) / MOST_CROSSES) * 1.05;
  const apart = Math.max(least, CROSSES_APART / sheet.scale);
  const [across, up] = [(right - left) / apart, (high - low) / apart].map(Math.floor);
  const lattice = Array.from({ length: across * up }, (_, k) => [left + ((k % across) + 0.5) * apart, low + (Math.floor(k / across) + 0.5) * apart]);
  return { points: lattice.slice(0, MOST_CROSSES), apart };
}

// ---- the front, stepped by hand

function drawFront() {
  const steps = state.mode === "step" ? shownNow.steps : null;
  part("front").replaceChildren(...(steps === null ? [] : frontPaths(steps)));
}

function frontPaths({ nodes, front, preview }) {
  const edges = (list, at) => list.map(([a, b]) => line(at(a), at(b))).join("");
  const node = (id) => nodes[id];
  const made = [path("front", edges(front, node))];
  if (hand.edge === null) return made;
  if (preview?.quad) made.push(...previewPaths(nodes, preview, edges));
  made.push(path("looked", edges([hand.edge], node)));
  return made;
}

function previewPaths(nodes, { quad, new_c: newC, new_d: newD, front }, edges) {
  const [, , d, c] = quad;
  const at = (id) => (id === c && newC) || (id === d && newD) || nodes[id];
  const fresh = [newC, newD].filter((point) => point !== null);
  return [
    path("coming", ring(quad.map(at))), path("front-after", edges(front, at)),
    path("coming-node", fresh.map(([x, y]) => `M${x},${y}h0`).join("")),
  ];
}

// ---- marks

function drawMarks() {
  part("marks").replaceChildren(...faultMarks(), ...nearestMarks(), ...refusalMarks());
  placeCallout();
}

function segmentEnds([loop, place]) {
  const points = state.loops[loop]?.points ?? [];
  return [points[place], points[(place + 1) % points.length]];
}

function areThere(ends) {
  return ends.every((end) => end !== undefined);
}

function faultMarks() {
  return shownNow.faults.flatMap(({ segments }, k) => {
    const ends = segments.map(segmentEnds).filter(areThere);
    if (ends.length === 0) return [];
    const d = ends.map((pair) => line(...pair.map(toPixels))).join("");
    return [path("fault-halo", d), path("fault", d), ...badge(toPixels(faultPlace(ends)), String(k + 1))];
  });
}

function badge([cx, cy], words) {
  return [element("circle", { class: "badge", cx, cy, r: 10 }), element("text", { class: "badge-number", x: cx, y: cy, "dominant-baseline": "central" }, words)];
}

/** Where two segments meet, as well as floats can say it; else the middle of the first. */
function faultPlace([[a, b], other]) {
  const middle = [(a[0] + b[0]) / 2, (a[1] + b[1]) / 2];
  if (other === undefined) return middle;
  const [c, d] = other;
  const turn = (p, q, r) => (q[0] - p[0]) * (r[1] - p[1]) - (q[1] - p[1]) * (r[0] - p[0]);
  const [from, to] = [turn(c, d, a), turn(c, d, b)];
  const along = from / (from - to);
  return along >= 0 && along <= 1 ? [a[0] + along * (b[0] - a[0]), a[1] + along * (b[1] - a[1])] : middle;
}

function nearestMarks() {
  const { nearest } = shownNow;
  if (nearest === null) return [];
  const d = line(...nearest.ends.map(toPixels));
  const [x, y] = toPixels(nearest.at);
  return [path("lit-halo", d), path("lit", d), path("asked", line([x, y], toPixels(nearestPlace(nearest.at, nearest.ends)))), ...crossHair("cursor", [x, y])];
}

/** The place on a segment that is nearest to a point. */
function nearestPlace([x, y], [[ax, ay], [bx, by]]) {
  const [ux, uy] = [bx - ax, by - ay];
  const along = Math.min(Math.max(((x - ax) * ux + (y - ay) * uy) / (ux * ux + uy * uy || 1), 0), 1);
  return [ax + along * ux, ay + along * uy];
}

function refusalShown() {
  return shownNow.refusedDraft ?? shownNow.refusal;
}

/** The point that a refusal names, or else its loop's first point. */
function refusalPlace() {
  const { refusal, refusedDraft } = shownNow;
  const points = refusedDraft === null ? state.loops[refusal?.loop]?.points : state.draft?.points;
  return points?.[refusalShown().point ?? 0] ?? null;
}

function refusalMarks() {
  const place = refusalPlace();
  return place === null ? [] : [dot(place, "wrong-ring", 14)];
}

/** The words of a refusal at its place. */
function placeCallout() {
  const callout = part("callout");
  const place = refusalPlace();
  callout.hidden = place === null || state.mode === "step";
  if (callout.hidden) return;
  callout.textContent = sentence(refusalShown().words);
  const [x, y] = toPixels(place);
  const [width, height] = [callout.offsetWidth, callout.offsetHeight];
  const left = Math.min(Math.max(x - width / 2, 4), Math.max(sheet.width - width - 4, 4));
  const top = y + 22 + height < sheet.height ? y + 22 : Math.max(y - 22 - height, 4);
  Object.assign(callout.style, { left: `${left}px`, top: `${top}px` });
}

function crossHair(name, [x, y]) {
  const d = `M${x - 18},${y}h10m16,0h10M${x},${y - 18}v10m0,16v10`;
  return [path("cursor-halo", d), path(name, d)];
}

function drawCursor() {
  surface.classList.toggle("by-keys", hand.byKeys);
  part("cursor").replaceChildren(...(hand.byKeys ? crossHair("cursor", toPixels(hand.cursor)) : []));
}
