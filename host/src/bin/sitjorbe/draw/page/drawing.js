// Points added, moved and removed.

/** A press counts as on a point or a line within so many pixels: by mouse or pen, and by finger. */
const NEAR = { mouse: 10, pen: 10, touch: 22, keys: 0 };
/** Points of a stroke are a size apart, or as many sizes as make up so many degrees. */
const LEAST_APART = 0.3;
/** They are rounded to a thousandth of a degree, so that they are that far apart. */
const THOUSANDTHS = 1000;
const MOST_POINTS = 4096;

/** Within how many degrees a press counts as on something. */
function reachOf(kind) {
  return Math.max(NEAR[kind] / sheet.scale, 1e-9);
}

function pointCount() {
  return state.loops.reduce((sum, loop) => sum + loop.points.length, state.draft?.points.length ?? 0);
}

// ---- the loop that is being drawn

function pressDrawing(at, kind) {
  const points = state.draft?.points ?? [];
  const isOn = (point) => point !== undefined && distance(point, at) <= reachOf(kind);
  if (isOn(points[0]) || isOn(points.at(-1))) closeDraft();
  else addPoints([snapped(at)]);
}

function addPoints(points) {
  if (pointCount() + points.length > MOST_POINTS) {
    tell("There are as many points as a field may have.");
    return;
  }
  change(() => {
    state.draft ??= { kind: state.mode, points: [] };
    state.draft.points.push(...points);
  });
  const [x, y] = points.at(-1);
  hand.cursor = [x, y];
  tell(`Point ${state.draft.points.length} at ${short(x)}, ${short(y)}.`);
}

/** Closes the loop; what the library refuses of it stays open, with the refusal shown. */
async function closeDraft() {
  const { draft } = state;
  if (draft === null) return;
  const loops = withDraft(draft);
  if (draft.points.length < 3 && !(await isAccepted(loops, draft))) return;
  change(() => {
    state.loops = loops;
    state.draft = null;
  });
  enter("move");
  tell(draft.kind === "outline" ? "The outline is closed." : "The blind spot is closed.");
}

function withDraft({ kind, points }) {
  if (kind === "outline") return [{ name: state.loops[0]?.name ?? "outline", points }, ...state.loops.slice(1)];
  return [...state.loops, { name: blindName(), points }];
}

function blindName() {
  const taken = new Set(state.loops.map((loop) => loop.name));
  const names = Array.from({ length: state.loops.length + 1 }, (_, k) => (k === 0 ? "blind spot" : `blind spot ${k + 1}`));
  return names.find((name) => !taken.has(name));
}

async function isAccepted(loops, draft) {
  const answer = await post("/check", { loops, size: null }).catch((error) => ({ refusal: { words: error.message } }));
  if (answer.refusal === null || state.draft !== draft) return state.draft === draft;
  shownNow.refusedDraft = answer.refusal;
  showResult(null, answer.refusal.words);
  drawMarks();
  return false;
}

/** Before another mode is entered: a loop of three points or more is closed, a shorter one is dropped. */
function endDraft() {
  const { draft } = state;
  if (draft === null) return;
  change(() => {
    if (draft.points.length > 2) state.loops = withDraft(draft);
    state.draft = null;
  });
}

// ---- points of loops

/** The point nearest to a place, if it is near enough: [loop, place]. */
function pointNear(at, reach) {
  let best = { name: null, away: reach };
  state.loops.forEach(({ points }, loop) => points.forEach((point, place) => {
    const away = distance(point, at);
    if (away <= best.away) best = { name: [loop, place], away };
  }));
  return best.name;
}

/** The segment nearest to a place, if it is near enough. */
function segmentNear(at, reach) {
  let best = { name: null, away: reach };
  state.loops.forEach(({ points }, loop) => points.forEach((_, place) => {
    const away = distance(nearestPlace(at, segmentEnds([loop, place])), at);
    if (away <= best.away) best = { name: [loop, place], away };
  }));
  return best.name;
}

function select(name) {
  state.selected = name;
  if (name !== null) {
    const [x, y] = pointAt(name);
    hand.cursor = [x, y];
    tell(`${state.loops[name[0]].name}, point ${name[1] + 1} of ${state.loops[name[0]].points.length}: x ${short(x)}, y ${short(y)}.`);
  }
  keep();
  showControls();
  drawPoints();
  drawCursor();
}

/** A point on the segment, put in after its first end. */
function insertPoint([loop, place], at) {
  const [x, y] = snapped(nearestPlace(at, segmentEnds([loop, place])));
  change(() => {
    state.loops[loop].points.splice(place + 1, 0, [x, y]);
    state.selected = [loop, place + 1];
  });
  select(state.selected);
}

function movePoint([loop, place], at) {
  state.loops[loop].points[place] = at;
}

function removePoint() {
  if (state.draft !== null) {
    removeLast();
    return;
  }
  if (state.selected === null) return;
  const [loop, place] = state.selected;
  change(() => {
    const { points } = state.loops[loop];
    points.splice(place, 1);
    state.selected = points.length > 0 ? [loop, Math.min(place, points.length - 1)] : null;
    if (points.length === 0) dropLoop(loop);
  });
  tell("The point is removed.");
}

function removeLast() {
  change(() => {
    state.draft.points.pop();
    if (state.draft.points.length === 0) state.draft = null;
  });
  tell("The last point is removed.");
}

function removeLoop(loop) {
  change(() => {
    dropLoop(loop);
    state.selected = null;
  });
  tell("The loop is removed.");
}

/** Blind spots stay what they are where the outline goes: its place stays empty. */
function dropLoop(loop) {
  if (loop === 0 && state.loops.length > 1) state.loops[0].points = [];
  else state.loops.splice(loop, 1);
}

function clearAll() {
  change(() => Object.assign(state, { loops: [], draft: null, selected: null, title: "field" }));
  enter("outline");
  tell("All is cleared.");
}

// ---- a stroke

function strokeSpacing() {
  const size = Math.max(sizeAsked(), 0.01);
  return size * Math.ceil(LEAST_APART / size - 1e-9);
}

/** Goes on to a place: on the way there a point wherever it comes to be a size from the last one, also where the pointer moved farther. */
function extendStroke(gesture, at) {
  const { stroke } = gesture;
  const apart = strokeSpacing();
  while (distance(stroke.at(-1), at) >= apart) {
    const next = leaving(stroke.at(-1), apart, gesture.way, at);
    stroke.push(next.map((value) => Math.round(value * THOUSANDTHS) / THOUSANDTHS + 0));
    gesture.way = next;
  }
  gesture.way = at;
}

/** Where the way from a place within a circle to one beyond it leaves it. */
function leaving([cx, cy], radius, [ax, ay], [bx, by]) {
  const [ux, uy, vx, vy] = [bx - ax, by - ay, ax - cx, ay - cy];
  const [square, half, rest] = [ux * ux + uy * uy, ux * vx + uy * vy, vx * vx + vy * vy - radius * radius];
  const along = Math.min(Math.max((Math.sqrt(Math.max(half * half - square * rest, 0)) - half) / square, 0), 1);
  return [ax + along * ux, ay + along * uy];
}

/** A stroke ends. Where it comes back to the loop's first point the loop is closed; else its end is a point as well, unless it is near the last one. */
function endStroke({ stroke, kind }, at) {
  const half = strokeSpacing() / 2;
  const first = state.draft?.points[0] ?? stroke[0];
  const isRound = (state.draft?.points.length ?? 0) + stroke.length > 3 && distance(first, at) <= Math.max(half, 1.5 * reachOf(kind));
  if (isRound && distance(first, stroke.at(-1)) < half) stroke.pop();
  if (!isRound && distance(stroke.at(-1), at) >= half) stroke.push(snapped(at));
  addPoints(stroke);
  if (isRound) closeDraft();
}
