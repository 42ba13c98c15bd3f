// The keyboard on the surface.

const STEP = 1;
const LARGE_STEP = 5;
const SMALL_STEP = 0.1;
const ARROWS = { ArrowLeft: [-1, 0], ArrowRight: [1, 0], ArrowUp: [0, 1], ArrowDown: [0, -1] };
const ZOOM = 1.25;

function keyDown(event) {
  const handled = ARROWS[event.key] ? moveCursor(event) : (KEYS[event.key] ?? (() => false))(event);
  if (handled) event.preventDefault();
}

const KEYS = {
  Enter: pressKey,
  " ": pressKey,
  Tab: (event) => !hand.leaves && tabKey(event.shiftKey ? -1 : 1),
  Escape: escapeKey,
  Delete: deleteKey,
  Backspace: deleteKey,
  "+": () => zoomKey(ZOOM),
  "=": () => zoomKey(ZOOM),
  "-": () => zoomKey(1 / ZOOM),
  0: fitKey,
};

function moveCursor(event) {
  if (event.altKey || event.metaKey) return false;
  const step = event.shiftKey ? LARGE_STEP : event.ctrlKey ? SMALL_STEP : STEP;
  const [dx, dy] = ARROWS[event.key];
  const [x, y] = hand.cursor;
  Object.assign(hand, { byKeys: true, leaves: false });
  hand.cursor = snapped(within([x + step * dx, y + step * dy]));
  showReadout(hand.cursor);
  if (hand.carries) carry();
  else if (state.mode === "step") lookNear(hand.cursor);
  else if (isExam()) askEstimate(hand.cursor);
  tell(hand.cursor.map(short).join(", "));
  hand.over = hand.cursor;
  if (state.draft !== null) drawLoops();
  drawCursor();
  return true;
}

function carry() {
  change(() => movePoint(state.selected, hand.cursor), `carry ${state.selected}`);
  showPoint();
}

function pressKey(event) {
  if (event.key === "Enter" && !hand.byKeys && state.draft !== null) {
    closeDraft();
    return true;
  }
  hand.byKeys = true;
  if (state.mode === "move") pressMoveKey();
  else press(hand.cursor, "keys");
  drawCursor();
  return true;
}

/** On a point: picks it up, or puts it down. On a line: a new point there. */
function pressMoveKey() {
  if (hand.carries) {
    hand.carries = false;
    changes.tag = null;
    tell("Put down.");
    return;
  }
  const reach = SMALL_STEP / 2;
  const point = pointNear(hand.cursor, reach);
  const segment = point === null ? segmentNear(hand.cursor, Math.max(reach, NEAR.mouse / sheet.scale)) : null;
  if (segment !== null) insertPoint(segment, hand.cursor);
  else select(point);
  hand.carries = point !== null;
  if (hand.carries) tell("Picked up: the arrow keys move it, Enter puts it down.");
}

function tabKey(step) {
  hand.byKeys = true;
  if (state.mode === "step") return lookAlong(step);
  if (isExam()) return pickAlong(step);
  return state.mode === "move" && selectAlong(step);
}

/** The next point, or the one before; false beyond the last and the first. */
function selectAlong(step) {
  const names = state.loops.flatMap(({ points }, loop) => points.map((_, place) => [loop, place]));
  const isSelected = ([loop, place]) => state.selected !== null && loop === state.selected[0] && place === state.selected[1];
  const at = state.selected === null ? (step > 0 ? -1 : names.length) : names.findIndex(isSelected);
  const name = names[at + step];
  hand.carries = false;
  select(name ?? null);
  return name !== undefined;
}

function escapeKey() {
  hand.leaves = true;
  hand.carries = false;
  if (state.draft !== null) {
    change(() => { state.draft = null; });
    tell("The loop is dropped.");
  } else {
    select(null);
    if (state.mode === "step") look(null);
    if (isExam()) desk.chosen = null;
    tell("Tab leaves the drawing.");
  }
  return true;
}

function deleteKey() {
  if (isExam()) {
    withdraw();
    return true;
  }
  hand.carries = false;
  removePoint();
  return true;
}

function zoomKey(factor) {
  zoom(factor, hand.byKeys ? hand.cursor : undefined);
  return true;
}

function fitKey() {
  fit();
  return true;
}

/** Undo and redo, anywhere but where text is typed. */
function pageKeyDown(event) {
  const isEmpty = event.target.id === "decibels" && event.target.value === "";
  const isTyped = event.target.matches("input[type=text], input[type=number]") && !isEmpty;
  if (isTyped || !(event.ctrlKey || event.metaKey) || event.altKey) return;
  const key = event.key.toLowerCase();
  if (key === "z" && !event.shiftKey) undoAny();
  else if (isExam()) return;
  else if (key === "y" || key === "z") redo();
  else return;
  event.preventDefault();
}

function listenToSurface() {
  const listeners = {
    pointerdown: pointerDown, pointermove: pointerMove, pointerup: pointerUp, pointercancel: pointerCancel, pointerleave: pointerLeave, keydown: keyDown,
    focus: () => Object.assign(hand, { leaves: false, byKeys: surface.matches(":focus-visible") }), blur: () => Object.assign(hand, { byKeys: false, carries: false }),
  };
  for (const [name, listener] of Object.entries(listeners)) surface.addEventListener(name, listener);
  for (const name of ["focus", "blur"]) surface.addEventListener(name, drawCursor);
  surface.addEventListener("wheel", wheel, { passive: false });
  document.addEventListener("keydown", pageKeyDown);
}
