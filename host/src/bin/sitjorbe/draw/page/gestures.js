// Mouse, pen and fingers on the surface, one gesture at a time: it keeps its pointer. A second finger gives it up, and the two pinch.

/** A press that moves by so many pixels is a stroke or a drag. */
const DRAG_FROM = 6;
/** A finger beside a pen is a palm: while the pen is down, and so long after it was seen. */
const PEN_SEEN_MS = 700;

/** `fingers` that are down, with their places in pixels of the window; `pinch` where two of them began, with the view then. */
const touches = { fingers: new Map(), pinch: null, penSeen: -Infinity };

function eventPlace(event) {
  const { left, top } = surface.getBoundingClientRect();
  return toDegrees([event.clientX - left, event.clientY - top]);
}

function kindOf(event) {
  return event.pointerType in NEAR ? event.pointerType : "mouse";
}

function seePen(event) {
  if (event.pointerType === "pen") touches.penSeen = event.buttons > 0 ? Infinity : performance.now();
}

function isPalm(event) {
  return event.pointerType === "touch" && performance.now() - touches.penSeen < PEN_SEEN_MS;
}

// ---- down

function pointerDown(event) {
  seePen(event);
  if (event.button !== 0 || isPalm(event)) return;
  event.preventDefault();
  if (event.pointerType === "touch") touches.fingers.set(event.pointerId, [event.clientX, event.clientY]);
  if (touches.fingers.size > 1) beginPinch();
  else if (hand.gesture === null || isPalmOf(event, hand.gesture)) beginGesture(event);
}

/** Whether a gesture is that of a palm which lay there before the pen came. */
function isPalmOf(event, gesture) {
  if (event.pointerType !== "pen" || gesture.kind !== "touch") return false;
  touches.fingers.clear();
  giveUp();
  return true;
}

function beginGesture(event) {
  surface.focus({ preventScroll: true });
  surface.setPointerCapture(event.pointerId);
  Object.assign(hand, { byKeys: false, carries: false, leaves: false });
  const at = within(eventPlace(event));
  hand.cursor = snapped(at);
  const undone = { before: snapshot(), selected: state.selected, past: [...changes.past], future: [...changes.future], tag: changes.tag };
  hand.gesture = { id: event.pointerId, begun: at, way: at, kind: kindOf(event), isDrag: false, stroke: null, point: null, before: undone.before, undone };
  if (state.mode === "move") grab(at);
  drawCursor();
}

/** What a press takes hold of: a point, a line, which gets a point there, or the view. */
function grab(at) {
  const { gesture } = hand;
  const reach = reachOf(gesture.kind);
  const segment = pointNear(at, reach) === null ? segmentNear(at, reach) : null;
  if (segment !== null) insertPoint(segment, at);
  else select(pointNear(at, reach));
  gesture.point = state.selected;
  gesture.before = snapshot();
}

/** The gesture leaves no trace. */
function giveUp() {
  const { undone } = hand.gesture;
  hand.gesture = null;
  const isChanged = snapshot() !== undone.before;
  goBackTo(undone.before);
  state.selected = undone.selected;
  Object.assign(changes, { past: undone.past, future: undone.future, tag: undone.tag });
  if (isChanged) changed();
  else redraw();
}

// ---- move

function pointerMove(event) {
  seePen(event);
  if (touches.fingers.has(event.pointerId)) touches.fingers.set(event.pointerId, [event.clientX, event.clientY]);
  if (touches.pinch !== null) movePinch();
  else if (hand.gesture === null) hover(event);
  else if (hand.gesture.id === event.pointerId) dragged(passed(event), event);
}

/** Where a pointer passed by, for the readout as well. */
function passed(event) {
  const at = within(eventPlace(event));
  Object.assign(hand, { over: at, hovers: event.pointerType !== "touch" });
  showReadout(at);
  return at;
}

function hover(event) {
  if (event.pointerType === "touch") return;
  const at = passed(event);
  if (state.mode === "step") lookNear(at);
  else if (state.mode === "exam") askEstimate(at);
  else if (state.mode === "move") surface.classList.toggle("over", (pointNear(at, reachOf("mouse")) ?? segmentNear(at, reachOf("mouse"))) !== null);
  if (state.draft !== null) drawLoops();
}

function dragged(at, event) {
  const { gesture } = hand;
  const isDrag = gesture.isDrag || distance(gesture.begun, at) * sheet.scale >= DRAG_FROM;
  if (!isDrag) return;
  gesture.isDrag = true;
  if (isDrawing()) strokeOn(gesture, at, event);
  else if (gesture.point !== null) dragPoint(gesture, at);
  else if (state.mode === "move" || state.mode === "exam") pan(gesture.begun, eventPlace(event));
}

function strokeOn(gesture, at, event) {
  gesture.stroke ??= [snapped(gesture.begun)];
  const between = event.getCoalescedEvents?.() ?? [];
  for (const one of [...between.map((each) => within(eventPlace(each))), at]) extendStroke(gesture, one);
  const drawn = [...(state.draft?.points ?? []), ...gesture.stroke, at];
  drawLoops();
  part("loops").append(path("draft", line(...drawn)));
}

function dragPoint(gesture, at) {
  movePoint(gesture.point, snapped(at));
  followPoint();
}

/** While a point moves the mesh follows; the change is entered when it rests. */
function followPoint() {
  drawLoops();
  drawPoints();
  showPoint();
  askField();
}

function pan([x, y], [toX, toY]) {
  state.view = { ...state.view, x: state.view.x + x - toX, y: state.view.y + y - toY };
  redraw();
}

// ---- two fingers

function pinched() {
  const [[ax, ay], [bx, by]] = [...touches.fingers.values()].slice(0, 2);
  const { left, top } = surface.getBoundingClientRect();
  return { middle: [(ax + bx) / 2 - left, (ay + by) / 2 - top], apart: Math.max(Math.hypot(bx - ax, by - ay), 1) };
}

function beginPinch() {
  if (hand.gesture?.kind === "touch") giveUp();
  if (hand.gesture !== null) return;
  const { middle, apart } = pinched();
  touches.pinch = { at: toDegrees(middle), apart, radius: state.view.radius };
}

/** What lay between the fingers stays between them. */
function movePinch() {
  const { at, apart, radius } = touches.pinch;
  const now = pinched();
  state.view = { ...state.view, radius: Math.min(Math.max((radius * apart) / now.apart, LEAST_RADIUS), FARTHEST) };
  measure();
  const [x, y] = toDegrees(now.middle);
  pan(at, [x, y]);
}

// ---- up

function pointerUp(event) {
  const wasPinch = liftFinger(event);
  seePen(event);
  const { gesture } = hand;
  if (wasPinch || gesture?.id !== event.pointerId) return;
  hand.gesture = null;
  const at = within(eventPlace(event));
  if (gesture.stroke !== null) endStroke(gesture, at);
  else if (gesture.isDrag && gesture.point !== null) enterMoved(gesture.before);
  else if (!gesture.isDrag) press(at, gesture.kind);
  keep();
}

/** Whether it was one of two that pinched: the other does nothing until it is lifted too. */
function liftFinger(event) {
  const wasPinch = touches.fingers.delete(event.pointerId) && touches.pinch !== null;
  if (wasPinch && touches.fingers.size < 2) {
    touches.pinch = null;
    keep();
  }
  return wasPinch;
}

function enterMoved(before) {
  state.moves = [];
  if (snapshot() !== before) remember(before, null);
  else askField();
}

function pointerCancel(event) {
  liftFinger(event);
  if (hand.gesture?.id === event.pointerId) giveUp();
}

/** A finger that is lifted leaves what it looked at; a mouse or pen that goes away doesn't. */
function pointerLeave(event) {
  hand.over = null;
  showReadout(null);
  if (event.pointerType !== "touch" && state.mode === "step" && hand.gesture === null && hand.edge !== null && !hand.byKeys) look(null);
  if (state.draft !== null) drawLoops();
}

/** What a press does at a place. */
function press(at, kind) {
  if (isDrawing()) pressDrawing(at, kind);
  else if (state.mode === "step") pressStep(at, kind);
  else if (state.mode === "nearest") askNearest(snapped(at));
  else if (isExam()) pressExam(at, kind);
}

function wheel(event) {
  if (!event.ctrlKey) return;
  event.preventDefault();
  zoom(event.deltaY < 0 ? ZOOM : 1 / ZOOM, eventPlace(event));
}
