// The hill of vision seen from the side, drawn from the library's estimates. It can be turned.

/** Degrees of a turn for each pixel that is dragged, and for each press of a key. */
const TURN_PER_PIXEL = 0.5;
const TURN_PER_KEY = 10;
const FLATTEST = 10;
const STEEPEST = 80;
/** How many degrees high a decibel is drawn, for a field of the usual radius. */
const HEIGHT_OF_DECIBEL = 1.1;
/** The pole goes up to so many decibels. */
const MOST_DRAWN = 40;
const hillView = { turn: 30, tilt: 35, dragged: null, reach: 1, scale: 1, middle: [0, 0] };

function drawHill() {
  const canvas = part("hill");
  const isSeen = isExam() && state.look === "hill";
  canvas.hidden = !isSeen;
  surface.style.visibility = isSeen ? "hidden" : "";
  if (!isSeen) return;
  const ratio = devicePixelRatio || 1;
  Object.assign(canvas, { width: sheet.width * ratio, height: sheet.height * ratio });
  const pen = canvas.getContext("2d");
  pen.scale(ratio, ratio);
  pen.clearRect(0, 0, sheet.width, sheet.height);
  const style = getComputedStyle(document.documentElement);
  const colour = (name) => style.getPropertyValue(`--${name}`).trim();
  layHill();
  for (const { points } of state.loops) face(pen, points.map((point) => fromTheSide(point, 0).at), null, colour("edge"));
  for (const { points, fill, stroke } of hillFaces(colour)) face(pen, points, fill, stroke);
  hillAxes(pen, colour);
  canvas.setAttribute("aria-label", hillWords());
}

function hillWords() {
  return `The hill of vision from the side, turned by ${Math.round(hillView.turn)} degrees, ${exam.count} of ${exam.quads.length} quads estimated${exam.simulated === null ? "" : ", simulated"}. Arrow keys turn it.`;
}

/** A place and its height in decibels: across and up in degrees of the picture, and how far away it is. */
function turned([x, y], height) {
  const [turn, tilt] = [hillView.turn, hillView.tilt].map((degrees) => (degrees * Math.PI) / 180);
  const [across, away] = [x * Math.cos(turn) - y * Math.sin(turn), x * Math.sin(turn) + y * Math.cos(turn)];
  const up = height * HEIGHT_OF_DECIBEL * (hillView.reach / USUAL_RADIUS);
  return { across, up: away * Math.sin(tilt) + up * Math.cos(tilt), away };
}

/** The corners of the ground, the leftmost one last: the pole stands there. */
function groundCorners() {
  const { reach } = hillView;
  const corners = [[-reach, -reach], [reach, -reach], [reach, reach], [-reach, reach]];
  return corners.sort((one, other) => turned(other, 0).across - turned(one, 0).across);
}

/** Lays the picture so that the ground and 40 dB over it are within the surface. */
function layHill() {
  hillView.reach = fitted().radius;
  const seen = groundCorners().flatMap((corner) => [turned(corner, 0), turned(corner, MOST_DRAWN)]);
  const [across, up] = ["across", "up"].map((axis) => seen.map((one) => one[axis]));
  const [left, right, low, high] = [Math.min(...across), Math.max(...across), Math.min(...up), Math.max(...up)];
  hillView.scale = Math.min((sheet.width - 90) / (right - left), (sheet.height - 70) / (high - low));
  hillView.middle = [(left + right) / 2, (low + high) / 2];
}

/** The same in pixels. */
function fromTheSide(place, height) {
  const { across, up, away } = turned(place, height);
  const [x, y] = hillView.middle;
  return { at: [sheet.width / 2 + 20 + (across - x) * hillView.scale, sheet.height / 2 - (up - y) * hillView.scale], away };
}

function face(pen, points, fill, stroke) {
  pen.beginPath();
  points.forEach(([x, y], k) => (k === 0 ? pen.moveTo(x, y) : pen.lineTo(x, y)));
  pen.closePath();
  pen.lineWidth = 0.7;
  if (fill) { pen.fillStyle = fill; pen.fill(); }
  pen.strokeStyle = stroke;
  pen.stroke();
}

/** All faces, the farthest first: estimated patches at their height, quads without estimates on the ground. */
function hillFaces(colour) {
  const faces = [];
  exam.quads.forEach((_, quad) => {
    const corners = cornersOf(quad);
    const found = exam.estimates[quad];
    if (found === null) {
      const seen = corners.map((corner) => fromTheSide(corner, 0));
      faces.push({ points: seen.map(({ at }) => at), away: Math.max(...seen.map(({ away }) => away)) + 1e6, fill: null, stroke: colour("rule") });
      return;
    }
    for (let k = 0; k < PATCHES * PATCHES; k += 1) faces.push(patchFace(corners, found, k));
  });
  return faces.sort((one, other) => other.away - one.away);
}

function patchFace(corners, found, k) {
  const [column, row] = [k % PATCHES, Math.floor(k / PATCHES)];
  const seen = [[0, 0], [1, 0], [1, 1], [0, 1]].map(([i, j]) => {
    const place = inQuad(corners, (column + i) / PATCHES, (row + j) / PATCHES);
    return fromTheSide(place, found[LATTICE * (row + j) + column + i] / 10);
  });
  const fill = grey(found[LATTICE * LATTICE + k]);
  return { points: seen.map(({ at }) => at), away: seen.reduce((sum, { away }) => sum + away / 4, 0), fill, stroke: "rgb(110,110,110)" };
}

/** A pole at fixation with decibels, the sides, and whether it is simulated. */
function hillAxes(pen, colour) {
  const { reach } = hillView;
  pen.font = "13px system-ui, sans-serif";
  const words = (text, [x, y], align = "center") => {
    pen.textAlign = align;
    pen.lineWidth = 3;
    pen.strokeStyle = colour("sheet");
    pen.strokeText(text, x, y);
    pen.fillStyle = colour("ink");
    pen.fillText(text, x, y);
  };
  const pole = groundCorners().at(-1);
  face(pen, [fromTheSide(pole, 0).at, fromTheSide(pole, MOST_DRAWN).at], null, colour("ink"));
  for (const height of [0, 10, 20, 30, 40]) words(`${height} dB`, fromTheSide(pole, height).at, "right");
  const [left, right] = SIDES[state.eye] ?? ["left", "right"];
  for (const [text, place] of [[right, [reach, 0]], [left, [-reach, 0]], ["superior", [0, reach]], ["inferior", [0, -reach]]]) words(text, fromTheSide(place, 0).at);
  if (exam.simulated !== null) words("SIMULATED", [sheet.width / 2, sheet.height - 14]);
}

function turnHill(turn, tilt) {
  hillView.turn = (hillView.turn + turn + 360) % 360;
  hillView.tilt = Math.min(Math.max(hillView.tilt + tilt, FLATTEST), STEEPEST);
  drawHill();
}

function listenToHill() {
  const canvas = part("hill");
  canvas.addEventListener("pointerdown", (event) => {
    if (hillView.dragged !== null) return;
    hillView.dragged = { id: event.pointerId, at: [event.clientX, event.clientY] };
    canvas.setPointerCapture(event.pointerId);
  });
  canvas.addEventListener("pointermove", (event) => {
    if (hillView.dragged?.id !== event.pointerId) return;
    const [x, y] = hillView.dragged.at;
    turnHill((x - event.clientX) * -TURN_PER_PIXEL, (event.clientY - y) * TURN_PER_PIXEL);
    hillView.dragged.at = [event.clientX, event.clientY];
  });
  for (const name of ["pointerup", "pointercancel"]) canvas.addEventListener(name, (event) => { if (hillView.dragged?.id === event.pointerId) hillView.dragged = null; });
  canvas.addEventListener("keydown", (event) => {
    const [dx, dy] = ARROWS[event.key] ?? [0, 0];
    if (dx === 0 && dy === 0) return;
    event.preventDefault();
    turnHill(dx * TURN_PER_KEY, dy * TURN_PER_KEY);
    tell(hillWords());
  });
}
