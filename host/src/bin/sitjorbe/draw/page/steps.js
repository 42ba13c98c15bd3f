// The front stepped by hand: a look at what a step on an edge would do, then the step.

/** An edge of the front is looked at within so many pixels of the pointer. */
const EDGE_NEAR = 40;
const OUTCOMES = {
  none: "No quad fits on this edge.",
  full: "There is no place left for another quad.",
  cap: "The mesh has as many quads as one may have.",
};

const stepper = new Asker("/step", { show: showSteps, fail: failSteps, busy: showBusy });

function askSteps() {
  if (state.mode !== "step" || !hasField()) return;
  stepper.ask({ ...field(), size: sizeAsked(), moves: state.moves, look: hand.edge });
}

/** The answer, unless the edge looked at isn't on the front any more. */
function showSteps(answer) {
  if (answer.refusal) {
    failSteps(answer.refusal.words);
    return;
  }
  shownNow.steps = answer;
  if (hand.edge !== null && !isOnFront(hand.edge)) hand.edge = null;
  showBooks(answer.books);
  put("look", lookWords(answer));
  drawMesh();
  drawFront();
  drawCursor();
  if (hand.edge === null && hand.over !== null && hand.hovers && !hand.byKeys) lookNear(hand.over);
}

function failSteps(words) {
  shownNow.steps = null;
  part("books").replaceChildren();
  put("look", html("span", { class: "wrong" }, sentence(words)));
  redraw();
}

function isOnFront([a, b]) {
  return shownNow.steps?.front.some(([c, d]) => a === c && b === d) ?? false;
}

function lookWords({ preview, outcomes, front }) {
  if (hand.edge === null || preview === null) return lastWords(outcomes, front);
  const [a, b] = hand.edge;
  const fresh = [preview.new_c, preview.new_d].filter((point) => point !== null).length;
  if (preview.outcome === "placed") return `Edge ${a} to ${b}: a quad would come, with ${counted(fresh, "new node")}. Press to place it.`;
  return `Edge ${a} to ${b}: ${OUTCOMES[preview.outcome].toLowerCase()}`;
}

/** What the last move did. */
function lastWords(outcomes, front) {
  const last = outcomes.at(-1);
  if (last === undefined) return `The front has ${counted(front.length, "edge")}. Nothing is placed yet.`;
  if (typeof last === "number") return `The passes placed ${counted(last, "quad")}. The front has ${counted(front.length, "edge")}.`;
  return last === "placed" ? `The quad is placed. The front has ${counted(front.length, "edge")}.` : OUTCOMES[last];
}

// ---- looking and placing

/** The front edge nearest to a place in degrees, if it is near enough. */
function edgeNear(at, reach) {
  const { nodes = [], front = [] } = shownNow.steps ?? {};
  let best = { edge: null, away: reach };
  for (const edge of front) {
    const ends = edge.map((id) => nodes[id]);
    const away = distance(nearestPlace(at, ends), at) + 1e-6 * distance([(ends[0][0] + ends[1][0]) / 2, (ends[0][1] + ends[1][1]) / 2], at);
    if (away < best.away) best = { edge, away };
  }
  return best.edge;
}

function isLookedAt(edge) {
  return edge !== null && hand.edge !== null && edge[0] === hand.edge[0] && edge[1] === hand.edge[1];
}

function lookNear(at, reach = EDGE_NEAR / sheet.scale) {
  const edge = edgeNear(at, reach);
  if (edge === null && hand.edge === null) return;
  if (!isLookedAt(edge)) look(edge);
}

function look(edge) {
  hand.edge = edge;
  if (shownNow.steps !== null) shownNow.steps.preview = null;
  drawFront();
  askSteps();
}

/** Places the quad that is shown; an edge that isn't looked at yet is looked at first. */
function pressStep(at, kind) {
  const edge = edgeNear(at, kind === "keys" ? Infinity : EDGE_NEAR / sheet.scale);
  if (edge === null) return;
  const preview = isLookedAt(edge) ? shownNow.steps.preview : null;
  if (preview === null) look(edge);
  else if (preview.outcome === "placed") place(edge);
  else put("look", OUTCOMES[preview.outcome]);
}

function place(edge) {
  hand.edge = null;
  tell("The quad is placed.");
  move(edge);
}

function move(one) {
  change(() => { state.moves = [...state.moves, one]; });
}

function undoStep() {
  change(() => { state.moves = state.moves.slice(0, -1); });
}

function startAgain() {
  change(() => { state.moves = []; });
}

/** The edge nearest to the cursor, then the next of the front, or the one before; false beyond the last and the first. */
function lookAlong(step) {
  const { front = [], nodes = [] } = shownNow.steps ?? {};
  const edge = hand.edge === null ? edgeNear(hand.cursor, Infinity) ?? undefined : front[front.findIndex(isLookedAt) + step];
  if (edge === undefined) return false;
  const [[ax, ay], [bx, by]] = edge.map((id) => nodes[id]);
  hand.cursor = [(ax + bx) / 2, (ay + by) / 2];
  look(edge);
  drawCursor();
  return true;
}

// ---- the books

function showBooks(books) {
  part("books").replaceChildren(booksBody(books));
}

function booksBody(books) {
  const { nodes, quads, front, sampled, shape } = books;
  const area = (value) => value.toLocaleString("en", { maximumFractionDigits: 3 });
  const rows = [
    ["Nodes of the sampled outline", sampled.toLocaleString("en")], ["Nodes", nodes.toLocaleString("en")], ["Quads", quads.toLocaleString("en")],
    ["Edges", books.edges.toLocaleString("en")], ["Edges of the front", front.toLocaleString("en")],
    [`Front edges + 2 × quads + sampled${shape === 0 ? "" : " + 2 × Euler's number"} = 2 × nodes`,
      `${front} + ${2 * quads} + ${sampled}${shape === 0 ? "" : ` + ${2 * shape}`} = ${2 * nodes}: ${verdictOf(books.counts_balance)}`],
    ["Area at the start", area(books.area_start)], ["Area of the quads", area(books.area_quads)], ["Area inside the front", area(books.area_front)],
    ["Quads + front = start, summed exactly", verdictOf(books.areas_balance)],
    [`Quads + front = start, edge by edge, of ${counted(books.edges_looked_at, "edge")}`, books.edges_balance ? verdictOf(true) : `${counted(books.wrong_edges, "edge")} wrong ✗`],
  ];
  return html("tbody", {}, ...rows.map(([name, value]) => html("tr", {}, html("th", { scope: "row" }, name), html("td", {}, value))));
}

function verdictOf(balances) {
  return balances ? "balances ✓" : "doesn't balance ✗";
}
