// The examination: a mesh that stays, and thresholds that come and go. The exam is the server's; what is counted, refused and estimated comes from there.

/** A node is pressed within so many pixels: by mouse or pen, and by finger. */
const NODE_NEAR = { mouse: 14, pen: 14, touch: 24, keys: Infinity };
const MOST_DECIBELS = 50;

/** The exam as it was answered, or null; `chosen` the node that was picked, or null for the next one; `last` the one that was entered last; `aims` while a press is to say where an order begins. */
let exam = null;
const desk = { chosen: null, last: null, aims: false, bowl: null, queue: Promise.resolve() };

const estimator = new Asker("/exam/estimate", { show: showEstimate, fail: tell });

function isExam() {
  return state.mode === "exam" && exam !== null;
}

/** The node that the next threshold is for. */
function nodeAsked() {
  return desk.chosen ?? exam?.next ?? null;
}

// ---- begun, opened, ended

/** Begins an exam on the field as it is drawn; one that stands with thresholds is asked about first. */
async function beginExam(replaces = null) {
  const answer = await post("/exam/begin", { ...fieldWithSettings(), replaces }).catch((error) => ({ refusal: { words: error.message } }));
  if (answer.standing !== undefined) return replaceExam(answer.standing);
  if (answer.refusal) {
    showResult(null, answer.refusal.words);
    return false;
  }
  takeExam(answer);
  return true;
}

async function replaceExam(standing) {
  const words = "Another exam with thresholds stands in this server. Beginning a new one drops it, unless it was saved.";
  return (await asks(words, "Drop it and begin", "Go on with it")) ? beginExam(standing) : fetchExam();
}

/** Goes on with the exam that stands, on its own field. */
async function fetchExam() {
  const answer = await post("/exam/state", {}).catch(() => ({ begun: false }));
  if (answer.begun === false) return false;
  openExamField(answer);
  takeExam(answer);
  return true;
}

/** The exam's field takes the place of what is drawn. */
function openExamField({ loops, size, eye, title }) {
  change(() => Object.assign(state, { loops, size, eye, title, draft: null, selected: null }));
  state.view = fitted();
}

function takeExam(answer) {
  exam = answer;
  Object.assign(desk, { chosen: null, last: null, aims: false });
  shownNow.estimate = null;
  state.mode = "exam";
  changed();
  showExam();
}

/** Back to the drawing: thresholds that aren't saved are asked about. */
async function endExam() {
  if (exam === null) return true;
  const isKept = exam.tested === 0 || state.examSaved === examWord();
  const words = "The exam's mesh is fixed. Going back to the drawing ends the exam, and its thresholds are dropped.";
  if (!isKept && !(await asks(words, "End the exam", "Go on with it"))) return false;
  await post("/exam/end", { exam: exam.id }).catch(() => {});
  exam = null;
  showExam();
  return true;
}

function examWord() {
  return exam === null ? "" : `${exam.id}-${exam.event_count}`;
}

function isExamUnsaved() {
  return exam !== null && exam.tested > 0 && state.examSaved !== examWord();
}

/** Whether a question is answered by its first button. */
function asks(words, yes, no) {
  const dialog = part("ask");
  put("ask-words", words);
  part("ask-yes").textContent = yes;
  part("ask-no").textContent = no;
  dialog.returnValue = "";
  dialog.showModal();
  return new Promise((done) => dialog.addEventListener("close", () => done(dialog.returnValue === "yes"), { once: true }));
}

// ---- what is asked of the exam

/** Asks in turn, so that no answer overtakes another. */
function askExam(path, body) {
  const work = async () => {
    if (exam === null) return null;
    const answer = await post(path, { exam: exam.id, time: Date.now(), ...body }).catch((error) => ({ wrong: error.message }));
    const words = answer.refusal?.words ?? answer.wrong;
    if (words !== undefined) put("entry-said", html("span", { class: "wrong" }, sentence(words)));
    return words === undefined ? answer : null;
  };
  desk.queue = desk.queue.then(work, work);
  return desk.queue;
}

/** What a change at a node brought is entered here. */
function takeNews(news) {
  if (news === null) return;
  exam.thresholds[news.node] = news.threshold;
  for (const [quad, estimates] of news.changed) exam.estimates[quad] = estimates;
  const { node, threshold, changed: _, ...tally } = news;
  Object.assign(exam, tally);
  showExam();
}

function decibels(tenths) {
  return tenths % 10 === 0 ? String(tenths / 10) : (tenths / 10).toFixed(1);
}

/** The tenths of a decibel that words say, or null. */
function tenthsOf(words) {
  const told = words.trim().replace(",", ".");
  return /^\d{1,4}(\.\d?)?$/.test(told) ? Math.round(Number(told) * 10) : null;
}

async function enterTyped() {
  const box = part("decibels");
  const tenths = tenthsOf(box.value);
  if (tenths === null) {
    put("entry-said", html("span", { class: "wrong" }, `A threshold is decibels from 0 to ${MOST_DECIBELS}, with one decimal at most: ${box.value || "nothing is typed"}.`));
    box.select();
    return;
  }
  await enterThreshold(tenths);
}

async function enterThreshold(tenths) {
  const node = nodeAsked();
  if (node === null) {
    put("entry-said", "All nodes of quads have thresholds. Pick a node to replace its own.");
    return;
  }
  const before = exam.thresholds[node];
  const news = await askExam("/exam/enter", { node, threshold: tenths });
  if (news === null) return;
  desk.last = node;
  part("decibels").value = "";
  desk.chosen = null;
  const done = before === null ? "entered" : `replaced ${decibels(before)} dB`;
  put("entry-said", `Node ${node}: ${decibels(tenths)} dB ${done}.`);
  takeNews(news);
}

/** The patient blinked: the threshold of the node that is picked is withdrawn, or else the last one that was entered. */
async function withdraw() {
  const node = desk.chosen !== null && exam.thresholds[desk.chosen] !== null ? desk.chosen : desk.last;
  if (node === null || exam.thresholds[node] === null) {
    put("entry-said", "There is no threshold to withdraw: pick a node that has one.");
    return;
  }
  const news = await askExam("/exam/enter", { node, threshold: null });
  if (news === null) return;
  desk.chosen = node;
  put("entry-said", `Node ${node}: its threshold is withdrawn; it is to be tested again.`);
  takeNews(news);
}

async function undoEntry() {
  const news = await askExam("/exam/undo", {});
  if (news === null) return;
  put("entry-said", `Node ${news.node}: taken back${news.threshold === null ? "" : `, ${decibels(news.threshold)} dB stand again`}.`);
  desk.chosen = null;
  takeNews(news);
}

/** Asks for something that answers the whole exam. */
async function askWhole(path, body, words) {
  const answer = await askExam(path, body);
  if (answer === null) return false;
  exam = answer;
  desk.chosen = null;
  put("entry-said", words(answer));
  showExam();
  return true;
}

// ---- pressed and pointed at

function nodeNear(at, kind) {
  let best = { node: null, away: NODE_NEAR[kind] / sheet.scale };
  exam.nodes.forEach((place, node) => {
    const away = distance(place, at);
    if (away <= best.away && isTestable(node)) best = { node, away };
  });
  return best.node;
}

/** Whether a node is a corner of some quad. */
function isTestable(node) {
  exam.corners ??= new Set(exam.quads.flat());
  return exam.corners.has(node);
}

function pressExam(at, kind) {
  if (desk.aims) {
    desk.aims = false;
    orderNear(snapped(at));
    return;
  }
  const node = nodeNear(at, kind);
  if (node !== null) pick(node);
  else if (kind !== "keys") askEstimate(at);
}

function pick(node) {
  desk.chosen = node;
  const [x, y] = exam.nodes[node];
  hand.cursor = [x, y];
  const threshold = exam.thresholds[node];
  tell(`Node ${node} at ${short(x)}, ${short(y)}: ${threshold === null ? "no threshold" : `${decibels(threshold)} dB`}.`);
  showExam();
}

/** The next node in the order, or the one before; false beyond the last and the first. */
function pickAlong(step) {
  const nodes = [...new Set(exam.order.flatMap((quad) => exam.quads[quad]))];
  const node = nodes[nodes.indexOf(nodeAsked() ?? -1) + step];
  if (node !== undefined) pick(node);
  return node !== undefined;
}

function askEstimate(at) {
  if (isExam()) estimator.ask({ exam: exam.id, at });
}

/** The estimate under the pointer, with its quad and weights. */
function showEstimate({ found }) {
  if (!isExam()) return;
  shownNow.estimate = found;
  put("estimate-said", found === null ? "No quad lies there: it is measured nowhere." : estimateWords(found));
  drawExamMarks();
}

function estimateWords({ quad, u, v, estimate, corners, thresholds, weights }) {
  const parts = corners.map((node, k) => `node ${node} ${thresholds[k] === null ? "lacks a threshold" : `${decibels(thresholds[k])} dB × ${(100 * weights[k]).toFixed(0)} %`}`);
  const first = estimate === null ? `Quad ${quad} has no estimate` : `Quad ${quad}: ${decibels(estimate)} dB is estimated at weights ${u}, ${v} of 256`;
  return `${first}; ${parts.join(", ")}.`;
}
