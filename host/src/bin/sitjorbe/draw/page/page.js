// The page put together.

const paver = new Asker("/pave", { show: showMesh, fail: failMesh, busy: showBusy });
const finder = new Asker("/nearest", { show: showNearest, fail: tell });
const crosser = new Asker("/crosses", { show: showCrosses, fail: tell });

/** What is typed is asked about after so long a pause. */
const TYPING_MS = 350;
let typing = null;

/** After every change: all that is shown follows, and what it needs is asked for. */
function changed(isTyped = false) {
  keep();
  endThin();
  forgetNearest();
  if (shownNow.refusedDraft !== null) forgetRefusedDraft();
  if (!hasField()) clearAnswers();
  showControls();
  redraw();
  clearTimeout(typing);
  if (isTyped) typing = setTimeout(askField, TYPING_MS);
  else askField();
}

function forgetNearest() {
  finder.drop();
  shownNow.nearest = null;
  part("nearest-said").textContent = "";
}

function forgetRefusedDraft() {
  shownNow.refusedDraft = null;
  showResult(shownNow.paved);
}

function clearAnswers() {
  for (const asker of [paver, stepper, crosser, finder]) asker.drop();
  Object.assign(shownNow, NOTHING);
  state.mode = "outline";
  showResult(null);
}

function askField() {
  if (!hasField() || isExam()) return;
  if (isStopped) isStopped = false;
  paver.ask(fieldWithSettings());
  askSteps();
  askCrosses();
}

function showMesh(answer) {
  Object.assign(shownNow, { paved: answer, mesh: answer.mesh ?? null, refusal: answer.refusal ?? null, faults: answer.faults ?? [] });
  showResult(answer);
  compareDigest(shownNow.mesh);
  drawMesh();
  drawMarks();
}

function failMesh(words) {
  Object.assign(shownNow, { paved: null, mesh: null, refusal: null, faults: [] });
  showResult(null, words);
  drawMesh();
  drawMarks();
}

const waitedFor = new Set();
/** Whether the answers to what is drawn were stopped. */
let isStopped = false;

/** What is awaited for long is said, and what stands meanwhile is faint and says so. */
function showBusy(isBusy, asker) {
  waitedFor[isBusy ? "add" : "delete"](asker);
  if (isBusy) isStopped = false;
  part("busy").hidden = waitedFor.size === 0;
  showStale();
}

function showStale() {
  const isStale = waitedFor.size > 0 || isStopped;
  for (const name of ["patches", "result", "steps"]) part(name).classList.toggle("stale", isStale);
  part("stale").hidden = !isStale;
  part("again").hidden = !isStopped;
  const words = isStopped ? "Stopped. What stands here is of before." : "Of before: the new answer is under way.";
  put("stale-words", isStale ? words : "");
}

function stop() {
  for (const asker of [paver, stepper, crosser]) asker.stop();
  isStopped = true;
  showStale();
  tell("Stopped.");
}

/** Asks again for what was stopped. */
function goOn() {
  isStopped = false;
  showStale();
  askField();
}

// ---- nearest edge and crosses

function askNearest(at) {
  if (hasField()) finder.ask({ ...field(), at });
}

function showNearest(answer, { at }) {
  if (answer.refusal) {
    tell(answer.refusal.words);
    return;
  }
  shownNow.nearest = { ...answer, at };
  const { points, name } = { ...state.loops[answer.loop] };
  const next = ((answer.place + 1) % points.length) + 1;
  const place = `${at.map(short).join(", ")} is ${answer.where}`;
  const words = `${place}, ${short(answer.distance)}° from its nearest edge: “${name}”, point ${answer.place + 1} to ${next}.`;
  part("nearest-said").textContent = words;
  drawMarks();
}

function askCrosses() {
  if (!state.crosses || !hasField()) {
    crosser.drop();
    shownNow.crosses = null;
    drawCrosses();
    return;
  }
  const lattice = crossLattice();
  if (lattice.points.length > 0) crosser.ask({ ...field(), size: sizeAsked(), ...lattice });
}

function showCrosses(answer, { points, apart }) {
  shownNow.crosses = answer.directions ? { points, apart, directions: answer.directions } : null;
  drawCrosses();
}

// ---- modes

/** Enters a mode; a loop that is being drawn is ended before, and an exam is asked about. */
async function enter(mode) {
  if (mode !== "exam" && exam !== null && !(await endExam())) {
    showControls();
    return;
  }
  if (mode === "exam") {
    if (exam === null && hasField()) await beginExam();
    showControls();
    return;
  }
  if (state.draft !== null && state.draft.kind !== mode) endDraft();
  state.mode = mode === "outline" || hasField() ? mode : "outline";
  if (state.mode !== "move") state.selected = null;
  Object.assign(hand, { edge: null, carries: false });
  changed();
}

/** Takes the last change back: in an exam the last threshold. */
function undoAny() {
  if (isExam()) undoEntry();
  else undo();
}

// ---- listening

function listenToControls() {
  const clicks = {
    undo: undoAny, redo, close: closeDraft, remove: removePoint, clear: clearAll, closer: () => zoom(ZOOM), farther: () => zoom(1 / ZOOM), fit,
    "undo-step": undoStep, "start-again": startAgain, stop, again: goOn,
    thin: offerThin, "thin-it": thinIt, "leave-it": endThin, about: () => part("about-dialog").showModal(), "about-close": () => part("about-dialog").close(),
    "save-field": () => saving(saveField), "save-csv": () => saving(saveCsv), "save-svg": () => saving(saveSvg), "save-png": () => saving(savePng),
  };
  for (const [name, work] of Object.entries(clicks)) part(name).addEventListener("click", () => work());
  for (const button of document.querySelectorAll("[data-passes]")) button.addEventListener("click", () => move(Number(button.dataset.passes)));
  for (const choice of document.querySelectorAll("#modes input")) choice.addEventListener("change", () => enter(choice.value));
  for (const choice of document.querySelectorAll("#eyes input")) choice.addEventListener("change", () => change(() => { state.eye = choice.value || null; }));
  part("close-open").addEventListener("change", (event) => { rememberClose(event.target.checked); changed(); });
  part("show-crosses").addEventListener("change", (event) => { state.crosses = event.target.checked; changed(); });
  part("example-form").addEventListener("submit", (event) => { event.preventDefault(); openExample(part("example").value); });
}

function listenToBoxes() {
  const number = (box) => (box.value.trim() === "" ? null : Number(box.value));
  part("size").addEventListener("input", (event) => change(() => { state.size = number(event.target); }, `${TYPED}size`));
  part("title").addEventListener("input", (event) => change(() => { state.title = event.target.value; }, `${TYPED}title`));
  ["point-x", "point-y"].forEach((name, axis) => part(name).addEventListener("input", (event) => {
    const value = number(event.target);
    if (value === null || state.selected === null) return;
    change(() => { pointAt(state.selected)[axis] = value; }, TYPED + name);
    const point = pointAt(state.selected);
    if (distance(within(point), point) > 0) fit();
  }));
}

function listenToFiles() {
  part("open").addEventListener("change", async ({ target }) => {
    if (target.files.length > 0) await openFile(target.files[0]);
    target.value = "";
  });
  const isFile = (event) => event.dataTransfer?.types.includes("Files");
  const over = (event) => {
    if (isFile(event)) event.preventDefault();
    document.body.classList.toggle("dropping", isFile(event));
  };
  document.addEventListener("dragover", over);
  document.addEventListener("dragleave", () => document.body.classList.remove("dropping"));
  document.addEventListener("drop", (event) => {
    document.body.classList.remove("dropping");
    if (!isFile(event)) return;
    event.preventDefault();
    if (event.dataTransfer.files.length > 0) openFile(event.dataTransfer.files[0]);
  });
}

function begin() {
  fetchKept();
  state.view ??= fitted();
  listenToSurface();
  listenToControls();
  listenToBoxes();
  listenToFiles();
  listenToExam();
  new ResizeObserver(redraw).observe(part("frame"));
  fetchExamples();
  if (state.mode === "exam") {
    state.mode = "move";
    fetchExam();
  }
  openFirst();
  changed();
  addEventListener("beforeunload", (event) => { if (isUnsaved()) event.preventDefault(); });
}

begin();
