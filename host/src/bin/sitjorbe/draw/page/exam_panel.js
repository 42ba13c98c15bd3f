// The examination beside the surface: entering, figures, order, simulated patient, bowl, books and files.

const ORDER_NEXT = "Press on the drawing: the quads nearest to that place come first.";

/** All that follows from the exam. */
function showExam() {
  const isOn = isExam();
  part("exam").hidden = !isOn;
  for (const name of ["settings", "files", "close", "remove", "clear", "point"]) part(name).hidden = isOn;
  part("loop-section").hidden = isOn || !hasField();
  if (isOn) {
    showEntry();
    showTally();
    showOrder();
  }
  drawExam();
  drawHill();
}

function showEntry() {
  const node = nodeAsked();
  const [x, y] = node === null ? [] : exam.nodes[node];
  const stands = node === null ? null : exam.thresholds[node];
  const place = node === null ? "All nodes of quads are tested." : `${desk.chosen === null ? "Next: node" : "Node"} ${node} at ${short(x)}°, ${short(y)}°${stands === null ? "" : `, ${decibels(stands)} dB now`}`;
  put("entry-node", place);
  part("enter-it").textContent = stands === null ? "Enter" : "Replace";
  part("undo-entry").disabled = !exam.can_undo;
  part("undo").disabled = !exam.can_undo;
  part("simulated").hidden = exam.simulated === null;
  put("simulated", exam.simulated === null ? "" : `${exam.simulated.words}. No patient was examined.`);
  for (const choice of document.querySelectorAll("#looks input")) choice.checked = choice.value === state.look;
  part("quad-numbers").value = state.quadNumbers ?? "";
  part("show-bowl").checked = state.showBowl ?? false;
}

function showTally() {
  const testable = new Set(exam.quads.flat()).size;
  const eye = exam.eye === null ? "not stated" : exam.eye;
  const rows = [
    ["Eye, size of a quad", `${eye}, ${short(exam.size)}°`],
    ["Nodes tested", `${exam.tested.toLocaleString("en")} of ${testable.toLocaleString("en")}`],
    ["Quads with all four", `${exam.count.toLocaleString("en")} of ${exam.quads.length.toLocaleString("en")}`],
    ["Sum of their thresholds", `${(exam.sum / 10).toLocaleString("en", { maximumFractionDigits: 1 })} dB`],
    ["Share of the field tested", percent(exam.share_tested)],
  ];
  part("tally").replaceChildren(html("tbody", {}, ...rows.map(([name, value]) => html("tr", {}, html("th", { scope: "row" }, name), html("td", {}, value)))));
}

function showOrder() {
  put("order-now", `Quads come ${exam.order_words}${desk.aims ? `. ${ORDER_NEXT}` : "."}`);
}

// ---- order

async function setOrder(body) {
  const answer = await post("/exam/order", { exam: exam.id, ...body }).catch((error) => ({ wrong: error.message }));
  if (answer.wrong !== undefined) {
    put("order-said", html("span", { class: "wrong" }, sentence(answer.wrong)));
    return;
  }
  exam = answer;
  desk.chosen = null;
  put("order-said", "The order is accepted.");
  showExam();
}

function orderNear(at) {
  setOrder({ kind: "near", at });
}

function aimOrder() {
  desk.aims = true;
  showOrder();
  tell(ORDER_NEXT);
}

async function loadText(input, work) {
  if (input.files.length > 0) await work(await input.files[0].text());
  input.value = "";
}

// ---- the simulated patient

function patient() {
  return { seed: Math.trunc(Number(part("seed").value)) || 0, noise: Number(part("noise").value) || 0, loss: part("loss").value || null };
}

function simulate(count) {
  askWhole("/exam/simulate", { patient: patient(), count }, () => "The simulated patient answered.");
}

// ---- bowl and books

async function showBowlSteps(isSeen) {
  state.showBowl = isSeen;
  desk.refusedQuad = undefined;
  if (isSeen) {
    const answer = await post("/exam/bowl", { exam: exam.id }).catch((error) => ({ wrong: error.message }));
    desk.bowl = answer.degrees ?? null;
    desk.bowlText = answer.text;
    desk.refusedQuad = answer.quad;
    put("bowl-said", answer.wrong === undefined ? "Every quad can be shown in steps of 1/64°. They are dashed." : html("span", { class: "wrong" }, sentence(answer.wrong)));
  } else put("bowl-said", "");
  part("save-steps").disabled = desk.bowlText === undefined || !isSeen;
  keep();
  drawExam();
}

async function showExamBooks() {
  const books = await post("/exam/books", { exam: exam.id }).catch((error) => ({ wrong: error.message }));
  if (books.wrong === undefined) part("exam-books").replaceChildren(booksBody(books));
}

// ---- files

/** What is written of the exam, by its name in the answer and its file's ending. */
async function saveExam(name, ending, type) {
  const files = await post("/exam/save", { exam: exam.id });
  if (files[name] === null) throw new Error("There is nothing to draw yet.");
  save(new Blob([files[name]], { type }), exam.simulated === null ? ending : `simulated.${ending}`);
  put("exam-files-said", part("files-said").textContent);
  if (name === "json") state.examSaved = examWord();
  keep();
}

function saving2(work) {
  return work().catch((error) => put("exam-files-said", html("span", { class: "wrong" }, sentence(error.message))));
}

async function openExam(text, replaces = null) {
  const answer = await post("/exam/open", { text, replaces }).catch((error) => ({ wrong: error.message }));
  if (answer.standing !== undefined) {
    const isYes = await asks("Another exam with thresholds stands in this server. Opening this one drops it, unless it was saved.", "Drop it and open", "Leave it");
    return isYes && openExam(text, answer.standing);
  }
  if (answer.wrong !== undefined) {
    fileSaid("The exam can't be opened:", [answer.wrong]);
    return false;
  }
  openExamField(answer);
  takeExam(answer);
  state.examSaved = examWord();
  fileSaid("The exam is opened.");
  return true;
}

// ---- the scale

/** Decibels at a place on the scale, whole ones. */
function scaleDecibels(event) {
  const { left, width } = part("scale").getBoundingClientRect();
  return Math.round(Math.min(Math.max((event.clientX - left) / width, 0), 1) * MOST_DECIBELS);
}

function listenToScale() {
  const scale = part("scale");
  for (let value = 0; value <= MOST_DECIBELS; value += 10) scale.append(html("span", { class: "scale-tick", "data-at": value }, String(value)));
  for (const tick of scale.querySelectorAll(".scale-tick")) {
    const share = (100 * tick.dataset.at) / MOST_DECIBELS;
    Object.assign(tick.style, { left: `${share}%`, transform: `translateX(-${share}%)` });
  }
  const show = (event) => {
    const share = (100 * scaleDecibels(event)) / MOST_DECIBELS;
    Object.assign(part("scale-mark").style, { left: `${share}%`, transform: `translateX(-${share}%)` });
    part("decibels").value = String(scaleDecibels(event));
  };
  let held = null;
  scale.addEventListener("pointerdown", (event) => {
    if (held !== null || event.button !== 0) return;
    event.preventDefault();
    held = event.pointerId;
    scale.setPointerCapture(event.pointerId);
    show(event);
  });
  scale.addEventListener("pointermove", (event) => { if (held === event.pointerId) show(event); });
  scale.addEventListener("pointerup", (event) => {
    if (held !== event.pointerId) return;
    held = null;
    enterThreshold(scaleDecibels(event) * 10);
  });
  scale.addEventListener("pointercancel", () => { held = null; });
}

function listenToExam() {
  const clicks = {
    blinked: withdraw, "undo-entry": undoEntry, "order-placed": () => setOrder({ kind: "placed" }), "order-centre": () => setOrder({ kind: "near", at: [0, 0] }),
    "order-press": aimOrder, "answer-next": () => simulate(1), "answer-ten": () => simulate(10), "answer-all": () => simulate(null),
    "end-exam": () => enter("move"), "save-steps": () => save(new Blob([desk.bowlText], { type: "text/csv" }), "steps.csv"),
    "save-exam": () => saving2(() => saveExam("json", "exam.json", "application/json")), "save-thresholds": () => saving2(() => saveExam("csv", "thresholds.csv", "text/csv")),
    "save-hill": () => saving2(() => saveExam("svg", "hill.svg", "image/svg+xml")), "save-order": () => saving2(() => saveExam("order", "order.txt", "text/plain")),
  };
  for (const [name, work] of Object.entries(clicks)) part(name).addEventListener("click", () => work());
  part("entry").addEventListener("submit", (event) => { event.preventDefault(); enterTyped(); });
  for (const choice of document.querySelectorAll("#looks input")) choice.addEventListener("change", () => { state.look = choice.value; keep(); showExam(); });
  part("quad-numbers").addEventListener("change", (event) => { state.quadNumbers = event.target.value; keep(); drawExam(); });
  part("show-bowl").addEventListener("change", (event) => showBowlSteps(event.target.checked));
  part("exam-books-part").addEventListener("toggle", (event) => { if (event.target.open) showExamBooks(); });
  part("open-order").addEventListener("change", ({ target }) => loadText(target, (text) => setOrder({ kind: "text", text })));
  part("open-thresholds").addEventListener("change", ({ target }) => loadText(target, (text) => askWhole("/exam/load", { text }, ({ tested }) => `The file's thresholds are entered; ${counted(tested, "node")} tested.`)));
  listenToScale();
  listenToHill();
  document.addEventListener("keydown", typeThreshold);
}

/** Digits that are typed anywhere but in a box are a threshold's. */
function typeThreshold(event) {
  if (!isExam() || event.ctrlKey || event.metaKey || event.altKey || event.target.matches("input:not([type=radio], [type=checkbox]), select, dialog *")) return;
  if (/^[0-9.,]$/.test(event.key)) part("decibels").focus();
}
