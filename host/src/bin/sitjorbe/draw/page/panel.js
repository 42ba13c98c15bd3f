// Beside the surface: what to do, what came out, and the controls.

const HINTS = {
  outline: "Click round the edge of what the patient sees, or draw it in one stroke.",
  blind: "Click round the blind spot, or draw it in one stroke.",
  move: "Drag a point to move it. Click on a line to add a point. Delete removes the selected one.",
  step: "Point at a bold edge to see the quad that would come; press to place it.",
  exam: "Type the threshold of the marked node, in decibels, and press Enter. Press on a node to pick it.",
  nearest: "Click anywhere: the nearest edge of the outline lights up.",
};
const NEXT = "Drag a point to move it. Click on a line to add one. Is there a blind spot? Choose “Draw blind spot”.";
const GOING_ON = "Go on round. Click the first point, or press Enter, to close the loop.";
const REPLACES = "Click round the new outline; it takes the place of the old one once it is closed.";
const NO_OUTLINE = "Draw the outline first, or open an example.";

/** The refusals that concern the size. */
const SIZE_REFUSALS = [5, 6];

/** Says something to those who don't see the surface. */
function tell(words) {
  part("live").textContent = words;
}

/** Leaves a live region alone that says the same already. */
function put(name, ...inside) {
  const place = part(name);
  const made = html("div", {}, ...inside);
  if (made.textContent !== place.textContent) place.replaceChildren(...made.childNodes);
}

function hint() {
  if (isDrawing() && state.draft !== null) return GOING_ON;
  if (state.mode === "outline" && isDrawn(0)) return REPLACES;
  if (state.mode !== "outline" && !hasField()) return NO_OUTLINE;
  return state.mode === "move" && state.loops.length === 1 ? NEXT : HINTS[state.mode];
}

function showControls() {
  const isOn = isExam();
  part("hint").textContent = hint();
  document.querySelector(`#modes [value="${state.mode}"]`).checked = true;
  for (const mode of document.querySelectorAll("#modes input")) mode.disabled = mode.value !== "outline" && !hasField();
  document.querySelector(`#eyes [value="${state.eye ?? ""}"]`).checked = true;
  typed("size", state.size);
  typed("title", state.title);
  part("undo").disabled = isOn ? !exam.can_undo : changes.past.length === 0;
  part("redo").disabled = isOn || changes.future.length === 0;
  part("close").disabled = state.draft === null;
  part("remove").disabled = state.selected === null && state.draft === null;
  part("clear").disabled = isOn || (!hasField() && state.draft === null);
  for (const name of ["save-field", "save-csv", "save-svg", "save-png", "thin"]) part(name).disabled = !hasField();
  part("show-crosses").checked = state.crosses;
  part("close-open").checked = state.close;
  part("loop-section").hidden = !hasField();
  part("steps").hidden = state.mode !== "step";
  part("result").hidden = state.mode === "step" || isOn;
  part("exam").hidden = !isOn;
  surface.classList.toggle("moving", state.mode === "move");
  surface.classList.remove("over");
  showPoint();
  showLoops();
}

/** A value into its box, unless something is being typed there. */
function typed(name, value) {
  const box = part(name);
  if (document.activeElement !== box) box.value = value ?? "";
}

function showPoint() {
  part("point").disabled = state.selected === null;
  const [x, y] = state.selected === null ? ["", ""] : pointAt(state.selected);
  typed("point-x", x);
  typed("point-y", y);
}

// ---- the loops

function showLoops() {
  const list = part("loop-list");
  while (list.children.length > state.loops.length) list.lastChild.remove();
  state.loops.forEach((loop, k) => {
    if (k >= list.children.length) list.append(loopRow(k));
    const [, name, count] = list.children[k].children;
    if (document.activeElement !== name) name.value = loop.name;
    count.textContent = counted(loop.points.length, "point");
  });
}

function loopRow(k) {
  const name = html("input", { type: "text", maxlength: 40, "aria-label": k === 0 ? "Name of the outline" : `Name of blind spot ${k}` });
  name.addEventListener("input", () => change(() => { state.loops[k].name = name.value; }, `${TYPED}name ${k}`));
  const remove = html("button", { type: "button", "aria-label": k === 0 ? "Remove the outline" : `Remove blind spot ${k}` }, "Remove");
  remove.addEventListener("click", () => removeLoop(k));
  return html("div", { class: "loop" }, html("span", { class: k === 0 ? "swatch swatch-0" : "swatch swatch-blind", "aria-hidden": "true" }), name, html("span"), remove);
}

function counted(count, one) {
  return `${count.toLocaleString("en")} ${one}${count === 1 ? "" : "s"}`;
}

// ---- what came out

/** Refusal, faults, verdict and figures of an answer, of none where nothing is drawn; or what is wrong instead. */
function showResult(answer, wrong = answer?.refusal?.words) {
  const { faults = [], mesh = null } = answer ?? {};
  put("said", ...saidOf(wrong, faults, mesh));
  part("size").setAttribute("aria-invalid", SIZE_REFUSALS.includes(answer?.refusal?.number));
  put("faults", ...faults.map(({ words }) => html("li", {}, sentence(words))));
  put("notes", ...(mesh?.notes ?? []).map((words) => html("li", {}, sentence(words))));
  const share = mesh?.figures.share ?? null;
  part("share").classList.toggle("closed", mesh?.closing !== undefined);
  part("share").hidden = share === null;
  part("share-paved").style.width = `${100 * Math.min(share ?? 0, 1)}%`;
  part("figures").replaceChildren(...(mesh === null ? [] : [legend(mesh), figuresTable(mesh), html("p", { class: "legend" }, FIGURES_READ)]));
}

function saidOf(wrong, faults, mesh) {
  if (wrong !== undefined) return [html("p", { class: "wrong" }, sentence(wrong))];
  if (mesh === null) return [html("p", {}, "Nothing is drawn yet.")];
  const unsound = faults.length > 0 ? [html("p", { class: "wrong" }, "What is wrong, numbered in the drawing:")] : [];
  return [html("p", { id: "verdict" }, mesh.verdict), ...unsound];
}

function sentence(words) {
  const begun = words.charAt(0).toUpperCase() + words.slice(1);
  return /[.?!]$/.test(begun) ? begun : `${begun}.`;
}

function swatch(name) {
  return html("span", { class: `swatch swatch-${name}`, "aria-hidden": "true" });
}

function legend(mesh) {
  const isOpen = mesh.left.length > 0;
  const parts = [mesh.closing && ["closing", "closed afterwards"], isOpen && ["open", "measured nowhere"], state.loops.length > 1 && ["blind", "blind spot"]];
  const advice = mesh.advice === null ? [] : [html("br"), mesh.advice, ...(mesh.is_dense ? [html("br"), thinButton()] : [])];
  return html("p", { class: "legend" }, ...parts.filter(Boolean).map(([name, words]) => html("span", {}, swatch(name), words)), ...advice);
}

function thinButton() {
  const button = html("button", { type: "button" }, "Thin the points…");
  button.addEventListener("click", () => {
    offerThin();
    part("thin-said").scrollIntoView({ block: "center" });
  });
  return button;
}

function percent(share) {
  return share === null ? "–" : `${(100 * share).toFixed(1)}\u00a0%`;
}

const FIGURES = ["Nodes", "Quads", "Share", "Angle", "Sides"];
const FIGURES_READ = "Angle: the smallest of a quad's four, the least and the median. Sides: a quad's longest side over its shortest, the most and the median.";

/** Two rows a patch, its name and its figures, and two for all. */
function figuresTable({ figures, closing }) {
  const patches = figures.patches.map((patch, k) => figuresRows([swatch(colourOf(k)), k === 0 ? "Paved from the outline" : `Paved round “${patch.name}”`], patch));
  const closed = closing === undefined ? [] : [figuresRows([swatch("closing"), "Closed afterwards"], { nodes: closing.nodes, quads: closing.new, share: closing.share, quality: null })];
  const all = figures.patches.length > 1 || closing !== undefined ? [figuresRows(["All"], { ...figures, share: figures.share === null ? null : figures.share + (closing?.share ?? 0) })] : [];
  const head = html("tr", {}, ...FIGURES.map((words) => html("th", { scope: "col" }, words)));
  return html("table", {}, html("thead", {}, head), ...patches, ...closed, ...all);
}

function figuresRows(name, { nodes, quads, share, quality }) {
  const [angles, ratios] = quality === null ? ["–", "–"] : [
    `${quality.least_angle.toFixed(0)}°, ${quality.median_angle.toFixed(0)}°`, `${quality.greatest_aspect.toFixed(1)}, ${quality.median_aspect.toFixed(1)}`,
  ];
  const cells = [nodes.toLocaleString("en"), quads.toLocaleString("en"), percent(share), angles, ratios];
  const named = html("tr", {}, html("th", { scope: "rowgroup", colspan: FIGURES.length }, ...name));
  return html("tbody", {}, named, html("tr", {}, ...cells.map((words) => html("td", {}, words))));
}

function showReadout(at) {
  const [x, y] = at ?? [];
  const meridian = Math.round((Math.atan2(y, x) * 180) / Math.PI + 360) % 360;
  part("readout").textContent = at === null ? "" : `x ${x.toFixed(1)}°, y ${y.toFixed(1)}°\n${Math.hypot(x, y).toFixed(1)}° out, meridian ${meridian}°`;
}
