// Examples and files: opened and saved.

/** Longer files aren't sent. */
const LONGEST_FILE = 900_000;
/** A picture's pixels for each of its units. */
const PNG_SCALE = 2;
const LONGEST_TITLE = 80;

const examples = new Map();

async function fetchExamples() {
  const answer = await post("/examples", {}).catch((error) => ({ examples: [], error }));
  for (const example of answer.examples) examples.set(example.name, example);
  part("example").replaceChildren(...[...examples.keys()].map((name) => html("option", { value: name }, name)));
  if (answer.error !== undefined) showResult(null, answer.error.message);
}

function openExample(name) {
  const example = examples.get(name);
  if (example === undefined) return;
  openField({ ...structuredClone(example), title: name.replaceAll("/", "-"), digest: null });
  tell(`${name} is opened.`);
}

/** Opens a field; settings that it doesn't have stay as they are. Its mesh is to have the digest that it tells, if it tells one. */
function openField({ loops, size, eye, title, digest }) {
  change(() => Object.assign(state, { loops, draft: null, selected: null, title: title ?? state.title, size: size ?? state.size, eye: eye ?? state.eye }));
  state.view = fitted();
  shownNow.digestWanted = digest ?? null;
  enter("move");
  setSaved();
}

/** The field that the command was called with, where nothing is drawn yet. */
async function openFirst() {
  if (hasField() || state.draft !== null) return;
  const { field } = await post("/first", {}).catch(() => ({ field: null }));
  if (field === null || hasField() || state.draft !== null) return;
  openField(field);
  fileSaid(`${field.title} is opened.`, field.notes);
}

/** Says where a file's mesh isn't the one that is paved of its field here. */
function compareDigest(mesh) {
  const wanted = shownNow.digestWanted;
  shownNow.digestWanted = null;
  if (wanted === null || mesh === null || wanted === mesh.digest) return;
  fileSaid(`The file's mesh is ${wanted}, and what is paved here is ${mesh.digest}: another version or size made it.`);
}

async function openFile(file) {
  if (exam !== null && !(await endExam())) return false;
  if (file.size > LONGEST_FILE) {
    fileSaid(`${file.name} is too long for a file of points.`);
    return false;
  }
  const text = await file.text();
  if (/"exam"\s*:/.test(text)) return openExam(text);
  const answer = await post("/read", { text, title: stem(file.name) }).catch((error) => ({ wrong: [error.message] }));
  if (answer.wrong !== undefined) {
    fileSaid(`${file.name} can't be read:`, answer.wrong);
    return false;
  }
  openField(answer);
  fileSaid(`${file.name} is opened.`, answer.notes);
  return true;
}

function stem(name) {
  return name.replace(/\.[^.]*$/, "").slice(0, LONGEST_TITLE);
}

// ---- thinning

/** Says what thinning would do, and asks. */
async function offerThin() {
  const answer = await post("/thin", { ...field(), size: sizeAsked() }).catch((error) => ({ refusal: { words: error.message } }));
  const words = answer.refusal?.words ?? answer.words;
  shownNow.thinned = answer.refusal || answer.stay === answer.drawn ? null : answer;
  put("thin-said", sentence(words).replace("Thinned to", "Thinned to points about"));
  part("thin-it").hidden = part("leave-it").hidden = shownNow.thinned === null;
}

/** The points that stay take the place of all; undo brings the original back. */
function thinIt() {
  const { loops, words } = shownNow.thinned;
  endThin();
  change(() => Object.assign(state, { loops, selected: null }));
  put("thin-said", `${words} Undo brings the original back.`);
}

function endThin() {
  shownNow.thinned = null;
  part("thin-it").hidden = part("leave-it").hidden = true;
  put("thin-said", "");
}

function fileSaid(words, lines = []) {
  put("files-said", words, html("br"), ...lines.flatMap((one) => [sentence(one), html("br")]));
}

// ---- saving

function fileName(ending) {
  const plain = state.title.replace(/[^\p{L}\p{N} ._-]/gu, "-").trim();
  return `${plain || "field"}.${ending}`;
}

function save(blob, ending) {
  const link = html("a", { href: URL.createObjectURL(blob), download: fileName(ending) });
  link.click();
  setTimeout(() => URL.revokeObjectURL(link.href), 60_000);
  fileSaid(`${link.download} is saved.`);
}

/** Saves what an answer makes, or says why there is nothing to save. */
async function saving(work) {
  try {
    await work();
  } catch (error) {
    fileSaid(error.message);
  }
}

/** The whole field: points, names, eye, size, title, and its mesh's digest. */
async function saveField() {
  const { text } = await post("/save", fieldWithSettings());
  save(new Blob([text], { type: "application/json" }), "json");
  setSaved();
}

async function saveCsv() {
  const { text } = await post("/write", field());
  save(new Blob([text], { type: "text/csv" }), "csv");
}

async function picture() {
  const { svg, refusal } = await post("/picture", fieldWithSettings());
  if (svg === undefined) throw new Error(sentence(refusal.words));
  return new Blob([svg], { type: "image/svg+xml" });
}

async function saveSvg() {
  save(await picture(), "svg");
}

async function savePng() {
  const url = URL.createObjectURL(await picture());
  const image = new Image();
  image.src = url;
  await image.decode();
  const canvas = html("canvas", { width: PNG_SCALE * image.naturalWidth, height: PNG_SCALE * image.naturalHeight });
  canvas.getContext("2d").drawImage(image, 0, 0, canvas.width, canvas.height);
  URL.revokeObjectURL(url);
  const blob = await new Promise((done) => canvas.toBlob(done, "image/png"));
  save(blob, "png");
}
