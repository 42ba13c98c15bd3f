// What is drawn and set, its history, and what the tab keeps of both over a reload.

const KEPT_AS = "sitjorbe-draw-1";
/** More steps back aren't kept. */
const MOST_PAST = 200;
/** Beyond so many characters the history isn't kept over a reload. */
const MOST_KEPT = 2_000_000;
const USUAL_SIZE = 3;

/** All that a reload keeps. `loops` has the outline first; `draft` is the loop that is being drawn. */
const state = {
  loops: [], draft: null, eye: null, size: USUAL_SIZE, title: "field", moves: [],
  selected: null, mode: "outline", crosses: false, view: null, saved: null, look: "shades", close: true, quadNumbers: "", showBowl: false, examSaved: "",
};
/** How the tags of changes begin that come letter by letter. */
const TYPED = "typed ";
/** What undo brings back. */
const UNDONE = ["loops", "draft", "eye", "size", "title", "moves"];
const changes = { past: [], future: [], tag: null };

/** Pointer and keyboard: `gesture` while a button is down; `over` the pointer's place, which `hovers` if it isn't a finger; `cursor` the keyboard's place, shown while
 *  `byKeys`; `carries` while keys move a point; `edge` the front edge that is looked at; `leaves` where Tab is to leave the surface. */
const hand = { gesture: null, over: null, hovers: false, cursor: [0, 0], byKeys: false, carries: false, edge: null, leaves: false };

function snapshot() {
  return JSON.stringify(UNDONE.map((name) => state[name]));
}

function goBackTo(text) {
  JSON.parse(text).forEach((value, place) => { state[UNDONE[place]] = value; });
  if (!isPoint(state.selected)) state.selected = null;
  if (state.draft !== null) state.mode = state.draft.kind;
}

/** Steps taken by hand are on the mesh of one field and size. */
function ground() {
  return JSON.stringify([state.loops, state.size]);
}

/** Makes a change that can be undone. Changes in a row with the same tag are undone together, and TYPED ones are paved after a pause. */
function change(work, tag = null) {
  const [before, stood] = [snapshot(), ground()];
  work();
  if (ground() !== stood) state.moves = [];
  if (snapshot() !== before) remember(before, tag);
}

function remember(before, tag) {
  if (tag === null || tag !== changes.tag) changes.past.push(before);
  changes.tag = tag;
  changes.past.splice(0, changes.past.length - MOST_PAST);
  changes.future = [];
  changed(tag?.startsWith(TYPED));
}

function undo() {
  travel(changes.past, changes.future, "Undone.");
}

function redo() {
  travel(changes.future, changes.past, "Done again.");
}

function travel(from, to, words) {
  if (from.length === 0) return;
  to.push(snapshot());
  goBackTo(from.pop());
  changes.tag = null;
  tell(words);
  changed();
}

// ---- what is saved

/** A word for what a saved field has: it changes with each point, name and setting. */
function workWord() {
  const text = JSON.stringify([state.loops, state.draft, state.eye, state.size, state.title]);
  let [a, b] = [0xdeadbeef, 0x41c6ce57];
  for (let place = 0; place < text.length; place += 1) {
    const code = text.charCodeAt(place);
    [a, b] = [Math.imul(a ^ code, 2654435761), Math.imul(b ^ code, 1597334677)];
  }
  return `${(a >>> 0).toString(16)}-${(b >>> 0).toString(16)}`;
}

/** What stands is saved, or is as it was opened. */
function setSaved() {
  state.saved = workWord();
  keep();
}

function isUnsaved() {
  return isExamUnsaved() || (hasField() || state.draft !== null) && workWord() !== state.saved;
}

function keep() {
  const full = JSON.stringify({ state, changes });
  const text = full.length <= MOST_KEPT ? full : JSON.stringify({ state, changes: { past: [], future: [], tag: null } });
  try {
    sessionStorage.setItem(KEPT_AS, text);
  } catch {
    // a browser that keeps nothing: the drawing is lost on a reload, and only then
  }
}

/** Whether what stays open is to be closed, as it was chosen the last time, in whatever tab. */
function rememberClose(isOn) {
  state.close = isOn;
  try {
    localStorage.setItem(`${KEPT_AS}-close`, String(isOn));
  } catch {
    // a browser that keeps nothing
  }
}

function fetchKept() {
  try {
    state.close = localStorage.getItem(`${KEPT_AS}-close`) !== "false";
    const kept = JSON.parse(sessionStorage.getItem(KEPT_AS));
    Object.assign(state, kept.state);
    Object.assign(changes, kept.changes);
  } catch {
    // nothing was kept
  }
}

// ---- what the state says

function isDrawn(place) {
  return place < state.loops.length && state.loops[place].points.length > 0;
}

function hasField() {
  return state.loops.length > 0;
}

function isPoint(name) {
  return name !== null && name[0] < state.loops.length && name[1] < state.loops[name[0]].points.length;
}

function pointAt([loop, place]) {
  return state.loops[loop].points[place];
}

function field() {
  return { loops: state.loops };
}

/** The field with its settings. A size that isn't a number goes as 0, which the library refuses in words. */
function fieldWithSettings() {
  return { loops: state.loops, size: sizeAsked(), eye: state.eye, title: state.title, close: state.close };
}

function sizeAsked() {
  return Number.isFinite(state.size) ? state.size : 0;
}

function isDrawing() {
  return state.mode === "outline" || state.mode === "blind";
}
