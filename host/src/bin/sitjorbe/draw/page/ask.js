// Questions to the command that serves this page. All meshes, judgements and pictures come from there.

/** After so long it is said that the answer is under way. */
const NOTICED_MS = 300;
/** A newer question waits so long for an older one's answer; then the older one is given up. */
const PATIENCE_MS = 700;

/** This page, by a name that nobody guesses: a newer question of it takes the place of an older one at the same path. */
const PAGE = Array.from(crypto.getRandomValues(new Uint32Array(4)), (word) => word.toString(16)).join("-");

/** The answer to a question; throws the words of an error. */
async function post(path, body, signal) {
  const headers = { "Content-Type": "application/json", "Sitjorbe-Page": PAGE };
  let response;
  try {
    response = await fetch(path, { method: "POST", headers, body: JSON.stringify(body), signal });
  } catch (error) {
    if (error.name === "AbortError") throw error;
    throw new Error("There is no answer: is “sitjorbe draw” still running?");
  }
  const answer = await response.json();
  if (!response.ok) throw new Error(answer.error ?? `The answer was ${response.status}.`);
  return answer;
}

/** Questions of one kind, one at a time: of those that come meanwhile only the last is asked. An answer that was overtaken is dropped, unless the hand that
 *  overtook it is still moving. */
class Asker {
  constructor(path, { show, fail, busy = () => {} }) {
    Object.assign(this, { path, show, fail, busy, asked: 0, last: null, waiting: null, control: null, timer: null });
  }

  /** Asks, unless just that was asked last. */
  ask(body) {
    const text = JSON.stringify(body);
    if (text === this.last) return;
    this.last = text;
    this.asked += 1;
    this.waiting = { body, number: this.asked };
    this.timer ??= setTimeout(() => this.busy(true, this), NOTICED_MS);
    if (this.control === null) this.next();
    else this.hurry(this.control);
  }

  /** Nothing is asked any more: an answer under way is dropped. */
  drop() {
    this.asked += 1;
    this.last = null;
    this.waiting = null;
    this.settle();
  }

  /** Ends what is under way, here and in the server; what was asked stays unanswered. */
  stop() {
    this.drop();
    this.control?.abort();
  }

  hurry(control) {
    setTimeout(() => { if (this.control === control && this.waiting !== null) control.abort(); }, PATIENCE_MS);
  }

  async next() {
    const { body, number } = this.waiting;
    this.waiting = null;
    this.control = new AbortController();
    const { answer, wrong } = await post(this.path, body, this.control.signal).then((answer) => ({ answer }), (wrong) => ({ wrong }));
    const [isLast, isMoving] = [number === this.asked, this.waiting !== null && hand.gesture !== null];
    this.control = null;
    if (this.waiting !== null) this.next();
    else this.settle();
    if (answer !== undefined && (isLast || isMoving)) this.show(answer, body);
    if (wrong !== undefined && isLast) {
      this.last = null;
      this.fail(wrong.message, body);
    }
  }

  settle() {
    clearTimeout(this.timer);
    this.timer = null;
    this.busy(false, this);
  }
}
