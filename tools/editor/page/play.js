// The play: each step is an advance, which is a frame as any other. Stop gives back the level as it was before the
// play, by undos of all frames since.

import { ask } from "./ask.js";
import { withNames } from "./names.js";
import { capital, counted, who, wordsOf } from "./sentences.js";

const BETWEEN_STEPS = 1000 / 30;
const MOST_LATE = 3 * BETWEEN_STEPS;
// Of two that a browser hears of within one of its own frames it draws one.
const LEAST_BETWEEN = 1000 / 60;
const MOST_WAIT = 5000;

function wait(milliseconds) {
  return new Promise((go) => setTimeout(go, milliseconds));
}

export class Play {
  // `base` is how many frames there were before the play, or null without one; `count` how many it has made.
  constructor(editor) {
    Object.assign(this, { editor, isPlaying: false, base: null, count: 0, turn: 0 });
    const at = (id) => document.getElementById(id);
    Object.assign(this, { playing: at("play"), pausing: at("pause"), stopping: at("stop") });
    at("play").addEventListener("click", () => this.play());
    at("pause").addEventListener("click", () => this.pause());
    at("stop").addEventListener("click", () => this.stop());
    at("step").addEventListener("click", () => this.step());
    this.show();
  }

  total() {
    const { mirror } = this.editor;
    return mirror.numberOf(mirror.position);
  }

  // All was read anew, perhaps of another store, and frames may have other numbers.
  wasRead(before) {
    if (this.base === null) return;
    this.base += this.total() - before.total;
    const isOver = before.store !== this.editor.mirror.store || this.base < 0;
    if (isOver) Object.assign(this, { base: null, isPlaying: false });
    this.show();
  }

  begin() {
    if (this.base === null || this.total() < this.base) Object.assign(this, { base: this.total(), count: 0 });
  }

  // One advance after the other: while one is on its way the next is sent, but none before the one before that is
  // answered. A refusal ends it. A play that was paused may still wait for its last answer when the next one begins,
  // and doesn't go on beside it.
  async play() {
    if (this.isPlaying) return;
    this.begin();
    this.isPlaying = true;
    this.turn += 1;
    const { turn } = this;
    this.show();
    this.editor.say("Playing. Stop gives back the level as it was.");
    let [due, before] = [performance.now(), true];
    while (this.isPlaying && turn === this.turn) {
      const sent = this.advance();
      if (!(await before)) this.isPlaying = false;
      before = sent;
      // (what was late isn't made up for by more than some steps)
      due = Math.max(due + BETWEEN_STEPS, performance.now() - MOST_LATE);
      await wait(Math.max(LEAST_BETWEEN, due - performance.now()));
    }
    this.show();
  }

  // Whether an advance is done.
  async advance() {
    const sent = this.editor.send(["advance"], undefined, { beside: true });
    this.advancing = Promise.all([this.advancing, sent]);
    const isDone = await sent;
    if (isDone) this.count += 1;
    return isDone;
  }

  pause() {
    if (!this.isPlaying) return;
    this.isPlaying = false;
    this.show();
    this.editor.say(`Paused at tick ${this.editor.mirror.state.tick}. Stop gives back the level as it was.`);
  }

  async step() {
    this.isPlaying = false;
    this.begin();
    await this.advance();
    this.show();
  }

  // What others did since the play began, or this tab beside it, is asked about first.
  async stop() {
    const { editor, base } = this;
    if (base === null) return;
    this.isPlaying = false;
    await this.advancing;
    await this.heard(() => this.total() >= base + this.count);
    const frames = this.total() - base;
    const { mirror } = editor;
    const others = mirror.frames.slice(Math.max(0, base - mirror.older), mirror.position)
      .filter(({ session, words }) => session !== editor.wire.session || !words[0]?.startsWith("advance:"));
    if (others.length > 0 && !(await this.mayTake(others))) return void this.show();
    this.base = null;
    this.show();
    if (frames <= 0) return void editor.say("The level is as it was before the play.");
    const isDone = await editor.send(new Array(frames).fill("undo"));
    if (!isDone) return;
    // (each frame that comes back is told too, and would stand in place of these words)
    await this.heard(() => this.total() <= base);
    if (this.total() > base) return void editor.say("Stopped, but not all is taken back: others went on.", "refused");
    editor.say(`Stopped: the level is as it was; ${counted(frames, "frame")} can be done again.`);
  }

  // Waits until the page has heard of all that it sent.
  async heard(isAll) {
    const end = performance.now() + MOST_WAIT;
    while (!isAll() && performance.now() < end) await wait(10);
  }

  async mayTake(others) {
    const { mirror } = this.editor;
    const tell = ({ session, words }) => `${capital(who(session))}: ${withNames(mirror, wordsOf(words))}`;
    const told = others.slice(0, 3).map(tell).join("; ");
    const more = others.length > 3 ? ` and ${others.length - 3} more` : "";
    const words = `These frames came since the play began, and would be taken back too: ${told}${more}.`;
    return (await ask({ title: "Take these back with the play?", words, yes: "Take all back" })) !== null;
  }

  show() {
    this.playing.setAttribute("aria-pressed", this.isPlaying);
    this.pausing.disabled = !this.isPlaying;
    this.stopping.disabled = this.base === null;
  }
}
