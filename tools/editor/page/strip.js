// All frames, past and future, in a list: who did what. A click or Enter goes to a frame, by undos or redos. Of frames
// that aren't held the words are asked for when they come into sight.

import { fillChange } from "./fills.js";
import { ListInSight } from "./in_sight.js";
import { changeLines, Lines } from "./lines.js";
import { withNames } from "./names.js";
import { part } from "./parts.js";
import { capital, who } from "./sentences.js";

const CHUNK = 200;
const ASK_AGAIN_AFTER = 200;

export class Strip {
  constructor(editor) {
    Object.assign(this, { editor, far: new Map(), asked: new Set(), shown: null });
    const at = (id) => document.getElementById(id);
    Object.assign(this, { position: at("position"), title: at("changes-title"), empty: at("changes-empty") });
    this.list = new ListInSight(at("strip"), {
      fill: (element, line) => this.fill(element, line), sign: (line) => JSON.stringify(this.say(line)),
      fold: () => {}, select: (line) => this.goTo(line.number),
      moved: (line) => this.showChanges(line.number),
    });
    this.changes = new ListInSight(at("changes"), {
      fill: fillChange, sign: ({ sort, entity, text }) => JSON.stringify([sort, entity, text]), fold: () => {},
      select: (line) => line.entity !== undefined && editor.choose(line.entity),
    });
    at("to-now").addEventListener("click", () => this.goToFrame(this.now()));
    new ResizeObserver(() => this.isFollowing && this.list.goTo(this.list.active)).observe(this.list.box);
  }

  // The number of the newest frame of the past.
  now() {
    return this.editor.mirror.numberOf(this.editor.mirror.position);
  }

  // All is read anew: what was known of frames farther off may not hold.
  forget() {
    this.far.clear();
    this.asked.clear();
  }

  show() {
    const { mirror } = this.editor;
    const count = mirror.numberOf(mirror.records.length) + mirror.later;
    const placeOf = (number) => (number <= count ? number : -1);
    const lines = new Lines(count + 1, (number) => ({ sort: "frame", key: number, number }), placeOf);
    // Who walks through the frames by keys stays where they are; else the line of now stays in sight.
    const isWalking = document.activeElement === this.list.box && this.list.active !== this.before;
    this.list.show(lines, isWalking ? undefined : this.now());
    if (isWalking) this.showChanges(this.list.active);
    this.isFollowing = !isWalking;
    this.before = this.now();
    const future = count - this.now();
    this.position.textContent = `${this.now()} past, ${future} future`;
  }

  // What stands on the line of a frame.
  say({ number }) {
    const now = this.now();
    const when = number === now ? "now" : number > now ? "future" : "past";
    if (number === 0) return { when, number: "", by: "the beginning", text: "" };
    const frame = this.frameOf(number);
    const words = frame?.words.join("; ") ?? "…";
    const text = withNames(this.editor.mirror, words) || "an empty frame";
    return { when, number, by: frame === undefined ? "" : capital(who(frame.session)), text, title: words || text };
  }

  fill(element, line) {
    const { when, number, by, text, title } = this.say(line);
    if (when === "future") element.classList.add("future");
    if (when === "now") element.setAttribute("aria-current", "true");
    element.append(
      part("span", "now", when === "now" ? "now" : ""), part("span", "number", String(number)),
      part("span", "count by", by), part("span", "text", text),
    );
    if (title !== undefined) element.title = title;
  }

  frameOf(number) {
    const { mirror } = this.editor;
    const held = mirror.frames[number - mirror.older - 1];
    if (held !== undefined) return held;
    if (!this.far.has(number)) this.askFor(number);
    return this.far.get(number);
  }

  async askFor(number) {
    const first = Math.floor((number - 1) / CHUNK) * CHUNK + 1;
    if (this.asked.has(first)) return;
    this.asked.add(first);
    const now = this.now();
    const { frames, first: from, again } = await this.editor.wire.frames(first - now, CHUNK);
    if (again) this.asked.delete(first);
    else frames.forEach((frame, at) => this.far.set(now + from + at, frame));
    setTimeout(() => this.list.draw(), again ? ASK_AGAIN_AFTER : 0);
  }

  // Says what a frame changed, as the line that is active there.
  showChanges(number) {
    const { mirror } = this.editor;
    const position = number - mirror.older;
    const record = mirror.recordAt(position);
    const isFar = number > 0 && mirror.records[position - 1] === undefined;
    this.title.textContent = number === 0 ? "What a frame changed" : `What frame ${number} changed`;
    if (mirror.isToRead(position)) return void setTimeout(() => this.editor.readRecord(position));
    this.empty.textContent = isFar ? "Its changes aren't held any more; Enter goes there." : "Nothing: choose a frame.";
    this.empty.hidden = (record?.deltas.length ?? 0) > 0;
    if (this.shown === record) return;
    this.shown = record;
    this.changes.show(changeLines(mirror.kinds, record));
  }

  goToFrame(number) {
    this.editor.panes.bring(this.list.box);
    this.list.goTo(number);
    this.list.box.focus({ preventScroll: true });
  }

  // Goes to a frame by as many undos or redos.
  goTo(number) {
    const by = number - this.now();
    if (by === 0) return;
    this.editor.send(new Array(Math.abs(by)).fill(by < 0 ? "undo" : "redo"));
  }
}
