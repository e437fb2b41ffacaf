// Undo and redo: what the next one would do, and whose frame that is. With `only mine` no other's frame is taken back.

import { withNames } from "./names.js";
import { remember, remembered } from "./panes.js";
import { who, wordsOf } from "./sentences.js";

export class Undoing {
  constructor(editor) {
    this.editor = editor;
    const at = (id) => document.getElementById(id);
    Object.assign(this, { buttons: { undo: at("undo"), redo: at("redo") }, mine: at("only-mine") });
    this.mine.checked = remembered("mine") === true;
    this.mine.addEventListener("change", () => {
      remember("mine", this.mine.checked);
      this.show();
    });
    this.buttons.undo.addEventListener("click", () => this.undo());
    this.buttons.redo.addEventListener("click", () => this.redo());
  }

  // The frame that a step would take back or do again; null where there is none, and without words where it isn't held.
  next(sort) {
    const { mirror } = this.editor;
    const at = sort === "undo" ? mirror.position - 1 : mirror.position;
    const isPast = sort === "undo";
    const isThere = isPast ? mirror.position + mirror.older > 0 : mirror.frames.length > at || mirror.later > 0;
    if (!isThere) return null;
    return mirror.frames[at] ?? { session: null, words: [`frame ${mirror.numberOf(at + 1)}`] };
  }

  isMine(frame) {
    return frame.session === this.editor.wire.session;
  }

  wordsFor(frame) {
    const words = withNames(this.editor.mirror, wordsOf(frame.words)) || "an empty frame";
    return this.isMine(frame) ? words : `${words} (${who(frame.session)})`;
  }

  show() {
    const says = { undo: ["Undo", "take back", "Ctrl+Z or ["], redo: ["Redo", "do again", "Ctrl+Shift+Z or ]"] };
    for (const [sort, [name, verb, keys]] of Object.entries(says)) {
      const frame = this.next(sort);
      const button = this.buttons[sort];
      const words = frame === null ? `nothing to ${verb}` : this.wordsFor(frame);
      button.textContent = frame === null ? name : `${name} ${words}`;
      button.title = frame === null ? words : `${verb} ${words} (${keys})`;
      const isKept = frame !== null && this.mine.checked && !this.isMine(frame);
      button.setAttribute("aria-disabled", frame === null || isKept);
      if (isKept) button.title = this.keptWords(frame);
    }
  }

  keptWords(frame) {
    const words = withNames(this.editor.mirror, wordsOf(frame.words));
    return `That is of ${who(frame.session)}: ${words}. “only mine” keeps it.`;
  }

  step(sort) {
    const { editor } = this;
    const frame = this.next(sort);
    if (frame !== null && this.mine.checked && !this.isMine(frame)) {
      return void editor.say(`Not done: ${this.keptWords(frame)}`, "refused");
    }
    editor.send([sort]);
  }

  undo() { this.step("undo"); }

  redo() { this.step("redo"); }
}
