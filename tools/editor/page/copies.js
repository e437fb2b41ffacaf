// Duplicate, copy, paste, and moves among siblings: each one frame, whose words say what it was.

import { called } from "./names.js";
import { copyOf, duplicateCommands, namedWithBelow, placeCommands, spawnCommands } from "./subtrees.js";

// What was copied is there for all tabs of the server.
const KEY = "copy";

export class Copies {
  constructor(editor) {
    Object.assign(this, { editor, copied: null });
  }

  targets() {
    return this.editor.forest.outermost(this.editor.targets());
  }

  async duplicate() {
    const { editor } = this;
    const roots = this.targets();
    if (roots.length === 0) return void editor.say("Choose first what is to be duplicated.", "refused");
    const { commands, fault, count } = duplicateCommands(editor.mirror, roots);
    if (fault !== undefined) return void editor.say(`Not duplicated: ${fault}.`, "refused");
    const items = copyOf(editor.mirror, roots);
    await this.askAndChoose(commands, `duplicate ${namedWithBelow(editor.mirror, roots, count)}`, items);
  }

  // Sends a frame of copies, and chooses those of them that stand on top.
  async askAndChoose(commands, words, items) {
    const { times } = this.editor.chosen;
    const entities = await this.editor.askFrame(commands, words);
    const fresh = entities.filter((_, at) => items[at]?.up === null);
    if (entities.length === items.length) this.editor.chooseWhenThere(fresh, times);
  }

  copy() {
    const { editor } = this;
    const roots = this.targets();
    if (roots.length === 0) return void editor.say("Choose first what is to be copied.", "refused");
    this.copied = copyOf(editor.mirror, roots);
    try {
      localStorage.setItem(KEY, JSON.stringify(this.copied));
    } catch {
      // A copy beyond what the browser keeps stays in this tab alone.
      localStorage.removeItem(KEY);
    }
    editor.say(`Copied: ${namedWithBelow(editor.mirror, roots, this.copied.length)}. Ctrl+V pastes below the chosen.`);
  }

  kept() {
    const kept = localStorage.getItem(KEY);
    return kept === null ? this.copied : JSON.parse(kept);
  }

  // Puts the copy below the chosen one, or as roots.
  async paste(parent = this.editor.chosen.liveLast()) {
    const { editor } = this;
    const items = this.kept();
    if (items === null) return void editor.say("Nothing is copied yet; Ctrl+C copies the chosen.", "refused");
    const { commands, fault } = spawnCommands(editor.mirror, items);
    if (fault !== undefined) return void editor.say(`Not pasted: ${fault}.`, "refused");
    const tops = items.flatMap(({ up }, at) => (up === null ? [at] : []));
    if (parent !== null) commands.push(...tops.map((at) => ({ do: "parent", child: `+${at}`, parent })));
    const where = parent === null ? "as roots" : `below ${called(editor.mirror, parent)}`;
    await this.askAndChoose(commands, `paste ${items.length} ${where}`, items);
  }

  // Moves the chosen by one among their siblings.
  shift(by) {
    const { editor } = this;
    const { state } = editor.mirror;
    const targets = this.targets();
    const parent = state.parents.get(targets[0]);
    if (targets.length === 0) return void editor.say("Choose first what is to be moved.", "refused");
    if (parent === undefined) return void editor.say("Roots stand by their index, and can't be reordered.", "refused");
    const list = state.children.get(parent);
    const all = list.filter((child) => targets.includes(child));
    if (all.length !== targets.length) return void editor.say("These have different parents.", "refused");
    const others = list.filter((child) => !all.includes(child));
    const behind = list.slice(0, list.indexOf(all[0])).filter((child) => !all.includes(child)).length;
    const place = by < 0 ? behind - 1 : behind + 1;
    if (place < 0 || place > others.length) return void editor.say("There is no neighbor on that side.", "refused");
    this.place(all, parent, others[place], by < 0 ? "up" : "down");
  }

  // Puts entities below a parent before one of its children; `way` says it in words.
  place(entities, parent, before, way = null) {
    const { editor } = this;
    if (editor.isLocked(entities)) return;
    const what = namedWithBelow(editor.mirror, entities, entities.length);
    const where = way ?? (before === undefined ? `last below ${called(editor.mirror, parent)}`
      : `before ${called(editor.mirror, before)}`);
    editor.askFrame(placeCommands(editor.mirror.state, entities, parent, before), `move ${what} ${where}`);
  }
}
