// Entities come and go: the box for a spawn, and the buttons beside it.

import { ask } from "./ask.js";
import { isToBeSent, showFault, wasSent } from "./field_faults.js";
import { called } from "./names.js";
import { counted } from "./sentences.js";
import { subtreeOf } from "./subtrees.js";
import { cellsTyped } from "./typed.js";

export class Changes {
  constructor(editor) {
    this.editor = editor;
    const at = (id) => document.getElementById(id);
    this.cells = at("spawn-cells");
    at("spawn").addEventListener("click", () => this.spawn(false));
    at("spawn-below").addEventListener("click", () => this.spawn(true));
    at("despawn").addEventListener("click", () => this.despawn(false));
    at("despawn-all").addEventListener("click", () => this.despawn(true));
    this.cells.addEventListener("keydown", (event) => {
      if (event.key === "Enter") this.spawn(event.shiftKey);
    });
  }

  async spawn(isBelow) {
    const { editor } = this;
    const { cells, fault } = cellsTyped(editor.mirror, this.cells.value.trim());
    if (fault !== undefined) return void this.tellFault(`Not sent: ${fault}.`);
    const parent = editor.chosen.last;
    if (isBelow && parent === null) return void this.tellFault("Choose first below which entity it is to go.");
    const commands = [{ do: "spawn", cells }, ...(isBelow ? [{ do: "parent", child: "+0", parent }] : [])];
    // (the page may hear of the spawn before its answer comes, and the keys of undo are the scene's then)
    wasSent(this.cells);
    const { times } = editor.chosen;
    const answers = await editor.ask(editor.asFrame(commands));
    const bad = answers.find(({ answer }) => answer === "bad");
    if (bad !== undefined) showFault(this.cells, bad.reason, this.cells);
    const entities = answers.at(-1)?.entities ?? [];
    if (entities.length === 0) return void isToBeSent(this.cells);
    editor.chooseWhenThere(entities, times);
  }

  tellFault(words) {
    showFault(this.cells, words, this.cells);
    this.editor.say(words, "refused");
  }

  // Alone, those deepest down first, so that a parent may go with all its children; or each with all below it.
  async despawn(isAll) {
    const { editor } = this;
    const found = editor.targets();
    const targets = isAll ? editor.forest.outermost(found) : this.deepestFirst(found);
    const kept = editor.hiddenTargets();
    const hidden = "The chosen are hidden by the search; nothing goes.";
    const why = kept > 0 ? hidden : "Choose the entities first that are to go.";
    if (targets.length === 0) return void editor.say(why, "refused");
    if (isAll && !(await this.mayGo(targets))) return;
    const isDone = await editor.sendFrame(targets.map((entity) => ({ do: isAll ? "despawnall" : "despawn", entity })));
    if (isDone && kept > 0) editor.say(`Done; ${counted(kept, "chosen one")} that the search hides stayed.`);
  }

  // What goes along unseen is asked for first.
  async mayGo(targets) {
    const { editor } = this;
    const below = targets.flatMap((entity) => subtreeOf(editor.mirror.state, entity).slice(1));
    const unseen = below.filter(({ entity }) => !editor.isInSearch(entity)).length;
    if (unseen === 0) return true;
    const [first] = targets;
    const what = targets.length === 1 ? called(editor.mirror, first) : counted(targets.length, "entity", "entities");
    const words = `${counted(below.length, "entity", "entities")} below, of which the search hides ${unseen}, go too.`;
    return (await ask({ title: `Despawn ${what} with all below?`, words, yes: "Despawn all" })) !== null;
  }

  deepestFirst(entities) {
    const { parents } = this.editor.mirror.state;
    const depth = (entity) => {
      let levels = 0;
      for (let up = parents.get(entity); up !== undefined; up = parents.get(up)) levels += 1;
      return levels;
    };
    const deep = entities.map((entity) => ({ entity, levels: depth(entity) }));
    return deep.sort((one, other) => other.levels - one.levels).map(({ entity }) => entity);
  }
}
