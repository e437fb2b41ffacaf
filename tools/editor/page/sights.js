// What a tab hides in its picture and locks against the mouse: with each entity all below it. It is the tab's own view
// and no part of the scene. `turns` counts the changes.

const KEY = "sights";

export class Sights {
  constructor(editor) {
    this.editor = editor;
    const kept = JSON.parse(sessionStorage.getItem(KEY) ?? "{}");
    this.turns = 0;
    this.sets = { hidden: new Set(kept.hidden), locked: new Set(kept.locked) };
  }

  has(sort, entity) {
    return this.sets[sort].has(entity);
  }

  // Whether it holds of an entity, or of one above it.
  holds(sort, entity) {
    const set = this.sets[sort];
    if (set.size === 0) return false;
    const { parents } = this.editor.mirror.state;
    for (let up = entity; up !== undefined; up = parents.get(up)) if (set.has(up)) return true;
    return false;
  }

  turn(sort, entities) {
    const set = this.sets[sort];
    this.turns += 1;
    const isOn = entities.some((entity) => !set.has(entity));
    for (const entity of entities) {
      if (isOn) set.add(entity);
      else set.delete(entity);
    }
    sessionStorage.setItem(KEY, JSON.stringify({ hidden: [...this.sets.hidden], locked: [...this.sets.locked] }));
    const say = { hidden: ["hidden in the picture", "shown again"], locked: ["locked", "free again"] }[sort];
    this.editor.say(`${entities.length === 1 ? "It is" : `${entities.length} are`} ${say[isOn ? 0 : 1]}, in this tab.`);
    this.editor.touch(["sights"]);
  }
}
