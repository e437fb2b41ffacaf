// What moves things in the picture: a drag of the mouse or the arrow keys. It is shown as it goes, and sent at its end,
// as one frame.

import { called } from "./names.js";
import { counted } from "./sentences.js";
import { valueTyped } from "./values.js";

const REST = 400;

export class Moving {
  constructor(picture) {
    Object.assign(this, { picture, editor: picture.editor, entities: new Set(), by: { x: 0, y: 0 }, rest: null });
    this.sent = new Map();
  }

  // The chosen that are drawn and free; those that are locked are told of where none is left.
  begin() {
    const { editor, picture } = this;
    const found = picture.points.among(editor.chosen.entities).map(({ entity }) => entity);
    this.entities = new Set(found.filter((entity) => !editor.sights.holds("locked", entity)));
    this.by = { x: 0, y: 0 };
    if (this.entities.size > 0) return true;
    const locked = "What is locked isn't moved; k in the forest frees it.";
    editor.say(found.length > 0 ? locked : "Choose first what is to move.", "refused");
    return false;
  }

  isUnderWay() {
    return this.entities.size > 0;
  }

  to(x, y) {
    this.by = { x: Math.round(x), y: Math.round(y) };
    this.picture.draw();
  }

  // A step by a key. A pause ends the move.
  nudge(x, y) {
    if (!this.isUnderWay() && !this.begin()) return;
    clearTimeout(this.rest);
    this.to(this.by.x + x, this.by.y + y);
    this.rest = setTimeout(() => this.end(), REST);
  }

  cancel() {
    clearTimeout(this.rest);
    this.entities = new Set();
    this.picture.draw();
  }

  // Whether a point may be shown elsewhere than it is.
  isElsewhere(entity) {
    return this.entities.has(entity) || this.sent.has(entity);
  }

  elsewhere() {
    return new Set([...this.entities, ...this.sent.keys()]);
  }

  // Where a point is shown. One whose move was sent is shown there until the page hears of it.
  shown(point) {
    const { x, y, by } = this.sent.get(point.entity) ?? {};
    const isSent = point.x === x && point.y === y;
    const from = isSent ? { entity: point.entity, x: x + by.x, y: y + by.y } : point;
    if (!this.entities.has(point.entity)) return from;
    return { entity: point.entity, x: from.x + this.by.x, y: from.y + this.by.y };
  }

  // A move is over once it is sent: what comes before its answer, a key or a loss of the focus, is none of it.
  async end() {
    clearTimeout(this.rest);
    const { entities, by, editor } = this;
    const isMoved = entities.size > 0 && (by.x !== 0 || by.y !== 0);
    const { commands, fault } = isMoved ? this.commands() : { commands: [] };
    this.entities = new Set();
    if (fault !== undefined) editor.say(`Not moved: ${fault}.`, "refused");
    if (commands?.length > 0) {
      const sent = this.keepSent(entities, by);
      const [first] = entities;
      const what = entities.size === 1 ? called(editor.mirror, first) : counted(entities.size, "entity", "entities");
      await editor.sendFrame(commands, { words: `move ${what} by ${by.x},${by.y}` });
      for (const [entity, each] of sent) if (this.sent.get(entity) === each) this.sent.delete(entity);
    }
    this.picture.draw();
  }

  keepSent(entities, by) {
    const sent = this.picture.points.among(entities).map(({ entity, x, y }) => [entity, { x, y, by }]);
    for (const [entity, each] of sent) this.sent.set(entity, each);
    return sent;
  }

  // An insert for each kind of each that moves. Values have 64 bits, beyond those of a JavaScript number.
  commands() {
    const { axes } = this.picture;
    const { mirror } = this.editor;
    const commands = [];
    for (const entity of this.entities) {
      const { cells } = mirror.state.rows.get(entity) ?? { cells: new Map() };
      const values = new Map();
      for (const [axis, by] of [[axes.x, this.by.x], [axes.y, this.by.y]]) {
        const [value] = cells.get(axis.kind) ?? [];
        if (value !== undefined) values.set(axis.kind, axis.moved(values.get(axis.kind) ?? value, BigInt(by)));
      }
      for (const [kind, moved] of values) {
        const [name, shape] = mirror.kinds[kind];
        const { value, fault } = valueTyped(mirror, shape, String(moved));
        if (fault !== undefined) return { fault };
        commands.push({ do: "insert", entity, kind: name, value });
      }
    }
    return { commands };
  }
}
