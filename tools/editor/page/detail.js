// What is chosen: its components as fields, for one entity or for all chosen at once; the parent of one, and the frames
// that changed it.

import { Adding } from "./adding.js";
import { called, nameOf } from "./names.js";
import { adopt, part, putIn } from "./parts.js";
import { Property } from "./property.js";
import { capital, counted, who } from "./sentences.js";

const MOST_FRAMES_NAMED = 30;

export class Detail {
  constructor(editor) {
    Object.assign(this, { editor, properties: new Map(), actions: new Map(), adding: new Adding(editor) });
    this.box = document.getElementById("detail");
    [this.head, this.cells, this.foot] = ["head-of", "cells-of", "foot-of"].map((name) => part("div", name, ""));
    this.box.append(this.head, this.cells, this.foot);
    this.box.addEventListener("click", (event) => this.clicked(event.target.closest("[data-key]")));
  }

  // What stays the same keeps its elements, and so the focus and what is being typed.
  show() {
    const { box, editor } = this;
    const hasFocus = box.contains(document.activeElement);
    this.adding.show();
    this.actions.clear();
    const { last } = editor.chosen;
    const rows = [...editor.chosen.entities].map((entity) => editor.mirror.state.rows.get(entity)).filter(Boolean);
    box.dataset.entity = last ?? "";
    this.showInto(this.head, this.headOf(last, rows));
    this.showCells(rows);
    this.showInto(this.foot, rows.length === 1 || (rows.length === 0 && last !== null) ? [this.frames(last)] : []);
    if (hasFocus && !box.contains(document.activeElement)) box.focus({ preventScroll: true });
  }

  showInto(element, parts) {
    const fresh = part("div", element.className, "");
    fresh.append(...parts);
    adopt(element, fresh);
  }

  clicked(element) {
    if (element !== null) this.actions.get(element.dataset.key)?.();
  }

  headOf(last, rows) {
    const { mirror } = this.editor;
    if (last === null) return [part("p", "hint", "Choose an entity in the forest, in a table or in the picture.")];
    const head = part("p", "chosen-head", "");
    if (rows.length > 1) {
      head.append(part("b", "", counted(rows.length, "entity", "entities")), part("span", "hint", "edited together"));
      return [head];
    }
    const [{ entity } = { entity: last }] = rows;
    head.append(part("b", "", called(mirror, entity)));
    if (nameOf(mirror, entity) !== null) head.append(part("span", "id", entity));
    return rows.length === 0 ? [head, part("p", "hint", "It isn't live now.")] : [head, this.parent(entity)];
  }

  showCells(rows) {
    const byKind = new Map();
    for (const row of rows) {
      for (const kind of row.table.kinds) {
        if (!byKind.has(kind)) byKind.set(kind, []);
        byKind.get(kind).push(row);
      }
    }
    this.forgetOthers();
    const order = [...byKind.keys()].sort((one, other) => one - other);
    const shown = order.map((kind) => {
      if (!this.properties.has(kind)) this.properties.set(kind, new Property(this, kind));
      const property = this.properties.get(kind);
      property.show(byKind.get(kind), rows.length);
      return property.box;
    });
    putIn(this.cells, shown);
    const none = part("p", "hint", "No components yet; add one below.");
    if (rows.length > 0 && shown.length === 0) putIn(this.cells, [none]);
  }

  // Fields are those of what is chosen, and of its kinds: a kind that comes last leaves them, and what is typed there.
  forgetOthers() {
    const { chosen, mirror } = this.editor;
    const key = [...chosen.entities].join(" ");
    const before = this.kinds ?? [];
    const isSame = before.every(([name, shape], at) => mirror.kinds[at]?.[0] === name && mirror.kinds[at][1] === shape);
    if (key !== this.chosenKey || !isSame) this.properties.clear();
    Object.assign(this, { chosenKey: key, kinds: mirror.kinds });
  }

  // Who made the newest frame that changed an entity.
  whoWrote(entity) {
    const { mirror } = this.editor;
    const at = mirror.framesOf(entity).filter((each) => each <= mirror.position).at(-1);
    return capital(who(mirror.frames[at - 1]?.session));
  }

  // A button whose action is found by its key, whichever element it has.
  keyed(key, text, label, press) {
    this.actions.set(key, press);
    const element = part("button", "", text);
    element.type = "button";
    element.dataset.key = key;
    element.setAttribute("aria-label", label);
    return element;
  }

  parent(entity) {
    const { state } = this.editor.mirror;
    const parent = state.parents.get(entity);
    const children = state.children.get(entity)?.length ?? 0;
    const line = part("p", "hint", parent === undefined ? "A root" : "Below ");
    if (parent !== undefined) {
      const name = called(this.editor.mirror, parent);
      line.append(this.keyed("parent", name, `its parent ${name}`, () => this.editor.choose(parent)));
    }
    line.append(children > 0 ? `, with ${counted(children, "child", "children")}` : "");
    return line;
  }

  frames(entity) {
    const { mirror, strip } = this.editor;
    const found = mirror.framesOf(entity);
    const line = part("p", "frames", found.length > 0 ? "Frames: " : "No frame here changed it.");
    const shown = found.slice(-MOST_FRAMES_NAMED);
    if (shown.length < found.length) line.append(`${found.length - shown.length} older, `);
    line.append(...shown.map((at) => {
      const number = mirror.numberOf(at);
      return this.keyed(`frame ${number}`, String(number), `show frame ${number}`, () => strip.goToFrame(number));
    }));
    return line;
  }
}
