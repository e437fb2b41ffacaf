// The forest: who is below whom. Several are chosen, renamed, moved among siblings, below another or to the roots, by
// keys and by the mouse.

import { InPlace } from "./in_place.js";
import { ListInSight } from "./in_sight.js";
import { forestLines, isUnfolded, newFolds, turn } from "./lines.js";
import { isMenuOpen } from "./menu.js";
import { called } from "./names.js";
import { counted } from "./sentences.js";
import { fillTreeLine, sayTreeLine } from "./tree_line.js";
import { valueTyped } from "./values.js";

const SORT = "application/x-entities";
// A drop on this share of a line's height, above or below, goes between lines.
const EDGE = 0.28;

export class Forest {
  constructor(editor) {
    Object.assign(this, { editor, folds: newFolds(false), taken: [], counts: [], pointed: undefined });
    this.box = document.getElementById("forest");
    this.root = document.getElementById("to-root");
    this.list = new ListInSight(this.box, {
      fill: (element, line) => this.fill(element, line), sign: (line) => JSON.stringify(this.say(line)),
      fold: (line) => this.turn(line),
      select: (line, event, target) => this.selected(line, event, target),
      press: (event, line) => this.pressed(event, line),
    });
    this.inPlace = new InPlace(this.list, editor);
    this.box.addEventListener("contextmenu", (event) => this.asked(event));
    document.getElementById("fold-all").addEventListener("click", () => this.foldAll(false));
    document.getElementById("unfold-all").addEventListener("click", () => this.foldAll(true));
    this.listenToDrags();
  }

  show() {
    const { mirror, matched, searching } = this.editor;
    this.counts = searching.counts();
    this.list.show(forestLines(mirror.state, this.folds, matched));
    this.inPlace.follow();
  }

  draw() {
    this.list.draw();
    this.inPlace.follow();
  }

  // What stands on a line.
  say(line) {
    if (line.sort === "rest") return { text: line.text };
    // A scroll may come between a despawn and the list without its line.
    if (!this.editor.mirror.isLive(line.entity)) return { text: `${line.entity} is gone` };
    const way = line.entity === this.pointed?.entity ? this.pointed.way : undefined;
    return { ...sayTreeLine(line, this), isTaken: this.taken.includes(line.entity), way };
  }

  fill(element, line) {
    const said = this.say(line);
    if (said.text !== undefined) return void (element.textContent = said.text);
    fillTreeLine(element, said);
    element.classList.toggle("taken", said.isTaken);
    if (said.way !== undefined) element.classList.add(said.way);
  }

  selected(line, event, target) {
    if (line.entity === undefined) return;
    const { flag } = target?.closest("[data-flag]")?.dataset ?? {};
    if (flag !== undefined) return void this.editor.sights.turn(flag, [line.entity]);
    if (event.type === "click" && event.detail === 2) return void this.rename(line);
    this.editor.chosen.by(event, line.entity, this.list);
  }

  // Folds

  turn(line) {
    if (line.isOpen === undefined || this.editor.matched !== null) return;
    turn(this.folds, line.key);
    this.show();
  }

  foldAll(isOpen) {
    if (this.editor.matched !== null) return void this.editor.say("A search shows all that it finds unfolded.");
    this.folds = newFolds(isOpen);
    this.show();
  }

  // Unfolds all above an entity, and goes to its line.
  reveal(entity) {
    const { parents } = this.editor.mirror.state;
    let isTurned = false;
    for (let up = parents.get(entity); up !== undefined; up = parents.get(up)) {
      if (isUnfolded(this.folds, up)) continue;
      turn(this.folds, up);
      isTurned = true;
    }
    if (isTurned) this.show();
    this.list.goToKey(entity);
  }

  // Keys

  pressed(event, line) {
    if (event.ctrlKey || event.metaKey) return false;
    const step = { ArrowDown: 1, ArrowUp: -1 }[event.key];
    if (event.altKey && step !== undefined) this.editor.copies.shift(step);
    else if (event.altKey) return false;
    else if (event.shiftKey && step !== undefined) this.extend(step);
    else if (event.shiftKey && event.key === "ArrowLeft") this.foldAll(false);
    else if (event.shiftKey && event.key === "ArrowRight") this.foldAll(true);
    else return this.pressedAlone(event, line);
    return true;
  }

  pressedAlone(event, line) {
    const { editor } = this;
    if (event.key === "F2") this.rename(line);
    else if (event.key === "h") editor.sights.turn("hidden", editor.targets());
    else if (event.key === "k") editor.sights.turn("locked", editor.targets());
    else if (event.key === "x") this.take();
    else if (event.key === "v") this.put(line.entity);
    else if (event.key === "r") this.toRoots(this.taken.length > 0 ? this.taken : editor.targets());
    else if (event.key === "Escape" && this.taken.length > 0) this.letGo("Nothing is taken any more.");
    else if (event.key === "ContextMenu" || (event.key === "F10" && event.shiftKey)) this.askedByKey(line);
    else return false;
    return true;
  }

  extend(step) {
    const { list, editor } = this;
    if (editor.chosen.anchor === null) editor.chosen.anchor = list.lines.at(list.active).entity;
    list.goTo(list.active + step);
    const { entity } = list.lines.at(list.active);
    if (entity !== undefined) editor.chosen.upTo(entity, list);
  }

  // Names

  rename({ entity }) {
    const { editor, box } = this;
    const { mirror } = editor;
    const kind = mirror.nameKind;
    const cell = box.querySelector(`[data-entity="${entity}"] .name`);
    if (entity === undefined || cell === null) return;
    if (kind < 0) return void editor.say("This scene has no kind for a name: none of its kinds is a Text.", "refused");
    const [name, shape] = mirror.kinds[kind];
    const now = () => (mirror.isLive(entity) ? mirror.state.rows.get(entity).cells.get(kind)?.[0] ?? "" : undefined);
    this.inPlace.open(cell, {
      key: entity, shape, value: now(), kind: name, label: `${name} of ${called(mirror, entity)}`, now,
      whose: () => editor.detail.whoWrote(entity), send: (typed) => this.writeName(entity, name, shape, typed),
    });
  }

  writeName(entity, name, shape, typed) {
    const { value, fault } = valueTyped(this.editor.mirror, shape, typed);
    if (fault !== undefined) return fault;
    this.editor.sendFrame([{ do: "insert", entity, kind: name, value }]);
    return null;
  }

  // The menu

  asked(event) {
    event.preventDefault();
    // After the menu key a browser tells of it once more.
    if (isMenuOpen()) return;
    const entity = this.lineAt(event)?.entity;
    if (entity !== undefined && !this.editor.chosen.has(entity)) this.editor.chosen.only(entity, this.list);
    this.editor.openMenu(event.clientX, event.clientY);
  }

  askedByKey({ entity }) {
    if (entity !== undefined && this.editor.chosen.entities.size === 0) this.editor.chosen.only(entity, this.list);
    const line = this.box.querySelector(".line.active") ?? this.box;
    const { left, bottom } = line.getBoundingClientRect();
    this.editor.openMenu(left + 40, bottom);
  }

  // Below another

  take() {
    this.taken = this.inOrder(this.editor.targets());
    this.list.draw();
    const { length } = this.taken;
    if (length === 0) return void this.editor.say("Choose first.", "refused");
    const what = counted(length, "entity", "entities");
    this.editor.say(`Taken: ${what}. v puts below the active line, r makes roots, Escape lets go.`);
  }

  letGo(words) {
    this.taken = [];
    this.list.draw();
    if (words) this.editor.say(words);
  }

  put(parent) {
    if (this.taken.length === 0) return this.editor.say("Take the chosen first, by x.", "refused");
    const taken = this.outermost(this.taken);
    this.letGo();
    this.moveBelow(taken, parent);
  }

  // Those that have none of the others above them: the rest goes along.
  outermost(entities) {
    const { mirror } = this.editor;
    const { parents } = mirror.state;
    const all = new Set(entities);
    const isBelow = (entity) => {
      let up = parents.get(entity);
      while (up !== undefined && !all.has(up)) up = parents.get(up);
      return up !== undefined;
    };
    return entities.filter((entity) => mirror.isLive(entity) && !isBelow(entity));
  }

  // As their lines stand.
  inOrder(entities) {
    if (entities.length < 2) return entities;
    const places = new Map(this.list.lines.entities.map((entity, at) => [entity, at]));
    return entities.sort((one, other) => (places.get(one) ?? Infinity) - (places.get(other) ?? Infinity));
  }

  moveBelow(entities, parent) {
    if (parent === undefined || entities.length === 0 || this.editor.isLocked(entities)) return;
    this.editor.sendFrame(entities.map((child) => ({ do: "parent", child, parent })));
  }

  toRoots(entities) {
    this.letGo();
    const { parents } = this.editor.mirror.state;
    const below = this.outermost(entities).filter((entity) => parents.has(entity));
    if (below.length === 0) return void this.editor.say("They are roots already, or none is chosen.", "refused");
    if (this.editor.isLocked(below)) return;
    this.editor.sendFrame(below.map((child) => ({ do: "unparent", child })));
  }

  // Drags

  listenToDrags() {
    const { box, root } = this;
    box.addEventListener("dragstart", (event) => this.dragged(event));
    for (const place of [box, root]) {
      place.addEventListener("dragover", (event) => this.over(event));
      place.addEventListener("dragleave", () => this.point(undefined));
      place.addEventListener("drop", (event) => this.dropped(event));
    }
    document.addEventListener("dragend", () => this.dragEnded());
  }

  lineAt(event) {
    const element = event.target.closest?.("#forest [data-place]") ?? null;
    return element === null ? undefined : this.list.lines.at(Number(element.dataset.place));
  }

  dragged(event) {
    const entity = this.lineAt(event)?.entity;
    if (entity === undefined) return;
    // What isn't chosen is dragged alone, and the choice stays: so it can go onto a field of what is chosen.
    const { chosen } = this.editor;
    this.dragging = chosen.has(entity) ? this.inOrder(this.outermost([...chosen.entities])) : [entity];
    event.dataTransfer.setData(SORT, this.dragging.join(" "));
    event.dataTransfer.setData("text/plain", this.dragging.join(" "));
    event.dataTransfer.effectAllowed = "all";
    // A drag ends where the page changes under it as it begins.
    setTimeout(() => (this.root.hidden = false));
  }

  // Where a drop goes: below a line's entity, or before or behind it; null for the roots. Roots have no order.
  placeAt(event) {
    const line = this.lineAt(event);
    if (line?.entity === undefined) return null;
    const element = event.target.closest("[data-place]").getBoundingClientRect();
    const share = (event.clientY - element.top) / element.height;
    const isRoot = !this.editor.mirror.state.parents.has(line.entity);
    const way = isRoot || (share > EDGE && share < 1 - EDGE) ? "target" : share <= EDGE ? "before" : "behind";
    return { entity: line.entity, way };
  }

  over(event) {
    if (this.dragging === undefined) return;
    event.preventDefault();
    event.dataTransfer.dropEffect = "move";
    this.point(this.placeAt(event));
  }

  // Marks where a drop would go.
  point(place) {
    if (this.pointed?.entity === place?.entity && this.pointed?.way === place?.way && this.pointed !== null) return;
    this.pointed = place;
    this.root.classList.toggle("target", place === null);
    this.list.draw();
  }

  dropped(event) {
    if (this.dragging === undefined) return;
    event.preventDefault();
    const place = this.placeAt(event);
    const entities = this.dragging;
    this.dragEnded();
    if (place === null) return void this.toRoots(entities);
    if (entities.includes(place.entity)) return;
    if (place.way === "target") return void this.moveBelow(entities, place.entity);
    this.dropBetween(entities, place);
  }

  dropBetween(entities, { entity, way }) {
    const { parents, children } = this.editor.mirror.state;
    const parent = parents.get(entity);
    const others = children.get(parent).filter((child) => !entities.includes(child));
    const before = way === "before" ? entity : others[others.indexOf(entity) + 1];
    this.editor.copies.place(entities, parent, before);
  }

  dragEnded() {
    this.dragging = undefined;
    this.point(undefined);
    this.root.hidden = true;
  }
}
