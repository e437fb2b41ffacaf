// The page: what it shows of the timeline, and what keys and the mouse do.

import { cellList, fillChange, fillEntity, fillResource, fillTable } from "./fills.js";
import { ListInSight } from "./in_sight.js";
import { changeLines, forestLines, isUnfolded, newFolds, resourceLines, tableLines, turn } from "./lines.js";
import { button, part } from "./parts.js";
import { framesOf, marksOf } from "./records.js";
import { goTo, timelineOf } from "./state.js";
import { found, positionText } from "./words.js";

const OPEN_UP_TO = 200;
const MOST_FRAMES_NAMED = 100;

class Page {
  constructor(scene) {
    const isSmall = timelineOf(scene).state.rows.size <= OPEN_UP_TO;
    this.timeline = timelineOf(scene);
    this.folds = { forest: newFolds(isSmall), tables: newFolds(isSmall) };
    this.chosen = null;
    const at = (id) => document.getElementById(id);
    const named = ["slider", "position", "search", "found", "detail"];
    this.at = Object.fromEntries(named.map((id) => [id, at(id)]));
    const select = (line) => this.choose(line.entity);
    this.forest = new ListInSight(at("forest"), {
      select, fold: (line) => this.turn("forest", line),
      fill: (element, line) => fillEntity(element, line, this.view()),
    });
    this.tables = new ListInSight(at("tables"), {
      select: (line) => (line.table ? this.turn("tables", line) : select(line)),
      fold: (line) => this.turn("tables", line), fill: (element, line) => fillTable(element, line, this.view()),
    });
    const fold = () => {};
    this.changes = new ListInSight(at("changes"), { select, fold, fill: fillChange });
    this.resources = new ListInSight(at("resources"), {
      select: fold, fold, fill: (element, line) => fillResource(element, line, this.view()),
    });
    this.listen(at);
    this.show();
  }

  listen(at) {
    const { slider, search } = this.at;
    slider.max = this.timeline.records.length;
    slider.addEventListener("input", () => this.goTo(Number(slider.value)));
    at("older").addEventListener("click", () => this.goTo(this.timeline.position - 1));
    at("newer").addEventListener("click", () => this.goTo(this.timeline.position + 1));
    at("now").addEventListener("click", () => this.goTo(this.timeline.now));
    search.addEventListener("input", () => this.show());
    document.addEventListener("keydown", (event) => {
      if (event.target === search || event.altKey || event.ctrlKey || event.metaKey) return;
      if (event.key === "[") this.goTo(this.timeline.position - 1);
      else if (event.key === "]") this.goTo(this.timeline.position + 1);
      else if (event.key === "/") search.focus();
      else return;
      event.preventDefault();
    });
  }

  goTo(position) {
    goTo(this.timeline, Math.max(0, Math.min(position, this.timeline.records.length)));
    this.show();
  }

  // Shows the state at the position, as far as the search and the folds let it.
  show() {
    const { timeline, at } = this;
    const record = timeline.records[timeline.position - 1];
    const text = positionText(timeline);
    this.marks = marksOf(record);
    this.matched = found(timeline, at.search.value);
    at.slider.value = timeline.position;
    at.slider.setAttribute("aria-valuetext", text);
    at.position.textContent = text;
    const live = timeline.state.rows.size;
    at.found.textContent = this.matched ? `${this.matched.size} of ${live} entities found` : `${live} entities`;
    this.changes.show(changeLines(timeline.kinds, record));
    this.resources.show(resourceLines(timeline.state));
    this.showLists();
    this.showChosen();
  }

  showLists() {
    this.forest.show(forestLines(this.timeline.state, this.folds.forest, this.matched));
    this.tables.show(tableLines(this.timeline.state, this.folds.tables, this.matched));
  }

  // What the lines that are drawn show beside themselves.
  view() {
    const { kinds, state } = this.timeline;
    return { kinds, state, marks: this.marks, isChosen: (entity) => entity === this.chosen };
  }

  turn(name, line) {
    if (line.isOpen === undefined || this.matched !== null) return;
    turn(this.folds[name], line.key);
    this.showLists();
  }

  // Chooses an entity, and unfolds both lists so far that it is in sight in them.
  choose(entity) {
    if (entity === undefined) return;
    this.chosen = entity;
    const { state } = this.timeline;
    for (let up = state.parents.get(entity); up !== undefined; up = state.parents.get(up)) {
      if (!isUnfolded(this.folds.forest, up)) turn(this.folds.forest, up);
    }
    const table = state.rows.has(entity) ? `table ${state.rows.get(entity).table.key}` : null;
    if (table !== null && !isUnfolded(this.folds.tables, table)) turn(this.folds.tables, table);
    this.showLists();
    this.forest.goToKey(entity);
    this.tables.goToKey(entity);
    this.showChosen();
  }

  showChosen() {
    const { detail } = this.at;
    const { kinds, state, records } = this.timeline;
    detail.replaceChildren();
    if (this.chosen === null) return void (detail.textContent = "Choose an entity in any list.");
    const row = state.rows.get(this.chosen);
    detail.append(part("b", "", this.chosen), row ? "" : " isn't live at this frame");
    if (row) detail.append(cellList(kinds, row));
    const parent = state.parents.get(this.chosen);
    if (parent) detail.append(part("p", "", "Its parent: "), button(parent, () => this.choose(parent)));
    const frames = framesOf(records, this.chosen);
    const more = frames.length - MOST_FRAMES_NAMED;
    detail.append(part("p", "", frames.length > 0 ? "Frames that changed it:" : "No frame here changed it."));
    detail.append(...frames.slice(0, MOST_FRAMES_NAMED).map((frame) => button(String(frame), () => this.goTo(frame))));
    if (more > 0) detail.append(`and ${more} more`);
  }
}

// Where there is no document, as in a test, the functions above are there, and nothing is drawn.
if (typeof document !== "undefined") new Page(JSON.parse(document.getElementById("scene").textContent));
