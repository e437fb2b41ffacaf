// The tables: each kind set with its rows. Keys go from cell to cell, and a cell is edited in place by its shape.

import { fillTable, sayCell } from "./fills.js";
import { linkText } from "./links.js";
import { called } from "./names.js";
import { part } from "./parts.js";
import { ListInSight } from "./in_sight.js";
import { InPlace } from "./in_place.js";
import { isUnfolded, newFolds, tableLines, turn } from "./lines.js";
import { valueTyped } from "./values.js";

// The column of the entities themselves, before those of their kinds.
const ENTITY = -1;

export class Tables {
  constructor(editor) {
    Object.assign(this, { editor, folds: newFolds(true), column: 0 });
    this.box = document.getElementById("tables");
    this.list = new ListInSight(this.box, {
      fill: (element, line) => this.fill(element, line), around: (line, isActive) => this.around(line, isActive),
      sign: ({ row }) => JSON.stringify(row?.cells.cells), renew: (element, line) => this.renew(element, line),
      fold: (line) => this.turn(line),
      select: (line, event, target) => this.selected(line, event, target),
      press: (event, line) => this.pressed(event, line),
    });
    this.inPlace = new InPlace(this.list, editor);
    this.empty = document.getElementById("tables-empty");
    this.listenToDrops();
    this.box.addEventListener("contextmenu", (event) => this.asked(event));
  }

  show() {
    const { mirror, matched } = this.editor;
    const lines = tableLines(mirror.state, this.folds, matched);
    this.list.show(lines);
    this.empty.hidden = lines.length > 0;
    this.empty.textContent = matched === null ? "No entities, so no tables." : "Nothing here is found.";
    this.draw();
  }

  draw() {
    this.list.draw();
    this.inPlace.follow();
  }

  fill(element, line) {
    fillTable(element, line, this.editor.view());
    if (line.sort === "rest") return;
    const isActive = element.classList.contains("active");
    const kinds = (line.table ?? line.row.table).kinds;
    const column = Math.min(this.column, kinds.length - 1);
    [...element.children].forEach((cell, at) => {
      cell.setAttribute("role", line.sort === "table" ? "columnheader" : "gridcell");
      if (at > 0 && line.sort === "row") this.fillCell(cell, line, kinds[at - 1]);
      cell.dataset.column = at - 1;
      if (line.sort === "row" && isActive && at - 1 === column) cell.classList.add("current");
    });
    if (line.sort === "row") element.setAttribute("aria-selected", this.editor.chosen.has(line.entity));
    const cell = line.sort === "row" && isActive ? element.children[column + 1] : undefined;
    if (cell !== undefined) cell.id = "tables-cell";
  }

  // All that is shown of a line, but for its cells.
  around(line, isActive) {
    const { kinds, marks, isChosen } = this.editor.view();
    if (line.sort === "rest") return line.text;
    const names = (line.table ?? line.row.table).kinds.map((kind) => kinds[kind]);
    if (line.sort === "table") return JSON.stringify([names, line.rows]);
    const { entity, row } = line;
    const { sort, kinds: written = [] } = marks.entities.get(entity) ?? {};
    const { mirror } = this.editor;
    const links = row.cells.cells.map(([value], at) => (names[at]?.[1] === "Link" ? linkText(mirror, value) : ""));
    const state = [isActive && this.column, isChosen(entity), sort, [...written]];
    return JSON.stringify([names, links, ...state]);
  }

  // Writes what changed in the cells of a row; that to which a link goes is the same.
  renew(element, { row }) {
    if (row === undefined) return;
    const { kinds } = this.editor.mirror;
    row.table.kinds.forEach((kind, at) => {
      const [cell, shape] = [element.children[at + 1], kinds[kind][1]];
      const { text, title } = sayCell(shape, row.cells.cells[at]);
      if (cell.title === title) return;
      cell.title = title;
      if (shape !== "Link") cell.firstChild.data = text;
    });
  }

  // A link stands by its name.
  fillCell(cell, { row }, kind) {
    const { mirror } = this.editor;
    const [name, shape] = mirror.kinds[kind];
    cell.dataset.kind = name;
    if (shape !== "Link") return;
    const [target] = row.cells.get(kind);
    cell.replaceChildren(called(mirror, target), " ", part("span", "id", target));
    if (linkText(mirror, target) === target) cell.replaceChildren(part("span", "id", target));
  }

  asked(event) {
    event.preventDefault();
    const { entity } = this.list.lineOf(event.target) ?? {};
    if (entity !== undefined && !this.editor.chosen.has(entity)) this.editor.chosen.only(entity, this.list);
    if (this.editor.chosen.entities.size > 0) this.editor.openMenu(event.clientX, event.clientY);
  }

  // What is dragged from the forest onto a link is what it then goes to.
  listenToDrops() {
    const { box, editor } = this;
    const linkAt = (event) => {
      const cell = event.target.closest?.("[data-kind]");
      const isLink = cell && editor.mirror.shapeOf(cell.dataset.kind) === "Link";
      return editor.forest.dragging !== undefined && isLink ? cell : null;
    };
    box.addEventListener("dragover", (event) => linkAt(event) !== null && event.preventDefault());
    box.addEventListener("drop", (event) => {
      const cell = linkAt(event);
      if (cell === null) return;
      event.preventDefault();
      const { entity } = this.list.lineOf(cell);
      this.write(entity, cell.dataset.kind, "Link", editor.forest.dragging[0]);
    });
  }

  turn(line) {
    if (line.isOpen === undefined || this.editor.matched !== null) return;
    turn(this.folds, line.key);
    this.show();
  }

  reveal(entity) {
    const row = this.editor.mirror.state.rows.get(entity);
    if (row === undefined) return;
    if (!isUnfolded(this.folds, `table ${row.table.key}`)) {
      turn(this.folds, `table ${row.table.key}`);
      this.show();
    }
    this.list.goToKey(entity);
  }

  selected(line, event, target) {
    if (line.sort === "table") return void this.turn(line);
    if (line.sort !== "row") return;
    const column = target?.closest("[data-column]")?.dataset.column;
    if (event.type === "click" && column !== undefined) this.goTo(line, Number(column));
    if (event.type === "click" && event.detail === 2) this.edit(line);
    else this.editor.chosen.by(event, line.entity, this.list);
  }

  pressed(event, line) {
    if (line.sort !== "row" || event.ctrlKey || event.metaKey || event.altKey) return false;
    const column = Math.min(this.column, line.row.table.kinds.length - 1);
    if (event.key === "ArrowLeft") this.goTo(line, column - 1);
    else if (event.key === "ArrowRight") this.goTo(line, column + 1);
    else if ((event.key === "Enter" || event.key === "F2") && column !== ENTITY) this.edit(line);
    else return false;
    return true;
  }

  // Makes a cell of a row the current one, and scrolls until it is in sight.
  goTo(line, column) {
    this.column = Math.max(ENTITY, Math.min(column, line.row.table.kinds.length - 1));
    this.list.draw();
    this.cell()?.scrollIntoView({ block: "nearest", inline: "nearest" });
  }

  cell() {
    return this.box.querySelector(".line.active .current");
  }

  edit(line) {
    const { mirror } = this.editor;
    const { table, cells } = line.row;
    const kind = table.kinds[Math.min(this.column, table.kinds.length - 1)];
    const cell = this.cell();
    if (kind === undefined || this.column === ENTITY || cell === null) return;
    cell.scrollIntoView({ block: "nearest", inline: "nearest" });
    const [name, shape] = mirror.kinds[kind];
    const { entity } = line;
    const [value] = cells.get(kind);
    this.inPlace.open(cell, {
      key: entity, shape, value, kind: name, label: `${name} of ${called(mirror, entity)}`,
      text: shape === "Link" ? linkText(mirror, value) : undefined,
      now: () => mirror.state.rows.get(entity)?.cells.get(kind)?.[0],
      whose: () => this.editor.detail.whoWrote(entity),
      send: (typed) => this.write(entity, name, shape, typed),
    });
  }

  // Sends it, and answers why it can't be sent, or null.
  write(entity, name, shape, typed) {
    if (shape === "Tag") {
      if (typed === false) this.editor.send([{ do: "remove", entity, kind: name }]);
      return null;
    }
    const { mirror } = this.editor;
    const { value, fault } = valueTyped(mirror, shape, typed);
    if (fault !== undefined) return fault;
    const [, , tick] = mirror.state.rows.get(entity)?.cells.get(mirror.kindNamed(name)) ?? [];
    this.editor.sendFrame([{ do: "insert", entity, kind: name, value }], { seen: [[entity, name, tick]] });
    return null;
  }
}
