// What stands on the lines of lists. `view` has the kinds, the state, the marks of the last frame, and who is chosen.

import { MOST_INDENTS } from "./lines.js";
import { part, SIGNS } from "./parts.js";
import { cellsText, resourceText, rowCells, ticksText, valueText } from "./words.js";

const COLUMN = "minmax(9ch, 28ch)";

function markEntity(element, entity, { marks, isChosen }) {
  const mark = marks.entities.get(entity);
  if (mark) element.classList.add(mark.sort);
  element.classList.toggle("chosen", isChosen(entity));
  return part("span", "sign", mark ? SIGNS[mark.sort] : "");
}

export function fillEntity(element, line, view) {
  if (line.sort === "rest") return void (element.textContent = line.text);
  const { kinds, state } = view;
  const sign = markEntity(element, line.entity, view);
  const indent = Math.min(line.level, MOST_INDENTS);
  element.style.paddingLeft = `${6 + 16 * indent}px`;
  const fold = line.children === 0 ? "" : line.isOpen ? "▾" : "▸";
  const level = line.level > indent ? `level ${line.level + 1} ` : "";
  const count = line.children > 0 && !line.isOpen ? ` (${line.children})` : "";
  element.append(
    part("span", "fold", fold), sign, part("span", "count", level), part("b", "", line.entity),
    part("span", "count", count), part("span", "text", ` ${cellsText(kinds, rowCells(state.rows.get(line.entity)))}`),
  );
}

// What stands in a cell of a table, and what is said over it.
export function sayCell(shape, [value, ...ticks]) {
  const text = shape === "Tag" ? "✓" : valueText(shape, value);
  return { text, title: `${text}, ${ticksText(ticks)}` };
}

export function fillTable(element, line, view) {
  if (line.sort === "rest") return void (element.textContent = line.text);
  const { kinds, marks } = view;
  const table = line.table ?? line.row.table;
  element.style.gridTemplateColumns = `18ch repeat(${table.kinds.length}, ${COLUMN})`;
  const head = part("span", "", "");
  element.append(head);
  if (line.sort === "table") {
    const rows = `${line.rows} row${line.rows === 1 ? "" : "s"}`;
    head.append(part("span", "fold", line.isOpen ? "▾" : "▸"), rows);
    element.append(...table.kinds.map((kind) => part("span", "", kinds[kind][0])));
    return;
  }
  const written = marks.entities.get(line.entity)?.kinds ?? new Set();
  element.dataset.entity = line.entity;
  head.append(markEntity(element, line.entity, view), part("b", "", line.entity));
  for (const kind of table.kinds) {
    const cell = part("span", `text${written.has(kind) ? " written" : ""}`, "");
    const said = sayCell(kinds[kind][1], line.row.cells.get(kind));
    element.append(Object.assign(cell, { textContent: said.text, title: said.title }));
  }
}

export function fillChange(element, line) {
  if (line.sort === "rest") return void (element.textContent = line.text);
  const sign = { ...SIGNS, gone: "−", resource: "~" }[line.sort];
  element.className = `line ${element.classList.contains("active") ? "active" : ""}`;
  element.append(
    part("span", `change-${line.sort}`, `${sign} ${line.sort} `), part("b", "", line.entity ? `${line.entity} ` : ""),
    part("span", "text", line.text),
  );
}

export function fillResource(element, { name, cell }, { marks }) {
  element.append(part("span", `text${marks.resources.has(name) ? " written" : ""}`, resourceText(name, cell)));
  element.title = ticksText(cell.slice(2));
}

// The cells of a row with their ticks; `more` gives what stands behind each.
export function cellList(kinds, row, more = () => []) {
  const list = document.createElement("dl");
  for (const [kind, value, ...ticks] of rowCells(row)) {
    const [name, shape] = kinds[kind];
    list.append(part("dt", "", `${name} (${shape})`));
    if (shape !== "Tag") list.append(part("dd", "text", valueText(shape, value)));
    const last = part("dd", "ticks", ticksText(ticks));
    last.append(...more(kind, value));
    list.append(last);
  }
  return list;
}
