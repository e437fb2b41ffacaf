// What is said of cells and of changes, and what a search finds. Nothing here draws: all of it is text.

// A text stands as the program prints it, as a JSON string, so that no control character hides.
export function valueText(shape, value) {
  if (shape === "Tag") return "";
  if (shape === "Text") return JSON.stringify(value);
  return String(value);
}

export function named(name, shape, value) {
  return shape === "Tag" ? name : `${name}=${valueText(shape, value)}`;
}

export function cellText(kinds, kind, [value]) {
  const [name, shape] = kinds[kind];
  return named(name, shape, value);
}

export function ticksText([added, changed]) {
  return `added at tick ${added}, changed at tick ${changed}`;
}

export function cellsText(kinds, cells) {
  return cells.map(([kind, ...cell]) => cellText(kinds, kind, cell)).join(" ");
}

// The cells of a row by ascending kind.
export function rowCells(row) {
  return row.cells.kinds.map((kind, at) => [kind, ...row.cells.cells[at]]);
}

export function resourceText(name, [shape, value]) {
  return named(name, shape, value);
}

function linkText(link) {
  return link === null ? "below none" : `below ${link[0]} at place ${link[1]}`;
}

function valueChange(name, shape, before, after) {
  if (shape === "Tag") return `${name} is written again`;
  return `${name} ${valueText(shape, before)} → ${valueText(shape, after)}`;
}

const SAY = {
  spawned: (kinds, { cells }) => ["new", cellsText(kinds, cells)],
  despawned: (kinds, { cells, retired }) => ["gone", cellsText(kinds, cells) + (retired ? " (index retired)" : "")],
  shifted: (kinds, { cell, inward }) => ["changed", `${inward ? "gets" : "loses"} ${cellsText(kinds, [cell])}`],
  cellset(kinds, { before, after }) {
    const [name, shape] = kinds[before[0]];
    return ["changed", valueChange(name, shape, before[1], after[1])];
  },
  linked: (kinds, { before, after }) => ["moved", `${linkText(before)} → ${linkText(after)}`],
  resourceset(kinds, { name, before, after }) {
    if (before === null) return ["resource", `new: ${resourceText(name, after)}`];
    if (after === null) return ["resource", `gone: ${resourceText(name, before)}`];
    if (before[0] === after[0]) return ["resource", valueChange(name, ...before.slice(0, 2), after[1])];
    return ["resource", `${resourceText(name, before)} (${before[0]}) → ${resourceText(name, after)} (${after[0]})`];
  },
};

// What a delta of a frame did, as a line: its sort, the entity if it is of one, and words.
export function changeOf(kinds, delta) {
  const [sort, text] = SAY[delta.op](kinds, delta);
  return { sort, entity: delta.entity, text };
}

// What a search looks in: the entity and its cells, as they are shown.
function searchText(kinds, row) {
  return `${row.entity} ${cellsText(kinds, rowCells(row))}`.toLowerCase();
}

// The entities that have each word of a search, or null for an empty one.
export function found(timeline, search) {
  const words = search.toLowerCase().split(/\s+/).filter((word) => word !== "");
  if (words.length === 0) return null;
  const matched = new Set();
  for (const row of timeline.state.rows.values()) {
    const text = searchText(timeline.kinds, row);
    if (words.every((word) => text.includes(word))) matched.add(row.entity);
  }
  return matched;
}

export function positionText({ position, now, records, state }) {
  const where = position === now ? "now" : position < now ? "past" : "future";
  return `after frame ${position} of ${records.length}, tick ${state.tick} (${where})`;
}
