// What a person calls an entity, and the mark of what it is. Nothing here draws.

import { cellsText, rowCells } from "./words.js";

const QUOTED_OR_ENTITY = /"(?:[^"\\]|\\.)*"|\b\d+v\d+\b/g;
const HUES = 11;
// What would break a line, or turn about what stands behind it.
const UNSEEN = /[\p{Cc}\u2028\u2029\u202a-\u202e\u2066-\u2069]+/gu;

// The kind whose text is the name: Name, or else the first Text kind; -1 without one.
export function nameKind(kinds) {
  const named = kinds.findIndex(([name, shape]) => shape === "Text" && name.toLowerCase() === "name");
  return named >= 0 ? named : kinds.findIndex(([, shape]) => shape === "Text");
}

// The name of an entity on one line, or null where it has none that can be seen.
export function nameOf(mirror, entity) {
  const [value = ""] = mirror.state.rows.get(entity)?.cells.get(mirror.nameKind) ?? [];
  const name = value.replace(UNSEEN, " ");
  return name.trim() === "" ? null : name;
}

export function called(mirror, entity) {
  return nameOf(mirror, entity) ?? entity;
}

// What stands for an entity without a name.
export function insteadOfName({ kinds, state }, entity) {
  return cellsText(kinds, rowCells(state.rows.get(entity))) || "without components";
}

// Words in which entities that live have their names. What stands in quotes is a text of the scene.
export function withNames(mirror, words) {
  return words.replace(QUOTED_OR_ENTITY, (found) => (found.startsWith('"') ? found : called(mirror, found)));
}

// Of each kind how many entities have it.
export function kindCounts({ kinds, state }) {
  const counts = kinds.map(() => 0);
  for (const table of state.tables.values()) for (const kind of table.kinds) counts[kind] += table.rows.length;
  return counts;
}

// The kind that tells most of an entity, which is the rarest one it has but for its name; undefined for none.
export function markKind(mirror, entity, counts) {
  let found;
  for (const kind of mirror.state.rows.get(entity).table.kinds) {
    if (kind !== mirror.nameKind && (found === undefined || counts[kind] < counts[found])) found = kind;
  }
  return found;
}

export function hueOf(kind) {
  return Math.round(((kind * 7) % HUES) * (360 / HUES));
}
