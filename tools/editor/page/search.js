// What a search and the filter by a kind find. The text of each row is made once, and anew after its cells changed: so
// a search over a large scene costs a walk over texts. What was found is kept up by what changes.

import { named, rowCells } from "./words.js";
import { part } from "./parts.js";
import { kindCounts } from "./names.js";

const CHUNK = 5000;
const REST = 15;

// A cell as it is searched: a text between quotes as it is, without escapes.
function cellText(kinds, [kind, value]) {
  const [name, shape] = kinds[kind];
  return shape === "Text" ? `${name}="${value}"` : named(name, shape, value);
}

export class Search {
  constructor(editor) {
    Object.assign(this, { editor, waiting: null, matched: null, asked: null, changed: null });
    const at = (id) => document.getElementById(id);
    Object.assign(this, { field: at("search"), filter: at("filter") });
    this.field.addEventListener("input", () => editor.touch(["search"]));
    this.filter.addEventListener("change", () => editor.touch(["search"]));
    this.field.addEventListener("keydown", (event) => this.pressed(event));
  }

  pressed(event) {
    if (event.key === "Escape") this.field.value = "";
    else if (event.key === "ArrowDown") this.editor.forest.box.focus();
    else return;
    this.editor.touch(["search"]);
    event.preventDefault();
  }

  // The scene is another one.
  begin() {
    this.changed = null;
    this.prepare();
  }

  // Entities that a frame changed.
  follow(entities) {
    if (this.matched === null) return;
    for (const entity of entities) this.changed?.add(entity);
  }

  // Makes texts while nothing else is to be done, some at a time.
  prepare() {
    clearTimeout(this.waiting);
    const rows = this.editor.mirror.state.rows.values();
    const some = () => {
      for (let at = 0; at < CHUNK; at += 1) {
        const { value, done } = rows.next();
        if (done) return;
        this.textOf(value);
      }
      this.waiting = setTimeout(some, REST);
    };
    this.waiting = setTimeout(some, REST);
  }

  textOf(row) {
    const { kinds } = this.editor.mirror;
    const text = () => [row.entity, ...rowCells(row).map((cell) => cellText(kinds, cell))].join(" ").toLowerCase();
    return (row.cells.text ??= text());
  }

  showKinds() {
    const { mirror } = this.editor;
    const key = JSON.stringify(mirror.kinds);
    if (key === this.kindsKey) return;
    this.kindsKey = key;
    const { value } = this.filter;
    const options = mirror.kinds.map(([name]) => part("option", "", name));
    const all = Object.assign(part("option", "", "all kinds"), { value: "" });
    this.filter.replaceChildren(all, ...options);
    this.filter.value = mirror.kindNamed(value) >= 0 ? value : "";
  }

  // What a row has to have that is found, or null where nothing is asked.
  test() {
    const words = this.words();
    const { mirror } = this.editor;
    const kind = this.filter.value === "" ? null : mirror.kindNamed(this.filter.value);
    if (words.length === 0 && kind === null) return null;
    const has = (row) => {
      const text = this.textOf(row);
      return words.every((word) => text.includes(word));
    };
    return (row) => (kind === null || row.cells.has(kind)) && (words.length === 0 || has(row));
  }

  words() {
    return this.field.value.toLowerCase().split(/\s+/).filter((word) => word !== "");
  }

  // Looks through all where something else is asked, or else at what changed since. Whether other entities are found
  // than before.
  look() {
    const test = this.test();
    const asked = JSON.stringify([this.field.value, this.filter.value]);
    if (test !== null && asked === this.asked && this.changed !== null) return this.lookAtChanged(test);
    const isOther = test !== null || this.matched !== null;
    Object.assign(this, { asked, changed: new Set(), matched: test && this.lookThroughAll(test) });
    return isOther;
  }

  lookThroughAll(test) {
    const matched = new Set();
    for (const row of this.editor.mirror.state.rows.values()) if (test(row)) matched.add(row.entity);
    return matched;
  }

  lookAtChanged(test) {
    const { matched, changed } = this;
    const { rows } = this.editor.mirror.state;
    let isOther = false;
    for (const entity of changed) {
      const isFound = rows.has(entity) && test(rows.get(entity));
      if (isFound === matched.has(entity)) continue;
      if (isFound) matched.add(entity);
      else matched.delete(entity);
      isOther = true;
    }
    changed.clear();
    return isOther;
  }

  // The cells in which a hit has what was searched for, for its line; its name is there already.
  why(entity) {
    const { mirror } = this.editor;
    const words = this.words();
    const row = mirror.state.rows.get(entity);
    const cells = rowCells(row).filter(([kind]) => kind !== mirror.nameKind);
    const texts = cells.map((cell) => cellText(mirror.kinds, cell));
    return texts.filter((text) => words.some((word) => text.toLowerCase().includes(word))).join(" ");
  }

  clear() {
    this.field.value = "";
    this.filter.value = "";
    this.editor.touch(["search"]);
  }

  counts() {
    return kindCounts(this.editor.mirror);
  }
}
