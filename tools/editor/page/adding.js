// What the chosen get: a component of a kind, which may first be made.

import { showFault } from "./field_faults.js";
import { NewKind } from "./new_kind.js";
import { part } from "./parts.js";
import { HINTS, valueTyped } from "./values.js";

// The choice of a new kind: no kind has such a name.
const NEW = "+";

function option(value, text) {
  return Object.assign(part("option", "", text), { value });
}

export class Adding {
  constructor(editor) {
    Object.assign(this, { editor, wanted: null });
    const at = (id) => document.getElementById(id);
    Object.assign(this, { form: at("add-form"), kind: at("add-kind"), value: at("add-value"), press: at("add") });
    this.newKind = new NewKind(editor, (name) => this.pickWhenThere(name));
    this.form.addEventListener("submit", (event) => this.add(event));
    this.kind.addEventListener("change", () => this.hint());
  }

  show() {
    const { mirror } = this.editor;
    const key = JSON.stringify(mirror.kinds);
    if (key !== this.kindsKey) this.showKinds(mirror.kinds);
    this.kindsKey = key;
    if (this.wanted !== null && mirror.kindNamed(this.wanted) >= 0) this.pick(this.wanted);
    this.hint();
  }

  // What was picked stays so when kinds come.
  showKinds(kinds) {
    const { value } = this.kind;
    const isKept = value === NEW ? this.newKind.hasFocus() : kinds.some(([name]) => name === value);
    const all = kinds.map(([name, shape]) => option(name, `${name} (${shape})`));
    this.kind.replaceChildren(...all, option(NEW, "New kind…"));
    this.kind.value = isKept ? value : kinds[0]?.[0] ?? NEW;
  }

  // The page may hear of a kind before its answer comes, or after.
  pickWhenThere(name) {
    this.wanted = name;
    this.show();
  }

  // Goes on where a value of it is written, unless the person went elsewhere meanwhile.
  pick(name) {
    const hadFocus = this.newKind.hasFocus();
    this.wanted = null;
    this.kind.value = name;
    this.hint();
    const isReady = this.editor.chosen.liveLast() !== null && !this.value.disabled;
    if (hadFocus) (isReady ? this.value : this.kind).focus();
  }

  hint() {
    const { mirror, chosen } = this.editor;
    const isNew = this.kind.value === NEW;
    // In the setup kinds have a form of their own.
    this.form.hidden = mirror.isSetup;
    this.newKind.form.hidden = !isNew || mirror.isSetup;
    for (const each of [this.value, this.press]) each.hidden = isNew;
    const number = mirror.kindNamed(this.kind.value);
    const kind = mirror.kinds[number];
    this.value.disabled = kind === undefined || kind[1] === "Tag";
    this.value.placeholder = kind === undefined ? "" : HINTS[kind[1]];
    const isThere = mirror.state.rows.get(chosen.last)?.cells.has(number);
    this.press.textContent = isThere ? "Write" : "Add";
  }

  add(event) {
    event.preventDefault();
    const { editor } = this;
    const kind = editor.mirror.kinds[editor.mirror.kindNamed(this.kind.value)];
    const entities = [...editor.chosen.entities].filter((entity) => editor.mirror.isLive(entity));
    const isReady = entities.length > 0 && kind !== undefined;
    if (!isReady) return void editor.say("Choose an entity and a kind first.", "refused");
    const [name, shape] = kind;
    const { value, fault } = valueTyped(editor.mirror, shape, this.value.value);
    if (fault !== undefined) {
      showFault(this.value, fault);
      return void editor.say(`Not sent: ${fault}.`, "refused");
    }
    editor.sendTyped(this.value, entities.map((entity) => ({ do: "insert", entity, kind: name, value })));
  }
}
