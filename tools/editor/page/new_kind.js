// A kind more, at any time: its name and its shape. It is no frame: undo leaves it.

import { part } from "./parts.js";
import { SHAPES } from "./values.js";

// How each shape stands in a list of them.
export function shapeOptions() {
  return Object.entries(SHAPES).map(([shape, words]) => {
    return Object.assign(part("option", "", `${shape}, ${words}`), { value: shape });
  });
}

export class NewKind {
  // `declared` gets the name of each kind that was made here.
  constructor(editor, declared) {
    Object.assign(this, { editor, declared });
    const at = (id) => document.getElementById(id);
    Object.assign(this, { form: at("kind-form"), name: at("kind-name"), shape: at("kind-shape") });
    this.shape.replaceChildren(...shapeOptions());
    this.form.addEventListener("submit", (event) => this.declare(event));
  }

  async declare(event) {
    event.preventDefault();
    const name = this.name.value.trim();
    const isDone = await this.editor.sendTyped(this.name, [{ do: "declare", name, shape: this.shape.value }]);
    if (isDone) this.declared(name);
  }

  hasFocus() {
    return this.form.contains(document.activeElement);
  }
}
