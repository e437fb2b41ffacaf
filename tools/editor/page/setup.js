// The setup of a new scene: its kinds, until the first other line; or an example, which is played into it.

import { shapeOptions } from "./new_kind.js";
import { part } from "./parts.js";

const LEVEL = Object.entries({ Name: "Text", Place: "Vec3", Health: "Int", Lit: "Tag", Target: "Link" });

export class Setup {
  constructor(editor) {
    this.editor = editor;
    const at = (id) => document.getElementById(id);
    Object.assign(this, { form: at("setup"), kinds: at("setup-kinds") });
    Object.assign(this, { name: at("setup-name"), shape: at("setup-shape") });
    this.shape.replaceChildren(...shapeOptions());
    this.form.addEventListener("submit", (event) => this.add(event));
    const words = "The kinds are complete; spawn the first entity.";
    at("setup-end").addEventListener("click", () => this.end(words));
    at("setup-level").addEventListener("click", () => this.level());
    for (const name of ["village", "meadow"]) at(`setup-${name}`).addEventListener("click", () => this.example(name));
  }

  show() {
    const { isSetup, kinds } = this.editor.mirror;
    const isShownFirst = isSetup && this.form.hidden;
    this.form.hidden = !isSetup;
    if (isShownFirst) this.name.focus();
    const shown = kinds.map(([name, shape]) => part("span", "kind", `${name} (${shape})`));
    this.kinds.replaceChildren(...(shown.length > 0 ? shown : ["No kinds yet"]));
  }

  // Who went elsewhere before the answer came stays there.
  async end(words) {
    const before = document.activeElement;
    const isEnded = await this.editor.send(["show"], words);
    const isStill = [before, document.body].includes(document.activeElement);
    if (isEnded && isStill) this.editor.changes.cells.focus();
  }

  add(event) {
    event.preventDefault();
    const name = this.name.value.trim();
    this.name.focus();
    this.editor.sendTyped(this.name, [{ do: "kind", name, shape: this.shape.value }], `The kind ${name} is there.`);
  }

  level() {
    const there = new Set(this.editor.mirror.kinds.map(([name]) => name));
    const missing = LEVEL.filter(([name]) => !there.has(name)).map(([name, shape]) => ({ do: "kind", name, shape }));
    const words = "These kinds are there; add more, or say that they are complete.";
    if (missing.length > 0) this.editor.send(missing, words);
  }

  async example(name) {
    const { editor } = this;
    if (editor.mirror.kinds.length > 0) return void editor.say("An example begins a scene without kinds.", "refused");
    const answer = await fetch(`${name}.scene`);
    if (!answer.ok) return void editor.say(`There is no example ${name} here.`, "refused");
    const lines = (await answer.text()).split("\n").filter((line) => line !== "" && !line.startsWith("#"));
    await editor.send(lines, `The example ${name} is there; undo goes back through it.`);
  }
}
