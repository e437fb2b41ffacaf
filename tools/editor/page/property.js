// A component of the chosen entities as fields: one for a value, three for a Vec3. Where their values differ, a field
// is empty and says —; what is typed there is written for all.

import { clashBox } from "./clash.js";
import { breaksLine, fieldFor, fit } from "./fields.js";
import { isTyped, showFault, wasSent } from "./field_faults.js";
import { LinkChoices, linkText } from "./links.js";
import { button, part } from "./parts.js";
import { HINTS, typedOf, valueTyped } from "./values.js";
import { ticksText } from "./words.js";

const MIXED = "—";
const AXES = ["x", "y", "z"];

// The value that all have, or null.
function common(values) {
  const [first] = values;
  return values.every((value) => value === first) ? first : null;
}

export class Property {
  constructor(detail, kind) {
    const { editor } = detail;
    const [name, shape] = editor.mirror.kinds[kind];
    Object.assign(this, { detail, editor, kind, name, shape, clash: null, base: null, rows: [] });
    this.box = part("div", "property", "");
    this.box.dataset.kind = name;
    this.inputs = (shape === "Vec3" ? AXES : [null]).map((axis) => this.input(axis));
    const inputs = part("div", "inputs", "");
    inputs.append(...this.inputs);
    const label = part("span", "label", name);
    label.title = `${name} (${shape})`;
    const remove = button("✕", () => this.remove());
    remove.className = "small";
    remove.title = `remove ${name}`;
    remove.setAttribute("aria-label", `remove ${name}`);
    this.partOf = part("span", "part-of", "");
    this.box.append(label, inputs, remove, this.partOf);
    if (shape === "Link") this.takeDrops();
  }

  input(axis) {
    const { name, shape } = this;
    const field = fieldFor(shape);
    field.id = `property-${this.kind}${axis ?? ""}`;
    field.setAttribute("aria-label", `${name}${axis === null ? "" : ` ${axis}`} (${shape})`);
    if (shape === "Link") this.choices = new LinkChoices(field, () => this.editor.mirror, (each) => this.send(each));
    field.addEventListener("keydown", (event) => this.pressed(event, field));
    field.addEventListener("blur", (event) => this.left(event, field));
    if (shape === "Tag") field.addEventListener("change", () => this.remove());
    return field;
  }

  takeDrops() {
    const { forest } = this.editor;
    this.box.addEventListener("dragover", (event) => {
      if (forest.dragging === undefined) return;
      event.preventDefault();
      this.box.classList.add("drop-target");
    });
    this.box.addEventListener("dragleave", () => this.box.classList.remove("drop-target"));
    this.box.addEventListener("drop", (event) => {
      event.preventDefault();
      this.box.classList.remove("drop-target");
      if (forest.dragging !== undefined) this.send(forest.dragging[0]);
    });
  }

  // Shows the cells of those that have it; `all` says how many are chosen.
  show(rows, all) {
    this.rows = rows;
    this.all = all;
    this.partOf.textContent = rows.length < all ? `on ${rows.length} of ${all}` : "";
    const { marks } = this.editor;
    const isWritten = rows.some(({ entity }) => marks.entities.get(entity)?.kinds.has(this.kind));
    this.box.classList.toggle("written-mark", isWritten);
    if (rows.length === 1) this.box.title = ticksText(rows[0].cells.get(this.kind).slice(1));
    else this.box.removeAttribute("title");
    this.inputs.forEach((field, at) => this.showField(field, at));
  }

  valuesAt(at) {
    const values = this.rows.map((row) => row.cells.get(this.kind)[0]);
    return this.shape === "Vec3" ? values.map((value) => String(value[at])) : values.map((value) => String(value));
  }

  showField(field, at) {
    const value = common(this.valuesAt(at));
    if (this.shape === "Tag") {
      field.checked = true;
      field.indeterminate = this.rows.length < this.all;
      return;
    }
    const text = value === null ? "" : this.shape === "Link" ? linkText(this.editor.mirror, value) : value;
    field.placeholder = value === null ? MIXED : HINTS[this.shape];
    if (field.shown === text && field.of === value) return;
    const isEdited = document.activeElement === field && isTyped(field);
    if (isEdited && field.of !== undefined) return void this.changedMeanwhile(field, text, value);
    this.fill(field, text, value);
  }

  // `begun` is what stands in the field then: a text area has line feeds alone.
  fill(field, text, value) {
    Object.assign(field, { value: text, shown: text, of: value });
    field.begun = field.value;
    fit(field);
  }

  // What this tab itself has just sent is nobody else's change.
  changedMeanwhile(field, text, value) {
    Object.assign(field, { shown: text, of: value });
    if (value === field.sent) return;
    this.dropClash();
    this.clash = clashBox({
      whose: this.detail.whoWrote(this.rows[0].entity), theirs: text || MIXED, mine: field.value,
      write: () => {
        this.dropClash();
        this.enter(field);
      },
      take: () => this.reset(field),
    });
    this.box.append(this.clash);
  }

  dropClash() {
    this.clash?.remove();
    this.clash = null;
  }

  reset(field) {
    this.dropClash();
    this.fill(field, field.shown ?? "", field.of);
    wasSent(field);
    field.focus();
    field.select();
  }

  pressed(event, field) {
    if (breaksLine(event)) return;
    if (this.choices?.pressed(event)) return void event.preventDefault();
    if (event.key === "Escape") this.reset(field);
    else if (event.key === "Enter" && this.clash !== null) this.clash.querySelector("button").focus();
    else if (event.key === "Enter") this.enter(field);
    else return;
    event.preventDefault();
  }

  left(event, field) {
    if (this.clash?.contains(event.relatedTarget)) return;
    if (this.clash !== null) return void this.reset(field);
    if (isTyped(field) && field.value !== field.begun) this.enter(field, false);
  }

  // Sends what was typed, for each entity that has the component.
  enter(field, withSelect = true) {
    if (this.shape === "Tag" || (!isTyped(field) && field.value === field.begun)) return;
    this.send(field.value, field);
    if (withSelect) field.select();
  }

  tellFault(field, fault) {
    showFault(field, fault);
    this.editor.say(`Not sent: ${fault}.`, "refused");
  }

  send(typed, field = this.inputs[0]) {
    const { editor, name, shape, rows } = this;
    const at = this.inputs.indexOf(field);
    const commands = [];
    let sent;
    for (const { entity, cells } of rows) {
      const [was] = cells.get(this.kind);
      const text = shape === "Vec3" ? was.map((each, axis) => (axis === at ? typed.trim() : each)).join(",") : typed;
      const { value, fault } = valueTyped(editor.mirror, shape, text);
      if (fault !== undefined) return void this.tellFault(field, fault);
      if (typedOf(shape, was) !== typedOf(shape, value)) commands.push({ do: "insert", entity, kind: name, value });
      sent = String(shape === "Vec3" ? value[at] : value);
    }
    wasSent(field);
    field.sent = sent;
    if (shape === "Link") Object.assign(field, { shown: undefined, value: linkText(editor.mirror, sent) });
    else field.shown = field.value;
    field.begun = field.value;
    const seen = rows.map(({ entity, cells }) => [entity, name, cells.get(this.kind)[2]]);
    if (commands.length > 0) this.sent(editor.sendFrame(commands, { seen }), field);
    else editor.detail.show();
  }

  // What was refused is shown as it is in the scene.
  async sent(answer, field) {
    if (await answer) return;
    Object.assign(field, { shown: undefined, of: undefined });
    this.showField(field, this.inputs.indexOf(field));
    if (this.editor.refusal !== null) showFault(field, this.editor.refusal);
  }

  remove() {
    this.editor.sendFrame(this.rows.map(({ entity }) => `remove ${entity} ${this.name}`));
  }
}
