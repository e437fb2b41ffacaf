// The resources: a value for each name, which is edited in place, dropped, or put anew.

import { ListInSight } from "./in_sight.js";
import { showFault } from "./field_faults.js";
import { InPlace } from "./in_place.js";
import { resourceLines } from "./lines.js";
import { linkText } from "./links.js";
import { button, part } from "./parts.js";
import { HINTS, valueTyped } from "./values.js";
import { ticksText, valueText } from "./words.js";

export class Resources {
  constructor(editor) {
    this.editor = editor;
    const at = (id) => document.getElementById(id);
    Object.assign(this, { box: at("resources"), name: at("resource-name") });
    Object.assign(this, { shape: at("resource-shape"), value: at("resource-value") });
    this.list = new ListInSight(this.box, {
      fill: (element, line) => this.fill(element, line), fold: () => {},
      select: (line, event, target) => this.selected(line, event, target),
      press: (event, line) => this.pressed(event, line),
    });
    this.inPlace = new InPlace(this.list, editor);
    at("resource-form").addEventListener("submit", (event) => this.putTyped(event));
    this.shape.addEventListener("change", () => this.hint());
    this.hint();
  }

  show() {
    this.list.show(resourceLines(this.editor.mirror.state));
    document.getElementById("resources-empty").hidden = this.list.lines.length > 0;
    this.inPlace.follow();
  }

  fill(element, { name, cell: [shape, value, ...ticks] }) {
    const { resources } = this.editor.view().marks;
    const { mirror } = this.editor;
    const text = shape === "Tag" ? "✓" : shape === "Link" ? linkText(mirror, value) : valueText(shape, value);
    const cell = part("span", `text value${resources.has(name) ? " written" : ""}`, text);
    const drop = button("Drop", () => this.drop(name));
    drop.tabIndex = -1;
    drop.setAttribute("aria-label", `drop ${name}`);
    const parts = [part("b", "", name), cell, part("span", "count", shape), drop];
    for (const each of parts.slice(0, 3)) each.setAttribute("role", "gridcell");
    element.append(...parts);
    element.title = ticksText(ticks);
  }

  selected(line, event, target) {
    if (target?.closest("button")) return;
    if (event.type === "keydown" || event.detail === 2) this.edit(line);
  }

  pressed(event, line) {
    if (event.ctrlKey || event.metaKey || event.altKey) return false;
    if (event.key === "F2") this.edit(line);
    else if (event.key === "Delete") this.drop(line.name);
    else return false;
    return true;
  }

  edit({ name, key, cell: [shape, value] }) {
    const cell = this.box.querySelector(".line.active .value");
    if (cell === null) return;
    this.inPlace.open(cell, {
      key, shape, value, label: name, text: shape === "Link" ? linkText(this.editor.mirror, value) : undefined,
      now: () => this.editor.mirror.state.resources.get(name)?.[1],
      whose: () => "Another session",
      send: (typed) => (typed === false ? this.drop(name) : this.put(name, shape, typed)),
    });
  }

  drop(name) {
    this.editor.send([{ do: "drop", name }]);
    return null;
  }

  // Sends it, and answers why it can't be sent, or null.
  put(name, shape, typed) {
    if (name === "" || name.includes(" ")) return "a resource has a name of one word";
    const { value, fault } = valueTyped(this.editor.mirror, shape, typed);
    if (fault !== undefined) return fault;
    this.editor.send([{ do: "put", name, shape, value }]);
    return null;
  }

  putTyped(event) {
    event.preventDefault();
    const fault = this.put(this.name.value.trim(), this.shape.value, this.value.value);
    if (fault === null) return void (this.value.value = "");
    this.editor.say(`Not sent: ${fault}.`, "refused");
    showFault(fault.startsWith("a resource") ? this.name : this.value, fault);
  }

  hint() {
    this.value.placeholder = HINTS[this.shape.value];
    this.value.disabled = this.shape.value === "Tag";
  }
}
