// Links by name: how one stands in a field, what a person may type there, and the list to pick one from.

import { called, nameOf } from "./names.js";
import { part } from "./parts.js";

const ENTITY = /(?:^|\()(\d+v\d+)\)?$/;
const MOST_CHOICES = 50;

export function linkText(mirror, entity) {
  const name = nameOf(mirror, entity);
  return name === null ? entity : `${name} (${entity})`;
}

// The entities whose name or id has these letters, those first whose name begins so; at most so many.
function choicesFor(mirror, typed, isExact = false) {
  const letters = typed.trim().toLowerCase();
  const [first, rest] = [[], []];
  for (const entity of mirror.state.rows.keys()) {
    const name = (nameOf(mirror, entity) ?? "").trim().toLowerCase();
    if (isExact ? name === letters : name.startsWith(letters) && name !== "") first.push(entity);
    else if (!isExact && rest.length < MOST_CHOICES && (name.includes(letters) || entity.startsWith(letters))) {
      rest.push(entity);
    }
    if (first.length >= MOST_CHOICES) break;
  }
  return [...first, ...rest].slice(0, MOST_CHOICES);
}

// The entity that was typed, by its id or its name; or why it is none.
export function linkTyped(mirror, typed) {
  const text = typed.trim();
  const [, entity] = text.match(ENTITY) ?? [];
  if (entity !== undefined) return { value: entity };
  const found = choicesFor(mirror, text, true);
  if (found.length === 1) return { value: found[0] };
  if (found.length > 1) return { fault: `several are called ${text}; pick one from the list` };
  return { fault: `“${text}” is no entity's name, nor its id, such as 0v1` };
}

// The list below a field, while it has the focus. `picked` gets the entity.
export class LinkChoices {
  constructor(field, mirror, picked) {
    Object.assign(this, { field, mirror, picked, box: null, at: -1, found: [] });
    field.setAttribute("role", "combobox");
    field.setAttribute("aria-expanded", "false");
    field.setAttribute("aria-autocomplete", "list");
    field.addEventListener("focus", () => this.show(""));
    field.addEventListener("input", () => this.show(field.value));
    field.addEventListener("blur", () => this.hide());
    this.resized = () => this.place();
  }

  show(typed) {
    const { field } = this;
    this.found = choicesFor(this.mirror(), typed);
    this.at = -1;
    if (this.found.length === 0) return this.hide();
    if (this.box === null) {
      this.box = part("div", "choices", "");
      this.box.id = "choices";
      this.box.setAttribute("role", "listbox");
      this.box.addEventListener("pointerdown", (event) => this.clicked(event));
      (field.closest("dialog") ?? document.body).append(this.box);
      addEventListener("resize", this.resized);
    }
    this.draw();
    this.place();
    field.setAttribute("aria-expanded", "true");
    field.setAttribute("aria-controls", "choices");
  }

  // Below the field, or above it where there is no room.
  place() {
    const { left, top, bottom, width } = this.field.getBoundingClientRect();
    const { box } = this;
    Object.assign(box.style, { left: `${left}px`, minWidth: `${width}px` });
    const isBelow = innerHeight - bottom > box.offsetHeight + 8;
    box.style.top = `${isBelow ? bottom + 2 : Math.max(4, top - box.offsetHeight - 2)}px`;
  }

  draw() {
    const mirror = this.mirror();
    this.box.replaceChildren(...this.found.map((entity, at) => {
      const choice = part("div", "choice", "");
      choice.id = `choice-${at}`;
      choice.dataset.entity = entity;
      choice.setAttribute("role", "option");
      choice.setAttribute("aria-selected", at === this.at);
      choice.append(part("span", "", called(mirror, entity)), part("span", "id", entity));
      return choice;
    }));
    if (this.at < 0) return void this.field.removeAttribute("aria-activedescendant");
    this.field.setAttribute("aria-activedescendant", `choice-${this.at}`);
    this.box.children[this.at].scrollIntoView({ block: "nearest" });
  }

  clicked(event) {
    event.preventDefault();
    const { entity } = event.target.closest(".choice")?.dataset ?? {};
    if (entity !== undefined) this.pick(entity);
  }

  pick(entity) {
    this.hide();
    this.picked(entity);
  }

  // Whether it took a key.
  pressed(event) {
    if (this.box === null) return false;
    const step = { ArrowDown: 1, ArrowUp: -1 }[event.key];
    if (step !== undefined) {
      this.at = Math.max(-1, Math.min(this.at + step, this.found.length - 1));
      this.draw();
    } else if (event.key === "Enter" && this.at >= 0) {
      this.pick(this.found[this.at]);
    } else {
      return false;
    }
    return true;
  }

  hide() {
    this.box?.remove();
    this.box = null;
    removeEventListener("resize", this.resized);
    this.field.setAttribute("aria-expanded", "false");
    this.field.removeAttribute("aria-activedescendant");
  }
}
