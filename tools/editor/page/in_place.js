// A field over a cell of a list, in which its value is edited. The lines are drawn anew under it.

import { clashBox } from "./clash.js";
import { breaksLine, fieldFor, fit } from "./fields.js";
import { clearFault, isTyped, showFault, wasSent } from "./field_faults.js";
import { LINE_HEIGHT } from "./in_sight.js";
import { LinkChoices } from "./links.js";
import { HINTS, typedOf } from "./values.js";

const LEAST_WIDTH = 140;

export class InPlace {
  constructor(list, editor) {
    Object.assign(this, { list, editor, field: null, clash: null });
  }

  // `cell` is the element that the field covers, `key` its line's. `now` gives the value that is there, or undefined
  // where the cell is gone, and `whose` who wrote it last. `send` gets what was typed (of a Tag, whether it stays) and
  // answers why it can't be sent, or null. `text` is how the value stands in the field.
  open(cell, { key, shape, value, text = typedOf(shape, value), kind, label, now, whose, send }) {
    this.close();
    const field = fieldFor(shape, "in-place");
    field.id = `${this.list.box.id}-field`;
    Object.assign(field, { placeholder: HINTS[shape], checked: shape === "Tag", value: text });
    fit(field);
    if (kind !== undefined) field.dataset.kind = kind;
    field.setAttribute("aria-label", `${label} (${shape})`);
    field.style.left = `${cell.offsetLeft}px`;
    if (shape !== "Tag") field.style.width = `${Math.max(LEAST_WIDTH, cell.offsetWidth)}px`;
    Object.assign(this, { field, key, now, whose, send, shape, base: JSON.stringify(value), choices: null });
    this.first = this.typed(field);
    if (shape === "Link") this.choices = new LinkChoices(field, () => this.editor.mirror, (each) => this.picked(each));
    field.addEventListener("keydown", (event) => this.pressed(event));
    field.addEventListener("click", (event) => event.stopPropagation());
    field.addEventListener("blur", (event) => this.field === field && this.left(event));
    this.list.box.append(field);
    this.follow();
    field.focus({ preventScroll: true });
    if (shape !== "Tag") field.select();
  }

  typed(field) {
    return field.type === "checkbox" ? field.checked : field.value;
  }

  picked(entity) {
    this.field.value = entity;
    this.enter();
  }

  pressed(event) {
    event.stopPropagation();
    if (breaksLine(event)) return;
    const isUndo = (event.ctrlKey || event.metaKey) && !isTyped(this.field) && "zZy".includes(event.key);
    if (this.choices?.pressed(event)) event.preventDefault();
    else if (isUndo) this.leaveForUndo(event);
    else if (event.key === "Escape") this.close(true);
    else if (event.key === "Enter") this.enter();
    else if (event.key === "Tab") return void (this.clash === null && this.enter());
    else return;
    event.preventDefault();
  }

  // Nothing was typed here, so the keys of undo are the scene's.
  leaveForUndo(event) {
    this.close(true);
    this.editor.undoing[event.key === "z" && !event.shiftKey ? "undo" : "redo"]();
  }

  // Sends what was typed, and leaves; what can't be sent is told beside the field, and stays.
  enter() {
    if (this.clash !== null) return void this.clash.querySelector("button").focus();
    const { field, first, send } = this;
    const typed = this.typed(field);
    const fault = typed === first ? null : send(typed);
    if (fault !== null) return void this.tellFault(fault);
    wasSent(field);
    this.close(true);
  }

  tellFault(fault) {
    const { field } = this;
    this.editor.say(`Not sent: ${fault}.`, "refused");
    showFault(field, fault, field);
    field.fault.classList.add("field-fault");
    this.putBelow(field.fault);
  }

  // A note stands below the field, in sight.
  putBelow(note) {
    const { field } = this;
    Object.assign(note.style, { left: field.style.left, top: `${field.offsetTop + field.offsetHeight + 2}px` });
    note.scrollIntoView({ block: "nearest" });
  }

  // The focus went elsewhere: what was typed is sent, but not over what another tab wrote meanwhile.
  left(event) {
    if (this.clash?.contains(event.relatedTarget)) return;
    const { field, first, send, clash } = this;
    const typed = this.typed(field);
    this.close();
    const kept = "Not sent: the cell was changed meanwhile; theirs stays.";
    if (clash !== null) return void this.editor.say(kept, "refused");
    const fault = typed === first ? null : send(typed);
    if (fault !== null) this.editor.say(`Not sent: ${fault}.`, "refused");
  }

  // Stays with its line where that moves, and leaves where its cell is gone.
  follow() {
    if (this.field === null) return;
    const place = this.list.lines.placeOf(this.key);
    const value = this.now();
    if (place < 0 || value === undefined) {
      this.close(true);
      return void this.editor.say("The cell that you edited is gone.", "refused");
    }
    this.field.style.top = `${place * LINE_HEIGHT}px`;
    if (JSON.stringify(value) !== this.base) this.changedMeanwhile(value);
  }

  changedMeanwhile(value) {
    this.base = JSON.stringify(value);
    const { field, shape } = this;
    this.clash?.remove();
    this.clash = null;
    if (!isTyped(field) || shape === "Tag") {
      field.value = typedOf(shape, value);
      fit(field);
      this.first = this.typed(field);
      return;
    }
    this.clash = clashBox({
      whose: this.whose(), theirs: typedOf(shape, value), mine: field.value,
      write: () => {
        this.dropClash();
        this.first = null;
        this.enter();
      },
      take: () => this.close(true),
    });
    this.clash.classList.add("clash-box");
    this.clash.addEventListener("keydown", (event) => {
      event.stopPropagation();
      if (event.key === "Escape") this.close(true);
    });
    this.list.box.append(this.clash);
    this.putBelow(this.clash);
  }

  dropClash() {
    this.clash?.remove();
    this.clash = null;
  }

  close(withFocus = false) {
    const { field } = this;
    this.field = null;
    this.choices?.hide();
    this.choices = null;
    this.dropClash();
    if (field === null) return;
    clearFault(field);
    if (withFocus) this.list.box.focus({ preventScroll: true });
    field.remove();
  }
}
