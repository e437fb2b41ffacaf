// The field of a value: a box for a Tag, an area for a Text, whose lines may be several, else one line.

import { part } from "./parts.js";

const MOST_LINES = 6;

export function fieldFor(shape, className = "") {
  const field = part(shape === "Text" ? "textarea" : "input", className, "");
  Object.assign(field, { autocomplete: "off", spellcheck: false });
  if (shape === "Tag") field.type = "checkbox";
  if (shape === "Text") field.addEventListener("input", () => fit(field));
  fit(field);
  return field;
}

// An area is as high as its lines are many.
export function fit(field) {
  if (isArea(field)) field.rows = Math.min(MOST_LINES, field.value.split("\n").length);
}

function isArea(field) {
  return field.localName === "textarea";
}

// Whether a key is the one that breaks a line; Enter alone ends what is typed.
export function breaksLine(event) {
  return event.key === "Enter" && event.shiftKey && isArea(event.target);
}
