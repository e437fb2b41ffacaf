// What is wrong with a field, said beside it and told to who can't see it. Also whether a person has typed in a field
// since its text was last sent: until then the keys of undo are the scene's.

import { part } from "./parts.js";

const typed = new WeakSet();
const HOLDS_WORDS = 'input:not([type="checkbox"]), textarea';

document.addEventListener("input", (event) => {
  typed.add(event.target);
  clearFault(event.target);
});

export function isTyped(field) {
  return field.matches(HOLDS_WORDS) && typed.has(field);
}

export function wasSent(field) {
  typed.delete(field);
  clearFault(field);
}

// What stands in a field is still to be sent, though it was: it was refused.
export function isToBeSent(field) {
  typed.add(field);
}

// The words stand behind the field's row, or where `place` is said.
export function showFault(field, words, place = field.closest(".row, .property") ?? field) {
  clearFault(field);
  const id = `${field.id || "field"}-fault`;
  const note = part("p", "fault", words);
  note.id = id;
  note.setAttribute("role", "alert");
  if (place.classList.contains("property")) place.append(note);
  else place.after(note);
  field.setAttribute("aria-invalid", "true");
  field.setAttribute("aria-describedby", id);
  field.fault = note;
}

export function clearFault(field) {
  if (field.fault === undefined) return;
  field.fault.remove();
  field.fault = undefined;
  field.removeAttribute("aria-invalid");
  field.removeAttribute("aria-describedby");
}
