// The keys that hold in the whole page. In a field the keys are the field's, but for those of undo where nothing was
// typed there since it was last sent.

import { isTyped } from "./field_faults.js";

const UNDO = { z: "undo", Z: "redo", y: "redo" };
const COPIES = { d: "duplicate", c: "copy" };

function isField(element) {
  return element.closest("input, select, textarea, dialog, .menu") !== null;
}

function undoes(editor, event) {
  const name = UNDO[event.key];
  if (name === undefined || event.altKey) return false;
  editor.undoing[event.key === "z" && event.shiftKey ? "redo" : name]();
  return true;
}

// A text that is marked is copied as ever.
function copies(editor, event) {
  const isMarked = event.key === "c" && !getSelection().isCollapsed;
  if (event.altKey || event.shiftKey || isMarked) return false;
  if (COPIES[event.key] !== undefined) editor.copies[COPIES[event.key]]();
  else if (event.key === "x") editor.forest.take();
  else if (event.key === "v" && editor.forest.taken.length > 0) editor.forest.put(editor.targets().at(-1));
  else if (event.key === "v") editor.copies.paste();
  else return false;
  return true;
}

function alone(editor, event) {
  if (event.key === "[") editor.undoing.undo();
  else if (event.key === "]") editor.undoing.redo();
  else if (event.key === "/") editor.searching.field.focus();
  else if (event.key === "?") document.getElementById("help").showModal();
  else if (event.key === "Delete") editor.changes.despawn(event.shiftKey);
  else return false;
  return true;
}

export function listenToKeys(editor) {
  document.addEventListener("keydown", (event) => {
    if (event.defaultPrevented) return;
    const isControl = event.ctrlKey || event.metaKey;
    const inField = isField(event.target);
    let took = false;
    if (inField) took = isControl && !event.target.closest("dialog") && !isTyped(event.target) && undoes(editor, event);
    else if (isControl) took = undoes(editor, event) || copies(editor, event);
    else if (!event.altKey) took = alone(editor, event);
    if (took) event.preventDefault();
  });
}
