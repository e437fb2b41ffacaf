// A question before something is done: words, and where it is asked for a value or one of a list.

import { clearFault } from "./field_faults.js";
import { part } from "./parts.js";

const at = (id) => document.getElementById(`ask-${id}`);

// The value, the option chosen, or true; null where it was cancelled. `check` says why a value can't be taken, or null.
export function ask({ title, words = "", value, list, yes = "OK", check = () => null }) {
  const dialog = document.getElementById("ask");
  at("title").textContent = title;
  at("words").textContent = words;
  at("yes").textContent = yes;
  const [field, select, fault] = [at("value"), at("list"), at("fault")];
  Object.assign(field, { hidden: value === undefined, value: value ?? "" });
  clearFault(field);
  select.hidden = list === undefined;
  select.replaceChildren(...(list ?? []).map((each) => part("option", "", each)));
  if (list !== undefined) select.selectedIndex = 0;
  fault.hidden = true;
  return new Promise((done) => {
    const answer = () => (value !== undefined ? field.value.trim() : list !== undefined ? select.value : true);
    const submitted = (event) => {
      const why = event.submitter?.value === "no" ? null : check(answer());
      if (why === null) return;
      event.preventDefault();
      fault.textContent = why;
      fault.hidden = false;
      field.setAttribute("aria-invalid", "true");
    };
    const form = dialog.querySelector("form");
    form.addEventListener("submit", submitted);
    dialog.addEventListener("close", () => {
      form.removeEventListener("submit", submitted);
      field.removeAttribute("aria-invalid");
      done(dialog.returnValue === "yes" ? answer() : null);
    }, { once: true });
    dialog.returnValue = "no";
    dialog.showModal();
    if (value !== undefined) field.select();
  });
}
