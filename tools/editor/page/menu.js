// A menu of what can be done, by mouse or keys. It gives the focus back where it was.

import { part } from "./parts.js";

let open = null;

export function isMenuOpen() {
  return open !== null;
}

export function closeMenu(withFocus = true) {
  if (open === null) return;
  const { box, before } = open;
  open = null;
  box.remove();
  if (withFocus) before?.focus({ preventScroll: true });
}

function entry({ text, key = "", press, isOff = false }) {
  const button = part("button", "", "");
  button.type = "button";
  button.setAttribute("role", "menuitem");
  if (isOff) button.setAttribute("aria-disabled", "true");
  button.append(part("span", "", text), part("span", "key", key));
  button.addEventListener("click", () => {
    if (isOff) return;
    closeMenu();
    press();
  });
  return button;
}

function pressed(event, buttons) {
  const at = buttons.indexOf(document.activeElement);
  const to = { ArrowDown: at + 1, ArrowUp: at - 1, Home: 0, End: -1 }[event.key];
  event.stopPropagation();
  if (event.key === "Escape" || event.key === "Tab") closeMenu();
  else if (to !== undefined) buttons.at(to % buttons.length).focus();
  else if (event.key.length === 1 && event.key !== " ") startingWith(event.key, buttons, at)?.focus();
  else return;
  event.preventDefault();
}

function startingWith(letter, buttons, at) {
  const order = [...buttons.slice(at + 1), ...buttons.slice(0, at + 1)];
  return order.find((each) => each.textContent.toLowerCase().startsWith(letter.toLowerCase()));
}

// `items` are entries, or null for a line between them.
export function openMenu(x, y, label, items) {
  closeMenu(false);
  const box = part("div", "menu", "");
  box.setAttribute("role", "menu");
  box.setAttribute("aria-label", label);
  box.append(...items.map((item) => (item === null ? document.createElement("hr") : entry(item))));
  open = { box, before: document.activeElement };
  document.body.append(box);
  box.style.left = `${Math.max(4, Math.min(x, innerWidth - box.offsetWidth - 8))}px`;
  box.style.top = `${Math.max(4, Math.min(y, innerHeight - box.offsetHeight - 8))}px`;
  const buttons = [...box.querySelectorAll("button")];
  box.addEventListener("keydown", (event) => pressed(event, buttons));
  buttons[0].focus();
}

document.addEventListener("pointerdown", (event) => {
  if (open !== null && !open.box.contains(event.target)) closeMenu(false);
});
