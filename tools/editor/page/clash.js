// A value that another tab changed while it was being edited: both are shown before one is written.

import { button, part } from "./parts.js";

export function clashBox({ whose, theirs, mine, write, take }) {
  const box = part("div", "clash", "");
  box.setAttribute("role", "alertdialog");
  box.setAttribute("aria-label", "changed meanwhile");
  const row = part("div", "row tight", "");
  row.append(button("Write mine", write), button("Take theirs", take));
  for (const each of row.children) each.classList.add("small");
  box.append(part("p", "", `${whose} wrote ${theirs} meanwhile; you have ${mine}.`), row);
  return box;
}
