// A line of the forest: its fold, a mark of what it is, its name, what the last frame did, and quietly its id.

import { icon } from "./icons.js";
import { MOST_INDENTS } from "./lines.js";
import { called, hueOf, insteadOfName, markKind, nameOf } from "./names.js";
import { part, SIGNS } from "./parts.js";

// The letter, the hue and the words of the mark.
function markOf(mirror, entity, counts) {
  const { kinds } = mirror;
  const kind = markKind(mirror, entity, counts);
  const words = mirror.state.rows.get(entity).table.kinds.map((each) => kinds[each][0]).join(", ") || "no components";
  if (kind === undefined) return { letter: "·", words };
  return { letter: kinds[kind][0].charAt(0).toUpperCase(), hue: hueOf(kind), words };
}

function mark({ letter, hue, words }) {
  const badge = part("span", "mark", letter);
  badge.title = words;
  if (hue !== undefined) badge.style.color = `hsl(${hue} 60% var(--light))`;
  return badge;
}

function flag(sort, isOn, drawing, label) {
  const button = part("button", "flag", "");
  button.append(icon(drawing));
  Object.assign(button, { type: "button", tabIndex: -1, title: label });
  button.dataset.flag = sort;
  button.setAttribute("aria-label", label);
  button.setAttribute("aria-pressed", isOn);
  return button;
}

// All that stands on the line of an entity that lives.
export function sayTreeLine({ entity, level, children, isOpen }, { editor, counts }) {
  const { mirror, sights, matched } = editor;
  const name = nameOf(mirror, entity);
  const isHit = matched !== null && matched.has(entity);
  return {
    entity, level, children, isOpen, name, isHit, isContext: matched !== null && !isHit,
    shown: name ?? insteadOfName(mirror, entity), mark: markOf(mirror, entity, counts), called: called(mirror, entity),
    change: editor.marks.entities.get(entity)?.sort, isChosen: editor.chosen.has(entity),
    isHidden: sights.holds("hidden", entity), isLocked: sights.holds("locked", entity),
    flags: { hidden: sights.has("hidden", entity), locked: sights.has("locked", entity) },
    why: isHit ? editor.searching.why(entity) : "",
  };
}

function fillClasses(element, said) {
  if (said.change) element.classList.add(said.change);
  const classes = { chosen: said.isChosen, hit: said.isHit, context: said.isContext, "is-hidden": said.isHidden };
  for (const [name, isOn] of Object.entries(classes)) element.classList.toggle(name, isOn);
}

export function fillTreeLine(element, said) {
  const { entity, name, shown, change, children, isOpen, flags } = said;
  const indent = Math.min(said.level, MOST_INDENTS);
  element.style.paddingLeft = `${4 + 14 * indent}px`;
  element.dataset.entity = entity;
  fillClasses(element, said);
  element.setAttribute("aria-label", `${shown}, ${entity}${change ? `, ${change}` : ""}`);
  element.setAttribute("aria-selected", said.isChosen);
  element.draggable = !said.isLocked;
  const [end, switches] = [part("span", "end", ""), part("span", "flags", "")];
  switches.append(
    flag("hidden", flags.hidden, "eye", `hide ${said.called} in the picture (h)`),
    flag("locked", flags.locked, "lock", `lock ${said.called} (k)`),
  );
  end.append(switches, part("span", "id", entity));
  element.append(
    part("span", "fold", children === 0 ? "" : isOpen ? "▾" : "▸"), mark(said.mark),
    part("span", "count", said.level > indent ? `level ${said.level + 1} ` : ""),
    part("span", `name${name === null ? " none" : ""}`, shown),
    part("span", "count", children > 0 && !isOpen ? `(${children})` : ""),
    part("span", "sign", change ? SIGNS[change] : ""), part("span", "text", said.why), end,
  );
}
