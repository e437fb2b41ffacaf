// Subtrees as commands of one frame: moves among siblings, and copies. A child goes last below a parent, and no command
// says another place: so what is to stand behind it goes below the same parent again. Nothing here draws.

import { nameOf } from "./names.js";
import { counted } from "./sentences.js";
import { typedOf, valueTyped } from "./values.js";
import { rowCells } from "./words.js";

function childrenOf(state, parent) {
  return state.children.get(parent) ?? [];
}

// The commands that put entities below a parent, before one of its children, or behind all for undefined.
export function placeCommands(state, entities, parent, before) {
  const moved = new Set(entities);
  const others = childrenOf(state, parent).filter((child) => !moved.has(child));
  const at = before === undefined ? others.length : others.indexOf(before);
  return [...entities, ...others.slice(at)].map((child) => ({ do: "parent", child, parent }));
}

// An entity and all below it, parents first, each with the place of its parent in the list; without recursion.
export function subtreeOf(state, root) {
  const found = [];
  const waiting = [[root, null]];
  while (waiting.length > 0) {
    const [entity, up] = waiting.pop();
    found.push({ entity, up });
    const place = found.length - 1;
    const children = childrenOf(state, entity);
    for (let at = children.length - 1; at >= 0; at -= 1) waiting.push([children[at], place]);
  }
  return found;
}

// What is copied: of each entity its cells, and the place of its parent among the others, or null for those on top.
export function copyOf({ kinds, state }, roots) {
  const items = [];
  for (const root of roots) {
    const base = items.length;
    for (const { entity, up } of subtreeOf(state, root)) {
      const cells = rowCells(state.rows.get(entity)).map(([kind, value]) => [...kinds[kind], value]);
      items.push({ entity, up: up === null ? null : base + up, cells });
    }
  }
  return items;
}

// The commands that spawn a copy, or why there are none. A link to an entity of the copy is `+K`, which the server
// makes the entity that comes of it.
export function spawnCommands(mirror, items) {
  const places = new Map(items.map(({ entity }, at) => [entity, at]));
  const shapes = new Map(mirror.kinds);
  const commands = [];
  for (const [at, { entity, up, cells }] of items.entries()) {
    const spawned = {};
    for (const [name, shape, was] of cells) {
      if (shapes.get(name) !== shape) return { fault: `this scene has no kind ${name} of the shape ${shape}` };
      const own = shape === "Link" ? places.get(was) : undefined;
      const same = () => valueTyped(mirror, shape, typedOf(shape, was));
      const { value, fault } = own === undefined ? same() : { value: `+${own}` };
      if (fault !== undefined) return { fault: `${name} of ${nameOf(mirror, entity) ?? entity}: ${fault}` };
      spawned[name] = value;
    }
    commands.push({ do: "spawn", cells: spawned });
    if (up !== null) commands.push({ do: "parent", child: `+${at}`, parent: `+${up}` });
  }
  return { commands };
}

// The commands that copy entities with all below them, each copy just behind what it is of.
export function duplicateCommands(mirror, roots) {
  const { state } = mirror;
  const items = copyOf(mirror, roots);
  const { commands, fault } = spawnCommands(mirror, items);
  if (fault !== undefined) return { fault };
  const tops = new Map(items.flatMap(({ entity, up }, at) => (up === null ? [[entity, at]] : [])));
  for (const parent of new Set(roots.map((root) => state.parents.get(root)))) {
    if (parent === undefined) continue;
    const list = childrenOf(state, parent);
    const first = list.findIndex((child) => tops.has(child));
    list.slice(first).forEach((child, at) => {
      if (at > 0) commands.push({ do: "parent", child, parent });
      if (tops.has(child)) commands.push({ do: "parent", child: `+${tops.get(child)}`, parent });
    });
  }
  return { commands, count: items.length };
}

// "Forge and 3 below", or "2 entities and 5 below".
export function namedWithBelow(mirror, roots, count) {
  const what = roots.length === 1 ? nameOf(mirror, roots[0]) ?? roots[0] : counted(roots.length, "entity", "entities");
  const below = count - roots.length;
  return below > 0 ? `${what} and ${below} below` : what;
}
