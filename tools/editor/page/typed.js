// Cells and systems as a person types them in one field: as a line of a script has them, but a text may have spaces,
// and stands in quotes where something in it would be taken for more. Nothing here draws.

import { valueTyped } from "./values.js";
import { named } from "./words.js";

const QUOTED = '"(?:[^"\\\\]|\\\\.)*"';
const PART = "(?:(?:need|without)=|(?:addvec|addint|zero|child|count):)";
const PART_FIRST = new RegExp(`^${PART}`);
// A child has texts, and so goes on over spaces until a further part.
const PARTS = new RegExp(`child:(?:[^ "]|${QUOTED}|"| +(?!${PART}| |$))*|[^ ]+`, "g");

function cellStarts(end) {
  return new RegExp(`(?:^|${end})(\\w+)(?:(=)(?:${QUOTED}(?=${end}|$))?|(?=${end}|$))`, "g");
}

const STARTS = { " ": cellStarts(" "), ";": cellStarts(";") };

// Where cells begin: at a kind's name, with a value behind it where it isn't a Tag.
function startsIn(kinds, typed, end) {
  const shapes = new Map(kinds);
  const found = [...typed.matchAll(STARTS[end])].map(({ 0: all, 1: name, 2: sign, index }) => {
    const from = index + (all.startsWith(end) ? 1 : 0);
    return { name, shape: shapes.get(name), from, at: from + name.length + (sign === undefined ? 0 : 1), sign };
  });
  return found.filter(({ shape, sign }) => shape !== undefined && (shape === "Tag") === (sign === undefined));
}

function unquoted(text) {
  if (!new RegExp(`^${QUOTED}$`).test(text)) return text;
  try {
    return JSON.parse(text);
  } catch {
    return text;
  }
}

// `{ cells }` as a request has them, or `{ fault }` in words. `end` is what parts them.
export function cellsTyped(mirror, typed, end = " ") {
  const starts = startsIn(mirror.kinds, typed, end);
  const before = typed.slice(0, starts[0]?.from ?? typed.length).trim();
  if (before !== "") return { fault: `“${before}” is no component of a kind here, such as Name=cat` };
  const cells = {};
  for (const [place, { name, shape, at }] of starts.entries()) {
    const text = typed.slice(at, starts[place + 1]?.from ?? typed.length).replace(new RegExp(`${end}+$`), "");
    const { value, fault } = valueTyped(mirror, shape, shape === "Text" ? unquoted(text) : text);
    if (fault !== undefined) return { fault: `${name}: ${fault}` };
    if (Object.hasOwn(cells, name)) return { fault: `${name} stands twice` };
    cells[name] = value;
  }
  return { cells };
}

// What each part of a system says, by what stands behind its colon.
const STEPS = {
  addvec: (mirror, [to, ...by]) => ({ to, by: by.join(":") }),
  addint(mirror, [to, ...by]) {
    const { value, fault } = valueTyped(mirror, "Int", by.join(":"));
    return { to, by: value, fault };
  },
  zero: (mirror, parts, rest) => ({ kind: rest }),
  child: (mirror, parts, rest) => cellsTyped(mirror, rest, ";"),
  count: (mirror, parts, rest) => ({ name: rest }),
};

// `{ request }` that adds a system, or `{ fault }` in words.
export function systemTyped(mirror, typed) {
  const [name, ...parts] = typed.match(PARTS) ?? [];
  const request = { do: "system", name, need: [], without: [], steps: [] };
  for (const part of parts) {
    if (!PART_FIRST.test(part)) return { fault: `“${part}” is no part of a system, such as need=A or zero:A` };
    const [, sort, rest] = part.match(/^(\w+).(.*)$/s);
    if (STEPS[sort] === undefined) {
      request[sort].push(...rest.split(","));
      continue;
    }
    const { fault, ...step } = STEPS[sort](mirror, rest.split(":"), rest);
    if (fault !== undefined) return { fault: `${part}: ${fault}` };
    request.steps.push({ step: sort, ...step });
  }
  const kinds = [...request.need, ...request.without, ...request.steps.flatMap(kindsOf)];
  const unknown = kinds.find((kind) => mirror.kindNamed(kind) < 0);
  return unknown === undefined ? { request } : { fault: `“${unknown}” is no kind here` };
}

function kindsOf({ step, to, by, kind }) {
  return { addvec: [to, by], addint: [to], zero: [kind] }[step] ?? [];
}

// A system as a person would type it.
export function systemText({ kinds }, { name, need, without, steps }) {
  const shapes = new Map(kinds);
  const filter = Object.entries({ need, without }).filter(([, names]) => names.length > 0);
  const text = ({ step, to, by, kind, cells, name: counted }) => {
    const said = cells && Object.entries(cells).map(([each, value]) => named(each, shapes.get(each), value)).join(";");
    return [step, to, by, kind, said, counted].filter((each) => each !== undefined).join(":");
  };
  return [name, ...filter.map(([part, names]) => `${part}=${names.join(",")}`), ...steps.map(text)].join(" ");
}
