// What the page says of events and of answers. Nothing here draws.

import { valueText } from "./words.js";

const MOST_WORDS = 3;

export function counted(number, one, many = `${one}s`) {
  return `${number} ${number === 1 ? one : many}`;
}

// Session 0 is the server's own, which plays a script into a new store.
export function who(session) {
  if (session === null || session === undefined) return "someone";
  return session === 0 ? "the script" : `session ${session}`;
}

export function capital(text) {
  return text.charAt(0).toUpperCase() + text.slice(1);
}

export function wordsOf(words) {
  const more = words.length - MOST_WORDS;
  return words.slice(0, MOST_WORDS).join("; ") + (more > 0 ? ` and ${more} more` : "");
}

// What is said of a frame, an undo, a redo or a new kind. `before` is what the mirror had before it: its position and its frames.
const TOLD = {
  frame(event, isMine, number, lost) {
    const future = lost > 0 ? ` The ${counted(lost, "frame")} of the future ${lost === 1 ? "is" : "are"} gone.` : "";
    const words = wordsOf(event.words) || "an empty frame";
    return `${isMine ? "Done" : capital(who(event.session))}: ${words} (frame ${number}).${future}`;
  },
  undo: (event, isMine, number) => `${isMine ? "You" : capital(who(event.session))} took frame ${number} back.`,
  redo: (event, isMine, number) => `${isMine ? "You" : capital(who(event.session))} did frame ${number} again.`,
  kinds(event, isMine) {
    const [name, shape] = event.kinds.at(-1);
    return `${isMine ? "Done" : capital(who(event.session))}: a new kind, ${name} (${shape}).`;
  },
  phases(event, isMine) {
    const systems = `${counted(event.phases.flat().length, "system")} in ${counted(event.phases.length, "phase")}`;
    return `${isMine ? "Done" : capital(who(event.session))}: ${systems}.`;
  },
  whole: (event) => (event.words ? capital(event.words) : "All is shown anew."),
};

export function eventText(event, isMine, { number, lost }) {
  return TOLD[event.sort]?.(event, isMine, number, lost) ?? null;
}

function placeText(place) {
  return place === undefined ? "" : ` at ${place.phase}.${place.queue}.${place.command}`;
}

const FIELDS = [
  "entity", "length", "rewinds", "phase", "first", "second", "system", "path", "version", "rule", "frame", "delta",
];

function faultText(word, answer) {
  const fields = FIELDS.filter((name) => answer[name] !== undefined)
    .map((name) => (name === "path" ? JSON.stringify(answer[name]) : answer[name]));
  return [word, answer.number, answer.name, ...fields].join(" ") + placeText(answer.place);
}

function namedCell(name, shape, [value, added, changed]) {
  return `${name}${shape === "Tag" ? "" : `=${valueText(shape, value)}`}@${added}/${changed}`;
}

function rowText({ entity, cells }, shapeOf) {
  const named = Object.entries(cells).map(([name, cell]) => namedCell(name, shapeOf(name), cell));
  return ["row", entity, ...named].join(" ");
}

function worldText(world, shapeOf) {
  const { tick, generations, free } = world;
  const lines = [`tick ${tick}`, ["gens", ...generations].join(" "), ["free", ...free].join(" ")];
  for (const { kinds, rows } of world.tables) {
    lines.push(`table ${kinds.join(",") || "-"}`, ...rows.map((row) => rowText(row, shapeOf)));
  }
  for (const [parent, list] of Object.entries(world.children)) lines.push(["link", parent, ...list].join(" "));
  for (const [name, [shape, ...cell]] of Object.entries(world.resources)) {
    lines.push(`resource ${name} ${namedCell(shape, shape, cell)}`);
  }
  return lines.join("\n");
}

function cellsText(word, cells) {
  return [`${word} ${cells.length}`, ...cells.map(({ entity, kind }) => `${entity} ${kind}`)].join("\n");
}

const ANSWERS = {
  nothing: () => "",
  done: ({ entities }) => ["done", ...entities].join(" "),
  refused: (answer) => faultText("refused", answer),
  fault: (answer) => faultText("fault", answer),
  mark: ({ rewinds, tick }) => `mark ${rewinds} ${tick}`,
  history: ({ calls }) => `history ${calls}`,
  changed: ({ cells }) => cellsText("changed", cells),
  added: ({ cells }) => cellsText("added", cells),
  row: rowText,
  world: worldText,
  scene: ({ text }) => JSON.stringify(text),
  bad: ({ reason }) => `bad line: ${reason}`,
};

// The answer as a script prints it (docs/SCRIPTS.md, "Output"), or nearly so; that to a question stays JSON.
export function answerText(answer, shapeOf) {
  const plain = () => (Object.keys(answer).length === 1 ? answer.answer : JSON.stringify(answer));
  return (ANSWERS[answer.answer] ?? plain)(answer, shapeOf);
}
