// Refusals in words for people. The name of each stands in what is said, for who looks it up (docs/MODEL.md, "Faults").

import { who } from "./sentences.js";

function gone(entity, mirror) {
  const at = mirror.despawnedBy(entity);
  if (at === 0) return `${entity} isn't there`;
  const by = who(mirror.frames[at - 1].session);
  return `${entity} isn't there any more; ${by} despawned it by frame ${mirror.numberOf(at)}`;
}

// Each gets the request that was refused, the answer, and the mirror.
const SAY = {
  1({ entity, child, parent }, answer, mirror) {
    const isGone = (each) => /^\d+v\d+$/.test(each ?? "") && !mirror.isLive(each);
    return gone([entity, child, parent].find(isGone) ?? entity ?? child, mirror);
  },
  2: ({ entity }) => `${entity} has entities below it; despawn it with all below, or move those first`,
  3: ({ entity, kind }) => `${entity} has no ${kind}`,
  4: () => "a value hasn't the shape of its kind",
  5: () => "there is no such kind",
  6: () => "the cells name a kind twice",
  7: ({ child }) => `${child} can't go below itself`,
  8: ({ child, parent }) => `${child} would go below its own descendant ${parent}`,
  9: ({ child }) => `${child} has no parent; it is a root`,
  10: ({ name }) => `there is no resource ${name}`,
  11: () => "the scene has as many entities as its slot limit lets it",
  12: ({ entity, child, parent }) => {
    const local = [entity, child, parent].find((each) => each?.startsWith("+"));
    return `${local ?? "+K"} names no entity spawned before it`;
  },
  13: () => "the tick can't rise any more",
  14: (request, { entity, place }, mirror) => `a sum for ${entity} is beyond 64 bits${systemOf(place, mirror)}`,
  15: () => "there is no frame to take back",
  16: () => "there is no frame to do again",
  17: (request, { length }) => `the history is full, with ${length} calls`,
  18: () => "a frame was taken back since the mark",
  19: () => "the scene is in use",
  20: () => "there was no memory for it",
  21(request, { phase, first, second }, mirror) {
    const names = [first, second].map((at) => systemName(mirror, phase, at));
    const clash = "one writes what the other reads or writes; a new phase parts them";
    return `the systems ${names.join(" and ")} clash in phase ${phase + 1}: ${clash}`;
  },
  22(request, { phase, system }, mirror) {
    return `the system ${systemName(mirror, phase, system)} of phase ${phase + 1} breaks a rule of systems`;
  },
  23: () => "the systems were made for other kinds",
  24: () => "the queue is full",
  30: ({ name }) => `“${name ?? ""}” is no good name: a letter, then letters, digits or _, 32 at most`,
  31: ({ name }) => `a kind is named ${name} already`,
  32: () => "there are 64 kinds already",
  40: (request, { rule }) => `the scene breaks rule ${rule} of a valid world`,
  41: (request, { frame, delta }) => `change ${delta} of frame ${frame} doesn't fit`,
  50: () => "the text isn't JSON",
  51: (request, { path }) => `the text has a key that it may not have, ${path}`,
  52: (request, { path }) => `the text has a wrong value at ${path || "its top"}`,
  53: (request, { version }) => `version ${version} of scene texts isn't read`,
  54: () => "reading failed",
  55: () => "writing failed",
  56: () => "the text is too long",
};

function systemName(mirror, phase, place) {
  return mirror.phases[phase]?.[place]?.name ?? `number ${place + 1}`;
}

function systemOf(place, mirror) {
  return place === undefined ? "" : `, by the system ${systemName(mirror, place.phase, place.queue)}`;
}

// What is said of an answer, or null where all was done.
export function refusalText(answer, mirror) {
  if (answer.answer === "bad") return `Not done: ${answer.reason}. Nothing changed.`;
  if (answer.answer !== "refused" && answer.answer !== "fault") return null;
  const say = SAY[answer.number] ?? (() => "it was refused");
  return `Not done: ${say(answer.request ?? {}, answer, mirror)} (${answer.name}). Nothing changed.`;
}
