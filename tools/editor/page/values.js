// What a person typed, as a value of a request, or why it is none. Whole numbers have 64 bits, and so are BigInts.

import { linkTyped } from "./links.js";

const WHOLE = /^(0|-?[1-9][0-9]*)$/;
const LEAST = -(2n ** 63n);
const MOST = 2n ** 63n - 1n;

function wholeTyped(text) {
  if (!WHOLE.test(text)) return { fault: `“${text}” is no whole number, such as 0, 17 or -5` };
  const value = BigInt(text);
  return value < LEAST || value > MOST ? { fault: `${text} is beyond the 64 bits of an Int` } : { value };
}

const BY_SHAPE = {
  Tag: () => ({ value: true }),
  Int: (typed) => wholeTyped(typed.trim()),
  Vec3(typed) {
    const parts = typed.trim().split(/\s*,\s*|\s+/);
    if (parts.length !== 3) return { fault: `“${typed}” isn't three whole numbers, such as 1,-2,3` };
    const whole = parts.map(wholeTyped);
    return whole.find(({ fault }) => fault !== undefined) ?? { value: whole.map(({ value }) => value) };
  },
  Text: (typed) => (/\p{Surrogate}/u.test(typed) ? { fault: "the Text has half a letter in it" } : { value: typed }),
  Link: (typed, mirror) => linkTyped(mirror, typed),
};

export const SHAPES = {
  Text: "any characters", Int: "a whole number", Vec3: "three whole numbers", Tag: "there or not", Link: "an entity",
};

export const HINTS = {
  Tag: "no value", Int: "number", Vec3: "1,-2,3", Text: "text", Link: "name or 0v1",
};

// `{ value }` as a request has it, or `{ fault }` in words.
export function valueTyped(mirror, shape, typed) {
  return BY_SHAPE[shape](typed, mirror);
}

// How a value that is there stands in a field.
export function typedOf(shape, value) {
  return shape === "Tag" ? "" : String(value);
}
