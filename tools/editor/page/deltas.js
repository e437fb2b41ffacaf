// The deltas of a record in which systems write: they stay text, and one is read when it is looked at. Those that set a
// cell to numbers are made and taken back without being read as JSON. Nothing here draws.

import { CellReader } from "./cell_reader.js";
import { indexOf } from "./roots.js";
import { MAKE, TAKE_BACK } from "./state.js";

const HEAD = /^\{"tick":("\d+"|\d+),"after":("\d+"|\d+),"deltas":\[/;
const SETS_NUMBERS = /\{"after":\[\d+,[-\d[]/y;
const BETWEEN = '},{"';
const FIRST_LETTER = "a".charCodeAt(0);
const ENTITY = '"entity":"';

function setsNumbers(text, at) {
  SETS_NUMBERS.lastIndex = at;
  return SETS_NUMBERS.test(text);
}

// Where each delta begins, and behind the last one where a further one would begin. What stands between two stands in
// no text of the scene: the quotes within one have a sign before them, and behind its end comes no letter.
function startsOf(text, first) {
  const starts = [first];
  for (let at = text.indexOf(BETWEEN, first); at >= 0; at = text.indexOf(BETWEEN, at + BETWEEN.length)) {
    if (text.charCodeAt(at + BETWEEN.length) >= FIRST_LETTER) starts.push(at + 2);
  }
  starts.push(text.length - 1);
  return Int32Array.from(starts);
}

function indexIn(entity) {
  return entity === undefined ? -1 : indexOf(entity);
}

// By the index of an entity the place of its last delta, and of each delta that of the one before it of the same index,
// or -1; and the places of those that have no entity.
function chained(indexes) {
  const most = indexes.reduce((one, other) => Math.max(one, other), -1);
  const [last, before, others] = [new Int32Array(most + 1).fill(-1), new Int32Array(indexes.length).fill(-1), []];
  indexes.forEach((index, place) => {
    if (index < 0) return void others.push(place);
    before[place] = last[index];
    last[index] = place;
  });
  return { last, before, others };
}

export class Deltas {
  // Those of a record's text, where the first one, or the one in its middle, sets a cell to numbers; else null.
  static in(text) {
    const head = HEAD.exec(text);
    if (head === null) return null;
    const middle = text.indexOf(BETWEEN, text.length >> 1) + 2;
    return setsNumbers(text, head[0].length) || setsNumbers(text, middle) ? new Deltas(text, head) : null;
  }

  constructor(text, [head, tick, after]) {
    Object.assign(this, { text, tick: JSON.parse(tick), after: JSON.parse(after), indexes: null, index: null });
    this.starts = startsOf(text, head.length);
  }

  get length() {
    return this.starts.length - 1;
  }

  at(place) {
    const { text, starts } = this;
    return JSON.parse(text.slice(starts[place], starts[place + 1] - 1));
  }

  toJSON() {
    return Array.from(this.starts.subarray(1), (_, place) => this.at(place));
  }

  // Makes all of them in a state, or takes all back, and gives what they did: the entities, which may stand there more
  // than once, and the sorts of the deltas.
  stepIn(state, isForth) {
    const { length, starts, text } = this;
    const reader = new CellReader(text, state.rows);
    const [entities, sorts, indexes] = [[], new Set(), new Int32Array(length)];
    let isCellSet = false;
    for (let turn = 0; turn < length; turn += 1) {
      const place = isForth ? turn : length - 1 - turn;
      const row = reader.setAt(starts[place], isForth);
      isCellSet ||= row !== null;
      const { op, entity } = row ?? this.stepByDelta(state, place, isForth);
      if (row === null) sorts.add(op);
      entities.push(entity);
      indexes[place] = row === null ? indexIn(entity) : (row.index ??= indexOf(entity));
    }
    this.indexes = indexes;
    return { entities, sorts: isCellSet ? sorts.add("cellset") : sorts };
  }

  stepByDelta(state, place, isForth) {
    const delta = this.at(place);
    (isForth ? MAKE : TAKE_BACK)[delta.op](state, delta);
    return delta;
  }

  // Those of an entity, or those of resources for `undefined`.
  of(entity) {
    this.index ??= chained(this.indexes ?? this.indexesNow());
    const { last, before, others } = this.index;
    const found = [];
    if (entity === undefined) return others.map((place) => this.at(place));
    for (let place = last[indexOf(entity)] ?? -1; place >= 0; place = before[place]) found.push(this.at(place));
    return found.filter((delta) => delta.entity === entity);
  }

  // Of each delta the index of its entity, or -1.
  indexesNow() {
    const { text, starts } = this;
    return starts.subarray(0, this.length).map((start, place) => {
      const at = text.indexOf(ENTITY, start) + ENTITY.length;
      const isOne = at > start && at < starts[place + 1];
      return indexIn(isOne ? text.slice(at, text.indexOf('"', at)) : undefined);
    });
  }
}
