// A record as the server told it, which is read when it is first looked into: most never are, and the writes of systems
// stay text. Of a long one what was read is let go again when it is no more the newest: it is many times as large as
// its text. Nothing here draws.

import { Deltas } from "./deltas.js";
import { MAKE, TAKE_BACK } from "./state.js";

const LONG = 100000;
// A longer one is read behind the first picture of a page, which shows what it says then.
const VERY_LONG = 500000;

export class HeldRecord {
  constructor(text) {
    Object.assign(this, { text, known: null });
  }

  read() {
    this.known ??= this.asText() ?? JSON.parse(this.text);
    return this.known;
  }

  asText() {
    const deltas = Deltas.in(this.text);
    return deltas && { tick: deltas.tick, after: deltas.after, deltas };
  }

  letGo() {
    if (this.text.length > LONG) this.known = null;
  }

  get isToRead() { return this.known === null && this.text.length > VERY_LONG; }
  get deltas() { return this.read().deltas; }
  get tick() { return this.read().tick; }
  get after() { return this.read().after; }

  // Whether a delta is of an entity. In a text of the scene no such letters stand: its quotes have a sign before them.
  names(entity) {
    return this.text.includes(`"entity":"${entity}"`);
  }

  // Makes it in a state, or takes it back, and gives which entities it wrote, and by which sorts of deltas.
  stepIn(state, isForth) {
    const { deltas, tick, after } = this;
    state.tick = isForth ? after : tick;
    if (deltas instanceof Deltas) return deltas.stepIn(state, isForth);
    for (const delta of isForth ? deltas : deltas.toReversed()) (isForth ? MAKE : TAKE_BACK)[delta.op](state, delta);
    return { entities: deltas.map(({ entity }) => entity), sorts: new Set(deltas.map(({ op }) => op)) };
  }
}
