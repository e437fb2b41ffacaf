// The scene as the server has it: from a whole, and from the events after it. Nothing here draws.

import { HeldRecord } from "./held_record.js";
import { nameKind } from "./names.js";
import { despawns, framesOf } from "./records.js";
import { timelineOf } from "./state.js";

const EMPTY = { tables: [], children: [], resources: [], generations: [], free: [], tick: 0 };
const ALL = ["forest", "tables", "values", "frames", "phases", "sessions", "all"];
const BY_KINDS = ["values", "kinds"];
const BY_DELTA = {
  spawned: ["forest", "tables", "values"], despawned: ["forest", "tables", "values"], shifted: ["tables", "values"],
  cellset: ["values"], linked: ["forest", "values"], resourceset: ["values"],
};

export class Mirror {
  constructor() {
    const nothing = { kinds: [], frames: [], phases: [], sessions: [], older: 0, later: 0, store: "" };
    this.take({ ...nothing, setup: false, text: null, shell: "here" });
  }

  get state() { return this.timeline.state; }
  get kinds() { return this.timeline.kinds; }
  get records() { return this.timeline.records; }
  get position() { return this.timeline.position; }

  // A frame keeps its number when older ones are no longer held.
  numberOf(position) { return position + this.older; }

  // A whole has the texts of the records that are held.
  take(whole, texts = []) {
    const records = texts.map((text) => new HeldRecord(text));
    const [undo, redo] = [records.slice(0, whole.position), records.slice(whole.position)];
    this.timeline = timelineOf({ ...(whole.text ?? { ...EMPTY, kinds: whole.kinds }), undo, redo });
    const { frames, phases, sessions, setup, shell, store, older = 0, later = 0 } = whole;
    Object.assign(this, { frames, phases, sessions, isSetup: setup, shell, store, older, later, known: null });
    Object.assign(this, { nameKind: nameKind(this.kinds), written: null, newest: records[whole.position - 1] });
    return new Set(ALL);
  }

  // A new kind comes last, so that the numbers of the others stay.
  takeKinds(kinds) {
    this.timeline.kinds = kinds;
    this.nameKind = nameKind(kinds);
    return new Set(BY_KINDS);
  }

  // Makes the change that an event tells, and says which parts of the page it may have changed.
  // Some events have the text of a record.
  apply(event, text) {
    this.written = null;
    const record = text === undefined ? undefined : new HeldRecord(text);
    switch (event.sort) {
      case "frame": return this.frame(event, record);
      case "undo": return this.undo(event, record);
      case "redo": return this.redo(event, record);
      case "kinds": return this.takeKinds(event.kinds);
      case "phases": this.phases = event.phases; return new Set(["phases"]);
      case "sessions": this.sessions = event.sessions; return new Set(["sessions"]);
      case "shell": this.shell = event.state; return new Set(["sessions"]);
      default: return new Set();
    }
  }

  frame({ session, words, dropped }, record) {
    const { timeline, frames } = this;
    this.forget(timeline.position);
    this.later = 0;
    timeline.records.length = timeline.position;
    frames.length = timeline.position;
    timeline.records.push(record);
    frames.push({ session, words });
    const touched = this.step(1);
    if (dropped > 0) this.drop(dropped);
    return touched;
  }

  // Of a record that wasn't held the event tells it, and whose frame it is.
  undo({ frame, dropped }, record) {
    const { timeline, frames } = this;
    if (timeline.position === 0) {
      timeline.records.unshift(record);
      frames.unshift(frame);
      timeline.position = 1;
      this.older -= 1;
      this.known = null;
    }
    const touched = this.step(-1);
    if (dropped > 0) this.dropLater(dropped);
    return touched;
  }

  redo({ frame, dropped }, record) {
    const { timeline, frames } = this;
    if (timeline.position === timeline.records.length) {
      timeline.records.push(record);
      frames.push(frame);
      this.later -= 1;
    }
    const touched = this.step(1);
    if (dropped > 0) this.drop(dropped);
    return touched;
  }

  drop(count) {
    this.timeline.records.splice(0, count);
    this.frames.splice(0, count);
    this.timeline.position -= count;
    this.older += count;
    this.known = null;
  }

  // The farthest of the future are held no more.
  dropLater(count) {
    this.timeline.records.length -= count;
    this.frames.length -= count;
    this.later += count;
    this.forget(this.records.length);
  }

  step(by) {
    const { timeline } = this;
    const record = timeline.records[Math.min(timeline.position, timeline.position + by)];
    this.newest?.letGo();
    const { entities, sorts } = record.stepIn(timeline.state, by > 0);
    timeline.position += by;
    this.newest = timeline.records[timeline.position - 1];
    this.written = entities;
    return new Set(["frames", ...[...sorts].flatMap((op) => BY_DELTA[op])]);
  }

  // The positions behind the frames that name an entity. Those of the one that was asked for last are kept, so that a
  // new frame costs no walk over the old ones.
  framesOf(entity) {
    if (this.known?.entity !== entity) this.known = { entity, upTo: 0, found: [] };
    const { known, records } = this;
    known.found.push(...framesOf(records.slice(known.upTo), entity).map((at) => at + known.upTo));
    known.upTo = records.length;
    return known.found;
  }

  forget(position) {
    const { known } = this;
    if (known === null || known.upTo <= position) return;
    known.found = known.found.filter((at) => at <= position);
    known.upTo = position;
  }

  kindNamed(name) {
    return this.kinds.findIndex((kind) => kind[0] === name);
  }

  shapeOf(name) {
    return this.kinds[this.kindNamed(name)]?.[1];
  }

  // The record behind a position; undefined where there is none, or where it is still to be read, by `read`.
  recordAt(position) {
    const record = this.records[position - 1];
    return record?.isToRead ? undefined : record;
  }

  isToRead(position) {
    return this.records[position - 1]?.isToRead === true;
  }

  isLive(entity) {
    return this.state.rows.has(entity);
  }

  // The newest frame of the past that despawned an entity, as its position, or 0.
  despawnedBy(entity) {
    let at = this.position;
    while (at > 0 && !despawns(this.records[at - 1], entity)) at -= 1;
    return at;
  }
}
