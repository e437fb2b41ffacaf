// What the record of a frame says of single entities. Of a large one the deltas of each entity are found once, when it
// is first asked for one.

const SMALL = 32;
const ORDER = ["new", "moved", "changed"];
const SORTS = { spawned: "new", linked: "moved", shifted: "changed", cellset: "changed" };
const indexes = new WeakMap();

// Of each entity the place of its last delta, and of each delta that of the one before it of the same entity, or -1.
// The deltas of resources are those of `undefined`.
function indexOfDeltas(deltas) {
  if (indexes.has(deltas)) return indexes.get(deltas);
  const [last, before] = [new Map(), new Int32Array(deltas.length)];
  deltas.forEach(({ entity }, at) => {
    before[at] = last.get(entity) ?? -1;
    last.set(entity, at);
  });
  const index = { last, before };
  indexes.set(deltas, index);
  return index;
}

// Some records know it without being read.
function names(record, entity) {
  if (record.names !== undefined) return record.names(entity);
  if (record.deltas.length > SMALL) return indexOfDeltas(record.deltas).last.has(entity);
  return record.deltas.some((delta) => delta.entity === entity);
}

// Some deltas find those of an entity by themselves.
function deltasOf({ deltas }, entity) {
  if (deltas.of !== undefined) return deltas.of(entity);
  if (deltas.length <= SMALL) return deltas.filter((delta) => delta.entity === entity);
  const { last, before } = indexOfDeltas(deltas);
  const found = [];
  for (let at = last.get(entity) ?? -1; at >= 0; at = before[at]) found.push(deltas[at]);
  return found;
}

// The sort of the change that deltas of an entity made, and the kinds that they wrote; undefined for none. Of several
// sorts the first of new, moved, changed is told.
function markOf(deltas) {
  const sorts = new Set(deltas.map(({ op }) => SORTS[op]));
  const sort = ORDER.find((each) => sorts.has(each));
  if (sort === undefined) return undefined;
  const kinds = new Set();
  for (const { op, cells, cell, after } of deltas) {
    const written = { spawned: cells, shifted: [cell], cellset: [after] }[op] ?? [];
    for (const [kind] of written) kinds.add(kind);
  }
  return { sort, kinds };
}

class Marks {
  constructor(record) {
    Object.assign(this, { record, known: new Map() });
  }

  get(entity) {
    if (!this.known.has(entity)) this.known.set(entity, markOf(deltasOf(this.record, entity)));
    return this.known.get(entity);
  }
}

// Which entities a frame changed, each with the sort of its change and the kinds that it wrote, and which resources.
export function marksOf(record = { deltas: [] }) {
  const resources = new Set(deltasOf(record, undefined).map(({ name }) => name));
  return { entities: new Marks(record), resources };
}

// The frames, as positions behind them, whose records name an entity.
export function framesOf(records, entity) {
  const frames = [];
  records.forEach((record, at) => {
    if (names(record, entity)) frames.push(at + 1);
  });
  return frames;
}

// Whether a record despawned an entity.
export function despawns(record, entity) {
  return names(record, entity) && deltasOf(record, entity).some(({ op }) => op === "despawned");
}
