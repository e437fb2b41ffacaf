// The entities without a parent, by index. What comes and goes is put in its place in their order; where much has come
// and gone since they were asked for, the order is made anew.

const MOST_PUT = 32;

export function indexOf(entity) {
  return Number(entity.slice(0, entity.indexOf("v")));
}

function ordered(entities) {
  const byIndex = [];
  for (const entity of entities) byIndex[indexOf(entity)] = entity;
  return byIndex.filter(() => true);
}

export class Roots {
  constructor() {
    Object.assign(this, { all: new Set(), order: null, put: 0 });
  }

  add(entity) {
    this.all.add(entity);
    if (this.isKeptUp()) this.order.splice(this.placeFor(entity), 0, entity);
  }

  delete(entity) {
    this.all.delete(entity);
    if (this.isKeptUp()) this.order.splice(this.placeFor(entity), 1);
  }

  isKeptUp() {
    this.put += 1;
    if (this.put > MOST_PUT) this.order = null;
    return this.order !== null;
  }

  // Where an entity stands in the order, or would stand.
  placeFor(entity) {
    const index = indexOf(entity);
    let [from, to] = [0, this.order.length];
    while (from < to) {
      const middle = (from + to) >> 1;
      if (indexOf(this.order[middle]) < index) from = middle + 1;
      else to = middle;
    }
    return from;
  }

  inOrder() {
    this.put = 0;
    this.order ??= ordered(this.all);
    return this.order;
  }
}
