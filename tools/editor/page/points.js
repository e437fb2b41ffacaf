// The points of the picture: of each entity that has both numbers and isn't hidden where it stands, in arrays of
// numbers. They are read once, and then follow what changes.

const LEAST_ROOM = 256;

export class Points {
  constructor() {
    this.clear(0);
  }

  clear(room) {
    Object.assign(this, { entities: [], places: new Map(), x: new Float64Array(room), y: new Float64Array(room) });
  }

  get length() {
    return this.entities.length;
  }

  at(place) {
    return { entity: this.entities[place], x: this.x[place], y: this.y[place] };
  }

  all() {
    return this.entities.map((_, place) => this.at(place));
  }

  // The point of an entity, or undefined.
  of(entity) {
    const place = this.places.get(entity);
    return place === undefined ? undefined : this.at(place);
  }

  // Those of some entities that have one.
  among(entities) {
    return [...entities].map((entity) => this.of(entity)).filter((point) => point !== undefined);
  }

  // Reads all rows. Axes say of which kind a number is, and how it is read of a value; `isHidden` which aren't shown.
  read(rows, axes, isHidden) {
    this.clear(Math.max(LEAST_ROOM, rows.size));
    for (const row of rows.values()) this.put(row, axes, isHidden);
  }

  follow(entities, rows, axes, isHidden) {
    for (const entity of entities) {
      const row = rows.get(entity);
      if (row === undefined) this.drop(entity);
      else this.put(row, axes, isHidden);
    }
  }

  put({ entity, cells }, { x, y }, isHidden) {
    const [one, other] = [cells.get(x.kind), cells.get(y.kind)];
    if (one === undefined || other === undefined || isHidden(entity)) return this.drop(entity);
    let place = this.places.get(entity);
    if (place === undefined) {
      place = this.entities.push(entity) - 1;
      this.places.set(entity, place);
      if (place >= this.x.length) this.grow();
    }
    this.x[place] = x.read(one[0]);
    this.y[place] = y.read(other[0]);
  }

  // The last one takes its place.
  drop(entity) {
    const place = this.places.get(entity);
    if (place === undefined) return;
    const last = this.entities.pop();
    this.places.delete(entity);
    if (last === entity) return;
    this.entities[place] = last;
    this.places.set(last, place);
    for (const numbers of [this.x, this.y]) numbers[place] = numbers[this.entities.length];
  }

  grow() {
    for (const name of ["x", "y"]) {
      const wider = new Float64Array(2 * this.x.length);
      wider.set(this[name]);
      this[name] = wider;
    }
  }

  // The least and the greatest number along an axis, or null without points.
  span(axis) {
    const { length } = this;
    const numbers = this[axis];
    let [least, most] = [Infinity, -Infinity];
    for (let place = 0; place < length; place += 1) {
      const number = numbers[place];
      if (number < least) least = number;
      if (number > most) most = number;
    }
    return least > most ? null : [least, most];
  }
}
