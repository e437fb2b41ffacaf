// Reads of a record's text the deltas that set a cell to numbers, and sets the cell, without the objects of JSON.
// Nothing here draws.

const ENCODER = new TextEncoder();
const lettersOf = (text) => ENCODER.encode(text);
// (no other delta has a number first after it)
const [AFTER, BEFORE, ENTITY] = ['{"after":[', '],"before":[', '],"entity":"'].map(lettersOf);
const [COMMA, MINUS, NULL, NINE, OPEN, CLOSE, QUOTE] = Array.from(lettersOf(',-09[]"'));
// More digits may be more than a number keeps.
const MOST_DIGITS = 15;
const MOST_KEPT = 4 * 2 ** 20;
let room = new Uint8Array(0);

// The letters of a text, where each is one byte, or none. They stand until the next ones are asked for.
function bytesOf(text) {
  const wide = room.length >= text.length ? room : new Uint8Array(2 * text.length);
  if (wide.length <= MOST_KEPT) room = wide;
  const { read, written } = ENCODER.encodeInto(text, wide);
  return read === written ? wide.subarray(0, written) : wide.subarray(0, 0);
}

export class CellReader {
  // `rows` are those of the state, by entity.
  constructor(text, rows) {
    Object.assign(this, { text, rows, bytes: bytesOf(text), at: 0, isRead: true, kind: 0, row: null });
  }

  // Sets the cell of a delta that begins at a place, to what it was after it or before it, and gives its row; null
  // where it is none that sets a cell to numbers, and nothing is done.
  setAt(start, isForth) {
    if (this.bytes.length === 0) return null;
    this.at = start;
    this.isRead = true;
    this.skip(AFTER);
    if (!isForth) this.skipCell(BEFORE);
    const cell = this.cell();
    if (isForth) this.skipCell(BEFORE);
    this.skipCell(ENTITY);
    const row = this.isRead ? this.rowHere() : undefined;
    if (row === undefined) return null;
    row.cells.set(this.kind, cell);
    this.row = row;
    return row;
  }

  // Goes behind letters that have to come next.
  skip(letters) {
    const { bytes, at } = this;
    const { length } = letters;
    for (let place = 0; place < length; place += 1) {
      if (bytes[at + place] !== letters[place]) return void (this.isRead = false);
    }
    this.at = at + length;
  }

  // Goes behind the letters that come next after numbers.
  skipCell(letters) {
    const { bytes } = this;
    let { at } = this;
    while (at < bytes.length && bytes[at] !== QUOTE) at += 1;
    this.at = at - letters.indexOf(QUOTE);
    this.skip(letters);
  }

  // The value of a cell and its ticks.
  cell() {
    this.kind = this.number();
    this.comma();
    const value = this.bytes[this.at] === OPEN ? this.vector() : this.number();
    this.comma();
    const added = this.number();
    this.comma();
    return [value, added, this.number()];
  }

  vector() {
    this.at += 1;
    const x = this.number();
    this.comma();
    const y = this.number();
    this.comma();
    const z = this.number();
    if (this.bytes[this.at] !== CLOSE) this.isRead = false;
    this.at += 1;
    return [x, y, z];
  }

  comma() {
    if (this.bytes[this.at] !== COMMA) this.isRead = false;
    this.at += 1;
  }

  number() {
    const { bytes } = this;
    let { at } = this;
    const isLess = bytes[at] === MINUS;
    if (isLess) at += 1;
    const first = at;
    let number = 0;
    for (let byte = bytes[at]; byte >= NULL && byte <= NINE; byte = bytes[at]) {
      number = number * 10 + byte - NULL;
      at += 1;
    }
    if (at === first || at - first > MOST_DIGITS) this.isRead = false;
    this.at = at;
    return isLess ? -number : number;
  }

  // The row of the entity that stands here. Systems go along a table, so it is looked for behind the last one first.
  rowHere() {
    const next = this.row?.table.rows[this.row.place + 1];
    if (next !== undefined && this.stands(next.entity)) return next;
    return this.rows.get(this.text.slice(this.at, this.text.indexOf('"', this.at)));
  }

  stands(entity) {
    const { bytes, at } = this;
    const { length } = entity;
    for (let place = 0; place < length; place += 1) {
      if (bytes[at + place] !== entity.charCodeAt(place)) return false;
    }
    return bytes[at + length] === QUOTE;
  }
}
