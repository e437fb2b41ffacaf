// The cells of a row by ascending kind. Rows of a table have few kinds, and share the list of them. `text` is for who
// makes one of the cells: it is kept until a cell changes.

export class Cells {
  // A cell for each of the kinds, which ascend.
  constructor(kinds, cells) {
    this.kinds = kinds;
    this.cells = cells;
    this.text = null;
  }

  has(kind) {
    return this.kinds.includes(kind);
  }

  get(kind) {
    const at = this.kinds.indexOf(kind);
    return at < 0 ? undefined : this.cells[at];
  }

  set(kind, cell) {
    this.text = null;
    const at = this.kinds.indexOf(kind);
    if (at >= 0) return void (this.cells[at] = cell);
    const after = this.kinds.findIndex((each) => each > kind);
    const place = after < 0 ? this.kinds.length : after;
    this.kinds = this.kinds.toSpliced(place, 0, kind);
    this.cells = this.cells.toSpliced(place, 0, cell);
  }

  delete(kind) {
    const at = this.kinds.indexOf(kind);
    if (at < 0) return;
    this.text = null;
    this.kinds = this.kinds.toSpliced(at, 1);
    this.cells = this.cells.toSpliced(at, 1);
  }
}

// The cells of a delta, each with its kind first.
export function cellsOf(list) {
  const sorted = [...list].sort(([one], [other]) => one - other);
  return new Cells(sorted.map(([kind]) => kind), sorted.map((cell) => cell.slice(1)));
}
