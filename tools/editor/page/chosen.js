// Which entities are chosen. The last one chosen is the one that is shown, and the one below which others are spawned.

export class Chosen {
  // `changed` is told the entity, and the list in which it was chosen, if in one; `isLive` says which live. `times` is
  // how often something was chosen.
  constructor(changed, isLive) {
    const told = (entity, list) => {
      this.times += 1;
      changed(entity, list);
    };
    Object.assign(this, { changed: told, isLive, entities: new Set(), last: null, anchor: null, times: 0 });
  }

  has(entity) {
    return this.entities.has(entity);
  }

  // The last one where it lives, or null.
  liveLast() {
    return this.last !== null && this.isLive(this.last) ? this.last : null;
  }

  only(entity, list) {
    this.all([entity], list);
  }

  all(entities, list) {
    this.entities = new Set(entities);
    this.last = entities.at(-1) ?? null;
    this.anchor = this.last;
    this.changed(this.last, list);
  }

  toggle(entity, list) {
    if (!this.entities.delete(entity)) this.entities.add(entity);
    this.last = this.has(entity) ? entity : [...this.entities].at(-1) ?? null;
    this.anchor = entity;
    this.changed(entity, list);
  }

  // All on the lines from the one that was chosen first up to an entity.
  upTo(entity, list) {
    const [from, to] = [this.anchor, entity].map((each) => list.lines.placeOf(each));
    if (from < 0) return this.only(entity, list);
    const between = list.lines.slice(Math.min(from, to), Math.max(from, to) + 1);
    this.entities = new Set(between.map((line) => line.entity).filter((each) => each !== undefined));
    this.last = entity;
    this.changed(entity, list);
  }

  // As keys and mouse choose: Shift all between, Ctrl one more or less, else this one alone.
  by(event, entity, list) {
    if (event?.shiftKey) this.upTo(entity, list);
    else if (event?.ctrlKey || event?.metaKey || event?.key === " ") this.toggle(entity, list);
    else this.only(entity, list);
  }
}
