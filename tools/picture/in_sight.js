// A list that draws only the lines in sight, and is used by keyboard as by mouse.

import { linesOf } from "./lines.js";
import { adopt, putIn } from "./parts.js";

export const LINE_HEIGHT = 24;
const LINES_AROUND = 6;
const ROLES = { tree: "treeitem", treegrid: "row", grid: "row" };

// Where the line with a key is, which was at a place before.
function placeNow(lines, key, place) {
  return lines.at(place)?.key === key ? place : lines.placeOf(key);
}

export class ListInSight {
  // `fill` puts a line into its element; `fold` and `select` are told the line that is to be folded or was chosen, with
  // the event and, for a click, what was clicked on.
  // `press` is asked first about each key, and says whether it took it; `moved` is told which line is the active one.
  // `sign` gives a text that has all that `fill` reads of a line and whether it is active: a line that has the same one
  // again stays as it is. `around` gives a text of all that `sign` doesn't have: where that is the same one again,
  // `renew` brings the line's element up to date.
  constructor(box, { fill, fold, select, sign = null, around, renew, press = () => false, moved = () => {} }) {
    Object.assign(this, { box, fill, fold, select, sign, press, moved, around, renew });
    Object.assign(this, { lines: linesOf([]), active: 0, drawn: new Map() });
    Object.assign(this, { top: 0, height: box.clientHeight });
    this.sheet = document.createElement("div");
    this.sheet.className = "sheet";
    this.sheet.setAttribute("role", "presentation");
    box.append(this.sheet);
    box.addEventListener("scroll", () => this.box.scrollTop !== this.top && this.measure());
    box.addEventListener("keydown", (event) => this.pressed(event));
    box.addEventListener("mousedown", (event) => this.hold(event));
    box.addEventListener("click", (event) => this.clicked(event));
    new ResizeObserver(() => this.measure()).observe(box);
  }

  // What is in sight is asked for only when it changes: a browser that is asked between changes lays out the page anew.
  measure() {
    this.top = this.box.scrollTop;
    this.height = this.box.clientHeight;
    this.draw();
  }

  scrollTo(top) {
    this.box.scrollTop = top;
    this.top = this.box.scrollTop;
  }

  // Shows other lines. The active one stays active where a line with its key is still there, and the first one in sight
  // stays where it is seen; but for a place that is to be the active one, and in sight.
  show(lines, place) {
    if (place !== undefined) return this.showAt(lines, place);
    const top = Math.floor(this.top / LINE_HEIGHT);
    const [active, first] = [this.active, top].map((place) => placeNow(lines, this.lines.at(place)?.key, place));
    this.lines = lines;
    this.active = active >= 0 ? active : Math.min(this.active, Math.max(0, lines.length - 1));
    this.sheet.style.height = `${lines.length * LINE_HEIGHT}px`;
    const most = Math.max(0, lines.length * LINE_HEIGHT - this.height);
    if (top > 0 && first >= 0 && first !== top) this.scrollTo(this.top + (first - top) * LINE_HEIGHT);
    else if (this.top > most) this.scrollTo(most);
    this.draw();
  }

  showAt(lines, place) {
    this.lines = lines;
    this.sheet.style.height = `${lines.length * LINE_HEIGHT}px`;
    this.goTo(place);
  }

  draw() {
    const { box, lines } = this;
    const first = Math.max(0, Math.floor(this.top / LINE_HEIGHT) - LINES_AROUND);
    const count = Math.ceil(this.height / LINE_HEIGHT) + 2 * LINES_AROUND;
    const before = this.drawn;
    this.drawn = new Map(lines.slice(first, first + count).map((line, at) => {
      return [line.key, this.elementNow(line, first + at, before.get(line.key))];
    }));
    putIn(this.sheet, [...this.drawn.values()]);
    const drawn = this.active >= first && this.active < first + count && lines.length > 0;
    const current = this.sheet.querySelector(".active .current[id]")?.id ?? `${box.id}-${this.active}`;
    if (drawn) box.setAttribute("aria-activedescendant", current);
    else box.removeAttribute("aria-activedescendant");
  }

  // The element of a line, which may have one already.
  elementNow(line, place, old) {
    const isActive = place === this.active;
    const frame = [place, isActive, line.isOpen, line.level, this.around?.(line, isActive)].join();
    const sign = this.sign && `${frame} ${this.sign(line, isActive)}`;
    if (sign !== null && sign === old?.sign) return this.counted(old);
    const isKept = this.renew !== undefined && old?.frame === frame;
    if (isKept) this.renew(old, line);
    const element = isKept ? this.counted(old) : this.elementAnew(line, place, old);
    return Object.assign(element, { sign, frame });
  }

  elementAnew(line, place, old) {
    const fresh = this.counted(this.element(line, place));
    if (old === undefined) return fresh;
    adopt(old, fresh);
    return Object.assign(old, { among: fresh.among });
  }

  // Says of how many lines it is one.
  counted(element) {
    const { length } = this.lines;
    if (element.among !== length) element.setAttribute("aria-setsize", length);
    return Object.assign(element, { among: length });
  }

  element(line, place) {
    const element = document.createElement("div");
    element.id = `${this.box.id}-${place}`;
    element.className = `line ${line.sort}`;
    element.dataset.place = place;
    element.style.top = `${place * LINE_HEIGHT}px`;
    element.setAttribute("role", ROLES[this.box.getAttribute("role")] ?? "option");
    element.setAttribute("aria-posinset", place + 1);
    element.setAttribute("aria-selected", place === this.active);
    if (line.isOpen !== undefined) element.setAttribute("aria-expanded", line.isOpen);
    if (line.level !== undefined) element.setAttribute("aria-level", line.level + 1);
    element.classList.toggle("active", place === this.active);
    this.fill(element, line);
    return element;
  }

  // Makes a line the active one, and scrolls until it is in sight.
  goTo(place) {
    if (this.lines.length === 0) return;
    this.active = Math.max(0, Math.min(place, this.lines.length - 1));
    this.moved(this.lines.at(this.active));
    const top = this.active * LINE_HEIGHT;
    if (top < this.top) this.scrollTo(top);
    else if (top + LINE_HEIGHT > this.top + this.height) this.scrollTo(top + LINE_HEIGHT - this.height);
    this.draw();
  }

  goToKey(key) {
    const place = this.lines.placeOf(key);
    if (place >= 0) this.goTo(place);
  }

  pressed(event) {
    const page = Math.max(1, Math.floor(this.height / LINE_HEIGHT) - 1);
    const line = this.lines.at(this.active);
    const steps = { ArrowDown: 1, ArrowUp: -1, PageDown: page, PageUp: -page, Home: -Infinity, End: Infinity };
    if (line !== undefined && this.press(event, line)) return void event.preventDefault();
    if (event.altKey || event.ctrlKey || event.metaKey || line === undefined) return;
    if (event.key in steps) this.goTo(this.active + steps[event.key]);
    else if (event.key === "Enter" || event.key === " ") this.select(line, event);
    else if (event.key === "ArrowRight" && line.isOpen === false) this.fold(line);
    else if (event.key === "ArrowLeft" && line.isOpen === true) this.fold(line);
    else if (event.key === "ArrowLeft" && line.level > 0) this.goTo(this.above(this.active));
    else return;
    event.preventDefault();
  }

  // The line under which a line of a tree stands.
  above(place) {
    const { level } = this.lines.at(place);
    let at = place;
    while (this.lines.at(at).level >= level) at -= 1;
    return at;
  }

  lineOf(target) {
    const element = target.closest("[data-place]");
    return element === null ? undefined : this.lines.at(Number(element.dataset.place));
  }

  hold(event) {
    this.held = { key: this.lineOf(event.target)?.key, target: event.target, x: event.clientX, y: event.clientY };
  }

  // A click is where the button went down, though its line moves on under the mouse before the button goes up.
  clicked(event) {
    const { held } = this;
    this.held = undefined;
    const isHeld = held && Math.hypot(event.clientX - held.x, event.clientY - held.y) < LINE_HEIGHT;
    const { key, target } = isHeld ? held : { key: this.lineOf(event.target)?.key, target: event.target };
    const place = key === undefined ? -1 : this.lines.placeOf(key);
    if (place < 0) return;
    const line = this.lines.at(place);
    this.goTo(place);
    if (target.closest(".fold") !== null) this.fold(line);
    else this.select(line, event, target);
  }
}
