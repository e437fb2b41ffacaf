// The picture: each entity a point, across by one number of its cells and up by another. Things are chosen and moved
// there; the ground is panned by a drag, and zoomed by the wheel.

import { Camera, gridStep } from "./camera.js";
import { drawFew, drawSquares, Squares } from "./dots.js";
import { Moving } from "./moving.js";
import { called } from "./names.js";
import { part } from "./parts.js";
import { Points } from "./points.js";
import { counted } from "./sentences.js";

const NEAR = 12;
const IS_DRAG = 4;
const AXES = ["x", "y", "z"];
const MOST_NAMES = 80;
const MANY = 2000;
const LATER_FROM = 20000;
const LATER = 50;
// After so many frames that weren't drawn all is read.
const MOST_CHANGES = 64;
const CHOSEN = 5;
const CHOSEN_OF_MANY = 3.5;
const GRID_APART = 60;
const PAN = 40;
const ZOOM = 1.25;

function moved(at) {
  return (value, by) => value.map((each, axis) => (axis === at ? String(BigInt(each) + by) : each));
}

// The numbers that the kinds have: a Vec3 three, an Int one.
function axesOf(kinds) {
  return kinds.flatMap(([name, shape], kind) => {
    if (shape === "Int") {
      const move = (value, by) => String(BigInt(value) + by);
      return [{ key: name, text: name, kind, read: (value) => Number(value), moved: move }];
    }
    if (shape !== "Vec3") return [];
    const read = (at) => (value) => Number(value[at]);
    const named = (axis) => ({ key: `${name}.${axis}`, text: `${name} ${axis}`, kind });
    return AXES.map((axis, at) => ({ ...named(axis), read: read(at), moved: moved(at) }));
  });
}

// Of two areas, each its left, top, right and bottom.
function overlap(one, other) {
  return one[0] < other[2] && one[2] > other[0] && one[1] < other[3] && one[3] > other[1];
}

// The first Vec3's x and y, or else the first two Ints.
function firstAxes(axes) {
  const vector = axes.find(({ key }) => key.endsWith(".x"));
  if (vector === undefined) return axes.slice(0, 2);
  return [vector, axes.find((axis) => axis.kind === vector.kind && axis.key.endsWith(".y"))];
}

export class Picture {
  constructor(editor) {
    Object.assign(this, { editor, points: new Points(), bounds: null, all: [], camera: new Camera() });
    Object.assign(this, { squares: new Squares(), known: null, changed: [] });
    const at = (id) => document.getElementById(id);
    Object.assign(this, { box: at("drawing"), canvas: at("canvas") });
    Object.assign(this, { words: at("canvas-words"), empty: at("canvas-empty") });
    this.moving = new Moving(this);
    this.selects = [at("canvas-x"), at("canvas-y")];
    for (const select of this.selects) select.addEventListener("change", () => this.fit());
    at("canvas-fit").addEventListener("click", () => this.fit());
    at("canvas-in").addEventListener("click", () => this.zoom(ZOOM));
    at("canvas-out").addEventListener("click", () => this.zoom(1 / ZOOM));
    this.canvas.addEventListener("pointerdown", (event) => this.pressed(event));
    this.canvas.addEventListener("contextmenu", (event) => this.asked(event));
    this.canvas.addEventListener("wheel", (event) => this.wheeled(event), { passive: false });
    this.canvas.addEventListener("keydown", (event) => this.keyed(event));
    this.canvas.addEventListener("blur", () => this.moving.isUnderWay() && !this.isHeld && this.moving.end());
    new ResizeObserver(() => this.measure()).observe(this.canvas);
    matchMedia("(prefers-color-scheme: dark)").addEventListener("change", () => {
      this.colors = undefined;
      this.draw();
    });
  }

  // What is drawn

  showAxes() {
    const { kinds, isSetup } = this.editor.mirror;
    const key = JSON.stringify(kinds);
    if (key === this.kindsKey) return;
    const before = this.selects.map(({ value }) => value);
    const isGrown = this.kindsKey !== undefined && key.startsWith(this.kindsKey.slice(0, -1));
    Object.assign(this, { kindsKey: key, all: axesOf(kinds) });
    const first = firstAxes(this.all).map((axis) => axis.key);
    this.box.hidden = first.length < 2;
    // A kind that comes behind the setup leaves the picture as it is.
    const isKept = isGrown && !isSetup && before.every((value) => value !== "");
    if (!isKept) this.bounds = null;
    this.selects.forEach((select, at) => {
      const option = (axis) => Object.assign(part("option", "", axis.text), { value: axis.key });
      select.replaceChildren(...this.all.map(option));
      select.value = (isKept ? before : first)[at] ?? "";
    });
  }

  // A picture of many things is drawn a little later: what was done shows first where it was done.
  showSoon() {
    clearTimeout(this.waiting);
    if (this.points.length <= LATER_FROM) return this.show();
    this.waiting = setTimeout(() => this.show(), LATER);
  }

  show() {
    this.showAxes();
    const [x, y] = this.selects.map((select) => this.all.find(({ key }) => key === select.value));
    const isThere = !this.box.hidden && x !== undefined && y !== undefined;
    this.empty.hidden = isThere;
    this.empty.textContent = "No two numbers to draw: a Vec3 kind or two Int kinds make a picture.";
    this.canvas.hidden = !isThere;
    this.axes = isThere ? { x, y } : null;
    if (!isThere) return this.showNothing();
    this.followPoints();
    this.bounds = this.boundsNow();
    if (!this.camera.isFree) this.camera.fit(this.bounds, x.kind === y.kind);
    this.empty.hidden = this.points.length > 0;
    const kinds = [...new Set([x, y].map(({ kind }) => this.editor.mirror.kinds[kind][0]))].join(" and ");
    this.empty.textContent = `Nothing here yet: spawn an entity with ${kinds}, and it stands here.`;
    this.draw();
  }

  showNothing() {
    this.words.textContent = "";
    Object.assign(this, { known: null, changed: [] });
  }

  // Entities that a frame changed; where some went below others, what these hide goes along.
  follow(entities, isForest) {
    if (isForest && this.editor.sights.sets.hidden.size > 0) this.known = null;
    if (this.changed.push(entities) > MOST_CHANGES) Object.assign(this, { known: null, changed: [] });
  }

  // All points are read anew where the state is another one, or the axes, or what is hidden.
  followPoints() {
    const { points, changed, axes: { x, y }, editor: { mirror: { state }, sights } } = this;
    const isHidden = (entity) => sights.holds("hidden", entity);
    const now = { state, x, y, turns: sights.turns };
    const isSame = this.known !== null && Object.keys(now).every((key) => now[key] === this.known[key]);
    if (!isSame) points.read(state.rows, { x, y }, isHidden);
    else for (const entities of changed) points.follow(entities, state.rows, { x, y }, isHidden);
    Object.assign(this, { known: now, changed: [] });
  }

  // The bounds grow with what is there, and shrink only where it takes less than half: so the picture stays calm.
  boundsNow() {
    return ["x", "y"].map((axis, at) => {
      const [least, most] = this.points.span(axis) ?? [0, 1];
      const before = this.bounds?.[at];
      if (!before || (most - least) * 2 < before[1] - before[0]) return [least, most];
      return [Math.min(least, before[0]), Math.max(most, before[1])];
    });
  }

  measure() {
    const { clientWidth: width, clientHeight: height } = this.canvas;
    this.camera.size = { width: Math.max(1, width), height: Math.max(1, height) };
    this.show();
  }

  draw() {
    if (this.axes === null || this.axes === undefined) return;
    const { camera, points, editor } = this;
    const dots = devicePixelRatio;
    const pen = this.emptied(dots);
    this.colors ??= this.colorsNow();
    const { line, text, paper, accent, changed } = this.colors;
    this.drawGrid(pen, line);
    this.drawNames(pen, text, paper);
    this.drawPoints(pen, accent, dots);
    pen.fillStyle = changed;
    const chosen = points.among(editor.chosen.entities).map((point) => this.moving.shown(point));
    if (points.length > MANY) drawSquares(pen, camera, chosen, CHOSEN_OF_MANY);
    else drawFew(pen, camera, chosen, CHOSEN);
    this.say();
  }

  // The canvas without anything on it, whose pixels are as fine as those of the screen.
  emptied(dots) {
    const { canvas, camera } = this;
    const [width, height] = [camera.size.width, camera.size.height].map((each) => Math.floor(each * dots));
    if (canvas.width !== width || canvas.height !== height) Object.assign(canvas, { width, height });
    const pen = canvas.getContext("2d");
    pen.setTransform(dots, 0, 0, dots, 0, 0);
    pen.clearRect(0, 0, camera.size.width, camera.size.height);
    return pen;
  }

  // Those of the scheme, which are asked for once: to ask costs a layout.
  colorsNow() {
    const style = getComputedStyle(this.canvas);
    const named = ["line", "text", "paper", "changed"].map((name) => [name, style.getPropertyValue(`--${name}`)]);
    return { ...Object.fromEntries(named), accent: style.color };
  }

  drawPoints(pen, color, dots) {
    const { points, camera, moving } = this;
    pen.fillStyle = color;
    const few = points.length > MANY ? points.among(moving.elsewhere()) : points.all();
    const isLeftOut = few.length === 0 ? null : (entity) => moving.isElsewhere(entity);
    if (points.length > MANY) this.squares.draw(pen, camera, points, { color, dots, isLeftOut });
    drawFew(pen, camera, few.map((point) => moving.shown(point)));
  }

  drawGrid(pen, color) {
    const { camera } = this;
    const { width, height } = camera.size;
    const [least, most] = [camera.at(0, height), camera.at(width, 0)];
    pen.strokeStyle = color;
    pen.lineWidth = 1;
    pen.beginPath();
    for (const axis of AXES.slice(0, 2)) {
      const step = gridStep(camera.scale[axis], GRID_APART);
      for (let each = Math.ceil(least[axis] / step) * step; each <= most[axis]; each += step) {
        const [left, top] = camera.place({ x: axis === "x" ? each : 0, y: axis === "y" ? each : 0 });
        pen.moveTo(axis === "x" ? Math.round(left) + 0.5 : 0, axis === "x" ? 0 : Math.round(top) + 0.5);
        pen.lineTo(axis === "x" ? Math.round(left) + 0.5 : width, axis === "x" ? height : Math.round(top) + 0.5);
      }
    }
    pen.stroke();
  }

  // Names stand where few things are in sight, and none over another; those of the chosen come first.
  drawNames(pen, color, ground) {
    const { camera, editor } = this;
    const isChosen = ({ entity }) => editor.chosen.has(entity);
    const some = this.points.length > MANY ? this.points.among(editor.chosen.entities) : this.points.all();
    const seen = some.filter((point) => camera.shows(camera.place(point)));
    const named = seen.length <= MOST_NAMES ? seen : seen.filter(isChosen).slice(0, MOST_NAMES);
    const order = [...named.filter(isChosen), ...named.filter((point) => !isChosen(point))];
    const taken = [];
    // (to set a font costs as much as many points)
    if (order.length === 0) return;
    Object.assign(pen, { font: "11px system-ui, sans-serif", textBaseline: "middle" });
    Object.assign(pen, { lineWidth: 3, strokeStyle: ground });
    for (const point of order) {
      const [left, top] = camera.place(this.moving.shown(point));
      const text = called(editor.mirror, point.entity);
      const { width } = pen.measureText(text);
      // Where there is no room on the right it stands on the left.
      const from = left + 8 + width > camera.size.width ? left - 8 - width : left + 8;
      const area = [from, top - 7, from + width, top + 7];
      if (taken.some((each) => overlap(area, each))) continue;
      taken.push(area);
      pen.strokeText(text, from, top);
      pen.fillStyle = color;
      pen.fillText(text, from, top);
    }
  }

  say() {
    const { axes: { x, y }, bounds: [[left, right], [bottom, top]], moving, points } = this;
    const { by } = moving;
    if (points.length === 0) return void (this.words.textContent = counted(0, "entity", "entities"));
    const move = moving.isUnderWay() ? `; moving by ${by.x},${by.y}` : "";
    const where = `${x.text} ${left} to ${right}, ${y.text} ${bottom} to ${top}`;
    this.words.textContent = `${counted(points.length, "entity", "entities")}; ${where}${move}`;
  }

  // The camera

  fit() {
    this.bounds = null;
    this.camera.isFree = false;
    this.show();
  }

  zoom(by, left, top) {
    this.camera.zoom(by, left, top);
    this.draw();
  }

  wheeled(event) {
    event.preventDefault();
    this.zoom(event.deltaY < 0 ? ZOOM : 1 / ZOOM, event.offsetX, event.offsetY);
  }

  // The mouse

  nearest(left, top) {
    let [near, least] = [null, NEAR];
    const { points, camera, editor } = this;
    const { x, y } = camera.at(left, top);
    for (let place = 0; place < points.length; place += 1) {
      const far = Math.hypot((points.x[place] - x) * camera.scale.x, (points.y[place] - y) * camera.scale.y);
      if (far >= least || editor.sights.holds("locked", points.entities[place])) continue;
      [near, least] = [points.entities[place], far];
    }
    return near;
  }

  asked(event) {
    event.preventDefault();
    const entity = this.nearest(event.offsetX, event.offsetY);
    if (entity !== null && !this.editor.chosen.has(entity)) this.editor.choose(entity);
    if (this.editor.chosen.entities.size > 0) this.editor.openMenu(event.clientX, event.clientY);
  }

  pressed(event) {
    if (event.button !== 0 && event.button !== 1) return;
    const entity = event.button === 0 ? this.nearest(event.offsetX, event.offsetY) : null;
    const { chosen } = this.editor;
    if (entity !== null && (event.ctrlKey || event.metaKey || event.shiftKey)) return void chosen.toggle(entity);
    if (entity !== null && !chosen.has(entity)) chosen.only(entity);
    const from = { x: event.clientX, y: event.clientY, last: event, isDrag: false, entity };
    this.isHeld = true;
    this.canvas.setPointerCapture(event.pointerId);
    const move = (each) => this.dragged(from, each);
    const end = (each) => {
      this.isHeld = false;
      this.canvas.removeEventListener("pointermove", move);
      for (const sort of ["pointerup", "pointercancel"]) this.canvas.removeEventListener(sort, end);
      this.released(from, each);
    };
    this.canvas.addEventListener("pointermove", move);
    for (const sort of ["pointerup", "pointercancel"]) this.canvas.addEventListener(sort, end);
  }

  dragged(from, event) {
    const [right, down] = [event.clientX - from.x, event.clientY - from.y];
    if (!from.isDrag && Math.hypot(right, down) < IS_DRAG) return;
    if (!from.isDrag && from.entity !== null && !this.moving.begin()) return;
    from.isDrag = true;
    if (from.entity !== null) {
      if (this.moving.isUnderWay()) this.moving.to(right / this.camera.scale.x, -down / this.camera.scale.y);
      return;
    }
    this.camera.pan(event.clientX - from.last.clientX, event.clientY - from.last.clientY);
    from.last = event;
    this.draw();
  }

  released(from, event) {
    if (from.entity === null) return;
    if (!from.isDrag) this.editor.choose(from.entity);
    else if (event.type === "pointerup") this.moving.end();
    else this.moving.cancel();
  }

  // Keys

  keyed(event) {
    const far = event.shiftKey ? 10 : 1;
    const way = { ArrowLeft: [-1, 0], ArrowRight: [1, 0], ArrowUp: [0, 1], ArrowDown: [0, -1] }[event.key];
    if (event.ctrlKey || event.metaKey || this.axes === null) return;
    if (way !== undefined && event.altKey) {
      this.camera.pan(-way[0] * PAN, way[1] * PAN);
      this.draw();
    } else if (way !== undefined) this.moving.nudge(way[0] * far, way[1] * far);
    else if (event.key === "+" || event.key === "=") this.zoom(ZOOM);
    else if (event.key === "-") this.zoom(1 / ZOOM);
    else if (event.key === "0") this.fit();
    else if (event.key === "Escape" && this.moving.isUnderWay()) this.moving.cancel();
    else if (event.key === "Enter") this.chooseNext(event.shiftKey ? -1 : 1);
    else return;
    event.preventDefault();
  }

  chooseNext(step) {
    const { points, editor } = this;
    if (points.length === 0) return;
    const at = points.places.get(editor.chosen.last) ?? -1;
    editor.choose(points.entities.at((at < 0 && step < 0 ? 0 : at + step) % points.length));
  }
}
