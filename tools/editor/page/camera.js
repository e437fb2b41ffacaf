// Where the picture's points stand on the canvas: its middle, and pixels per unit. Axes of one kind have one scale.

const MARGIN = 24;
const LEAST_SPAN = 10;
const MOST_SCALE = 400;

export class Camera {
  constructor() {
    Object.assign(this, { middle: { x: 0, y: 0 }, scale: { x: 1, y: 1 }, isFree: false });
    this.size = { width: 1, height: 1 };
  }

  // Shows all of bounds, `[[left, right], [bottom, top]]`.
  fit([[left, right], [bottom, top]], isOneScale) {
    const { width, height } = this.size;
    const across = (width - 2 * MARGIN) / Math.max(right - left, LEAST_SPAN);
    const up = (height - 2 * MARGIN) / Math.max(top - bottom, LEAST_SPAN);
    const one = Math.max(Number.MIN_VALUE, Math.min(across, up));
    this.scale = isOneScale ? { x: one, y: one } : { x: Math.max(0, across), y: Math.max(0, up) };
    this.middle = { x: (left + right) / 2, y: (bottom + top) / 2 };
  }

  place({ x, y }) {
    const { middle, scale, size } = this;
    return [size.width / 2 + (x - middle.x) * scale.x, size.height / 2 - (y - middle.y) * scale.y];
  }

  // What stands at a place of the canvas.
  at(left, top) {
    const { middle, scale, size } = this;
    return { x: middle.x + (left - size.width / 2) / scale.x, y: middle.y - (top - size.height / 2) / scale.y };
  }

  pan(right, down) {
    this.isFree = true;
    this.middle = { x: this.middle.x - right / this.scale.x, y: this.middle.y + down / this.scale.y };
  }

  // Nearer or farther, with what is at a place kept there.
  zoom(by, left = this.size.width / 2, top = this.size.height / 2) {
    if (Math.max(this.scale.x, this.scale.y) * by > MOST_SCALE) return;
    const before = this.at(left, top);
    this.isFree = true;
    this.scale = { x: this.scale.x * by, y: this.scale.y * by };
    const after = this.at(left, top);
    this.middle = { x: this.middle.x + before.x - after.x, y: this.middle.y + before.y - after.y };
  }

  // Whether a place is in sight.
  shows([left, top]) {
    return left >= 0 && top >= 0 && left <= this.size.width && top <= this.size.height;
  }
}

// The step of a grid whose lines stand so many pixels apart at least: 1, 2 or 5 times a power of ten.
export function gridStep(scale, least) {
  const raw = least / scale;
  const power = 10 ** Math.floor(Math.log10(raw));
  return Math.max(1, [1, 2, 5, 10].map((by) => by * power).find((step) => step >= raw));
}
