// Draws points on a canvas: few as circles, and many as squares, which are put into an image of their own first.

const FEW = 3;
const MANY = 1.5;

export function drawFew(pen, camera, points, size = FEW) {
  for (const point of points) {
    const place = camera.place(point);
    if (!camera.shows(place)) continue;
    pen.beginPath();
    pen.arc(place[0], place[1], size, 0, 2 * Math.PI);
    pen.fill();
  }
}

export function drawSquares(pen, camera, points, size) {
  for (const point of points) {
    const [left, top] = camera.place(point);
    if (camera.shows([left, top])) pen.fillRect(left - size, top - size, 2 * size, 2 * size);
  }
}

// The bytes of a color that stands as `rgb(1, 2, 3)`, as a pixel of an image.
function pixelOf(color) {
  const [red, green, blue] = color.match(/\d+/g).map(Number);
  return new Uint32Array(new Uint8ClampedArray([red, green, blue, 255]).buffer)[0];
}

export class Squares {
  constructor() {
    this.canvas = document.createElement("canvas");
  }

  // Draws all points but those that `isLeftOut` names, in a color. `dots` is how many pixels the screen has for one.
  draw(pen, camera, points, { color, dots, isLeftOut }) {
    const [width, height] = [camera.size.width, camera.size.height].map((each) => Math.max(1, Math.round(each * dots)));
    if (this.image?.width !== width || this.image.height !== height) {
      Object.assign(this.canvas, { width, height });
      this.image = new ImageData(width, height);
    }
    const pixels = new Uint32Array(this.image.data.buffer).fill(0);
    this.fill(pixels, { width, height }, { camera, points, dots, isLeftOut, pixel: pixelOf(color) });
    this.canvas.getContext("2d").putImageData(this.image, 0, 0);
    pen.drawImage(this.canvas, 0, 0, camera.size.width, camera.size.height);
  }

  fill(pixels, { width, height }, { camera: { middle, scale, size }, points, dots, isLeftOut, pixel }) {
    const { x, y, entities, length } = points;
    const side = Math.max(1, Math.round(2 * MANY * dots));
    const half = side / 2;
    for (let place = 0; place < length; place += 1) {
      const left = Math.round((size.width / 2 + (x[place] - middle.x) * scale.x) * dots - half);
      const top = Math.round((size.height / 2 - (y[place] - middle.y) * scale.y) * dots - half);
      if (left < 0 || top < 0 || left + side > width || top + side > height) continue;
      if (isLeftOut !== null && isLeftOut(entities[place])) continue;
      for (let row = top; row < top + side; row += 1) {
        const first = row * width + left;
        for (let at = first; at < first + side; at += 1) pixels[at] = pixel;
      }
    }
  }
}
