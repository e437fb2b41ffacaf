// Small drawings, as elements: a page's letters may lack the signs.

const SPACE = "http://www.w3.org/2000/svg";
const PATHS = {
  eye: "M1 8 Q8 1 15 8 Q8 15 1 8 Z M8 5.5 a2.5 2.5 0 1 0 0.01 0 Z",
  lock: "M3 7 h10 v7 h-10 Z M5 7 v-2 a3 3 0 0 1 6 0 v2",
};

export function icon(name) {
  const drawing = document.createElementNS(SPACE, "svg");
  drawing.setAttribute("viewBox", "0 0 16 16");
  drawing.setAttribute("class", "icon");
  drawing.setAttribute("aria-hidden", "true");
  const path = document.createElementNS(SPACE, "path");
  path.setAttribute("d", PATHS[name]);
  drawing.append(path);
  return drawing;
}
