// Drives the pages of tools/try_picture in a frame: it moves the slider, searches, folds and scrolls by keys, and sends what
// it saw.

const frame = document.querySelector("iframe");
const MINE = new Set(["div", "span", "b"]);

function at(id) {
  return frame.contentDocument.getElementById(id);
}

function lines(id) {
  return [...at(id).querySelectorAll(".line")].sort((one, other) => parseFloat(one.style.top) - parseFloat(other.style.top));
}

// The texts of the lines that are drawn, without signs of folds and changes.
function texts(id) {
  return lines(id).map((line) => {
    const copy = line.cloneNode(true);
    copy.querySelectorAll(".fold, .sign").forEach((sign) => sign.remove());
    return copy.textContent;
  });
}

function enter(id, value) {
  at(id).value = value;
  at(id).dispatchEvent(new frame.contentWindow.Event("input", { bubbles: true }));
}

function press(id, key) {
  at(id).dispatchEvent(new frame.contentWindow.KeyboardEvent("keydown", { key, bubbles: true, cancelable: true }));
}

// A browser tells of a scroll before it draws the next time.
function drawn() {
  const { contentWindow } = frame;
  return new Promise((go) => contentWindow.requestAnimationFrame(() => contentWindow.requestAnimationFrame(go)));
}

function moment() {
  return [at("position").textContent, at("found").textContent];
}

function strange() {
  const tags = [...at("forest").querySelectorAll(".line *"), ...at("tables").querySelectorAll(".line *")];
  return tags.map((tag) => tag.localName).filter((name) => !MINE.has(name));
}

async function opened(path) {
  const loaded = new Promise((go) => frame.addEventListener("load", go, { once: true }));
  frame.src = path;
  await loaded;
  await drawn();
}

async function marked() {
  await opened("/page/0");
  return { title: frame.contentDocument.title, forest: texts("forest"), strange: strange() };
}

async function large() {
  await opened("/page/1");
  const moments = [moment()];
  const folded = lines("forest").length;
  enter("slider", 0);
  moments.push(moment());
  at("newer").click();
  moments.push(moment());
  press("forest", "]");
  moments.push(moment());
  const change = texts("changes")[0];
  enter("search", "thing_1234 1234");
  const found = { found: at("found").textContent, lines: texts("forest") };
  enter("search", "");
  press("forest", "Home");
  press("forest", "ArrowRight");
  const unfolded = lines("forest").length;
  press("tables", "ArrowRight");
  press("tables", "End");
  await drawn();
  press("tables", "Enter");
  await drawn();
  const count = ["forest", "tables", "changes", "resources"].reduce((sum, id) => sum + lines(id).length, 0);
  const chosen = at("detail").textContent;
  return { moments, folded, change, ...found, unfolded, last: texts("tables").at(-1), drawn: count, chosen };
}

async function drive() {
  try {
    return { pages: [await marked(), await large()] };
  } catch (fault) {
    return { fault: `${fault} ${fault.stack}` };
  }
}

drive().then((seen) => fetch("/told", { method: "POST", body: JSON.stringify(seen) }));
