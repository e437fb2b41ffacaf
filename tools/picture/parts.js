// Small elements, and the signs of changes. A text stays text.

export const SIGNS = { new: "+", changed: "~", moved: ">" };

export function part(name, className, text) {
  const element = document.createElement(name);
  element.className = className;
  element.textContent = text;
  return element;
}

export function button(text, press) {
  const element = part("button", "", text);
  element.type = "button";
  element.addEventListener("click", press);
  return element;
}

// Makes an element just as one that was made anew, and keeps of it and of what is in it all that can be kept: so who
// holds the mouse's button down on it, or drags it, or reads it, goes on.
export function adopt(old, fresh) {
  for (const { name } of [...old.attributes]) if (!fresh.hasAttribute(name)) old.removeAttribute(name);
  for (const { name, value } of fresh.attributes) {
    if (old.getAttribute(name) === value) continue;
    // The page's policy lets no attribute have a style, but its parts.
    if (name === "style") old.style.cssText = value;
    else old.setAttribute(name, value);
  }
  const [mine, others] = [[...old.childNodes], [...fresh.childNodes]];
  const isAlike = mine.length === others.length && mine.every((node, at) => node.nodeName === others[at].nodeName);
  if (!isAlike) return void old.replaceChildren(...others);
  mine.forEach((node, at) => {
    if (node.nodeType !== Node.TEXT_NODE) adopt(node, others[at]);
    else if (node.data !== others[at].data) node.data = others[at].data;
  });
}

// Puts just these elements into a box, in their order. Those that are there already aren't taken out meanwhile.
export function putIn(box, elements) {
  const kept = new Set(elements);
  for (const element of [...box.children]) if (!kept.has(element)) element.remove();
  let next = box.firstChild;
  for (const element of elements) {
    if (element === next) next = next.nextSibling;
    else box.insertBefore(element, next);
  }
}
