"""Measures in a page the contrast of texts with their grounds, and of the edges of what can be used (WCAG 2, 1.4.3 and
1.4.11)."""

LEAST_TEXT, LEAST_EDGE = 4.5, 3.0
# Of each text that is seen, of each placeholder, and of each edge: its color, its ground, and what it is.
COLORS = """(() => {
  const drawn = (element) => element.getClientRects().length > 0 && getComputedStyle(element).visibility === "visible";
  const parts = (color) => color.match(/[0-9.]+/g).map(Number);
  const ground = (element) => {
    for (let each = element; each !== null; each = each.parentElement) {
      const [red, green, blue, alpha = 1] = parts(getComputedStyle(each).backgroundColor);
      if (alpha === 1) return [red, green, blue];
    }
    return [255, 255, 255];
  };
  const named = (element) => `${element.tagName.toLowerCase()}#${element.id}.${element.className}`;
  const isOff = (element) => element.disabled || element.ariaDisabled === "true";
  const found = [];
  for (const element of document.body.querySelectorAll("*")) {
    if (!drawn(element) || element.tagName === "OPTION") continue;
    const style = getComputedStyle(element);
    const hasText = [...element.childNodes].some((node) => node.nodeType === 3 && node.data.trim() !== "");
    if (hasText && !isOff(element)) found.push(["text", parts(style.color), ground(element), named(element)]);
    if (element.placeholder && element.value === "" && !element.disabled) {
      const { color } = getComputedStyle(element, "::placeholder");
      found.push(["text", parts(color), ground(element), `placeholder of ${named(element)}`]);
    }
    const isUsed = element.matches("input:not([type=checkbox]), textarea, select, .list, canvas") && !isOff(element);
    if (isUsed) found.push(["edge", parts(style.borderTopColor), ground(element.parentElement), named(element)]);
    if (isUsed) found.push(["edge", parts(style.borderTopColor), ground(element), `${named(element)} inside`]);
  }
  return found;
})()"""


def light(color):
    parts = [part / 255 for part in color[:3]]
    linear = [part / 12.92 if part <= 0.04045 else ((part + 0.055) / 1.055) ** 2.4 for part in parts]
    return 0.2126 * linear[0] + 0.7152 * linear[1] + 0.0722 * linear[2]


def contrast(one, other):
    lights = sorted((light(one), light(other)), reverse=True)
    return (lights[0] + 0.05) / (lights[1] + 0.05)


def least_contrasts(person):
    """The least contrast of a text and of an edge, each with what it is of."""
    least = {}
    for sort, color, ground, name in person.evaluate(COLORS):
        least[sort] = min(least.get(sort, (99, "")), (contrast(color, ground), name))
    return least


def hold_contrasts(person, where):
    """Words of the least contrasts, which are as great as they have to be."""
    least = least_contrasts(person)
    for sort, bound in (("text", LEAST_TEXT), ("edge", LEAST_EDGE)):
        found, name = least[sort]
        assert found >= bound, f"{where}: the {sort} of {name} has a contrast of {found:.2f}, which is below {bound}"
    return f"{where}: text {least['text'][0]:.2f}, edges {least['edge'][0]:.2f}"
