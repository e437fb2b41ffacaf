// Requests of the shell (docs/SHELL.md, "Requests"): the lines that they are, and what one does. Nothing here draws.

// A whole number of 64 bits is a BigInt.
export function lineOf(value) {
  if (typeof value === "bigint") return String(value);
  if (Array.isArray(value)) return `[${value.map(lineOf).join(",")}]`;
  if (typeof value !== "object") return JSON.stringify(value);
  return `{${Object.entries(value).map(([key, each]) => `${JSON.stringify(key)}:${lineOf(each)}`).join(",")}}`;
}

// What a line asks for, a request or one of a script, where it asks for that alone.
export function wordOf(line) {
  if (!line.startsWith("{")) return line;
  try {
    const request = JSON.parse(line);
    return Object.keys(request).length === 1 ? request.do : line;
  } catch {
    return line;
  }
}
