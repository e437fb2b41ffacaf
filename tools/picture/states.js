// Runs the script of a page without a document, for tools/try_picture: node states.js SCRIPT. Each line of the input is a
// case in JSON, a scene with positions and a search, and each line of the output what the page's functions make of it.
const fs = require("fs");
const vm = require("vm");

const names = ["timelineOf", "goTo", "sceneOf", "forestLines", "tableLines", "changeLines", "newFolds", "found"];
const context = vm.createContext({});
vm.runInContext(`${fs.readFileSync(process.argv[2], "utf8")}\nthis.page = { ${names.join(", ")} };`, context);
const { page } = context;

function changeShown({ sort, entity, text }) {
  return [sort, entity ?? null, text];
}

function all(lines) {
  return lines.slice(0, lines.length);
}

function shown(timeline, limit) {
  const { kinds, records, state, position } = timeline;
  return {
    world: page.sceneOf(state, kinds, limit),
    forest: all(page.forestLines(state, page.newFolds(true), null)).map((line) => [line.entity, line.level]),
    folded: all(page.forestLines(state, page.newFolds(false), null)).map((line) => line.entity),
    rows: all(page.tableLines(state, page.newFolds(true), null)).filter((line) => line.sort === "row").length,
    changes: all(page.changeLines(kinds, records[position - 1])).map(changeShown),
  };
}

function answer({ scene, positions, search }) {
  const timeline = page.timelineOf(scene);
  const states = positions.map((position) => {
    page.goTo(timeline, position);
    return shown(timeline, scene.limit);
  });
  const began = Date.now();
  const found = page.found(timeline, search);
  const lines = page.forestLines(timeline.state, page.newFolds(false), found);
  return { states, found: found && [...found], lines: lines.length, milliseconds: Date.now() - began };
}

const cases = fs.readFileSync(0, "utf8").split("\n").filter((line) => line !== "");
for (const line of cases) process.stdout.write(`${JSON.stringify(answer(JSON.parse(line)))}\n`);
