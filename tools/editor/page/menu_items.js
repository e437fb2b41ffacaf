// What the menu of the chosen has: the same as the keys and the buttons do.

export function menuItems(editor) {
  const { chosen, forest, copies, sights, changes, mirror } = editor;
  const entity = chosen.liveLast();
  const targets = editor.targets();
  const isOff = targets.length === 0;
  const line = forest.list.lines.at(forest.list.lines.placeOf(entity));
  const isOn = (sort) => targets.length > 0 && targets.every((each) => sights.has(sort, each));
  const place = () => {
    forest.reveal(entity);
    forest.rename(line);
  };
  const hasPlace = entity !== null && mirror.state.parents.has(entity);
  return [
    { text: "Rename", key: "F2", press: place, isOff: line === undefined || mirror.nameKind < 0 },
    { text: "Duplicate", key: "Ctrl+D", press: () => copies.duplicate(), isOff },
    { text: "Copy", key: "Ctrl+C", press: () => copies.copy(), isOff },
    { text: "Paste below", key: "Ctrl+V", press: () => copies.paste(), isOff: copies.kept() === null },
    { text: "Paste as roots", press: () => copies.paste(null), isOff: copies.kept() === null },
    null,
    { text: "Move up", key: "Alt+↑", press: () => copies.shift(-1), isOff: !hasPlace },
    { text: "Move down", key: "Alt+↓", press: () => copies.shift(1), isOff: !hasPlace },
    { text: "Make roots", key: "r", press: () => forest.toRoots(targets), isOff: !hasPlace },
    null,
    { text: isOn("hidden") ? "Show" : "Hide", key: "h", press: () => sights.turn("hidden", targets), isOff },
    { text: isOn("locked") ? "Unlock" : "Lock", key: "k", press: () => sights.turn("locked", targets), isOff },
    null,
    { text: "Despawn", key: "Delete", press: () => changes.despawn(false), isOff },
    { text: "Despawn with all below", key: "Shift+Delete", press: () => changes.despawn(true), isOff },
  ];
}
