// The systems and their phases.

import { showFault } from "./field_faults.js";
import { ListInSight } from "./in_sight.js";
import { linesOf } from "./lines.js";
import { part } from "./parts.js";
import { systemText, systemTyped } from "./typed.js";

export class Systems {
  constructor(editor) {
    this.editor = editor;
    const at = (id) => document.getElementById(id);
    Object.assign(this, { line: at("system-line"), empty: at("systems-empty") });
    const nothing = () => {};
    const fill = (element, line) => this.fill(element, line);
    this.list = new ListInSight(at("systems"), { fill, fold: nothing, select: nothing });
    at("system-form").addEventListener("submit", (event) => this.add(event));
    at("phase-add").addEventListener("click", () => editor.send(["phase"]));
    at("system-clear").addEventListener("click", () => editor.send(["clear"]));
  }

  show() {
    const { mirror } = this.editor;
    const lines = linesOf(mirror.phases.flatMap((phase, at) => [
      { sort: "phase", key: `phase ${at}`, text: `phase ${at + 1}` },
      ...phase.map((each, place) => ({ sort: "system", key: `${at} ${place}`, text: systemText(mirror, each) })),
    ]));
    this.list.show(lines);
    this.empty.hidden = lines.length > 0;
  }

  fill(element, { text }) {
    element.append(part("span", "text", text));
    element.title = text;
  }

  async add(event) {
    event.preventDefault();
    const typed = this.line.value.trim().replace(/^system +/, "");
    if (typed === "") return void showFault(this.line, "Write the system first, as a line has it.", this.line);
    const { request, fault } = systemTyped(this.editor.mirror, typed);
    if (fault === undefined) return void this.editor.sendTyped(this.line, [request]);
    showFault(this.line, fault, this.line);
    this.editor.say(`Not sent: ${fault}.`, "refused");
  }
}
