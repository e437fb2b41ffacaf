// The box for lines, as a script has them, or requests, and their answers. From `begin` on they wait until `commit`,
// and go as one.

import { part } from "./parts.js";
import { wordOf } from "./requests.js";
import { answerText, counted } from "./sentences.js";

const MOST_ANSWERS = 500;

export class Console {
  constructor(editor) {
    Object.assign(this, { editor, said: [], place: 0, waiting: [] });
    const at = (id) => document.getElementById(id);
    Object.assign(this, { line: at("line"), answers: at("answers"), state: at("waiting") });
    this.line.addEventListener("keydown", (event) => this.pressed(event));
  }

  pressed(event) {
    const step = { ArrowUp: -1, ArrowDown: 1 }[event.key];
    if (event.key === "Enter") this.enter();
    else if (step !== undefined) this.recall(step);
    else if (event.key === "Escape") this.escape();
    else return;
    event.preventDefault();
  }

  recall(step) {
    this.place = Math.max(0, Math.min(this.place + step, this.said.length));
    this.line.value = this.said[this.place] ?? "";
    this.line.setSelectionRange(this.line.value.length, this.line.value.length);
  }

  escape() {
    this.line.value = "";
    if (this.waiting.length === 0) return;
    this.add("note", `${counted(this.waiting.length, "line")} dropped`);
    this.waiting = [];
    this.showWaiting();
  }

  async enter() {
    const typed = this.line.value.trim();
    this.line.value = "";
    if (typed === "") return;
    if (this.said.at(-1) !== typed) this.said.push(typed);
    this.place = this.said.length;
    this.add("asked", typed);
    const word = wordOf(typed);
    if (this.waiting.length === 0 && word !== "begin") return this.send([typed]);
    this.waiting.push(typed);
    const lines = this.waiting;
    if (word === "commit") this.waiting = [];
    this.showWaiting();
    if (word === "commit") await this.send(lines);
  }

  async send(lines) {
    const { editor } = this;
    const answers = await editor.ask(lines);
    for (const answer of answers) {
      const text = answerText(answer, (name) => editor.mirror.shapeOf(name));
      const isBad = ["refused", "fault", "bad"].includes(answer.answer);
      if (text !== "") this.add(isBad ? "refused" : "answer", text);
    }
  }

  showWaiting() {
    const { length } = this.waiting;
    const words = `${counted(length, "line")} wait${length === 1 ? "s" : ""} for commit; Escape drops them`;
    this.state.textContent = length > 0 ? words : "";
  }

  add(sort, text) {
    this.answers.append(part("div", `said ${sort}`, text));
    while (this.answers.children.length > MOST_ANSWERS) this.answers.firstChild.remove();
    this.answers.scrollTop = this.answers.scrollHeight;
  }
}
