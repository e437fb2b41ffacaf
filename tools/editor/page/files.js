// The store as a file: open, save as, backup, compact and export, by a menu. What the server does it does in the folder
// of the store.

import { ask } from "./ask.js";
import { openMenu } from "./menu.js";
import { counted } from "./sentences.js";

const GOOD = /^[\p{L}\p{N}_][\p{L}\p{N}_. -]*$/u;

function nameFault(name) {
  return GOOD.test(name) ? null : "A file's name has letters, digits, spaces, and . _ - alone.";
}

export class Files {
  constructor(editor) {
    this.editor = editor;
    this.press = document.getElementById("file-open");
    this.press.addEventListener("click", () => this.open());
  }

  open() {
    const { left, bottom } = this.press.getBoundingClientRect();
    openMenu(left, bottom + 2, "File", [
      { text: "New…", press: () => this.begin() }, { text: "Open…", press: () => this.choose() },
      { text: "Save as…", press: () => this.saveAs() }, { text: "Backup…", press: () => this.backup() },
      { text: "Compact", press: () => this.compact() }, null,
      { text: "Export the scene with its past", press: () => this.download("dumpall") },
      { text: "Export the world alone", press: () => this.download("dump") },
    ]);
  }

  stem() {
    return this.editor.mirror.store.replace(/\.[^.]*$/, "");
  }

  // Whether it was done. The server says why not.
  async do(what, name, words) {
    const { refused } = await this.editor.wire.file(what, name).catch((fault) => ({ refused: fault.message }));
    const isDone = refused === undefined;
    this.editor.say(isDone ? words : `Not done: ${refused}.`, isDone ? "done" : "refused");
    return isDone;
  }

  ask(title, yes, value) {
    const words = "It stands in the folder of this store, and takes no other file's place.";
    return ask({ title, yes, value, words, check: nameFault });
  }

  async begin() {
    const name = await this.ask("A new store", "Make it", "level.db");
    if (name !== null) await this.do("new", name, `This is ${name}, a new scene.`);
  }

  async choose() {
    const { stores } = await this.editor.wire.file("list");
    const others = stores.filter((name) => name !== this.editor.mirror.store);
    if (others.length === 0) return void this.editor.say("There is no other store in this folder.");
    const words = "All tabs of this editor go to it.";
    const name = await ask({ title: "Open a store of this folder", yes: "Open", list: others, words });
    if (name !== null) await this.do("open", name, `This is ${name}.`);
  }

  async saveAs() {
    const name = await this.ask("Save as", "Save", `${this.stem()}_2.db`);
    if (name !== null) await this.do("save", name, `Saved as ${name}, which is open now.`);
  }

  async backup() {
    const day = new Date().toISOString().slice(0, 10);
    const name = await this.ask("A backup of this store", "Back up", `${this.stem()}_${day}.db`);
    if (name !== null) await this.do("backup", name, `The backup ${name} has every change so far.`);
  }

  async compact() {
    const { older, records, later } = this.editor.mirror;
    const kept = counted(older + records.length + later, "frame");
    const words = `A scene text takes the place of the lines in it: world and ${kept} stay; the log begins anew.`;
    if ((await ask({ title: `Compact ${this.editor.mirror.store}?`, words, yes: "Compact" })) === null) return;
    await this.do("compact", "", "It is compacted.");
  }

  download(what) {
    const link = document.createElement("a");
    Object.assign(link, { href: `export?what=${what}`, download: "" });
    document.body.append(link);
    link.click();
    link.remove();
    this.editor.say("The scene text goes where the browser keeps downloads.");
  }
}
