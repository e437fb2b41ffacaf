// The editor: what the page knows, what it sends, and when its parts are drawn anew.

import { Changes } from "./changes.js";
import { Chosen } from "./chosen.js";
import { Console } from "./console.js";
import { Copies } from "./copies.js";
import { Detail } from "./detail.js";
import { showFault, wasSent } from "./field_faults.js";
import { Files } from "./files.js";
import { Forest } from "./forest.js";
import { listenToKeys } from "./keys.js";
import { newFolds } from "./lines.js";
import { menuItems } from "./menu_items.js";
import { openMenu } from "./menu.js";
import { Mirror } from "./mirror.js";
import { called, withNames } from "./names.js";
import { Panes } from "./panes.js";
import { Picture } from "./picture.js";
import { Play } from "./play.js";
import { marksOf } from "./records.js";
import { refusalText } from "./refusals.js";
import { lineOf } from "./requests.js";
import { Resources } from "./resources.js";
import { Search } from "./search.js";
import { capital, counted, eventText } from "./sentences.js";
import { Setup } from "./setup.js";
import { Sights } from "./sights.js";
import { Strip } from "./strip.js";
import { Systems } from "./systems.js";
import { Tables } from "./tables.js";
import { Undoing } from "./undoing.js";
import { Wire } from "./wire.js";

const OPEN_UP_TO = 200;
// A page that isn't seen gets no frames of animation, and yet is kept up.
const HIDDEN_DRAW_AFTER = 100;

class Editor {
  constructor() {
    const at = (id) => document.getElementById(id);
    Object.assign(this, { mirror: new Mirror(), touched: new Set(), awaited: null, refusal: null, at });
    Object.assign(this, { found: at("found"), status: at("status"), banner: at("shell"), marks: marksOf(undefined) });
    const changed = (entity, list) => this.chosenChanged(entity, list);
    this.chosen = new Chosen(changed, (entity) => this.mirror.isLive(entity));
    this.wire = new Wire({
      joined: (answer, records) => this.joined(answer, records), lost: (words) => this.lost(words),
      heard: (event, records) => this.heard(event, records),
    });
    this.makeParts();
    at("help-open").addEventListener("click", () => at("help").showModal());
    listenToKeys(this);
    this.wire.join();
  }

  makeParts() {
    this.panes = new Panes();
    this.searching = new Search(this);
    this.sights = new Sights(this);
    this.forest = new Forest(this);
    this.tables = new Tables(this);
    this.resources = new Resources(this);
    this.strip = new Strip(this);
    this.undoing = new Undoing(this);
    this.detail = new Detail(this);
    this.systems = new Systems(this);
    this.play = new Play(this);
    this.picture = new Picture(this);
    this.setup = new Setup(this);
    this.console = new Console(this);
    this.changes = new Changes(this);
    this.copies = new Copies(this);
    this.files = new Files(this);
  }

  // The entities that the search finds, or null without one.
  get matched() {
    return this.searching.matched;
  }

  say(words, sort = "done") {
    this.status.textContent = words;
    this.status.className = sort;
  }

  // What the server says

  joined({ session, scene }, records) {
    this.take(scene, records);
    this.at("session").textContent = `You are session ${session}`;
    const { mirror } = this;
    const live = counted(mirror.state.rows.size, "entity", "entities");
    const words = `The scene has ${live}, at tick ${mirror.state.tick}.`;
    this.say(mirror.isSetup ? "A new scene: choose its kinds first." : words);
  }

  take(scene, records) {
    this.touch(this.mirror.take(scene, records));
    this.strip.forget();
    this.searching.begin();
    this.at("store").textContent = this.mirror.store;
    document.title = `${this.mirror.store} – Scene editor`;
    if (this.isTaken) return;
    this.isTaken = true;
    if (this.mirror.state.rows.size > OPEN_UP_TO) this.tables.folds = newFolds(false);
    else this.forest.folds = newFolds(true);
  }

  heard(event, records) {
    const { mirror } = this;
    if (event.sort === "whole") return this.heardWhole(event, records);
    const lost = event.sort === "frame" ? mirror.records.length - mirror.position + mirror.later : 0;
    const number = mirror.numberOf(mirror.position + (event.sort === "undo" ? 0 : 1));
    const touched = mirror.apply(event, records[0]);
    this.touch(touched);
    if (mirror.written !== null) {
      this.searching.follow(mirror.written);
      this.picture.follow(mirror.written, touched.has("forest"));
    }
    const isMine = event.session === this.wire.session;
    const text = eventText(event, isMine, { number, lost });
    const words = text === null ? null : withNames(mirror, text);
    if (words !== null && !(isMine && this.play.isPlaying)) this.say(words, isMine ? "done" : "other");
    if (event.sort === "shell") this.heardOfShell(event);
  }

  // That it was gone is told at once, however soon it is here again.
  heardOfShell({ state, words }) {
    this.shellWords = words;
    this.showBanner();
    if (state === "here") this.say(capital(words ?? "the shell is back"));
  }

  heardWhole(event, records) {
    const before = { store: this.mirror.store, total: this.play.total() };
    this.take(event.scene, records);
    this.play.wasRead(before);
    this.say(eventText(event, false, {}), "other");
  }

  lost(words) {
    this.lostWords = words;
    this.showBanner();
  }

  showBanner() {
    const isGone = this.mirror.shell === "gone";
    const words = this.lostWords ?? (isGone ? `The shell is gone: ${this.shellWords ?? "no reason is known"}` : "");
    this.banner.textContent = words;
    this.banner.hidden = words === "";
  }

  // What the page sends

  // Sends requests, or lines as a script has them, and gives their answers; the first that was refused is told.
  async ask(asked, more) {
    this.refusal = null;
    try {
      const lines = asked.map((each) => (typeof each === "string" ? each : lineOf(each)));
      const { answers, gone, stale } = await this.wire.call(lines, more);
      if (stale !== undefined) {
        const [entity, kind] = stale;
        const what = `${kind} of ${called(this.mirror, entity)}`;
        this.refusal = `Not done: another session changed ${what} meanwhile. Look at it, and write again.`;
        this.say(this.refusal, "refused");
        return [];
      }
      if (gone) {
        this.say("The shell ended while this was under way; what became of it is shown then.", "refused");
        return [];
      }
      const told = answers.map((answer) => refusalText(answer, this.mirror));
      const first = told.find((text) => text !== null);
      if (first !== undefined) this.say(first, "refused");
      this.refusal = first ?? null;
      return answers;
    } catch (fault) {
      this.say(`Not sent: the server doesn't answer (${fault.message}).`, "refused");
      return [];
    }
  }

  // Whether all was done. `words` are said then, where no event says more.
  async send(asked, words, more) {
    const answers = await this.ask(asked, more);
    const isDone = answers.length > 0 && answers.every(({ answer }) => !["refused", "fault", "bad"].includes(answer));
    if (isDone && words !== undefined) this.say(words);
    return isDone;
  }

  // Sends what stands in a field, as one frame; the field is empty from then on, but for a refusal: then it may be
  // mended there. Gives whether it was done.
  async sendTyped(field, commands, words) {
    const typed = field.value;
    field.value = "";
    wasSent(field);
    const isDone = await this.send(this.asFrame(commands), words);
    if (!isDone && field.value === "") field.value = typed;
    if (!isDone) showFault(field, this.refusal ?? "It wasn't done.");
    return isDone;
  }

  asFrame(commands) {
    return commands.length === 1 ? commands : ["begin", ...commands, "commit"];
  }

  sendFrame(commands, more) {
    return this.send(this.asFrame(commands), undefined, more);
  }

  // Sends commands as one frame with words of its own, and gives the entities that it spawned.
  async askFrame(commands, words) {
    return (await this.ask(["begin", ...commands, "commit"], { words })).at(-1)?.entities ?? [];
  }

  // Those that a key or a button is for: the chosen that live and that the search doesn't hide, or else the active line
  // of the list that has the focus.
  targets() {
    const live = [...this.chosen.entities].filter((entity) => this.mirror.isLive(entity));
    if (live.length > 0) return live.filter((entity) => this.isInSearch(entity));
    const { list } = [this.forest, this.tables].find(({ box }) => box === document.activeElement) ?? {};
    const entity = list?.lines.at(list.active)?.entity;
    return entity === undefined ? [] : [entity];
  }

  isInSearch(entity) {
    return this.shownInSearch === null || this.shownInSearch.has(entity);
  }

  // How many of the chosen the search hides.
  hiddenTargets() {
    return [...this.chosen.entities].filter((entity) => this.mirror.isLive(entity) && !this.isInSearch(entity)).length;
  }

  // Whether one of them is locked, which is told.
  isLocked(entities) {
    const locked = entities.some((entity) => this.sights.holds("locked", entity));
    if (locked) this.say("Not moved: it is locked; k in the forest frees it.", "refused");
    return locked;
  }

  openMenu(x, y) {
    openMenu(x, y, "what can be done with the chosen", menuItems(this));
  }

  // What is drawn

  choose(entity) {
    this.chosen.only(entity);
  }

  // In the list in which it was chosen it is in sight.
  chosenChanged(entity, list) {
    this.touch(["chosen"]);
    this.awaited = { entities: [entity], list };
  }

  // Chooses entities once the page has heard of them, but for a person who chose something else since they were asked
  // for, which was the choice of so many times.
  chooseWhenThere(entities, times) {
    if (this.chosen.times !== times) return;
    this.touch([]);
    this.awaited = { entities, isToChoose: true };
  }

  // What the lines that are drawn show beside themselves.
  view() {
    const { kinds, state } = this.mirror;
    return { kinds, state, marks: this.marks, isChosen: (entity) => this.chosen.has(entity) };
  }

  touch(names) {
    for (const name of names) this.touched.add(name);
    if (this.isDrawing) return;
    this.isDrawing = true;
    const draw = () => this.draw();
    if (document.hidden) setTimeout(draw, HIDDEN_DRAW_AFTER);
    else requestAnimationFrame(draw);
  }

  // Once in a frame of animation at most. A list is made anew only where lines came, went or moved; else those in sight
  // are drawn again.
  draw() {
    const { touched } = this;
    this.touched = new Set();
    this.isDrawing = false;
    const has = (...names) => names.some((name) => touched.has(name));
    if (has("frames", "all")) this.marks = this.marksNow();
    if (has("kinds", "all")) this.searching.showKinds();
    const isOther = this.searching.look();
    this.showFound();
    if (isOther || has("forest")) this.showForest();
    else if (has("frames", "chosen", "sights", "kinds")) this.forest.draw();
    if (isOther || has("tables")) this.tables.show();
    else if (has("frames", "chosen", "kinds")) this.tables.draw();
    if (has("frames", "all")) this.strip.show();
    if (has("frames", "all", "sessions")) this.undoing.show();
    if (has("frames", "all")) this.resources.show();
    if (has("frames", "kinds", "all", "chosen")) this.detail.show();
    if (has("values", "sights", "all", "chosen")) this.picture.showSoon();
    if (has("phases")) this.systems.show();
    if (has("all")) this.setup.show();
    if (has("sessions")) this.showSessions();
    const isThere = this.awaited?.entities.every((each) => this.mirror.isLive(each));
    if (isThere) this.reveal(this.awaited);
  }

  // The marks of the last frame. A very long record that is still to be read is shown a moment later.
  marksNow() {
    const { mirror } = this;
    const { position } = mirror;
    if (mirror.isToRead(position)) setTimeout(() => this.readRecord(position));
    return marksOf(mirror.recordAt(position));
  }

  readRecord(position) {
    this.mirror.records[position - 1]?.read();
    this.touch(["frames"]);
  }

  showForest() {
    this.forest.show();
    const { matched, mirror } = this;
    this.shownInSearch = this.forest.list.lines.shown;
    const isEmpty = this.forest.list.lines.length === 0;
    const words = mirror.isSetup ? "Choose the kinds above first." : "Nothing here yet: write cells below, and Spawn.";
    this.at("forest-empty").hidden = !isEmpty;
    const none = "Nothing is found. Escape in the search shows all.";
    this.at("forest-empty").textContent = matched === null ? words : none;
  }

  showFound() {
    const all = counted(this.mirror.state.rows.size, "entity", "entities");
    const words = this.matched === null ? all : `${this.matched.size} of ${all}`;
    if (this.found.textContent !== words) this.found.textContent = words;
  }

  showSessions() {
    const others = this.mirror.sessions.filter((session) => session !== this.wire.session && session !== 0);
    const are = `with session${others.length === 1 ? "" : "s"} ${others.join(", ")}`;
    this.at("others").textContent = others.length === 0 ? "alone here" : are;
    this.at("others").title = this.at("others").textContent;
    this.showBanner();
  }

  reveal({ entities, list, isToChoose }) {
    this.awaited = null;
    if (isToChoose) this.chosen.all(entities);
    const entity = entities.at(-1);
    if (isToChoose) this.awaited = null;
    for (const each of [this.forest, this.tables]) if (each.list !== list) each.reveal(entity);
  }
}

new Editor();
