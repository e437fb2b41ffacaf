// The panes: which are folded, how large they are, and in a narrow window which one is shown. A cookie remembers it,
// since a server's port changes from one time to the next.

import { part } from "./parts.js";

const COOKIE = "scene-panes";
const DAYS = 365;
const STEP = 16;
const LEAST = 80;
// Of each splitter the variable that it sets, the pane whose size that is, and the pane's side of it.
const SPLITS = {
  "split-left": { name: "--left", pane: "left", sign: 1 },
  "split-right": { name: "--right", pane: "right", sign: -1 },
  "split-bottom": { name: "--bottom", pane: "bottom", sign: -1 },
  "split-middle": { name: "--tables", pane: "pane-tables", sign: -1 },
};

export function remembered(key) {
  const kept = document.cookie.split("; ").find((each) => each.startsWith(`${COOKIE}=`));
  try {
    return JSON.parse(decodeURIComponent(kept.slice(COOKIE.length + 1)))[key];
  } catch {
    return undefined;
  }
}

export function remember(key, value) {
  const all = Object.fromEntries(["folded", "sizes", "mine"].map((each) => [each, remembered(each)]));
  const text = encodeURIComponent(JSON.stringify({ ...all, [key]: value }));
  document.cookie = `${COOKIE}=${text}; path=/; SameSite=Strict; max-age=${DAYS * 86400}`;
}

export class Panes {
  constructor() {
    this.panes = [...document.querySelectorAll(".pane")];
    this.tabs = document.getElementById("tabs");
    this.sizes = remembered("sizes") ?? {};
    for (const [name, size] of Object.entries(this.sizes)) this.size(name, size);
    const folded = remembered("folded") ?? [];
    for (const pane of this.panes) this.addFold(pane, folded.includes(pane.id));
    for (const [id, split] of Object.entries(SPLITS)) this.listenToSplit(document.getElementById(id), split);
    for (const pane of this.panes) this.addTab(pane);
    this.show(this.panes[0]);
  }

  // Folds

  addFold(pane, isFolded) {
    const turn = part("button", "turn", "");
    turn.type = "button";
    turn.addEventListener("click", () => this.fold(pane, !pane.classList.contains("folded")));
    pane.querySelector(".head").prepend(turn);
    this.showFold(pane, isFolded);
  }

  showFold(pane, isFolded) {
    const turn = pane.querySelector(".turn");
    pane.classList.toggle("folded", isFolded);
    turn.textContent = isFolded ? "▸" : "▾";
    turn.setAttribute("aria-expanded", !isFolded);
    turn.setAttribute("aria-label", `${pane.dataset.tab}: ${isFolded ? "unfold" : "fold"}`);
    const bottom = document.getElementById("bottom");
    bottom.classList.toggle("folded", bottom.querySelector(".pane:not(.folded)") === null);
  }

  fold(pane, isFolded) {
    this.showFold(pane, isFolded);
    remember("folded", this.panes.filter((each) => each.classList.contains("folded")).map((each) => each.id));
  }

  // Sizes

  size(name, size) {
    document.documentElement.style.setProperty(name, `${size}px`);
  }

  listenToSplit(splitter, { name, pane, sign }) {
    const isAcross = splitter.getAttribute("aria-orientation") === "vertical";
    const sizeNow = () => {
      const { width, height } = document.getElementById(pane).getBoundingClientRect();
      return Math.round(isAcross ? width : height);
    };
    const most = () => Math.round((isAcross ? innerWidth : innerHeight) * 0.6);
    const set = (size, isKept) => {
      const fits = Math.max(LEAST, Math.min(size, most()));
      this.size(name, fits);
      splitter.setAttribute("aria-valuenow", fits);
      this.sizes[name] = fits;
      if (isKept) remember("sizes", this.sizes);
    };
    splitter.addEventListener("focus", () => {
      const values = { now: sizeNow(), min: LEAST, max: most() };
      for (const [each, value] of Object.entries(values)) splitter.setAttribute(`aria-value${each}`, value);
    });
    splitter.addEventListener("keydown", (event) => {
      const step = { ArrowLeft: -1, ArrowUp: -1, ArrowRight: 1, ArrowDown: 1 }[event.key];
      if (step === undefined) return;
      event.preventDefault();
      set(sizeNow() + step * sign * STEP, true);
    });
    splitter.addEventListener("pointerdown", (event) => {
      const [from, first] = [isAcross ? event.clientX : event.clientY, sizeNow()];
      splitter.setPointerCapture(event.pointerId);
      const moved = (each) => set(first + sign * ((isAcross ? each.clientX : each.clientY) - from), false);
      const ended = () => {
        splitter.removeEventListener("pointermove", moved);
        remember("sizes", this.sizes);
      };
      splitter.addEventListener("pointermove", moved);
      splitter.addEventListener("pointerup", ended, { once: true });
      event.preventDefault();
      splitter.focus();
    });
  }

  // Tabs of a narrow window

  addTab(pane) {
    const tab = part("button", "small", pane.dataset.tab);
    Object.assign(tab, { type: "button", id: `tab-${pane.id}` });
    tab.setAttribute("role", "tab");
    tab.setAttribute("aria-controls", pane.id);
    tab.addEventListener("click", () => this.show(pane));
    tab.addEventListener("keydown", (event) => {
      const step = { ArrowLeft: -1, ArrowRight: 1 }[event.key];
      const next = this.panes.at((this.panes.indexOf(pane) + (step ?? 0)) % this.panes.length);
      if (step === undefined) return;
      this.show(next);
      document.getElementById(`tab-${next.id}`).focus();
      event.preventDefault();
    });
    this.tabs.append(tab);
  }

  show(pane) {
    for (const each of this.panes) {
      each.classList.toggle("shown", each === pane);
      const tab = document.getElementById(`tab-${each.id}`);
      tab.setAttribute("aria-selected", each === pane);
      tab.tabIndex = each === pane ? 0 : -1;
    }
  }

  // Brings the pane of an element into sight: unfolded, and in a narrow window as the one that is shown.
  bring(element) {
    const pane = element.closest(".pane");
    if (pane === null) return;
    if (pane.classList.contains("folded")) this.fold(pane, false);
    this.show(pane);
  }
}
