// The page's speech with the server: it joins as a session, sends lines, and hears events.

import { joined, postForText } from "./early.js";

const AGAIN_AFTER = 1000;
const FULL_AGAIN_AFTER = 2000;
// A browser keeps six connections to a server, and each tab that listens has one. So one that isn't looked at stops.
const STOP_HIDDEN_AFTER = 30000;

export class Wire {
  // `joined` gets the answer to a join, and `heard` each event, with the records that come along as texts; `lost` says
  // in words what is wrong, or null.
  constructor({ joined, heard, lost }) {
    Object.assign(this, { joined, heard, lost, session: null, after: 0, events: null, last: Promise.resolve() });
    this.seat = null;
    addEventListener("pagehide", () => this.leave());
    addEventListener("pageshow", (event) => event.persisted && this.join());
    document.addEventListener("visibilitychange", () => this.looked());
  }

  async post(path, body) {
    return JSON.parse(await postForText(path, body));
  }

  async join() {
    try {
      const [first, ...records] = (await joined()).split("\n");
      const answer = JSON.parse(first);
      if (answer.refused !== undefined) {
        this.lost(`${answer.refused}. Close one; this one tries again.`);
        return void setTimeout(() => this.join(), FULL_AGAIN_AFTER);
      }
      this.session = answer.session;
      this.seat = answer.seat;
      this.after = answer.scene.sequence;
      sessionStorage.setItem("session", answer.session);
      this.lost(null);
      this.joined(answer, records);
      this.listen();
    } catch (fault) {
      this.again(fault);
    }
  }

  again(fault) {
    this.lost(`The server doesn't answer (${fault.message}). Where it was ended, begin it again by ./scene edit.`);
    setTimeout(() => this.join(), AGAIN_AFTER);
  }

  listen() {
    this.events?.close();
    const events = new EventSource(`events?session=${this.session}&after=${this.after}`);
    this.events = events;
    events.addEventListener("open", () => this.lost(null));
    events.addEventListener("message", (message) => this.hear(Number(message.lastEventId), message.data));
    events.addEventListener("error", () => {
      if (this.events !== events) return;
      this.lost("The connection to the server is lost. Trying again.");
      if (events.readyState !== EventSource.CLOSED) return;
      this.events = null;
      setTimeout(() => this.join(), AGAIN_AFTER);
    });
  }

  // An event that can't be followed is a fault, after which all is asked for again.
  hear(id, data) {
    if (id <= this.after) return;
    this.after = id;
    try {
      const [first, ...records] = data.split("\n");
      this.heard(JSON.parse(first), records);
    } catch (fault) {
      setTimeout(() => this.join());
      throw fault;
    }
  }

  // The lines go as one, after those that were sent before are answered, but for lines that may go `beside` others.
  // `words` are those of the frame that they are, and `seen` has entities with a kind and the tick at which its cell
  // was seen to have changed: where one is newer, nothing is done.
  call(lines, { words, seen, beside = false } = {}) {
    const send = () => this.post("call", { session: this.session, lines, words, seen });
    const answer = beside ? send() : this.last.then(send);
    this.last = Promise.allSettled([this.last, answer]);
    return answer;
  }

  // So many frames from one on, of which 0 is the newest of the past; `again` where more has happened since.
  frames(first, count) {
    return this.post("frames", { after: this.after, first, count });
  }

  // Does something with the store as a file, or says why not as `refused`.
  file(what, name = "") {
    return this.post("file", { session: this.session, what, name });
  }

  // A page that goes may have lost its stream by then.
  leave() {
    this.events?.close();
    this.events = null;
    if (this.seat === null) return;
    navigator.sendBeacon("leave", JSON.stringify({ seat: this.seat }));
    this.seat = null;
  }

  looked() {
    clearTimeout(this.hiding);
    if (document.hidden) this.hiding = setTimeout(() => this.leave(), STOP_HIDDEN_AFTER);
    else if (this.events === null && this.session !== null) this.join();
  }
}
