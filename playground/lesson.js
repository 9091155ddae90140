// The lesson mode: a verdict stays hidden until Show, so that a room can vote before. The server counts the votes.
import { ask } from "./api.js";
import { at, button, fill, h } from "./dom.js";
import { keep, kept } from "./keeping.js";

const CHOICES = [["accepted", "Accepted"], ["refused", "Refused"], ["unsure", "Don't know"]];
// Milliseconds between two looks at the votes of the others.
const EVERY = 3000;

/** A name for this browser, so that a second vote of a voter replaces the first. */
function voter() {
  const name = kept("voter", null) ?? Array.from(crypto.getRandomValues(new Uint8Array(8)), (byte) =>
    byte.toString(16).padStart(2, "0")).join("");
  keep("voter", name);
  return name;
}

/** A text without its lines of comment, which may give the answer away; all other lines keep their places. */
export const uncommented = (text) => text.replace(/^[ \t]*#.*$/gm, "");

/** Says what is hidden, and what the room has voted. */
export class Lesson {
  /** `isServed` says whether the server holds a lesson. */
  constructor(app, isServed) {
    this.app = app;
    this.isServed = isServed;
    this.shown = new Set();
    this.cast = new Map();
    this.voter = voter();
    const box = at("lesson");
    box.checked = kept("lesson", null, true) ?? isServed;
    box.addEventListener("change", () => {
      keep("lesson", box.checked, true);
      app.listItems();
      app.remember();
      app.openItem(app.item);
    });
    at("vote-buttons").append(...(isServed ? CHOICES.map(([vote, label]) => button(label, () => this.vote(vote),
      { "data-vote": vote })) : []), button("Show", () => this.show(), { class: "main", id: "show-verdict" }),
      h("small", {}, "Show also opens the panes that depend on the verdict."));
    setInterval(() => this.count(), EVERY);
  }

  get isOn() {
    return at("lesson").checked;
  }

  /** What is voted on. */
  get subject() {
    const { text, lattice, profile } = this.app;
    return { text, lattice, profile };
  }

  get key() {
    return JSON.stringify(this.subject);
  }

  /** Whether a program is open about which a room votes. A task is done alone. */
  get isVoting() {
    return this.isOn && !this.app.tasks.open;
  }

  /** Whether the verdict about the present program is hidden. */
  get isHidden() {
    return this.isVoting && !this.shown.has(this.key);
  }

  show() {
    this.shown.add(this.key);
    this.app.verdict.now();
  }

  /** Shows the buttons of the vote, or takes them away, with the votes that are known. */
  refresh() {
    at("vote").hidden = !this.isVoting;
    at("vote-buttons").hidden = !this.isHidden;
    for (const one of at("vote-buttons").querySelectorAll("[data-vote]")) {
      one.setAttribute("aria-pressed", String(this.cast.get(this.key) === one.dataset.vote));
    }
    fill(at("votes"));
    this.count();
  }

  async vote(choice) {
    this.cast.set(this.key, choice);
    await this.count({ voter: this.voter, vote: choice });
    this.refresh();
  }

  /** Asks for the votes: how many there are while the verdict is hidden, and of which kind once it is shown. */
  async count(more = {}) {
    if (!this.isServed || at("vote").hidden || document.hidden) return;
    const { key } = this;
    const votes = await ask("votes", { ...this.subject, ...more }, () => key === this.key);
    if (key !== this.key || votes.status !== 0) return;
    const all = CHOICES.reduce((sum, [name]) => sum + votes[name], 0);
    const kinds = CHOICES.map(([name, label]) => `${label.toLowerCase()} ${votes[name]}`).join(", ");
    const line = this.isHidden ? `${all} ${all === 1 ? "vote" : "votes"} so far.` : all ? `The room: ${kinds}.` : "";
    if (at("votes").textContent !== line) fill(at("votes"), line);
  }
}
