// Tables in which the words of stores are typed: one column for a run, two for two runs.
import { fill, h } from "./dom.js";
import { words } from "./reading.js";

const LEAST = -(2n ** 63n), MOST = 2n ** 63n - 1n;

/** Whether a field holds a word: a whole number of 64 bits. An empty field is 0. */
export function isWord(text) {
  if (text === "") return true;
  return /^[+-]?\d{1,30}$/.test(text) && LEAST <= BigInt(text) && BigInt(text) <= MOST;
}

/** A table of globals with inputs. Words are kept by name while the text changes. */
export class Stores {
  constructor(place, titles, changed = () => {}) {
    this.place = place;
    this.titles = titles;
    this.changed = changed;
    this.kept = titles.map(() => new Map());
    this.results = null;
    this.shown = "";
    this.note = h("p", { class: "no", role: "alert", hidden: true });
  }

  /** Shows the globals; `policy` gives the classes their colours and says which the observer sees. */
  show(globals, policy) {
    this.globals = globals;
    const shown = JSON.stringify([globals, policy.observer, policy.lattice.classes]);
    if (shown !== this.shown) this.build(globals, policy);
    this.shown = shown;
    this.showResults();
    this.judge();
  }

  build(globals, policy) {
    const heads = ["Variable", ...this.titles, ...(this.hasEnd ? ["After the run"] : []),
      policy.observer ? `Seen by ${policy.observer}` : "Seen"];
    this.ends = new Map();
    this.inputs = [];
    fill(this.place, globals.length ? h("div", { class: "scroll" }, h("table", { class: "stores" },
      h("thead", {}, h("tr", {}, heads.map((head) => h("th", { scope: "col" }, head)))),
      h("tbody", {}, globals.map((global) => this.row(global, policy)))))
      : h("p", { class: "hint" }, "The program declares no variable."), this.note);
  }

  /** Only the table of one run has a column for its end. */
  get hasEnd() {
    return this.titles.length === 1;
  }

  row({ name, class: kind }, policy) {
    const isKnown = policy.number(kind) >= 0, isSeen = policy.seen.has(kind);
    const end = h("td", { class: "word" });
    this.ends.set(name, end);
    return h("tr", { class: isSeen ? "seen" : "unseen" },
      h("th", { scope: "row" }, name, " ", isKnown ? policy.chip(kind) : kind),
      this.titles.map((title, index) => h("td", {}, this.input(name, title, index))),
      this.hasEnd ? end : null,
      h("td", {}, !policy.observer ? "" : isSeen ? "yes" : isKnown ? "no" : "no such class"));
  }

  input(name, title, index) {
    const input = h("input", { inputmode: "numeric", size: "8", maxlength: "30",
      value: this.kept[index].get(name) ?? "0", name: `${name}-${index}`,
      "aria-label": `${name}, ${title.toLowerCase()}`, on: { input: (event) => {
        this.kept[index].set(name, event.target.value.trim());
        this.judge();
        this.changed();
      } } });
    this.inputs.push({ name, index, input });
    return input;
  }

  showResults() {
    for (const [name, end] of this.ends ?? []) fill(end, this.results?.get(name) ?? "");
  }

  /** The fields that hold no word, as sentences. */
  get faults() {
    return (this.globals ?? []).flatMap(({ name }) => this.kept.map((words_, index) => [name, words_.get(name) ?? "",
      this.titles.length > 1 ? `, ${this.titles[index].toLowerCase()}` : ""])).filter(([, text]) => !isWord(text))
      .map(([name, text, which]) =>
        `The field of ${name}${which} needs a whole number of 64 bits; “${text}” is none.`);
  }

  /** Says which fields hold no word. */
  judge() {
    for (const { name, index, input } of this.inputs ?? []) {
      input.setAttribute("aria-invalid", String(!isWord(this.kept[index].get(name) ?? "")));
    }
    const text = this.faults.join(" ");
    this.note.hidden = !text;
    if (this.note.textContent !== text) this.note.textContent = text;
  }

  /** The store of a column as a store file. */
  text(index) {
    return (this.globals ?? []).map(({ name }) => [name, this.kept[index].get(name) ?? ""])
      .filter(([, text]) => text !== "" && isWord(text)).map(([name, text]) => `${name} = ${BigInt(text)}\n`).join("");
  }

  /** Takes the words of a store file or of a store text into a column. */
  take(index, text) {
    this.kept[index] = words(text);
    this.shown = "";
  }

  /** Forgets all words. */
  clear() {
    this.kept = this.titles.map(() => new Map());
    this.results = null;
    this.shown = "";
  }
}
