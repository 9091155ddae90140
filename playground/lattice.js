// The lattice: ready ones, and its picture, in which the class of the observer is chosen.
import { ask, trouble } from "./api.js";
import { at, chip, fill, h } from "./dom.js";
import { lattice as readLattice } from "./reading.js";

export const READY = [
  ["Two classes", 'classes = ["L", "H"]\nbelow = [["L", "H"]]\n'],
  ["Diamond", 'classes = ["L", "A", "B", "H"]\nbelow = [["L", "A"], ["L", "B"], ["A", "H"], ["B", "H"]]\n'],
  ["Three levels", 'classes = ["Public", "Internal", "Secret"]\n'
    + 'below = [["Public", "Internal"], ["Internal", "Secret"]]\n'],
  ["Integrity", 'classes = ["Trusted", "Tainted"]\nbelow = [["Trusted", "Tainted"]]\n'],
];
const WIDTH = 72, HEIGHT = 50, BOX = 28, GAP = 16;

/** Where each class is in a picture: what may flow goes up. */
function places(lattice) {
  const levels = [];
  for (const name of lattice.classes) (levels[lattice.level.get(name)] ??= []).push(name);
  const boxWidth = Math.max(44, ...lattice.classes.map((name) => name.length * 8.6 + 18));
  const step = Math.max(WIDTH, boxWidth + GAP);
  const width = Math.max(...levels.map((level) => level.length)) * step, height = levels.length * HEIGHT;
  const place = new Map();
  levels.forEach((names, up) => names.forEach((name, index) => place.set(name, {
    x: width / 2 + (index - (names.length - 1) / 2) * step, y: height - (up + 0.5) * HEIGHT })));
  return { place, boxWidth, width, height };
}

/** The picture of a lattice, a group of radio buttons; the classes that the observer sees are filled. */
function picture(lattice, observer, choose) {
  const { place, boxWidth, width, height } = places(lattice);
  const sees = (name) => lattice.upwards.filter((one) => lattice.below.get(name).has(one)).join(", ");
  const seen = lattice.below.get(observer) ?? new Set();
  return h("svg", { viewBox: `0 0 ${width} ${height}`, width, height, role: "radiogroup", class: "lattice",
    "aria-label": "The class of the observer" },
  lattice.covers.map(([low, high]) => h("line", { class: "cover", x1: place.get(low).x, y1: place.get(low).y - BOX / 2,
    x2: place.get(high).x, y2: place.get(high).y + BOX / 2 })),
  lattice.upwards.map((name) => h("g", { role: "radio", "data-class": name, "aria-label": `${name}, sees ${sees(name)}`,
    "aria-checked": String(name === observer), tabindex: name === observer ? "0" : "-1",
    class: `k${lattice.classes.indexOf(name) % 8}${seen.has(name) ? " seen" : ""}`,
    on: { click: () => choose(name), keydown: (event) => move(event, lattice, name, choose) } },
  h("rect", { x: place.get(name).x - boxWidth / 2, y: place.get(name).y - BOX / 2, width: boxWidth, height: BOX,
    rx: 8 }),
  h("text", { x: place.get(name).x, y: place.get(name).y + 5 }, name))));
}

/** The arrows move up and down through all classes, the lowest first. */
function move(event, { upwards }, name, choose) {
  const change = { ArrowUp: 1, ArrowRight: 1, ArrowDown: -1, ArrowLeft: -1, " ": 0, Enter: 0 }[event.key];
  const to = event.key === "Home" ? 0 : event.key === "End" ? upwards.length - 1
    : change === undefined ? null : (upwards.indexOf(name) + change + upwards.length) % upwards.length;
  if (to === null) return;
  event.preventDefault();
  choose(upwards[to], true);
}

const NONE = { classes: [], covers: [], below: new Map(), level: new Map(), upwards: [] };

/** The lattice of the page and its observer. */
export class Policy {
  constructor(changed) {
    this.changed = changed;
    this.lattice = NONE;
    this.wanted = "";
    this.observer = "";
    this.isRefused = false;
    this.text = null;
  }

  /** The classes that the observer sees. */
  get seen() {
    return this.lattice.below.get(this.observer) ?? new Set();
  }

  number(name) {
    return this.lattice.classes.indexOf(name);
  }

  chip(name) {
    return chip(name, Math.max(0, this.number(name)));
  }

  /** Moves the observer to a class, now or when the lattice with it has been read. */
  look(name) {
    this.wanted = name;
    if (this.lattice.classes.includes(name)) this.observer = name;
    this.show();
  }

  /** Takes the class that the reader has chosen. */
  choose(name, hasKeys = false) {
    this.look(name);
    if (hasKeys) this.focus();
    this.changed();
  }

  focus() {
    at("lattice-picture").querySelector("[aria-checked=true]")?.focus();
  }

  /** Reads the lattice from its text; answers what the server said if it had no answer, else nothing. */
  async read(text, isWanted) {
    if (text === this.text) return null;
    const answer = await ask("lattice", { lattice: text }, isWanted);
    if (answer.status !== 0) {
      this.text = null;
      if (!trouble(answer)) this.forget();
      return trouble(answer) ? answer : null;
    }
    this.text = text;
    this.isRefused = false;
    this.lattice = readLattice(answer.output);
    this.observer = "";
    this.look(this.lattice.classes.includes(this.wanted) ? this.wanted : this.lattice.upwards[0]);
    this.changed();
    return null;
  }

  /** The lattice is refused, so it has no classes; the verdict says why. */
  forget() {
    this.lattice = NONE;
    this.observer = "";
    this.isRefused = true;
    this.show();
    this.changed();
  }

  show() {
    const seen = this.lattice.upwards.filter((name) => this.seen.has(name));
    fill(at("observed"), this.observer ? [this.chip(this.observer), " sees ",
      seen.map((name, index) => [index ? " " : "", this.chip(name)])]
      : this.isRefused ? "none: the lattice is refused" : "");
    fill(at("lattice-picture"), this.observer ? picture(this.lattice, this.observer, (...chosen) =>
      this.choose(...chosen)) : "");
  }
}
