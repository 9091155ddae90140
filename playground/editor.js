// A text area over a coloured copy of its text. Both are in one cell of a grid and wrap alike, so letter is on letter.
import { h } from "./dom.js";
import { inline } from "./prose.js";
import { bytes, declarations, tokens } from "./reading.js";

// A text with more letters has no colours and no numbers of lines: they would take seconds at each key.
const MOST_LETTERS = 20000;
// The most letters of the margin for inferred classes.
const MOST_GHOST = 24;

/** One text with its colours: `program` is a source text, else it is TOML. */
export class Editor {
  constructor(place, { id, label, isProgram, change }) {
    this.isProgram = isProgram;
    this.marks = new Map();
    this.inferred = new Map();
    this.numbers = new Map();
    this.lit = new Set();
    this.marked = [];
    this.pointed = () => {};
    this.area = h("textarea", { id, "aria-label": label, spellcheck: "false", autocomplete: "off",
      autocapitalize: "off", wrap: "soft", rows: "1" });
    this.copy = h("pre", { class: "copy", "aria-hidden": "true" });
    this.bubble = h("p", { class: "bubble", role: "tooltip", id: `${id}-bubble`, hidden: true });
    this.probe = h("span", { class: "copy probe", "aria-hidden": "true" }, "0".repeat(20));
    this.box = h("div", { class: "editor" }, this.copy, this.area, this.bubble, this.probe);
    place.append(this.box);
    this.given = "";
    this.area.addEventListener("input", () => {
      this.marks.clear();
      this.colour();
      change();
    });
    this.wire();
    this.colour();
  }

  /** Shows the bubble of a mark at the pointer or at the caret, and says which line is there. */
  wire() {
    this.box.addEventListener("pointermove", (event) => this.point(event.clientX, event.clientY));
    this.box.addEventListener("pointerleave", () => {
      this.hide();
      this.pointed(0);
    });
    this.area.addEventListener("keydown", (event) => event.key === "Escape" && this.hide());
    addEventListener("resize", () => this.inferred.size && this.colour());
    document.addEventListener("selectionchange", () => {
      if (document.activeElement === this.area) this.caret();
    });
  }

  /** The lines of the copy that a click or the caret can reach, and the marks in them. */
  point(x, y) {
    const holds = (box) => box.left <= x && x < box.right && box.top <= y && y < box.bottom;
    const marked = [...this.copy.querySelectorAll("[data-mark]")];
    this.say(marked.find((one) => [...one.getClientRects()].some(holds)));
    const lines = [...this.copy.children];
    this.pointed(1 + lines.findIndex((line) => {
      const box = line.getBoundingClientRect();
      return box.top <= y && y < box.bottom;
    }));
  }

  /** What is at the caret. */
  caret() {
    const at = this.area.selectionStart;
    const marked = [...this.copy.querySelectorAll("[data-mark]")];
    this.say(marked.find((one) => +one.dataset.start <= at && at <= +one.dataset.start + one.textContent.length));
    if (!this.isLarge) this.pointed(this.text.slice(0, at).split("\n").length);
  }

  /** Shows what is said about a marked piece of the text in a bubble below it. */
  say(piece) {
    const text = piece && this.marks.get(piece.dataset.mark)?.text;
    if (!text) {
      this.hide();
      return;
    }
    const box = this.box.getBoundingClientRect(), [first] = piece.getClientRects();
    this.bubble.replaceChildren(...inline(text, () => {}).flat(Infinity));
    this.bubble.hidden = false;
    const most = box.width - this.bubble.offsetWidth - 8;
    this.bubble.style.left = `${Math.max(4, Math.min(first.left - box.left, most))}px`;
    this.bubble.style.top = `${first.bottom - box.top + 4}px`;
    this.area.setAttribute("aria-describedby", this.bubble.id);
  }

  hide() {
    this.bubble.hidden = true;
    this.area.removeAttribute("aria-describedby");
  }

  /** Marks the line of each of two runs; 0 is none. */
  runs(numbers) {
    this.marked = numbers;
    [...this.copy.children].forEach((line, index) => line.setAttribute("data-runs", this.runsAt(index + 1)));
  }

  /** Which runs are at a line: 1, 2, both or none. */
  runsAt(number) {
    return this.marked.map((line, index) => (line === number ? index + 1 : 0)).filter(Boolean).join("+");
  }

  /** Lights some lines, by their numbers. */
  light(numbers) {
    this.lit = new Set(numbers);
    [...this.copy.children].forEach((line, index) => line.classList.toggle("lit", this.lit.has(index + 1)));
  }

  get text() {
    return this.area.value;
  }

  /** Whether the text is the one that was given last, and not one that was typed. */
  get isGiven() {
    return this.text === this.given;
  }

  set text(text) {
    this.area.value = text;
    this.given = this.text;
    this.marks.clear();
    this.inferred.clear();
    this.colour();
  }

  get isLarge() {
    return this.text.length > MOST_LETTERS;
  }

  set isFixed(isFixed) {
    this.area.readOnly = isFixed;
    this.box.classList.toggle("fixed", isFixed);
  }

  /** Marks places: a map from `LINE:COLUMN` to a class of the style sheet, with what the bubble says there. */
  mark(marks) {
    this.marks = marks;
    this.colour();
  }

  /** Shows inferred classes at the ends of lines: a map from `LINE:COLUMN` of a declaration to its class. */
  infer(inferred) {
    this.inferred = inferred;
    this.colour();
  }

  /** Gives the classes their colours: a map from a class to its number. */
  number(numbers) {
    this.numbers = numbers;
    this.colour();
  }

  /** Puts the caret at a line and a column of bytes, and the focus with it. */
  go(line, column) {
    const lines = this.text.split("\n");
    const before = lines.slice(0, line - 1).reduce((sum, text) => sum + text.length + 1, 0);
    const text = lines[line - 1] ?? "";
    let letters = 0;
    while (letters < text.length && bytes(text.slice(0, letters)) < column - 1) letters += 1;
    const word = /^\w+/.exec(text.slice(letters));
    this.area.focus();
    this.area.setSelectionRange(before + letters, before + letters + (word ? word[0].length : 1));
    this.box.scrollIntoView({ block: "nearest" });
  }

  /** The class of each name, where all declarations of the name have one. */
  classes(list) {
    const found = new Map();
    for (const { name, class: declared, place } of declarations(list)) {
      const kind = declared ?? this.inferred.get(`${place.line}:${place.column}`) ?? "";
      found.set(name, found.has(name) && found.get(name) !== kind ? "" : kind);
    }
    return found;
  }

  /** Writes the coloured copy, unless the text is large. */
  colour() {
    this.box.classList.toggle("large", this.isLarge);
    this.hide();
    if (this.isLarge) {
      this.copy.replaceChildren();
      return;
    }
    const list = this.isProgram ? tokens(this.text) : [];
    const classes = this.classes(list);
    const lines = this.isProgram ? this.programLines(list, classes) : this.plainLines();
    const faulty = new Set([...this.marks].filter(([, { kind }]) => kind !== "warned").map(([at]) => parseInt(at, 10)));
    const kinds = (number) => (faulty.has(number) ? " faulty" : "") + (this.lit.has(number) ? " lit" : "");
    this.copy.replaceChildren(...lines.map((parts, index) => h("span", { class: `line${kinds(index + 1)}`,
      "data-runs": this.runsAt(index + 1) }, parts, "\n")));
  }

  plainLines() {
    return this.text.split("\n").map((line) => {
      const cut = /^([^#"]*(?:"[^"]*"[^#"]*)*)(#.*)?$/.exec(line);
      return cut ? [cut[1].split(/("[^"]*")/).map((part) => (part.startsWith('"')
        ? h("span", { class: `class k${(this.numbers.get(part.slice(1, -1)) ?? 7) % 8}` }, part) : part)),
      cut[2] ? h("span", { class: "comment" }, cut[2]) : ""] : [line];
    });
  }

  programLines(list, classes) {
    const lines = [[]], ghosts = [[]];
    for (const token of list) {
      const pieces = token.text.split("\n");
      pieces.forEach((piece, index) => {
        if (index > 0) {
          lines.push([]);
          ghosts.push([]);
        }
        if (piece) lines[lines.length - 1].push(this.piece(token, piece, classes));
      });
      const inferred = this.inferred.get(`${token.line}:${token.column}`);
      if (inferred && token.kind === "name") ghosts[ghosts.length - 1].push(`${token.text} : ${inferred}`);
    }
    const texts = ghosts.map((names) => names.join(", "));
    this.room(texts);
    const places = new Set(list.map(({ line, column }) => `${line}:${column}`));
    const ends = new Map([...this.marks].filter(([key]) => !places.has(key)).map(([key, { kind }]) =>
      [parseInt(key, 10), h("span", { class: `end ${kind}`, "data-mark": key, "data-start": "-1" })]));
    return lines.map((parts, index) => [...parts, ends.get(index + 1) ?? "",
      texts[index] ? h("span", { class: "ghost" }, texts[index]) : ""]);
  }

  /** Keeps a margin for the inferred classes, unless each has room after its line, so that none is on the text. */
  room(texts) {
    const lines = this.text.split("\n"), columns = texts.some(Boolean) ? this.columns : 0;
    const isFull = texts.some((text, index) => text && lines[index].length + text.length + 2 > columns);
    const longest = isFull ? Math.min(MOST_GHOST, Math.max(...texts.map((text) => text.length))) : 0;
    this.box.style.setProperty("--ghost", longest ? `${longest}ch` : "0px");
  }

  /** How many letters a line of the box holds, without a margin. */
  get columns() {
    this.box.style.setProperty("--ghost", "0px");
    const { paddingLeft, paddingRight } = getComputedStyle(this.area);
    const width = this.area.clientWidth - parseFloat(paddingLeft) - parseFloat(paddingRight);
    return Math.floor(width / (this.probe.getBoundingClientRect().width / this.probe.textContent.length));
  }

  piece(token, text, classes) {
    const key = `${token.line}:${token.column}`, mark = this.marks.get(key);
    if (token.kind === "blank" && !mark) return text;
    const kind = classes.get(token.text) || (this.numbers.has(token.text) ? token.text : "");
    const number = token.kind === "name" && this.numbers.has(kind) ? `k${this.numbers.get(kind) % 8}` : "";
    return h("span", { class: `${token.kind} ${number} ${mark?.kind ?? ""}`.trim(), "data-mark": mark ? key : null,
      "data-start": mark ? String(token.start) : null }, text);
  }
}
