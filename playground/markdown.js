// Shows the pages of the exercises. It knows the marks that these pages use, and makes elements of them, never markup.
import { h, table } from "./dom.js";

/** The parts of a line: code, strong and emphasised text, and links, of which only the text is shown. */
export function inline(text) {
  const parts = [];
  const pattern = /`([^`]+)`|\*\*([^*]+)\*\*|\*([^*]+)\*|\[([^\]]+)\]\([^)]*\)/g;
  let from = 0;
  for (const found of text.matchAll(pattern)) {
    parts.push(text.slice(from, found.index));
    from = found.index + found[0].length;
    if (found[1] !== undefined) parts.push(h("code", {}, found[1]));
    else if (found[2] !== undefined) parts.push(h("strong", {}, inline(found[2])));
    else if (found[3] !== undefined) parts.push(h("em", {}, inline(found[3])));
    else parts.push(inline(found[4]));
  }
  return [...parts, text.slice(from)];
}

const cells = (line) => line.replace(/^\||\|\s*$/g, "").split("|").map((cell) => inline(cell.trim()));

/** Reads the lines of a page from the top; each `take` method takes what begins at the present line. */
class Page {
  constructor(text, { command, level }) {
    this.lines = text.split("\n");
    this.now = 0;
    this.command = command;
    this.level = level;
  }

  get line() {
    return this.lines[this.now];
  }

  /** The elements up to the end, or up to a line that is `end`. */
  blocks(end = null) {
    const found = [];
    while (this.now < this.lines.length && this.line !== end) {
      if (!this.line.trim()) this.now += 1;
      else found.push(this.takeBlock());
    }
    return found;
  }

  takeBlock() {
    if (this.line.startsWith("```")) return this.takeFence();
    if (this.line.startsWith("|")) return this.takeTable();
    if (this.line.startsWith("<details>")) return this.takeDetails();
    if (/^#+ /.test(this.line)) return this.takeHeading();
    if (/^- /.test(this.line)) return this.takeList();
    return h("p", {}, inline(this.takeLines((line) => line.trim() && !/^(```|\||<|#+ |- )/.test(line)).join(" ")));
  }

  takeLines(fits) {
    const found = [this.line];
    this.now += 1;
    while (this.now < this.lines.length && fits(this.line)) {
      found.push(this.line);
      this.now += 1;
    }
    return found;
  }

  takeHeading() {
    const found = /^(#+) (.*)$/.exec(this.line);
    this.now += 1;
    return h(`h${Math.min(6, found[1].length + this.level)}`, {}, inline(found[2]));
  }

  takeList() {
    return h("ul", {}, this.takeLines((line) => /^- /.test(line)).map((line) => h("li", {}, inline(line.slice(2)))));
  }

  takeTable() {
    const rows = this.takeLines((line) => line.startsWith("|"));
    return table("Table", cells(rows[0]), rows.slice(2).map(cells));
  }

  takeFence() {
    const kind = this.line.slice(3).trim();
    const lines = this.takeLines((line) => !line.startsWith("```")).slice(1);
    this.now += 1;
    if (kind === "sh" && this.command) return h("ul", { class: "commands" }, lines.map((line) => this.command(line)));
    return h("pre", { tabindex: "0", "aria-label": kind === "console" ? "Commands and their output" : "Text" },
      lines.join("\n"));
  }

  takeDetails() {
    this.now += 1;
    const title = /<summary>(.*)<\/summary>/.exec(this.line ?? "");
    this.now += 1;
    const inside = this.blocks("</details>");
    this.now += 1;
    return h("details", {}, h("summary", {}, title ? title[1] : "More"), inside);
  }
}

/** The elements of a page; `command` makes the item of a line of shell. */
export const markdown = (text, options) => new Page(text, options).blocks();
