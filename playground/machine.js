// The machine, step by step: the instructions, the stack and the slots. Also the image: its audit and its program.
// A line of the program and its instructions light each other.
import { ask, trouble } from "./api.js";
import { lines } from "./coding.js";
import { at, button, fill, h, slide, table } from "./dom.js";
import { complaint } from "./panes.js";
import { listing, trace, words } from "./reading.js";

const MOST_STEPS = 2000;

/** The slots before each step: a STORE puts the top of the stack into its slot. */
export function slots(list, store, steps) {
  const now = Array.from({ length: list.slots }, (_, slot) => store.get(list.globals[slot]) ?? "0");
  return steps.map((step) => {
    const before = [...now];
    if (step.name === "STORE") now[Number(step.operand)] = step.stack[step.stack.length - 1];
    return before;
  });
}

/** The pane of the machine. */
export class Machine {
  constructor(app) {
    this.app = app;
    this.steps = [];
    this.lines = [];
    // Whether an answer about the image is in place of the steps.
    this.isOfImage = false;
    at("machine-form").append(button("Trace the run", () => this.trace(), { class: "main", id: "machine-button" }),
      button("Audit the image", () => this.image("audit")), button("Program of the image", () => this.image("source")));
    slide(at("step"), () => this.show(), { Next: "next-step" });
    app.program.pointed = (line) => this.light(line, true);
    at("listing").addEventListener("pointerover", (event) => this.light(this.lineOf(event.target)));
    at("listing").addEventListener("pointerleave", () => this.light(0));
    at("listing").addEventListener("focusin", (event) => this.light(this.lineOf(event.target)));
    at("listing").addEventListener("focusout", () => this.light(0));
    at("listing").addEventListener("keydown", (event) => this.walk(event));
  }

  async trace(signal) {
    const { panes, text } = this.app;
    if ((signal && this.isOfImage) || !panes.isReady(panes.store)) return;
    this.isOfImage = false;
    this.app.live.show();
    const body = panes.body, store = panes.store.text(0), budget = Math.min(MOST_STEPS, panes.budget);
    const listed = await panes.ask("list", "list", body, signal);
    if (this.isOfImage) return;
    if (listed) this.take(listed, text);
    const traced = await panes.ask("trace", "trace", { ...body, store, budget }, signal);
    if (!traced || !this.list || this.isOfImage) return;
    this.steps = trace(traced.output ?? "").steps;
    at("steps").hidden = this.steps.length === 0;
    if (!this.steps.length) {
      fill(at("machine-result"), complaint(traced, () => this.trace()));
      return;
    }
    this.slots = slots(this.list, words(store), this.steps);
    this.isOut = traced.status === 3;
    at("step").max = String(this.steps.length - 1);
    at("step").value = "0";
    fill(at("machine-result"), traced.status === 0 || this.isOut ? null : complaint(traced));
    this.show();
  }

  /** Takes the listing of a text, with the line of each instruction. */
  take(listed, text) {
    this.app.panes.done.trace = "";
    if (listed.status !== 0) {
      this.forget();
      at("steps").hidden = true;
      fill(at("machine-result"), complaint(listed, () => this.trace()));
      return;
    }
    this.list = listing(listed.output);
    this.lines = lines(text, this.list.instructions);
    const isLined = this.lines.length > 0;
    fill(at("listing"), this.list.instructions.map((instruction, index) => h("li", { value: String(index),
      tabindex: index === 0 ? "0" : "-1", "data-line": isLined ? this.lines[index] : null },
    h("span", {}, instruction), isLined && this.lines[index] ? h("small", {},
      h("span", { class: "worded" }, "line "), String(this.lines[index])) : null)));
  }

  /** The listing is that of another text. */
  forget() {
    this.list = null;
    this.lines = [];
    this.isOfImage = false;
    Object.assign(this.app.panes.done, { list: "", trace: "" });
    this.app.program.light([]);
  }

  show() {
    const now = Number(at("step").value), step = this.steps[now];
    if (!step) return;
    const isLast = now === this.steps.length - 1 && this.isOut, line = this.lines[step.at];
    at("step").setAttribute("aria-valuetext", `step ${now + 1}: ${step.name} ${step.operand}`);
    at("step-now").textContent = `Step ${now + 1} of ${this.steps.length}: ${step.name} ${step.operand}`.trim()
      + (line ? `, of line ${line}` : "") + (isLast ? ". Then the budget is spent." : "");
    fill(at("stack"), step.stack.length ? [...step.stack].reverse().map((word, index) =>
      h("li", { class: index === 0 ? "top" : null }, word)) : h("li", { class: "hint" }, "empty"));
    fill(at("slots"), table("The slots", ["Slot", "Word"], this.slots[now].map((word, slot) =>
      Object.assign([`${slot} ${this.list.globals[slot] ?? "(local)"}`, word],
        { mark: step.name === "STORE" && Number(step.operand) === slot ? "differs" : "" }))));
    [...at("listing").children].forEach((item, index) => {
      item.classList.toggle("now", index === step.at);
      if (index === step.at) item.setAttribute("aria-current", "step");
      else item.removeAttribute("aria-current");
    });
    this.scroll(at("listing").querySelector(".now"));
  }

  /** Keeps an instruction in sight within its own list. */
  scroll(item) {
    if (item) at("listing").scrollTop = item.offsetTop - at("listing").offsetTop - at("listing").clientHeight / 2;
  }

  /** The line of an item of the listing, or 0. */
  lineOf(element) {
    return Number(element.closest("li")?.dataset.line ?? 0);
  }

  /** Lights a line of the program and its instructions; 0 is none. */
  light(line, isFromText = false) {
    const isOpen = line > 0 && !at("machine").hidden && this.lines.includes(line);
    this.app.program.light(isOpen ? [line] : []);
    const items = [...at("listing").children];
    for (const item of items) item.classList.toggle("lit", isOpen && item.dataset.line === String(line));
    if (isOpen && isFromText) this.scroll(items.find((item) => item.dataset.line === String(line)));
  }

  /** The arrows move through the listing. */
  walk(event) {
    const items = [...at("listing").children], now = items.indexOf(event.target.closest("li"));
    const to = { ArrowDown: now + 1, ArrowUp: now - 1, Home: 0, End: items.length - 1 }[event.key];
    if (to === undefined || !items[to]) return;
    event.preventDefault();
    items[now].tabIndex = -1;
    items[to].tabIndex = 0;
    items[to].focus();
  }

  async image(request) {
    this.isOfImage = true;
    this.app.live.show();
    const { body } = this.app.panes;
    const answer = await ask(request, { ...body, ...(request === "audit" ? { profile: this.app.profile } : {}) });
    if (body.text !== this.app.text || !this.isOfImage) return;
    at("steps").hidden = true;
    this.app.panes.done.trace = "";
    const text = answer.status === 0 ? answer.output : (answer.errors ?? "").replace(/^More: .*$/m, "");
    fill(at("machine-result"), trouble(answer) ? complaint(answer) : h("pre", { tabindex: "0",
      "aria-label": "The answer" }, text.trimEnd()));
  }
}
