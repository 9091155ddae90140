// Two runs by the lines of the program: a slider for the step, where the runs part and meet, what each class sees.
import { ask } from "./api.js";
import { at, button, fill, h, slide, table } from "./dom.js";
import { complaint } from "./panes.js";
import { declarations, inStep, tokens, words } from "./reading.js";

const MOST_STEPS = 2000;
const SAID = { same: "Both runs do the same.", differs: "Both are at one command, with different words.",
  apart: "The runs are apart." };

/** The steps at which the runs part, each with the one at which they meet again, if they do. */
export function partings(pairs) {
  const found = [];
  pairs.forEach(({ kind }, index) => {
    const isApart = kind === "apart", wasApart = pairs[index - 1]?.kind === "apart";
    if (isApart && !wasApart) found.push({ part: index, meet: null });
    if (!isApart && wasApart) found[found.length - 1].meet = index;
  });
  return found;
}

/** The words of both runs after the first steps, from their stores: a map for each. */
export function wordsAfter(pairs, stores) {
  const now = stores.map((store) => new Map(store));
  for (const { first, second } of pairs) {
    [first, second].forEach((step, index) => step?.name && now[index].set(step.name, step.word));
  }
  return now;
}

/** The variables that a table can show: a name that is declared twice has more than one word. */
function variables(text) {
  const all = declarations(tokens(text)), names = all.map(({ name }) => name);
  return all.filter(({ name }) => names.indexOf(name) === names.lastIndexOf(name));
}

/** Two runs in step. */
export class Together {
  constructor(app) {
    this.app = app;
    this.pairs = [];
    slide(at("pair-step"), () => this.show(), { Next: "pair-next" });
  }

  /** Asks for the steps of both runs, and shows the one at which they part first. */
  async ask(asked) {
    this.forget();
    const answer = await ask("together", { ...asked, budget: Math.min(MOST_STEPS, asked.budget) });
    if (asked.text !== this.app.text) return;
    const { pairs, seen } = answer.output ? inStep(answer.output) : { pairs: [], seen: [] };
    at("pair-steps").hidden = false;
    at("pair-row").hidden = !pairs.length;
    if (!pairs.length) {
      fill(at("pair-now"), answer.status === 3 ? "A run takes more than "
        + `${Math.min(MOST_STEPS, asked.budget)} steps, so they aren't shown.` : complaint(answer));
      return;
    }
    const list = variables(asked.text);
    this.stores = [asked.store, asked.other].map((store) => new Map([...list.filter(({ isGlobal }) => isGlobal)
      .map(({ name }) => [name, "0"]), ...words(store)]));
    Object.assign(this, { pairs, variables: list });
    at("pair-step").max = String(pairs.length - 1);
    this.say(partings(pairs), seen);
    this.go(Math.max(0, pairs.findIndex(({ kind }) => kind !== "same")));
  }

  /** Where the runs part and meet, and what each class sees. */
  say(parted, seen) {
    const to = (index) => button(`step ${index + 1}`, () => this.go(index), { class: "place" });
    const index = ({ line, column }) => this.pairs.findIndex(({ first, second, kind }) => kind !== "same"
      && [first, second].some((step) => step?.line === line && step.column === column));
    fill(at("pair-seen"), h("p", {}, parted.length ? parted.map(({ part, meet }) => ["The runs part at ", to(part),
      ...(meet === null ? [" and don't meet again. "] : [" and meet again at ", to(meet), ". "])])
      : "The runs go through the same commands."),
    h("ul", {}, seen.map((one) => h("li", {}, this.app.policy.chip(one.class), one.place
      ? [" sees a difference, first at ", to(index(one.place))] : " sees no difference"))));
  }

  go(step) {
    at("pair-step").value = String(step);
    this.show();
  }

  show() {
    const now = Number(at("pair-step").value), pair = this.pairs[now];
    if (!pair) return;
    const sides = [pair.first, pair.second], before = this.pairs[now - 1]?.kind, is = pair.kind;
    const said = is === "apart" && before !== "apart" ? "Here the runs part."
      : is !== "apart" && before === "apart" ? `Here the runs meet again. ${SAID[is]}` : SAID[is];
    const text = `Step ${now + 1} of ${this.pairs.length}. ${said}`;
    at("pair-step").setAttribute("aria-valuetext", text);
    at("pair-now").textContent = text;
    const go = ({ line, column }) => this.app.program.go(line, column);
    const cells = (of) => [...sides.map((step) => (step ? of(step) : "")), ""];
    fill(at("pair-table"), table("The step", ["", "First run", "Second run", ""], [
      ["Line", ...cells((step) => button(`line ${step.line}`, () => go(step), { class: "place" }))],
      ["Command", ...cells((step) => h("code", {}, step.text))],
      ["Value", ...cells((step) => this.coloured(step, `${step.name ? `${step.name} =` : "is"} ${step.word}`))],
      ...this.rows(sides, wordsAfter(this.pairs.slice(0, now + 1), this.stores))]));
    this.mark(sides);
  }

  /** A row for each variable with its words in both runs. */
  rows(sides, now) {
    return this.variables.map(({ name, isGlobal }) => {
      const [first, second] = now.map((one) => one.get(name) ?? ""), differs = first !== second;
      const [one, other] = [first, second].map((word, index) =>
        this.coloured(sides[index]?.name === name && sides[index], word));
      return Object.assign([`${name}${isGlobal ? "" : " (local)"}`, one, other,
        differs ? ["✱", h("span", { class: "worded" }, " differs")] : ""], { mark: differs ? "differs" : "" });
    });
  }

  /** A word in the colour of its class, if the step has changed it. */
  coloured(step, word) {
    const number = step?.name ? Math.max(0, this.app.policy.number(step.class)) % 8 : null;
    return number === null ? word : h("b", { class: `changed k${number}` }, word);
  }

  /** Marks the line of each run in the program, and in the copy beside the slider. */
  mark(sides) {
    const { program } = this.app;
    program.runs(at("leak").hidden ? [] : sides.map((step) => step?.line ?? 0));
    const copy = program.copy.cloneNode(true), box = at("pair-lines");
    copy.removeAttribute("aria-hidden");
    fill(box, copy);
    const line = copy.querySelector("[data-runs]:not([data-runs=''])");
    if (line) box.scrollTop = line.offsetTop - box.clientHeight / 2;
  }

  /** Takes the marks away, or puts them back when the pane is opened again. */
  look(isOpen) {
    if (isOpen) this.show();
    else this.mark([]);
  }

  /** The steps are those of another program. */
  forget() {
    this.pairs = [];
    at("pair-steps").hidden = true;
    fill(at("pair-seen"));
    fill(at("pair-table"));
    this.mark([]);
  }
}
