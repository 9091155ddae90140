// The verdict about the text, while it is typed: the program's answer with its explanation, places and quick fixes.
import { ask, trouble } from "./api.js";
import { at, button, fill, h } from "./dom.js";
import { elements, flows, headline, inline, paged, place, saidOf } from "./prose.js";
import { classLines, declarations, joined, steps, tokens, warnings } from "./reading.js";

// Milliseconds: after the last key, and until the verdict of the text before is taken away.
const PAUSE = 250, LATE = 2000;
// The most steps of a refusal and warnings that are listed, and letters of its explanation that are shown.
const MOST_STEPS = 100, MOST_WARNINGS = 20, MOST_LETTERS = 20000;
// The promise of each profile.
const PROMISES = {
  base: "If two runs halt, an observer who sees the same before sees the same after, whatever the secrets are. "
    + "Whether a run halts, and after how many instructions, may still depend on secrets.",
  strict: "If an observer sees the same before two runs, either both halt or neither does, and it sees the same "
    + "after them. How many instructions they take may still depend on secrets.",
  steady: "If an observer sees the same before two runs, both execute the same instructions, and it sees the same "
    + "after them, whatever the secrets are.",
};

/** The changes of the text that the program's own explanation offers, each with a label. */
export function fixes(text, explained) {
  const prose = joined(explained);
  const found = [];
  const raise = /declare `(\w+)` as (\w+)\b/i.exec(prose);
  const target = raise && declarations(tokens(text)).find((one) => one.name === raise[1] && one.classPlace);
  if (target && target.class !== raise[2]) {
    found.push({ label: `Declare ${raise[1]} as ${raise[2]}`,
      apply: () => replaced(text, target.classPlace, target.class, raise[2]) });
  }
  const add = /with `(var \w+ : \w+;)`/.exec(prose);
  if (add) found.push({ label: `Add ${add[1]}`, apply: () => `${add[1]}\n${text}` });
  return found;
}

/** A text with a word at a place replaced. */
function replaced(text, where, word, by) {
  const lines = text.split("\n");
  const line = lines[where.line - 1], start = where.column - 1;
  lines[where.line - 1] = line.slice(0, start) + by + line.slice(start + word.length);
  return lines.join("\n");
}

/** A refusal in words: which variable reaches which, or the first sentence of its explanation, or its name. */
export function titleOf(json, said, profile) {
  const pair = /^(\S+) : \w+ may not flow to (\S+) : \w+$/.exec(json.text.split("\n").pop());
  if (!pair) return headline(said) || json.name.replace(/([a-z])(?=[A-Z])/g, "$1 ").toLowerCase();
  if (pair[2] !== "(loop)") return `\`${pair[1]}\` reaches \`${pair[2]}\``;
  return `\`${pair[1]}\` decides ${profile === "steady" ? "which instructions run" : "whether a loop ends"}`;
}

/** Asks for the verdict when the typing pauses, one request at a time. */
export class Verdict {
  constructor(app) {
    this.app = app;
    this.timer = 0;
    this.isBusy = false;
    this.isStale = false;
    this.accepted = null;
    this.isRunnable = null;
    this.isOpen = matchMedia("(min-width: 62rem)").matches;
    this.go = (line, column) => this.app.program.go(line, column);
  }

  later() {
    clearTimeout(this.timer);
    this.timer = setTimeout(() => this.now(), PAUSE);
  }

  async now() {
    if (this.isBusy) {
      this.isStale = true;
      return;
    }
    this.isBusy = true;
    try {
      do {
        this.isStale = false;
        await this.judge();
      } while (this.isStale);
    } finally {
      this.isBusy = false;
    }
    this.app.live.now();
  }

  async judge() {
    const { text, lattice, profile } = this.app;
    const isWanted = () => text === this.app.text && lattice === this.app.lattice && profile === this.app.profile;
    this.app.showTabs();
    this.app.lesson.refresh();
    if (this.app.lesson.isHidden) {
      this.hide();
      await this.app.policy.read(lattice, isWanted);
      if (!isWanted()) this.isStale = true;
      return;
    }
    const late = setTimeout(() => this.show("doubt", "Reading", h("p", {}, "The server hasn't answered yet.")), LATE);
    const answer = await this.app.policy.read(lattice, isWanted)
      ?? await ask("check", { text, lattice, profile }, isWanted);
    clearTimeout(late);
    if (!isWanted()) {
      this.isStale = true;
      return;
    }
    const problem = trouble(answer);
    const json = problem ? null : readJson(answer.output);
    this.take(JSON.stringify([text, lattice]), json);
    if (problem) this.show("doubt", "No verdict", h("p", {}, problem), button("Ask again", () => this.now()));
    else if (!json) this.show("bad", "Refused", h("p", {}, answer.errors || answer.explained));
    else if (json.accepted) await this.accept({ text, lattice, profile }, warnings(answer.warnings ?? []), isWanted);
    else this.refuse(json, answer.explained, warnings(answer.warnings ?? []));
  }

  /** The verdict is about a text that isn't open any more, and so is all that follows it. */
  forget() {
    this.accepted = null;
    this.isRunnable = null;
    this.app.live.cancel();
  }

  /** Takes a verdict: what was said about the leak of another text goes. */
  take(key, json) {
    this.accepted = json ? json.accepted : null;
    this.isRunnable = json ? json.accepted || json.name === "Refused" : null;
    if (key !== this.key || !this.isRunnable) {
      this.app.panes.forgetBeside();
      this.app.judges.forget();
    }
    if (this.isRunnable && !this.app.program.isLarge) this.app.judges.types(json.accepted);
    this.key = key;
  }

  /** Shows nothing that depends on the verdict. */
  hide() {
    this.forget();
    this.app.panes.forgetBeside();
    this.app.judges.forget();
    this.app.program.infer(new Map());
    this.app.program.mark(new Map());
    this.app.latticeEditor.mark(new Map());
    this.show("doubt", "Accepted or refused?");
  }

  async accept(asked, warned, isWanted) {
    this.show("good", "Accepted", h("p", {}, `By the ${asked.profile} profile. ${PROMISES[asked.profile]}`),
      this.warnings(warned));
    this.app.program.mark(new Map(marksOf(warned)));
    this.app.latticeEditor.mark(new Map());
    const answer = this.app.program.isLarge ? null : await ask("classes", asked, isWanted);
    if (!answer || !isWanted() || answer.status !== 0) return;
    const declared = new Set(declarations(tokens(asked.text)).filter((one) => one.class)
      .map((one) => `${one.place.line}:${one.place.column}`));
    this.app.program.infer(new Map(classLines(answer.output).map((one) => [`${one.line}:${one.column}`, one.class])
      .filter(([at_]) => !declared.has(at_))));
  }

  refuse(json, explained, warned) {
    const walk = steps(json.text), isOfLattice = json.number <= 10, { profile } = this.app;
    const rest = explained.startsWith(json.text) ? explained.slice(json.text.length).replace(/^\n/, "") : explained;
    const told = flows(rest.length > MOST_LETTERS ? rest.slice(0, rest.lastIndexOf("\n", MOST_LETTERS)) : rest);
    const own = this.ownFlow(json, told.flows);
    this.app.program.infer(new Map());
    const placed = told.rest.find(({ kind, line }) => kind === "place" && line);
    const inLattice = isOfLattice ? placed : undefined, inText = isOfLattice ? undefined : json.line ? json : placed;
    const marks = walk.length ? this.marksOfWalk(walk, own) : inText ? this.marksOfFaults(inText, told.rest) : [];
    this.app.program.mark(new Map([...marksOf(warned), ...marks]));
    this.app.latticeEditor.mark(new Map(inLattice ? [[`${inLattice.line}:1`, { kind: "wrong", text: "" }]] : []));
    at("verdict-leak").className = walk.length && this.app.tasks.takesStores ? "waiting" : "";
    const title = titleOf(json, told.rest, profile);
    this.show("bad", [`Refused: `, inline(title, this.go)], this.number(json),
      walk.length ? this.walk(json, walk, own) : this.place(inText, inLattice),
      this.advice(own, told, walk.length > 0, this.fixes(explained)),
      this.further(told.flows.filter((flow) => flow !== own)), this.warnings(warned));
  }

  /** The flow of the explanation that is the one of the fixed lines. */
  ownFlow(json, told) {
    const pair = /^(\S+) : \w+ may not flow to (\S+) : \w+$/.exec(json.text.split("\n").pop());
    return pair ? told.find((flow) => flow.from === pair[1] && flow.to === pair[2]) : undefined;
  }

  /** The marks of faults, the first one with what is said about it. */
  marksOfFaults(first, rest) {
    const said = rest.filter(({ kind }) => kind === "text").map(({ text }) => paged(text)).join(" ");
    const also = rest.filter(({ kind }) => kind === "also").map(({ line, column, text }) =>
      [`${line}:${column}`, { kind: "wrong", text }]);
    return [...also, [`${first.line}:${first.column}`, { kind: "wrong", text: said }]];
  }

  /** The marks of a refused flow, with a sentence about each step. */
  marksOfWalk(walk, own) {
    return walk.slice(0, MOST_STEPS).flatMap((step, index) => [
      [`${step.written.line}:${step.written.column}`, { kind: "written", text: `Step ${index + 1}: \`${step.from}\` `
        + `flows ${step.to === "(loop)" ? "to the ending of the loop" : `to \`${step.to}\``} here, by ${step.rule}.` }],
      [`${step.read.line}:${step.read.column}`, { kind: "read", text: `Step ${index + 1}: `
        + (saidOf(own?.walk ?? [], step.read.line, step.read.column) || `\`${step.from}\` is read here.`) }]]);
  }

  /** The number of a refusal, with its page. */
  number(json) {
    const label = `Refusal ${json.number}, ${json.name}`;
    return h("p", { class: "refusal-page" }, at("docs").hidden
      ? button(label, () => this.app.explain(String(json.number)), { class: "place" })
      : h("a", { href: `docs/refusals/${json.number}.html` }, label));
  }

  /** The steps of a refused flow, each with links to its places and a sentence about it. */
  walk(json, walk, own) {
    const to = ({ line, column }) => place(line, column, this.go);
    const last = json.text.split("\n").pop();
    return [h("ol", { class: "walk" }, walk.slice(0, MOST_STEPS).map((step) => h("li", {}, h("b", {}, step.from),
      " at ", to(step.read), " flows to ", h("b", {}, step.to), " at ", to(step.written), " by ",
      h("code", {}, step.rule), ". ",
      inline(paged(saidOf(own?.walk ?? [], step.read.line, step.read.column)), this.go)))),
    walk.length > MOST_STEPS ? h("p", {}, `and ${walk.length - MOST_STEPS} steps more`) : null,
    h("p", { class: "end" }, last)];
  }

  /** The place of a fault, in the program or in the lattice, as a link. */
  place(inText, inLattice) {
    if (inLattice) {
      const go = (line, column) => this.app.latticeEditor.go(line, column);
      return h("p", {}, "At ", place(inLattice.line, inLattice.column, go), " of the lattice.");
    }
    return inText ? h("p", {}, "At ", place(inText.line, inText.column, this.go), ".") : null;
  }

  /** What would help, in the words of this page. For a flow it is folded on a small screen, and the remarks always. */
  advice(own, told, isFlow, changes) {
    const list = elements(own?.advice ?? [], this.go), rest = elements(told.rest, this.go);
    if (!isFlow) return [list, rest, changes];
    const fold = { toggle: (event) => {
      this.isOpen = event.target.open;
    } };
    return [list.length ? h("details", { open: this.isOpen, on: fold }, h("summary", {}, "What would fix it"), list)
      : null, changes, list.length && rest.length ? h("details", {}, h("summary", {}, "More about it"), rest) : rest];
  }

  /** The other refused flows of the text, folded. */
  further(list) {
    return list.length ? h("details", {}, h("summary", {}, list.length === 1 ? "Another refused flow"
      : `${list.length} further refused flows`), list.map((flow) => h("section", { class: "flow" },
      h("p", {}, inline(flow.lead, this.go)), this.stepsOf(flow)))) : null;
  }

  stepsOf({ walk }) {
    const places = walk.filter(({ kind, line }) => kind === "place" && line);
    const items = places.map((one) => ({ ...one, said: saidOf(walk, one.line, one.column) }));
    return h("ol", { class: "walk" }, items.filter(({ said }) => said).map(({ line, column, said }) =>
      h("li", {}, place(line, column, this.go), ": ", inline(paged(said), this.go))));
  }

  /** The warnings, each with its place. */
  warnings(list) {
    return list.length ? h("div", { class: "warnings" }, h("h3", {}, list.length === 1 ? "A warning"
      : `${list.length} warnings`), h("ul", {}, list.slice(0, MOST_WARNINGS).map(({ line, column, text }) =>
      h("li", {}, place(line, column, this.go), ": ", inline(text, this.go)))),
    list.length > MOST_WARNINGS ? h("p", {}, `and ${list.length - MOST_WARNINGS} more`) : null) : null;
  }

  /** The changes that are offered, as buttons. A change of another text than the present one would undo the typing. */
  fixes(explained) {
    const { text } = this.app;
    const found = fixes(text, explained);
    return found.length && !this.app.isFixed ? h("p", { class: "fixes" }, found.map((fix) => button(fix.label, () => {
      if (this.app.text === text) this.app.change(fix.apply());
    }))) : null;
  }

  show(mark, title, ...parts) {
    at("verdict").className = `verdict ${mark}`;
    const head = h("span", {}, title);
    if (at("verdict-title").textContent !== head.textContent) fill(at("verdict-title"), [...head.childNodes]);
    fill(at("verdict-body"), parts);
  }
}

/** The marks of warnings. */
const marksOf = (list) => list.map(({ line, column, text }) => [`${line}:${column}`, { kind: "warned", text }]);

function readJson(output) {
  try {
    return JSON.parse(output);
  } catch {
    return null;
  }
}
